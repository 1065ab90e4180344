# a piece of the largest size, of one byte more, and of as many as a frame holds, and one more; so of names
bytes() { yes 61 | head -n "$1" | tr -d '\n'; }
name() { yes n | head -n "$1" | tr -d '\n'; }
echo "1 1 create 65536 0"
echo "1 2 file 1 0 0 1048576 1048576 a"
echo "1 3 piece 1 1 0 $(bytes 1048577)"
echo "1 3 piece 1 1 0 $(bytes 1048628)"
echo "1 3 piece 1 1 0 $(bytes 1048629)"
echo "1 3 piece 1 1 0 $(bytes 1048576)"
echo "1 4 finish 1 1"
echo "1 5 folder 1 0 0 $(name 1048624)"
echo "1 5 folder 1 0 0 $(name 1048625)"
echo "1 5 file 1 0 0 0 1 $(name 1048612)"
echo "1 5 file 1 0 0 0 1 $(name 1048613)"
