# a piece of the largest size of version 2, of one byte more, and of as many as a frame holds, and one more; so of names
bytes() { yes 61 | head -n "$1" | tr -d '\n'; }
name() { yes n | head -n "$1" | tr -d '\n'; }
echo "v2 1 1 create 65536 0 sha256"
echo "v2 1 2 file 1 0 0 4194304 4194304 a"
echo "v2 1 3 piece 1 1 0 $(bytes 4194305)"
echo "v2 1 3 piece 1 1 0 $(bytes 4194356)"
echo "v2 1 3 piece 1 1 0 $(bytes 4194357)"
echo "1 3 piece 1 1 0 $(bytes 1048629)"
echo "1 3 piece 1 1 0 $(bytes 1048628)"
echo "v2 1 3 piece 1 1 0 $(bytes 4194304)"
echo "v2 1 4 finish 1 1"
echo "v2 1 5 folder 1 0 0 $(name 4194352)"
echo "v2 1 5 folder 1 0 0 $(name 4194353)"
echo "v2 1 5 file 1 0 0 0 1 $(name 4194340)"
echo "v2 1 5 file 1 0 0 0 1 $(name 4194341)"
