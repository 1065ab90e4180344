bad() { yes 'bad line' | head -n "$1"; }
printf '%s\n' 'made 1' 'made 1'
bad 33
echo "node 1"
bad 1
echo "node 2"
bad 1
printf '%s\n' 'taken 1' 'refused 13' 'taken 2'
bad 1
echo "progress 2 2"
echo "finished none false $(printf JK | md5sum | cut -c1-32) -"
echo "node 3"
bad 1
echo "abandoned"
bad 1
# the names of the columns have 193 bytes, the folder's row 118, and the file's 142
printf 'part 8 453 1\n"part 8 453 1\n"part 8 335 1\n"'
bad 4
echo "made 2"
