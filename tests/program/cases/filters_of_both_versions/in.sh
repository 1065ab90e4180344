# filters of as many bytes as a frame of each version holds, and of one more: lists of 255 texts of 255 bytes, and then of
# as many as there is room for
repeated() { awk -v count="$1" -v text="$2" 'BEGIN { for (n = 0; n < count; n++) printf "%s", text }'; }
text=$(repeated 255 e)
full=" ext=$(repeated 254 "$text,")$text"
# MARK LISTS TEXTS BYTES: the number of whole lists, of whole texts in one more, and of bytes in one text more
filter() { echo "$1""1 2 export 1 0 1 any$(repeated "$2" "$full") ext=$(repeated "$3" "$text,")$(repeated "$4" e)"; }
echo "1 1 create 65536 0"
filter '' 16 16 11
filter '' 16 16 12
filter 'v2 ' 16 16 12
filter 'v2 ' 64 63 171
filter 'v2 ' 64 63 172
filter '' 64 63 171
echo "v2 1 2 export 1 0 1 all$(repeated 255 ' type=File')"
echo "v2 1 2 export 1 0 1 all$(repeated 256 ' type=File')"
echo "v2 1 2 export 1 0 1 any ext=$(repeated 254 ,)"
echo "v2 1 2 export 1 0 1 any ext=$(repeated 255 ,)"
echo "v2 1 2 export 1 0 1 any puid=$(repeated 255 p),q"
echo "v2 1 2 export 1 0 1 any puid=$(repeated 256 p),q"
