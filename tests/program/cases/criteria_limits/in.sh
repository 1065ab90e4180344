# 255 and 256 criteria; 255 and 256 texts in a list; texts of 255 and 256 bytes
repeated() { awk -v count="$1" -v text="$2" 'BEGIN { for (n = 0; n < count; n++) printf "%s", text }'; }
echo "1 1 create 65536 0"
echo "1 2 export 1 0 1 all$(repeated 255 ' type=File')"
echo "1 2 export 1 0 1 all$(repeated 256 ' type=File')"
echo "1 2 export 1 0 1 any ext=$(repeated 254 ,)"
echo "1 2 export 1 0 1 any ext=$(repeated 255 ,)"
echo "1 2 export 1 0 1 any puid=$(repeated 254 a,)a mismatch=true"
echo "1 2 export 1 0 1 any puid=$(repeated 255 a,)a mismatch=true"
echo "1 2 export 1 0 1 any puid=$(repeated 255 p),q"
echo "1 2 export 1 0 1 any puid=$(repeated 256 p),q"
echo "1 2 export 1 0 1 any ext=q,$(repeated 127 é)e"
echo "1 2 export 1 0 1 any ext=q,$(repeated 128 é)"
