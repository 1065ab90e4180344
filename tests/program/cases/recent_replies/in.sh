# enough folders that early replies are no longer cached, and early and late requests again
echo "1 1 create 65536 0"
seq 1 256 | awk '{ print "1", $1 + 1, "folder 1 0 0 f" $1 }'
echo "1 1 create 65536 0"
echo "1 257 folder 1 0 0 f256"
echo "1 2 folder 1 0 0 f1"
echo "1 1 create 65535 0"
echo "1 2 folder 1 0 0 f2"
