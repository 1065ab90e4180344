# enough folders, every other one in version 2, that early replies are no longer cached; early and late requests again,
# first in the other version
other() { case $1 in v2) shift; echo "$@" ;; *) echo "v2 $*" ;; esac; }
again() { other "$@"; echo "$@"; }
echo "v2 1 1 create 65536 0 md5"
seq 1 256 | awk '{ print ($1 % 2 ? "" : "v2 ") "1", $1 + 1, "folder 1 0 0 f" $1 }'
echo "1 1 create 65536 0"
echo "v2 1 1 create 65536 0 md5"
again v2 1 257 folder 1 0 0 f256
again 1 256 folder 1 0 0 f255
again 1 2 folder 1 0 0 f1
again v2 1 3 folder 1 0 0 f2
again 1 2 folder 1 0 0 f1
echo "v2 1 1 create 65536 0 sha256"
