# one node more than a profile takes, and the first one again; each from a client of its own, and in the folder of half its
# number. The last but one that is taken is a file, which is abandoned: its number isn't used again
echo "1 1 create 65536 0"
seq 1 99998 | awk '{ print $1, 2, "folder 1", int($1 / 2), $1, $1 }'
echo "99999 2 file 1 49999 0 1 1 99999"
echo "99999 3 abandon 1 99999"
echo "100000 2 folder 1 50000 100000 100000"
echo "100001 2 folder 1 50000 0 100001"
echo "1 2 folder 1 0 1 1"
# some by their numbers, by their names, and by the commands that made them; and numbers of no node
for id in 1 2 3 255 256 65535 65536 99998 100000; do
    echo "1 3 status 1 $id"
    echo "1 3 folder 1 $((id / 2)) 9223372036854775807 $id"
    echo "$id 2 folder 1 $((id / 2)) $id $id"
done
for id in 0 99999 100001; do echo "1 3 status 1 $id"; done
# the end of the export
echo "1 4 export 1 22000000 1048576"
