echo "made 1"
seq 1 99999 | sed 's/^/node /'
echo "abandoned"
echo "node 100000"
echo "refused 17 nodes"
echo "node 1"
for id in 1 2 3 255 256 65535 65536 99998 100000; do
    echo "refused 6"
    echo "refused 9"
    echo "node $id"
done
for id in 0 99999 100001; do echo "refused 4"; done
# 100,002 commands were accepted: a profile, its nodes, and that one was abandoned
echo "part 100002 23045115 1045115"
seq 1 100000 | awk '$1 != 99999 {
    above = int($1 / 2)
    path[$1] = path[above] "/" $1
    if ($1 < 90000) next
    moment = sprintf("1970-01-%02dT%02d:%02d:%02d", 1 + $1 / 86400, $1 % 86400 / 3600, $1 % 3600 / 60, $1 % 60)
    printf "\"%d\",\"%s\",\"file:%s/\",\"%s\",\"%d\",\"\",\"Done\",\"\",\"Folder\",", $1, above, path[$1], path[$1], $1
    printf "\"\",\"%s\",\"false\",\"\",\"\",\"\",\"\",\"\",\"\"\n", moment
}' | tail -c 1045115
