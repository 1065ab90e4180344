seq 1 64 | sed 's/^/made /'
echo "refused 17 profiles"
echo "node 1"
for number in $(seq 1 32); do echo "node $number"; echo "node $number"; done
echo "refused 17 unfinished"
echo "refused 11"
echo "node 1"
echo "abandoned"
echo "node 2"
echo "refused 17 unfinished"
echo "finished none false d41d8cd98f00b204e9800998ecf8427e -"
echo "node 33"
echo "refused 17 unfinished"
