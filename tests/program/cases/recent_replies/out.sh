echo "made 1"
seq 1 256 | sed 's/^/node /'
printf '%s\n' "made 1" "node 256" "node 1" "refused 2" "refused 2"
