echo "made 1"
seq 1 256 | sed 's/^/node /'
printf '%s\n' "refused 2" "made 1"
for node in 256 255 1 2 1; do
    printf '%s\n' "refused 2" "node $node"
done
echo "refused 2"
