echo "made 1"
for kind in criteria texts identifiers bytes letters; do
    printf 'part 1 193 1\n"bad line\n'
done
