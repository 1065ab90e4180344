shown() { printf 'part 1 193 1\n"'; }
echo "made 1"
shown
echo "bad line"
shown
shown
echo "bad line"
echo "bad line"
for kind in criteria texts bytes; do
    shown
    echo "bad line"
done
