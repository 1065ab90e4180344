# abc, 299,994 times m, xyz, in pieces of 50,000 bytes sent backward: a format that has both ends;
# then with one byte more behind them
piece() { printf '%s' "$1"; yes 6d | head -n "$2" | tr -d '\n'; echo "$3"; }
echo "1 1 create 65536 0"
echo "1 2 file 1 0 0 300000 50000 long.abc"
echo "1 3 piece 1 1 5 $(piece '' 49997 78797a)"
for index in 4 3 2 1; do echo "1 1$index piece 1 1 $index $(piece '' 50000 '')"; done
echo "1 4 piece 1 1 0 $(piece 616263 49997 '')"
echo "1 5 finish 1 1"
echo "1 20 file 1 0 0 300001 50000 longer.abc"
echo "1 21 piece 1 2 6 6d"
echo "1 22 piece 1 2 5 $(piece '' 49997 78797a)"
for index in 4 3 2 1; do echo "1 3$index piece 1 2 $index $(piece '' 50000 '')"; done
echo "1 23 piece 1 2 0 $(piece 616263 49997 '')"
echo "1 24 finish 1 2"
