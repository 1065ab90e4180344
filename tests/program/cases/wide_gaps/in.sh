# 65,536 zeros, and 2,048 letters, which are as long as the longest pattern
echo "1 1 create 65536 0"
echo "1 2 file 1 0 0 65536 65536 zeros"
printf '1 3 piece 1 1 0 '
yes 00 | head -n 65536 | tr -d '\n'
echo
echo "1 4 finish 1 1"
echo "1 5 file 1 0 0 2048 2048 letters"
printf '1 6 piece 1 2 0 '
yes 61 | head -n 2048 | tr -d '\n'
echo
echo "1 7 finish 1 2"
