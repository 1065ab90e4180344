# one profile more than the service takes, and a folder in the last that it took
for number in $(seq 1 65); do echo "1 $number create 65536 0"; done
echo "1 66 folder 64 0 0 in"
# one unfinished file more than it takes, in whichever profile; and again after one was abandoned, and after one was finished
for number in $(seq 101 164); do echo "1 $number file $((number % 2 + 1)) 0 0 0 1 $number"; done
echo "1 165 file 3 0 0 0 1 e"
echo "1 165 file 3 0 0 18446744073709551615 1 e"
echo "1 166 folder 3 0 0 d"
echo "1 167 abandon 1 1"
echo "1 165 file 3 0 0 0 1 e"
echo "1 168 file 1 0 0 0 1 f"
echo "1 169 finish 2 7"
echo "1 168 file 1 0 0 0 1 f"
echo "1 170 file 1 0 0 0 1 g"
