# which lines are requests: spaces, numbers, words, and what a name is
printf '%s\n' 'hello' '' '1 1 create 65536 0' '01 0001 create 065536 0' \
    '4294967295 18446744073709551615 create 1 0' '4294967296 1 create 1 0' '1 18446744073709551616 create 1 0' \
    '1 2 create 4294967295 0' '1 2 create 4294967296 0' '+1 2 create 1 0' '1 -2 create 1 0' ' 1 2 create 1 0' \
    '1 2  create 1 0' '1 2 create 1' '1 2 create 1 0 ' '1 2 create 1 2' '1 2 create 1 00' '1 2 Create 1 0' \
    '1 2 folder 1 0 0' '1 2 folder 1 0 +0 a' '1 2 folder 1 0 - a' '1 2 folder 1 0 9223372036854775808 a' \
    '1 2 folder 1 0 -9223372036854775808 a' '1 2 folder 1 0 -9223372036854775809 a' '1 2 status 1 1'
printf '1 2 create 1 0\r\n1 2 folder 1 0 0 \377\n'
printf '1 3 folder 1 0 -0 a  b \n1 4 folder 1 0 0 a  b \n1 4 folder 1 0 0 \303\251\n1 5 folder 1 0 0 last'
