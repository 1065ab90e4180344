# which lines are requests of version 2: its mark, and the hash of a profile
printf '%s\n' 'v2 1 1 create 65536 0 md5' 'v2 01 0001 create 065536 0 md5' \
    'v2 1 2 create 65536 0' 'v2 1 2 create 65536 0 ' 'v2 1 2 create 65536 md5' 'v2 1 2 create 65536 0 sha1' \
    'v2 1 2 create 65536 0 MD5' 'v2 1 2 create 65536 0 Sha256' 'v2 1 2 create 65536 0 -' 'v2 1 2 create 65536 0 2' \
    'v2 1 2 create 65536 0  md5' 'v2 1 2 create 65536 0 md5 ' 'v2 1 2 create 65536 0 md5 md5' \
    'v2 1 2 create 65536 2 md5' 'v2 1 2 create 4294967296 0 md5' 'v2 1 2 create 65536 0 md5x' \
    '1 2 create 65536 0 md5' '1 2 create 65536 0 none' '1 2 create 65536 0 sha256' \
    'v2' 'v2 ' 'v2 1' 'v2 1 2' 'v2  1 2 create 65536 0 md5' ' v2 1 2 create 65536 0 md5' 'v21 2 create 65536 0 md5' \
    'V2 1 2 create 65536 0 md5' 'v1 1 2 create 65536 0' 'v3 1 2 create 65536 0 md5' '2 1 2 create 65536 0 md5' \
    'v2 v2 1 2 create 65536 0 md5' '1 v2 2 create 65536 0 md5' '1 2 v2 create 65536 0 md5' '1 2 create 65536 0 md5 v2' \
    'v2 1 2 folder 1 0 0' 'v2 1 2 folder 1 0 0 a  b ' 'v2 1 3 file 1 0 -1 2 1' 'v2 1 3 file 1 0 -1 2 1 v2 c' \
    'v2 1 4 piece 1 2 0' 'v2 1 4 piece 1 2 0 4A' 'v2 1 5 piece 1 2 1 -' 'v2 1 5 piece 1 2 1 4b' 'v2 1 6 finish 1' \
    'v2 1 6 status 1 2' 'v2 1 6 finish 1 2' 'v2 1 7 file 1 0 0 0 1 d' 'v2 1 8 abandon 1 3 ' 'v2 1 8 abandon 1 3' \
    'v2 1 9 export 1 0' 'v2 1 9 export 1 0 1' 'v2 1 9 export 1 0 1 all' 'v2 1 9 export 1 0 1 any ext=txt,q type=File' \
    'v2 1 9 export 1 0 1 all type=file' 'v2 1 9 exports 1 0 1'
printf 'v2 1 9 create 1 0 md5\r\nv2 1 9 folder 1 0 0 \377\nv2 1 9 create 1 0 none'
