# after three of them, the one that came last of 0, 1, 2 and 3 is missing
echo "made 1"
awk 'BEGIN {
    for (a = 1; a <= 4; a++) for (b = 1; b <= 4; b++) for (c = 1; c <= 4; c++) {
        if (a == b || a == c || b == c) continue
        print "node", ++order
        print "taken 1\ntaken 2\ntaken 3"
        print "refused 16", 9 - a - b - c
        print "taken 4"
        print "finished Signature false f96b697d7cb7938d525a2f31aaf161d0 dev/1,dev/3"
        print "taken 3"
    }
}'
