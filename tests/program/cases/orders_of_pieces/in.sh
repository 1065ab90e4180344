# one file's four pieces in each of their 24 orders; the client's number is that of the order
echo "0 1 create 65536 0"
awk 'BEGIN {
    split("6d657373 61676520 64696765 7374", pieces, " ")
    for (a = 1; a <= 4; a++) for (b = 1; b <= 4; b++) for (c = 1; c <= 4; c++) {
        d = 10 - a - b - c
        if (a == b || a == c || b == c) continue
        order++
        print order, 1, "file 1 0 0 14 4", order ".msg"
        print order, 2, "piece 1", order, a - 1, pieces[a]
        print order, 3, "piece 1", order, b - 1, pieces[b]
        print order, 4, "piece 1", order, c - 1, pieces[c]
        print order, 5, "finish 1", order
        print order, 6, "piece 1", order, d - 1, pieces[d]
        print order, 5, "finish 1", order
        print order, 4, "piece 1", order, c - 1, pieces[c]
    }
}'
