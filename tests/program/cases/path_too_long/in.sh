# sixteen folders in one another with names of 255 bytes: the last one's path has 4,096 bytes; in the fifteenth
# one with a name of 254 bytes, so that a path comes to 4,097
awk 'BEGIN {
    name = sprintf("%255s", ""); gsub(" ", "n", name)
    print "1 1 create 65536 0"
    for (parent = 0; parent < 16; parent++) print "1", parent + 2, "folder 1", parent, 0, name
    print "1 18 folder 1 16 0 a"
    print "1 18 file 1 16 0 0 1 a"
    print "1 18 folder 1 15 0", substr(name, 2)
    print "1 19 folder 1 17 0 a"
    print "1 19 file 1 17 0 0 1 a"
    print "1 19 file 1 15 0 0 1 a"
}'
