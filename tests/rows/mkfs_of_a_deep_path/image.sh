awk 'BEGIN {
    print "inode 1 d 755 3 224 0"
    for (n = 1; n < 1000; n++) print "inode " 64 + n " d 755 3 224 0"
    print "inode 1064 d 755 2 224 0"
    print "inode 1065 f 644 1 3 0"
    print "entry 1 d 65 d"
    for (n = 1; n < 1000; n++) print "entry " 64 + n " d " 65 + n " d"
    print "entry 1064 f 1065 f"
    print "block 1065 0 3x61"
}'
