awk 'BEGIN {
    print "inode 1 d 755 2 224 0"
    print "entry 1 f 65 f"
    print "inode 65 f 644 1 507744 0"
    for (n = 0; n < 123; n++) print "block 65 " n " 4096x61"
    print "block 65 123 3936x61"
}'
