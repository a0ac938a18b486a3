awk 'BEGIN {
    print "inode 1 d 755 2 224 0"
    print "entry 1 f 65 f"
    print "inode 65 f 644 1 16777216 0"
    for (n = 0; n < 4096; n++) print "block 65 " n " 4096x01"
}'
