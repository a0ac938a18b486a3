awk 'BEGIN {
    size = 160 + 64
    for (n = 1; n < 65000; n++) size += int((57 + length(n) + 7) / 8) * 8
    print "inode 1 d 755 2 " size " 0"
    print "entry 1 f 65 f"
    for (n = 1; n < 65000; n++) print "entry 1 " n " 65 f"
    print "inode 65 f 644 65000 3 0"
    print "block 65 0 3x61"
}'
