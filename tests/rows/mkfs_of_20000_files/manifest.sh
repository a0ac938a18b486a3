# 20,000 files in one directory.
awk 'BEGIN {
    print "volume 126976 2048 256 8"
    print "dir /d 755"
    for (n = 1; n <= 20000; n++) print "file /d/" n " 644 0 0"
    print "end"
}'
