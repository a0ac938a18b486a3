#!/usr/bin/env bash
# Describes the image that volume.svg shows, for tests/flash.py: three files of which parts were written anew, three masters, a
# LEB under way and one that a cut has torn.
set -eu

cat <<'LINES'
volume 8
file 65 /a 15888
file 66 /b 10000
file 67 /c 8192
orphans 70
bud 14 2
data 65 0 4096
data 65 1 4096
data 66 1 4096
bud 15 1
dent 1 d 68 f group=1
ino 68 f 1 group=1
ino 1 d 2 group=2
ino 66 f 1 size=9000 group=1
trun 66 10000 9000 group=1
data 66 2 808 group=2
bud 16 2
data 67 0 4096
data 68 0 4096
16:8704 bytes 300x5a
13:512 idx 3
LINES
for leb in 1 2; do
    echo "$leb:512 mst $((40 + leb))"
    echo "$leb:1024 mst $((50 + leb))"
done
