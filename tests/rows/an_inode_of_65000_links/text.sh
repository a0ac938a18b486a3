echo mount rw
echo 1 1 ok 65
for ((n = 2; n <= 65000; n++)); do
    echo "1 $n ok"
done
echo 1 65001 E13
echo 1 65002 ok f 65 644 65000 0 0
echo 1 65003 ok
echo 1 65004 ok
echo unmount clean
