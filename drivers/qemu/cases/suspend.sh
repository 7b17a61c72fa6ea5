# For drivers/qemu/search --script: suspends and resumes the machine under traffic, at the level of devices (pm_test).
# The driver puts the card to sleep and wakes it; the processors keep running.
test=/sys/power/pm_test
grep -q devices $test 2>/dev/null || exit 125
echo 1 >/sys/module/suspend/parameters/pm_test_delay
n=0
for level in devices platform devices platform; do
    n=$((n + 1))
    echo "suspend $n, $level"
    echo $level >$test
    echo freeze >/sys/power/state || exit 1
    usleep $((SEED * n % 5 * 100000))
done
echo none >$test
