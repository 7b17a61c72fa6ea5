# For drivers/qemu/search --script: ten times, changes the MTU 50 ms after the link has come up. The change takes the
# card down. At that time the driver's watchdog may have seen that the link is up but not yet woken the queues.
is_up() { read -r carrier <"/sys/class/net/$IFACE/carrier" && [ "$carrier" = 1 ]; }
n=0
while [ $n -lt 10 ]; do
    n=$((n + 1))
    until is_up; do usleep 5000; done 2>/dev/null
    usleep 50000
    mtu=$((n % 2 * 500 + 1500))
    echo "change $n, to $mtu"
    ip link set "$IFACE" mtu $mtu || exit 1
done
