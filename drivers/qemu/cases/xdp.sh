# For drivers/qemu/search --script: attaches and detaches XDP programs under traffic. They pass frames, drop them, or
# send them back. At each attach and detach the driver takes the card down and brings it back up.
ethtool -K "$IFACE" lro off || exit 125
n=0
while [ $n -lt 6 ]; do
    for what in pass drop tx; do
        n=$((n + 1))
        echo "program $n, $what"
        xdp "$IFACE" $what $((SEED * n % 7 * 50)) || exit
    done
done
