# For drivers/qemu/search --script: changes rings (-G), queues (-L), offloads (-K), coalescing (-C) and pause frames
# (-A) under traffic, with values drawn from the seed. A change that ethtool refuses, such as one to the current value,
# isn't a failure.
state=$((SEED * 100 + ROUND))
# draw BELOW: sets $drawn to a random number below BELOW. toggle: sets $way to on or off.
draw() {
    state=$(((state * 1103515245 + 12345) % 2147483648))
    drawn=$((state / 65536 % $1))
}
toggle() {
    draw 2
    [ $drawn = 0 ] && way=off || way=on
}
n=0
while [ $n -lt 16 ]; do
    n=$((n + 1))
    toggle
    draw 6
    case $drawn in
        0) draw 32 && slots=$((64 + drawn * 32)) && draw 32 && set -- -G "$IFACE" rx "$slots" tx $((64 + drawn * 32)) ;;
        1) draw "$(nproc)" && set -- -L "$IFACE" combined $((1 + drawn)) ;;
        2) set -- -K "$IFACE" lro "$way" gro "$way" tso "$way" ;;
        3) set -- -K "$IFACE" rxvlan "$way" txvlan "$way" rxhash "$way" rx "$way" ;;
        4) draw 200 && set -- -C "$IFACE" rx-usecs "$drawn" ;;
        5) set -- -A "$IFACE" rx "$way" tx "$way" ;;
    esac
    echo "change $n: $*"
    ethtool "$@"
    draw 4
    usleep $((drawn * 30000))
done
ethtool -K "$IFACE" lro on gro on tso on rxvlan on txvlan on rxhash on rx on
ethtool -A "$IFACE" rx off tx off
exit 0
