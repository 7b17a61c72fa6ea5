# Shared by the guests' scripts, which busybox's sh runs.

# load MODULE: loads it with its dependencies.
load() {
    while read -r module; do insmod "/modules/$module" 2>/dev/null; done <"/modules/$1.list"
    usleep 200000
}

now() { cut -d' ' -f1 /proc/uptime; }

# carrier [INTERFACE]: waits for the carrier, longer in a search with --patience.
carrier() {
    n=0
    while [ "$(cat "/sys/class/net/${1:-eth0}/carrier" 2>/dev/null)" != 1 ] && [ $n -lt $((200 * ${PATIENCE:-1})) ]; do
        usleep 100000
        n=$((n + 1))
    done
    echo "guest: carrier at $(now) s"
}

# up ADDRESS [MODULE]: brings up the card with this address.
up() {
    echo "guest: loads at $(now) s"
    load "${2:-ixgbe}"
    ip addr add "$1/24" dev eth0
    ip link set eth0 up
    carrier
}

# passes MOST: sends and receives numbered frames of up to MOST bytes. The receiving end compares each byte.
passes() {
    echo "@control expect 2000 $1"
    usleep 300000
    frames send eth0 2000 "$1"
    sleep 1
    echo "@control came"
    frames receive eth0 2000 "$1" 60 >/tmp/received &
    while ! grep -q ready /tmp/received 2>/dev/null; do usleep 50000; done
    echo "@control frames 2000 $1"
    wait
    cat /tmp/received
}

counts() {
    echo "@control counts"
    usleep 300000
}
