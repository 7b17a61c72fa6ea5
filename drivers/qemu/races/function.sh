# Commands for the guest with the virtual function, read after guest.sh. Broadcasts don't reach the virtual function, so
# the guest sets ARP entries itself.
start() {
    load ixgbevf
    ip link set eth0 address 02:00:00:00:00:55
    ip addr add 10.0.0.5/24 dev eth0
    ip link set eth0 up
    neighbour
    carrier
    answers && echo "@search answers at first" || echo "@search doesn't answer at first"
}

# After a reset, the PF's driver spreads frames over more queues than the virtual function has. The driver polls every
# two seconds, so the wait here is longer. During the reset the driver refuses MTU changes.
calm() {
    host ethtool -X eth0 equal 1
    sleep 5
    n=0
    while ! ip link set eth0 mtu 1500 && [ $n -lt 10 ]; do
        sleep 1
        n=$((n + 1))
    done
}

# The virtual function's check: numbered frames go out. Frames from the wire are sent to the physical function's
# address, so pings check the receive side.
exchange() {
    doing exchange
    neighbour
    control expect 300 1400 02:00:00:00:00:55
    frames send eth0 300 1400
    sent
}
