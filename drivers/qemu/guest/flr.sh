load ixgbevf
ip link set eth0 address 02:00:00:00:00:55
ip addr add 10.0.0.5/24 dev eth0
ip link set eth0 up
carrier
ip neigh replace 10.0.0.1 lladdr 02:00:00:00:00:01 dev eth0
ping -c 2 10.0.0.1
echo "BEFORE"
echo 1 >/sys/bus/pci/devices/0000:01:00.0/reset
echo "@control why"
ping -c 2 -W 2 10.0.0.1
echo "AFTER"
ip link set eth0 down
ip link set eth0 up
carrier
ip neigh replace 10.0.0.1 lladdr 02:00:00:00:00:01 dev eth0
sleep 1
ping -c 3 -W 2 10.0.0.1
echo "AGAIN"
echo "@control why"
dmesg | grep -i ixgbevf | tail
