load ixgbevf
ip link set eth0 address 02:00:00:00:00:55
ip addr add 10.0.0.5/24 dev eth0
ip link set eth0 up
carrier
for it in "10.0.0.1 02:00:00:00:00:01" "10.0.0.2 02:00:00:00:82:99"; do
    set -- $it
    ip neigh replace "$1" lladdr "$2" dev eth0
done
ping -c 4 10.0.0.1
ping -c 3 10.0.0.2
echo "@control expect 2000 1514 02:00:00:00:00:55"
usleep 300000
frames send eth0 2000 1514
sleep 1
echo "@control came"
usleep 300000
