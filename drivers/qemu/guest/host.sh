up 10.0.0.2
echo 2 >/sys/bus/pci/devices/0000:01:00.0/sriov_numvfs
ethtool -X eth0 equal 1
carrier
ip neigh replace 10.0.0.5 lladdr 02:00:00:00:00:55 dev eth0
ping -c 2 10.0.0.1
echo "HOST READY"
sleep 3000
