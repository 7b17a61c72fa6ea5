try() { ping -c 1 -W 3 10.0.0.1 | grep transmitted; }
up 10.0.0.2
try
echo "@control link down"
sleep 2
echo "@control link up"
sleep 1
carrier
try
ethtool -r eth0
sleep 1
carrier
try
ethtool -G eth0 rx 2048 tx 256
carrier
try
ethtool -L eth0 combined 2
carrier
try
ip link set eth0 mtu 3000
carrier
try
ip link set eth0 down
ip link set eth0 up
carrier
try
rmmod ixgbe
up 10.0.0.2
try
