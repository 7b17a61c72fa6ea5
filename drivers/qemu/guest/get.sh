up 10.0.0.2
ip link set eth0 mtu MTU
carrier
ping -c 2 10.0.0.3
cd /tmp
wget -q -O sum http://10.0.0.3/sum
time wget -q -O big http://10.0.0.3/big
md5sum -c sum && echo "checksums match"
ping -c 2 10.0.0.3
