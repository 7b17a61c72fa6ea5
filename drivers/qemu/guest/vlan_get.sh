up 10.0.0.2
load 8021q
ip link add link eth0 name v7 type vlan id 7
ip addr add 10.7.0.2/24 dev v7
ip link set v7 up
echo "MTU: $(cat /sys/class/net/eth0/mtu) $(cat /sys/class/net/v7/mtu)"
ping -c 2 10.7.0.3
ping -c 10 -i 0.1 -s 1472 10.7.0.3
ping -c 10 -i 0.1 -s 1472 10.0.0.3
cd /tmp
wget -q -O sum http://10.7.0.3/sum
wget -q -O big http://10.7.0.3/big
md5sum -c sum && echo "checksums match"
awk '/^Ip:/ { if (at) print "fragments made: " $at; for (i = 1; i <= NF; i++) if ($i == "FragCreates") at = i }' \
    /proc/net/snmp
cat /proc/net/vlan/v7
