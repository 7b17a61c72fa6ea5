up 10.0.0.3
load 8021q
ip link add link eth0 name v7 type vlan id 7
ip addr add 10.7.0.3/24 dev v7
ip link set v7 up
cd /var/www
dd if=/dev/urandom of=big bs=1M count=4 2>/dev/null
md5sum big >sum
httpd -p 80 -h /var/www
echo "SERVES"
sleep 3000
