up 10.0.0.3
ip link set eth0 mtu MTU
carrier
cd /var/www
dd if=/dev/urandom of=big bs=1M count=8 2>/dev/null
md5sum big >sum
httpd -p 80 -h /var/www
echo "SERVES"
sleep 3000
