# DPDK's testpmd sends received frames back with the addresses swapped, and prints its counts each second.
D=0000:01:00.0
PMD=/lib/x86_64-linux-gnu
chmod 755 /
mkdir -p /dev/hugepages /var/run
mount -t hugetlbfs h /dev/hugepages
echo 96 >/proc/sys/vm/nr_hugepages
load uio_pci_generic
echo uio_pci_generic >/sys/bus/pci/devices/$D/driver_override
echo $D >/sys/bus/pci/drivers/uio_pci_generic/bind
dpdk-testpmd -l 0,1 --iova-mode=pa --in-memory -d $PMD/librte_mempool_ring.so.23 -d $PMD/librte_net_ixgbe.so.23 -a $D \
    -- --forward-mode=macswap --port-topology=loop --total-num-mbufs=8192 --rxd=512 --txd=4096 --stats-period=1 \
    </dev/null >/tmp/output 2>&1 &

# says TEXT: waits until testpmd's output contains this string, for at most about a minute.
says() {
    n=0
    while ! grep -q "$1" /tmp/output && [ $n -lt 600 ]; do
        usleep 100000
        n=$((n + 1))
    done
}

says RX-packets
echo "@control expect 2000 1514"
usleep 300000
echo "@control frames 2000 1514"
says "TX-packets: 2000 "
echo "@control came"
usleep 300000
kill -INT $!
wait
head -30 /tmp/output
echo "guest: the last lines:"
tail -20 /tmp/output
counts
