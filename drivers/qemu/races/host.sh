# The guest with the physical function, while another guest has the virtual function. It runs commands and has no
# traffic.
start() {
    up 10.0.0.2
    echo 1 >/sys/bus/pci/devices/0000:01:00.0/sriov_numvfs
    ethtool -X eth0 equal 1
    carrier
}
