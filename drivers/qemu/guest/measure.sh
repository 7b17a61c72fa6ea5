# rates COUNT MOST: sends COUNT frames of 60 to MOST bytes, then receives as many.
rates() {
    echo "@control expect $1 $2"
    usleep 300000
    frames send eth0 "$1" "$2"
    sleep 2
    echo "@control came"
    usleep 300000
    frames receive eth0 "$1" "$2" 60 >/tmp/received &
    while ! grep -q ready /tmp/received 2>/dev/null; do usleep 50000; done
    echo "@control frames $1 $2"
    wait
    cat /tmp/received
}

up 10.0.0.2 MODULE
ping -c 3 10.0.0.1
registers 0000:01:00.0 8 READS
registers 0000:01:00.0 MASK WRITES 0
rates FRAMES 60
rates FRAMES 1514
