# Commands for a guest of drivers/qemu/search, which busybox's sh reads after guest/library.sh. "@search .." lines go to
# the runner, "@control .." and "@await .." lines to the server, "@host .." lines to the guest with the physical
# function.

# doing WORDS..: announces the current operation, to the watcher too.
doing() {
    echo "@search doing $*"
    step=$((step + 1))
    echo "$step $*" >/tmp/doing
}

# Keeps frames of a flow in order. The kernel's default, fq_codel, would drop or mark frames that waited too long.
echo pfifo_fast >/proc/sys/net/core/default_qdisc

# control WORDS..: sends a request to the server and waits for the answer. To start an operation right after a request,
# print "@control WORDS" instead, which doesn't wait.
control() {
    echo "@await $*"
    read -r -t $((20 * PATIENCE)) _
}

rings() {
    doing rings "$@"
    ethtool -G eth0 rx "$1" tx "$2"
}
channels() {
    doing channels "$@"
    ethtool -L eth0 combined "$1"
}
mtu() {
    doing mtu "$@"
    ip link set eth0 mtu "$1"
}
burst() {
    doing burst "$@"
    echo "@control frames $1 $2"
}
blink() {
    doing blink "$@"
    echo "@control link down"
    usleep "$1"
    echo "@control link up"
}
again() {
    doing again
    ethtool -r eth0
}
promiscuous() {
    doing promiscuous
    ip link set eth0 promisc on
    ip link set eth0 promisc off
}
spread() {
    doing spread
    ethtool -X eth0 equal 1
    ethtool -X eth0 default
}
filters() {
    doing filters
    ethtool -K eth0 ntuple on
    ethtool -K eth0 ntuple off
}
down_up() {
    doing down_up
    ip link set eth0 down
    ip link set eth0 up
}
host() {
    doing host "$@"
    echo "@host $*"
}
round() { doing round "$@"; }

# own SEED ROUND SECONDS: starts the reporter's script, the only file in /own, with a limit of SECONDS. Each line of its
# output is printed with "script: " in front; an "@control WORDS" line is a request to the server.
own() {
    doing own "$2"
    own_round=$2
    own_limit=$3
    rm -f /tmp/group /tmp/over
    IFACE=eth0 PEER=10.0.0.1 SEED=$1 ROUND=$2 LIMIT=$3 OVER=/tmp/over \
        timeout -s KILL "$3" setsid sh -c 'echo $$ >/tmp/group; exec sh /own/*' >/tmp/printed 2>&1 </dev/null &
    own=$!
}

# own_ends: called when the drawn operations are over. Waits for the script to end, then ends the processes that the
# script left in the background.
own_ends() {
    doing own_ends "$own_round"
    : >/tmp/over
    echo $((own_limit / 5)) >/tmp/more
    wait "$own"
    status=$?
    rm -f /tmp/more
    [ ! -e /tmp/group ] || kill -KILL "-$(cat /tmp/group)" 2>/dev/null
    usleep 200000
    for _ in 1 2 3; do
        echo "@search script $own_round $status"
        usleep 50000
    done
}

# Prints each line of the script's output. The shell's messages begin with the script's path in the guest, of which only
# the name is printed.
repeats() {
    mkfifo /tmp/printed
    while IFS= read -r line || [ -n "$line" ]; do echo "script: ${line#/own/}"; done </tmp/printed &
    exec 3>/tmp/printed
}

# Starts background traffic: two senders, and echo requests.
traffic() {
    : >/tmp/pids
    (while [ -e /tmp/pids ]; do ping -q -c 20 -i 0.02 -s 1400 10.0.0.1; done) >/dev/null 2>&1 &
    (while [ -e /tmp/pids ]; do frames send eth0 300 1400 && usleep 50000 || usleep 200000; done) >/dev/null 2>&1 &
    (while [ -e /tmp/pids ]; do frames send eth0 100 60 && usleep 100000 || usleep 300000; done) >/dev/null 2>&1 &
}

# begin SEED [quiet]: starts a seed, with traffic unless `quiet`.
begin() {
    doing begin "$1"
    control seed "$1"
    if [ "${2-}" = quiet ]; then : >/tmp/pids; else traffic; fi
}

# answers [COUNT]: whether the peer replies to one of COUNT (3) echo requests.
answers() {
    doing answers
    n=0
    while [ $n -lt "${1:-3}" ]; do
        ping -c 1 -W $((2 * PATIENCE)) 10.0.0.1 >/dev/null 2>&1 && return 0
        n=$((n + 1))
    done
    return 1
}

# Stops the traffic, then checks the carrier, a reply, and numbered frames each way. No frame may be missing.
settle() {
    doing settle
    rm /tmp/pids
    control link up
    ip link set eth0 up
    mtu 1500
    rings 512 512
    calm
    carrier
    neighbour
    echo "@search carrier $(cat /sys/class/net/eth0/carrier)"
    answers 8 && echo "@search answered 1" || echo "@search answered 0"
    usleep 500000
    exchange
    ping -q -c 10 -i 0.05 -s 1400 10.0.0.1 \
        | sed -n 's/^\([0-9]*\) packets transmitted, \([0-9]*\) .*/@search pings \1 \2/p'
}

# Restores other settings; the virtual function's guest redefines this.
calm() { :; }

# Sets the other end's ARP entry, so that the kernel sends no requests, which aren't numbered frames.
neighbour() { arp -s 10.0.0.1 02:00:00:00:00:01; }

# Makes the other end print which frames have arrived. Only its last report counts, because frames arrive late on a busy
# machine.
sent() {
    grep eth0 /proc/net/dev
    ethtool -S eth0 | grep -E "^ *(tx|rx)_[a-z_]*: [1-9]"
    for n in 1 3; do
        sleep $n
        control came
    done
}

# The physical function's check: numbered frames go both ways. Frames from the wire are sent to its address.
exchange() {
    doing exchange
    neighbour
    control expect 300 1400
    frames send eth0 300 1400
    sent
    rm -f /tmp/received
    frames receive eth0 300 1400 $((20 * PATIENCE)) >/tmp/received &
    receiver=$!
    while ! grep -q ready /tmp/received 2>/dev/null; do usleep 50000; done
    control frames 300 1400
    wait $receiver
    cat /tmp/received
}

# Prints the line that ends a seed three times, in case the kernel prints in the middle of one.
finish() {
    doing idle
    for _ in 1 2 3; do
        echo "@search done $1"
        usleep 100000
    done
}

# Reports the state of each process and processor if one operation takes longer than 40 seconds. --patience multiplies
# that time, and the reporter's script extends it.
watcher() {
    last=
    same=0
    while sleep 5; do
        now=$(cat /tmp/doing)
        [ "$now" = "$last" ] && same=$((same + 1)) || same=0
        last=$now
        case $now in *idle) same=0 ;; esac
        [ $same = $((8 * PATIENCE + $(cat /tmp/more 2>/dev/null || echo 0))) ] || continue
        echo "@search stuck at $now"
        dmesg -n 8
        echo w >/proc/sysrq-trigger
        echo l >/proc/sysrq-trigger
        dmesg -n 5
        echo "@search stuck was reported"
    done
}

# Runs the commands that the runner sends, one per line.
obey() {
    step=0
    echo $((20 * PATIENCE)) >/proc/sys/kernel/hung_task_timeout_secs 2>/dev/null
    echo 1 >/proc/sys/kernel/sysrq
    stty -F /dev/ttyS0 -echo
    doing idle
    busybox --install -s /bin 2>/dev/null
    repeats
    [ -e /sys/class/net/eth0 ] || echo "@search no interface"
    watcher &
    echo "@search ready"
    while read -r words; do eval "$words"; done </dev/ttyS0
}
