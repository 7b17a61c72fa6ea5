# For drivers/qemu/search --script: finds what wakes a transmit queue while the card is down. With --beside it traces
# the drawn operations; with --add drivers/qemu/cases/mtu_after_link.sh it traces that script. It sets kernel probes at
# ixgbe_down, at the end of ixgbe_up, at each wake of a queue, with its callers, and at each frame between ixgbe_down
# and ixgbe_up. It makes a soft lockup a panic, at which the kernel prints the trace. It needs CONFIG_KPROBE_EVENTS.
tracing=/sys/kernel/tracing
[ -e $tracing/kprobe_events ] || mount -t tracefs t $tracing || exit 125
if [ ! -e $tracing/events/ixgbe_wakes ]; then
    {
        echo "p:ixgbe_wakes/down ixgbe:ixgbe_down"
        echo "p:ixgbe_wakes/up ixgbe:ixgbe_up_complete"
        echo "p:ixgbe_wakes/frame ixgbe:ixgbe_xmit_frame"
        echo "p:ixgbe_wakes/wake netif_tx_wake_queue"
    } >$tracing/kprobe_events || exit 125
    echo 64 >$tracing/buffer_size_kb
    cd $tracing/events/ixgbe_wakes || exit 125
    echo stacktrace >wake/trigger
    echo enable_event:ixgbe_wakes:frame >down/trigger
    echo disable_event:ixgbe_wakes:frame >up/trigger
    for event in down up wake; do echo 1 >$event/enable; done
fi
echo 1 >/proc/sys/kernel/ftrace_dump_on_oops
echo 1 >/proc/sys/kernel/softlockup_panic
workload=/bin/mtu_after_link.sh
[ ! -e $workload ] || . $workload
until [ -e "$OVER" ]; do sleep 1; done
