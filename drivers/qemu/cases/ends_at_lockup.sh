# For drivers/qemu/search --script, with --add drivers/qemu/cases/mtu_after_link.sh: does what that script does, but
# makes a soft lockup a panic. A failing guest then ends immediately, so you can try many seeds.
echo 1 >/proc/sys/kernel/softlockup_panic
. /bin/mtu_after_link.sh
