"""The commands for register scripts and captures: nicview, niclint, nicdebug, pcap2nic, nic2pcap and nicframe."""
