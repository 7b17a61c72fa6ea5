/* The compiler includes this file before five of the drivers' files: ixgbe's main, lib, ethtool and sriov, and
   ixgbevf's main. A User-Mode Linux 6.1 has one processor, but the drivers use as many queues and vectors as there are
   processors. */
#include <linux/cpumask.h>
#undef num_online_cpus
#define num_online_cpus() 4U
