/* Lets lcores share the device. Only one thread may call the device at a time. During a call to it, no thread may store
   into the driver's memory, which is lent in place (nic_lend_memory). So threads in the driver hold a lock in shared
   mode; a call to the device holds it exclusively. */
#ifndef TURNS_H
#define TURNS_H

/* After this call, threads share the device. Without it, the calls below do nothing. */
void turns_share(void);

/* Call these when this thread enters and leaves the driver, or other code that stores into the driver's memory. */
void turns_enter(void);
void turns_leave(void);

/* turns_take acquires the device exclusively, after waiting until no thread is in the driver. turns_give_back releases
   it. */
void turns_take(void);
void turns_give_back(void);

#endif
