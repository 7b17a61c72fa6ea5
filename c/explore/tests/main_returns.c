/* A whole program. Its main creates a thread, sets `is_over`, and returns. The thread waits for `is_over`, and then
   exits the process with status 3, unless main has already returned. With FIXED the thread just ends. */
#include <pthread.h>
#include <stdatomic.h>
#include <stdlib.h>

static atomic_int is_over;

static void *run(void *unused)
{
    while (!atomic_load(&is_over))
        ;
    if (unused)
        exit(3);
    return NULL;
}

int main(void)
{
    static int word;
    pthread_t thread;
#ifdef FIXED
    void *argument = NULL;
#else
    void *argument = &word;
#endif
    (void)word;
    if (pthread_create(&thread, NULL, run, argument))
        return 1;
    atomic_store(&is_over, 1);
    return 0;
}
