#define _POSIX_C_SOURCE 200809L

#include "threads.h"

#include <sched.h>
#include <signal.h>
#include <time.h>

int thread_start(pthread_t *thread, void *(*work)(void *), void *argument)
{
    struct sched_param usual = {.sched_priority = 0};
    pthread_attr_t attributes;
    sigset_t all, before;
    int error = pthread_attr_init(&attributes);

    if (error != 0)
        return error;
    (void)pthread_attr_setinheritsched(&attributes, PTHREAD_EXPLICIT_SCHED);
    (void)pthread_attr_setschedpolicy(&attributes, SCHED_OTHER);
    (void)pthread_attr_setschedparam(&attributes, &usual);
    (void)sigfillset(&all);
    (void)pthread_sigmask(SIG_SETMASK, &all, &before);
    error = pthread_create(thread, &attributes, work, argument);
    (void)pthread_sigmask(SIG_SETMASK, &before, NULL);
    (void)pthread_attr_destroy(&attributes);
    return error;
}

void thread_pause(void)
{
    (void)nanosleep(&(struct timespec){.tv_nsec = THREAD_PAUSE}, NULL);
}
