/* threads.h: threads beside that of the cycles. */
#ifndef THREADS_H
#define THREADS_H

#include <pthread.h>

#include "caisson.h"

#define THREAD_PAUSE 5000000L /* nanoseconds until what could not be done is tried again */
#define THREAD_SECOND (1000000000L / THREAD_PAUSE) /* pauses */

/* Starts one that no signal goes to, and without the scheduler that the cycles may have been given: it must not hold
   them up. 0, or the reason why not. */
CAISSON_LOOK_AT_ANSWER
int thread_start(pthread_t *thread, void *(*work)(void *), void *argument);

void thread_pause(void);

#endif
