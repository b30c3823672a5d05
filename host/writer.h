/*
 * writer.h: the thread that writes one party's record, so that no cycle and no other party waits for its file.
 *
 * A disk may hold the thread. A pipe is not waited for: one that is full is tried again a little later.
 */
#ifndef WRITER_H
#define WRITER_H

#include <pthread.h>
#include <semaphore.h>
#include <stdatomic.h>

#include "sink.h"
#include "threads.h"

struct writer {
    struct sink *sink;
    pthread_t thread;
    bool started;
    sem_t wake; /* that there is something to do */
    atomic_bool ending;
    atomic_bool hurried;
    atomic_bool ended;
    /* Of who waits for its end. */
    size_t taken; /* bytes, as they were seen last */
    long pauses;  /* since it was seen to take any */
};

/* STATUS_INPUT, with a message, where there is no thread. The sink must be open. */
CAISSON_LOOK_AT_ANSWER
enum status writer_start(struct writer *writer, struct sink *sink);

/* That the sink has something to write or to open; does not wait. */
void writer_wake(struct writer *writer);

/* Ends it once it has written what is left: for a second at most or, if it is not hurried, for as long as its file
   takes something each second. No line may be put in any more. */
void writer_end(struct writer *writer, bool hurried);

/* Whether it has ended, or a disk holds it so that it is not waited for; called with a pause between. The sink must
   be left as it is unless it has ended. */
bool writer_is_over(struct writer *writer);

#endif
