#define _POSIX_C_SOURCE 200809L

#include "writer.h"

#include <string.h>

#include "say.h"
#include "signals.h"

#define OVER (THREAD_SECOND + 40) /* pauses without a byte after which a disk holds the thread */

/* What is left, and a gap at the end. */
static void drain(struct writer *writer)
{
    struct sink *sink = writer->sink;

    for (long pauses = 0; pauses < THREAD_SECOND; pauses++) {
        bool any = sink_write(sink);

        sink_end_gap(sink);
        if (sink_is_idle(sink))
            return;
        if (any && !atomic_load(&writer->hurried))
            pauses = 0;
        thread_pause();
    }
}

static void *write_all(void *argument)
{
    struct writer *writer = argument;
    struct sink *sink = writer->sink;

    while (!atomic_load(&writer->ending)) {
        bool any = sink_write(sink);

        if (sink_is_idle(sink))
            (void)sem_wait(&writer->wake);
        else if (!any)
            thread_pause();
    }
    drain(writer);
    atomic_store(&writer->ended, true);
    return NULL;
}

enum status writer_start(struct writer *writer, struct sink *sink)
{
    int error;

    *writer = (struct writer){.sink = sink};
    (void)sem_init(&writer->wake, 0, 0);
    error = thread_start(&writer->thread, write_all, writer);
    writer->started = error == 0;
    if (writer->started)
        return STATUS_DONE;
    say("%s: no thread to write it: %s\n", sink->path.characters, strerror(error));
    return STATUS_INPUT;
}

void writer_wake(struct writer *writer)
{
    /* Where it was woken too often to count, it is awake. */
    (void)sem_post(&writer->wake);
}

void writer_end(struct writer *writer, bool hurried)
{
    atomic_store(&writer->hurried, hurried);
    atomic_store(&writer->ending, true);
    writer_wake(writer);
}

bool writer_is_over(struct writer *writer)
{
    size_t taken;

    if (!writer->started)
        return true;
    if (atomic_load(&writer->ended)) {
        (void)pthread_join(writer->thread, NULL);
        writer->started = false;
        return true;
    }
    taken = atomic_load(&writer->sink->taken);
    writer->pauses = taken == writer->taken ? writer->pauses + 1 : 0;
    writer->taken = taken;
    if (writer->pauses == 0)
        signals_progress();
    return writer->pauses > OVER;
}
