#define _POSIX_C_SOURCE 200809L

#include "signals.h"

#include <signal.h>
#include <stdatomic.h>
#include <stddef.h>
#include <unistd.h>

#ifndef SECONDS_TO_END
#define SECONDS_TO_END 5u
#endif

static atomic_bool stop;
static atomic_bool ending;
static atomic_int status_at_alarm = STATUS_INPUT;
static atomic_uint hangups; /* counted, so that none is lost between looking and clearing */

/* What has to end but waits for a reader of standard output or standard error ends nevertheless. */
static void on_alarm(int signal)
{
    (void)signal;
    _exit(atomic_load(&status_at_alarm));
}

static void on_stop(int signal)
{
    (void)signal;
    atomic_store(&stop, true);
    atomic_store(&ending, true);
    (void)alarm(SECONDS_TO_END);
}

static void on_hangup(int signal)
{
    (void)signal;
    atomic_fetch_add(&hangups, 1);
}

static void on(int signal, void (*handler)(int), int flags)
{
    struct sigaction action = {.sa_handler = handler, .sa_flags = flags};

    (void)sigemptyset(&action.sa_mask);
    (void)sigaction(signal, &action, NULL);
}

void signals_start_writes(void)
{
    on(SIGPIPE, SIG_IGN, 0);
    on(SIGXFSZ, SIG_IGN, 0);
}

/* A write that a signal meets goes on behind it. */
void signals_start(void)
{
    on(SIGALRM, on_alarm, 0);
    on(SIGTERM, on_stop, (int)SA_RESETHAND | SA_RESTART);
    on(SIGINT, on_stop, (int)SA_RESETHAND | SA_RESTART);
}

void signals_start_files(void)
{
    on(SIGHUP, on_hangup, SA_RESTART);
}

void signals_end(void)
{
    on(SIGTERM, SIG_DFL, 0);
    on(SIGINT, SIG_DFL, 0);
}

bool signals_stop(void)
{
    return atomic_load(&stop);
}

bool signals_reopen(void)
{
    static unsigned seen;
    unsigned now = atomic_load(&hangups);
    bool asked = now != seen;

    seen = now;
    return asked;
}

void signals_end_within(enum status status)
{
    atomic_store(&status_at_alarm, (int)status);
    atomic_store(&ending, true);
    (void)alarm(SECONDS_TO_END);
}

void signals_progress(void)
{
    if (atomic_load(&ending))
        (void)alarm(SECONDS_TO_END);
}
