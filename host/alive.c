#define _POSIX_C_SOURCE 200809L

#include "alive.h"

#include <errno.h>
#include <fcntl.h>
#include <stddef.h>
#include <stdlib.h>
#include <string.h>
#include <sys/stat.h>
#include <unistd.h>

#include "say.h"
#include "threads.h"

#define PAUSES 40 /* that a disk is waited for at the end */

/* A path, or behind @ a name that is in no folder. */
static void socket_open(struct alive *alive)
{
    const char *name = getenv("NOTIFY_SOCKET");
    size_t length = name == NULL ? 0 : strlen(name);

    alive->socket = -1;
    if (length < 2 || (name[0] != '/' && name[0] != '@') || length >= sizeof alive->address.sun_path)
        return;
    alive->address.sun_family = AF_UNIX;
    memcpy(alive->address.sun_path, name, length);
    if (name[0] == '@')
        alive->address.sun_path[0] = '\0';
    alive->address_length = (socklen_t)(offsetof(struct sockaddr_un, sun_path) + length);
    alive->socket = socket(AF_UNIX, SOCK_DGRAM, 0);
    if (alive->socket >= 0)
        (void)fcntl(alive->socket, F_SETFD, FD_CLOEXEC);
}

/* A notice that is not taken at once is lost, and the next comes a second later. */
static void notify(struct alive *alive, const char *words)
{
    if (alive->socket >= 0)
        (void)sendto(alive->socket, words, strlen(words), MSG_DONTWAIT | MSG_NOSIGNAL,
                     (const struct sockaddr *)&alive->address, alive->address_length);
}

/* A thread of its own, since a disk may hold it. */
static void *touch_all(void *argument)
{
    struct alive *alive = argument;

    while (!atomic_load(&alive->ending)) {
        if (sem_wait(&alive->touch) == 0)
            (void)futimens(alive->file, NULL);
    }
    atomic_store(&alive->ended, true);
    return NULL;
}

enum status alive_start(struct alive *alive, const char *path)
{
    int error = 0;

    socket_open(alive);
    alive->file = -1;
    if (path != NULL) {
        alive->file = open(path, O_WRONLY | O_CREAT | O_CLOEXEC | O_NONBLOCK, S_IRUSR | S_IWUSR | S_IRGRP);
        error = alive->file < 0 ? errno : 0;
        (void)sem_init(&alive->touch, 0, 0);
        if (error == 0)
            error = thread_start(&alive->thread, touch_all, alive);
        alive->started = error == 0;
    }
    if (error != 0) {
        say("%s: cannot be touched: %s\n", path, strerror(error));
        return STATUS_INPUT;
    }
    notify(alive, "READY=1");
    return STATUS_DONE;
}

void alive_beat(struct alive *alive)
{
    struct timespec now;

    if ((alive->socket < 0 && alive->file < 0) || clock_gettime(CLOCK_MONOTONIC, &now) != 0)
        return;
    if (alive->any && now.tv_sec == alive->told.tv_sec)
        return;
    alive->any = true;
    alive->told = now;
    notify(alive, "WATCHDOG=1");
    if (alive->file >= 0)
        (void)sem_post(&alive->touch);
}

void alive_end(struct alive *alive)
{
    if (!alive->started)
        return;
    atomic_store(&alive->ending, true);
    (void)sem_post(&alive->touch);
    for (int i = 0; i < PAUSES && !atomic_load(&alive->ended); i++)
        thread_pause();
    if (atomic_load(&alive->ended))
        (void)pthread_join(alive->thread, NULL);
}
