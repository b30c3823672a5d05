/*
 * alive.h: tells that the cycles run, for who has to act when they do not.
 *
 * Each second the cycles themselves send a notice to systemd, where the program was started by it with a watchdog or as
 * a service that tells when it is ready, and have a file touched, where one is asked for. They wait for neither.
 */
#ifndef ALIVE_H
#define ALIVE_H

#include <pthread.h>
#include <semaphore.h>
#include <stdatomic.h>
#include <stdbool.h>
#include <sys/socket.h>
#include <sys/un.h>
#include <time.h>

#include "caisson.h"
#include "status.h"

struct alive {
    int socket; /* -1: none */
    struct sockaddr_un address;
    socklen_t address_length;
    int file; /* -1: none */
    sem_t touch;
    pthread_t thread;
    bool started;
    atomic_bool ending;
    atomic_bool ended;
    bool any; /* it was told once */
    struct timespec told;
};

/* Opens the file (NULL: none) and tells systemd that all is ready. STATUS_INPUT, with a message, where the file cannot
   be made. In either case alive_end is to be called, and the
   struct must last as long as the program. */
CAISSON_LOOK_AT_ANSWER
enum status alive_start(struct alive *alive, const char *path);

/* Between two cycles: tells it, if a second has gone. */
void alive_beat(struct alive *alive);

/* No more of it. What a disk holds is not waited for. */
void alive_end(struct alive *alive);

#endif
