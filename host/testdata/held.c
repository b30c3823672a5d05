/*
 * write and caisson_run on a bad day, for host/test: linked in with --wrap. While the file HELD_WHILE is there, a write
 * to the file HELD_FILE waits, as on a disk that is frozen; a run takes HELD_RUN microseconds for each cycle, and is
 * refused once the file HELD_REFUSE is there.
 */
#define _POSIX_C_SOURCE 200809L

#include <stdlib.h>
#include <sys/stat.h>
#include <time.h>
#include <unistd.h>

#include "caisson.h"

ssize_t __real_write(int file, const void *bytes, size_t count);
ssize_t __wrap_write(int file, const void *bytes, size_t count);
caisson_answer __real_caisson_run(const uint8_t *image, size_t image_length, uint8_t *registers,
                                  size_t registers_length, uint8_t *targets, size_t targets_length, uint32_t cycles);
caisson_answer __wrap_caisson_run(const uint8_t *image, size_t image_length, uint8_t *registers,
                                  size_t registers_length, uint8_t *targets, size_t targets_length, uint32_t cycles);

static int is_there(const char *variable)
{
    const char *path = getenv(variable);

    return path != NULL && access(path, F_OK) == 0;
}

static int is_held(int file)
{
    const char *path = getenv("HELD_FILE");
    struct stat held, found;

    return path != NULL && stat(path, &held) == 0 && fstat(file, &found) == 0 && held.st_dev == found.st_dev &&
           held.st_ino == found.st_ino;
}

ssize_t __wrap_write(int file, const void *bytes, size_t count)
{
    while (is_held(file) && is_there("HELD_WHILE"))
        (void)nanosleep(&(struct timespec){.tv_nsec = 10000000}, NULL);
    return __real_write(file, bytes, count);
}

caisson_answer __wrap_caisson_run(const uint8_t *image, size_t image_length, uint8_t *registers,
                                  size_t registers_length, uint8_t *targets, size_t targets_length, uint32_t cycles)
{
    const char *each = getenv("HELD_RUN");

    if (is_there("HELD_REFUSE"))
        return (caisson_answer){.number = CAISSON_AREA};
    if (each != NULL) {
        uint64_t microseconds = strtoull(each, NULL, 10) * cycles;
        struct timespec left = {.tv_sec = (time_t)(microseconds / 1000000),
                                .tv_nsec = (long)(microseconds % 1000000) * 1000};

        /* A signal does not make a heavy design lighter. */
        while (nanosleep(&left, &left) != 0)
            ;
    }
    return __real_caisson_run(image, image_length, registers, registers_length, targets, targets_length, cycles);
}
