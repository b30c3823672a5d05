/* A `write` to load before the C library's: standard output takes as many bytes as the variable ROOM
 * says, and then fails. A program that tries it again behind a failure is told of on standard error. */
#define _DEFAULT_SOURCE
#include <errno.h>
#include <stdlib.h>
#include <sys/syscall.h>
#include <unistd.h>

static ssize_t really_write(int file, const void *bytes, size_t length) {
    return syscall(SYS_write, file, bytes, length);
}

ssize_t write(int file, const void *bytes, size_t length) {
    static const char again[] = "written again\n";
    static size_t taken;
    static int failed;

    if (file != STDOUT_FILENO)
        return really_write(file, bytes, length);
    if (failed)
        really_write(STDERR_FILENO, again, sizeof again - 1);
    size_t left = strtoul(getenv("ROOM"), NULL, 10) - taken;
    if (left == 0) {
        failed = 1;
        errno = ENOSPC;
        return -1;
    }
    ssize_t put = really_write(file, bytes, length < left ? length : left);
    if (put > 0)
        taken += (size_t)put;
    return put;
}
