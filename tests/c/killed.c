/* Loaded before the C library's own: whoever renames a file is first sent the signal whose number stands in the
   environment, as by somebody who ends it at that moment. */
#define _GNU_SOURCE
#include <fcntl.h>
#include <signal.h>
#include <stdio.h>
#include <stdlib.h>
#include <unistd.h>

int rename(const char *from, const char *to)
{
    const char *number = getenv("KILLED_BY");

    if (number != NULL)
        kill(getpid(), atoi(number));
    return renameat(AT_FDCWD, from, AT_FDCWD, to);
}
