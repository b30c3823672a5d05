#define _POSIX_C_SOURCE 200809L

#include "output.h"

#include <errno.h>
#include <string.h>
#include <unistd.h>

#include "say.h"
#include "signals.h"

#define ROOM 65536u
#define PIECE 4096u /* bytes written at once: what one call takes of them is seen */

static char held[ROOM];
static size_t count;

static enum status not_written(int error)
{
    count = 0;
    say("standard output: cannot be written: %s\n", strerror(error));
    return STATUS_INPUT;
}

enum status output_flush(void)
{
    size_t at = 0;

    while (at < count) {
        ssize_t written = write(STDOUT_FILENO, held + at, count - at < PIECE ? count - at : PIECE);

        if (written < 0 && errno != EINTR)
            return not_written(errno);
        if (written > 0) {
            at += (size_t)written;
            signals_progress();
        }
    }
    count = 0;
    return STATUS_DONE;
}

enum status output_add(const char *characters, size_t length)
{
    while (length > 0) {
        size_t part = length < ROOM - count ? length : ROOM - count;

        memcpy(held + count, characters, part);
        count += part;
        characters += part;
        length -= part;
        if (count == ROOM) {
            enum status status = output_flush();

            if (status != STATUS_DONE)
                return status;
        }
    }
    return STATUS_DONE;
}
