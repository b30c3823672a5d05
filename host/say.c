#define _POSIX_C_SOURCE 200809L

#include "say.h"

#include <poll.h>
#include <stdarg.h>
#include <stdio.h>
#include <unistd.h>

void say(const char *format, ...)
{
    va_list arguments;

    va_start(arguments, format);
    /* What cannot be said is lost: there is no other place to say it. The exit status remains. */
    (void)vfprintf(stderr, format, arguments);
    va_end(arguments);
}

bool say_is_ready(void)
{
    struct pollfd error = {.fd = STDERR_FILENO, .events = POLLOUT};

    return poll(&error, 1, 0) == 1 && (error.revents & POLLOUT) != 0;
}
