/* say.h: what the program says beside its records, on standard error. */
#ifndef SAY_H
#define SAY_H

#include <stdbool.h>

#if defined(__GNUC__) || defined(__clang__)
__attribute__((format(printf, 1, 2)))
#endif
void say(const char *format, ...);

/* Whether standard error takes a line without keeping the caller waiting: a pipe whose reader has stopped does not. */
bool say_is_ready(void);

#endif
