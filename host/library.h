/* library.h: the library that is linked, and whether it is the one that this program was built for. */
#ifndef LIBRARY_H
#define LIBRARY_H

#include "caisson.h"
#include "status.h"

#define LIBRARY_LONGEST_VERSION 40u /* characters, its NUL counted */

/* STATUS_INPUT, with a message that names both versions, where header and library do not match. */
CAISSON_LOOK_AT_ANSWER
enum status library_judge(void);

/* The version of the library itself, such as 3.6.0, ended by a NUL. */
const char *library_version(char version[LIBRARY_LONGEST_VERSION]);

#endif
