/* record_file.h: the file of a party's record as the system has it: how it is made, opened, and read by whom. */
#ifndef RECORD_FILE_H
#define RECORD_FILE_H

#include <stdbool.h>
#include <sys/types.h>

#include "caisson.h"

/* Reasons beside those of the system, which are above 0. */
enum {
    RECORD_FILE_GROUP = -1, /* it is there, and of another group than it should be */
    RECORD_FILE_OTHERS = -2 /* it is there, and others than its owner and its group may use it */
};

/*
 * Opens what is there, or makes a file. With a group (NULL: none is asked for) a new file has mode 0640 and the group
 * before a byte is in it, and one that is there must be of that group and closed to others. Answers the file, or -1
 * with the reason.
 */
CAISSON_LOOK_AT_ANSWER
int record_file_open(const char *path, const gid_t *group, int *reason);

/* Whether a file ends in the midst of a line, as a power failure may leave it. */
CAISSON_LOOK_AT_ANSWER
bool record_file_ends_in_line(int file);

/* A reason in words. */
const char *record_file_reason(int reason);

#endif
