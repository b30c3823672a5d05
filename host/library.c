#include "library.h"

#include <inttypes.h>
#include <stdio.h>

#include "say.h"

const char *library_version(char version[LIBRARY_LONGEST_VERSION])
{
    uint32_t number = caisson_version();

    (void)snprintf(version, LIBRARY_LONGEST_VERSION, "%" PRIu32 ".%" PRIu32 ".%" PRIu32, number / 1000000,
                   number / 1000 % 1000, number % 1000);
    return version;
}

enum status library_judge(void)
{
    char version[LIBRARY_LONGEST_VERSION];

    if (caisson_matches())
        return STATUS_DONE;
    say("outstation: built with the header of version %s, format %d, and linked with the library of version %s, "
        "format %" PRIu32 ": build it again with the header of that library\n",
        CAISSON_VERSION, CAISSON_FORMAT, library_version(version), caisson_format());
    return STATUS_INPUT;
}
