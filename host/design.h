/* design.h: a design as it lies in its file, not yet checked. */
#ifndef DESIGN_H
#define DESIGN_H

#include "caisson.h"
#include "status.h"

struct design {
    size_t length;                             /* how many bytes of the image there are */
    uint8_t image[CAISSON_LARGEST_IMAGE + 1u]; /* one more than the largest image has */
};

/*
 * Reads a file, and of a longer one the first CAISSON_LARGEST_IMAGE + 1 bytes: enough for
 * caisson_check to refuse it, since no longer image is a design. STATUS_INPUT, with a message, where
 * it cannot be read.
 */
CAISSON_LOOK_AT_ANSWER
enum status design_load(struct design *design, const char *path);

#endif
