/* lines.h: lines of a text, and the blanks between their words. */
#ifndef LINES_H
#define LINES_H

#include <stdbool.h>
#include <stdio.h>

#include "caisson.h"

enum line { LINE_READ, LINE_NONE, LINE_TOO_LONG, LINE_BROKEN };

/* The characters of the next line, at most so many, without the line feed; a last line may lack it. Of a line
   that is too long the rest is still to be read. */
CAISSON_LOOK_AT_ANSWER
enum line line_read(FILE *file, char *characters, size_t most, size_t *length);

/* Reads the rest of a line that was too long. */
void line_skip(FILE *file);

bool is_blank(char character);

#endif
