/* numbers.h: decimal numbers in arguments and traces. */
#ifndef NUMBERS_H
#define NUMBERS_H

#include <stdbool.h>
#include <stdint.h>

#include "caisson.h"

/*
 * Reads digits from *cursor on, up to the first other character or the end, and moves *cursor behind
 * them. False where there is no digit or the number is above `most`. No sign, blank or 0x is taken.
 */
CAISSON_LOOK_AT_ANSWER
bool number_read(const char **cursor, const char *end, uint64_t most, uint64_t *number);

/*
 * The same for 32 bits, where a minus may stand before the digits: from -2147483648 to 4294967295. A
 * number below zero is read as its two's complement, as the signed operations of a design take it.
 */
CAISSON_LOOK_AT_ANSWER
bool number_read_word(const char **cursor, const char *end, uint32_t *word);

/* As number_read for a whole string: false also where anything follows the digits. */
CAISSON_LOOK_AT_ANSWER
bool number_read_all(const char *text, uint64_t most, uint64_t *number);

#endif
