/* sha256.h: the checksum of a design's bytes, as FIPS 180-4 has it. */
#ifndef SHA256_H
#define SHA256_H

#include <stddef.h>
#include <stdint.h>

#define SHA256_DIGITS 64u /* characters of a sum */

/* The sum of so many bytes as lower-case hexadecimal digits, ended by a NUL. */
void sha256_digits(const uint8_t *bytes, size_t length, char digits[SHA256_DIGITS + 1u]);

#endif
