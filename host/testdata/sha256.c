/* Prints the sum of standard input. */
#include "sha256.h"

#include <stdio.h>

int main(void)
{
    static uint8_t bytes[2000000];
    size_t length = fread(bytes, 1, sizeof bytes, stdin);
    char digits[SHA256_DIGITS + 1u];

    sha256_digits(bytes, length, digits);
    return puts(digits) == EOF;
}
