#include "numbers.h"

#include <string.h>

bool number_read(const char **cursor, const char *end, uint64_t most, uint64_t *number)
{
    const char *at = *cursor;
    uint64_t sum = 0;

    for (; at < end && *at >= '0' && *at <= '9'; at++) {
        uint64_t digit = (uint64_t)(*at - '0');
        /* The first test keeps the product in the second one from wrapping. */
        if (sum > most / 10 || digit > most - 10 * sum)
            return false;
        sum = 10 * sum + digit;
    }
    if (at == *cursor)
        return false;
    *cursor = at;
    *number = sum;
    return true;
}

bool number_read_word(const char **cursor, const char *end, uint32_t *word)
{
    const char *at = *cursor;
    bool negative = at < end && *at == '-';
    uint64_t number;

    if (negative)
        at++;
    if (!number_read(&at, end, negative ? (uint64_t)INT32_MAX + 1 : UINT32_MAX, &number))
        return false;
    *cursor = at;
    *word = negative ? 0 - (uint32_t)number : (uint32_t)number;
    return true;
}

bool number_read_all(const char *text, uint64_t most, uint64_t *number)
{
    const char *end = text + strlen(text);

    return number_read(&text, end, most, number) && text == end;
}
