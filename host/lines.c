#include "lines.h"

enum line line_read(FILE *file, char *characters, size_t most, size_t *length)
{
    int character;

    *length = 0;
    while ((character = getc(file)) != EOF && character != '\n') {
        if (*length == most)
            return LINE_TOO_LONG;
        characters[(*length)++] = (char)character;
    }
    if (ferror(file))
        return LINE_BROKEN;
    return character == EOF && *length == 0 ? LINE_NONE : LINE_READ;
}

void line_skip(FILE *file)
{
    int character;

    do
        character = getc(file);
    while (character != EOF && character != '\n');
}

bool is_blank(char character)
{
    return character == ' ' || character == '\t' || character == '\r';
}
