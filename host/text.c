#include "text.h"

#include <stdio.h>
#include <stdlib.h>

static bool text_grow(struct text *text, size_t more)
{
    size_t room = 2 * text->room + more + 64;
    char *characters = realloc(text->characters, room);

    if (characters == NULL)
        return false;
    text->characters = characters;
    text->room = room;
    return true;
}

bool text_add(struct text *text, const char *format, ...)
{
    va_list arguments;
    bool whole;

    va_start(arguments, format);
    whole = text_add_list(text, format, arguments);
    va_end(arguments);
    return whole;
}

bool text_add_list(struct text *text, const char *format, va_list arguments)
{
    for (;;) {
        size_t room = text->room - text->length;
        va_list again;
        int more;

        va_copy(again, arguments);
        more = vsnprintf(room > 0 ? text->characters + text->length : NULL, room, format, again);
        va_end(again);
        if (more < 0)
            return false;
        /* The NUL behind it takes room too. */
        if ((size_t)more < room) {
            text->length += (size_t)more;
            return true;
        }
        if (!text_grow(text, (size_t)more))
            return false;
    }
}

void text_free(struct text *text)
{
    free(text->characters);
    *text = (struct text){0};
}
