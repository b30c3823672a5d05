/* text.h: a text that grows as it is written. */
#ifndef TEXT_H
#define TEXT_H

#include <stdarg.h>
#include <stdbool.h>
#include <stddef.h>

/* All zero is an empty one. */
struct text {
    char *characters;
    size_t length;
    size_t room;
};

/* False where there is no memory; the text is then as before. */
#if defined(__GNUC__) || defined(__clang__)
__attribute__((format(printf, 2, 3)))
#endif
bool text_add(struct text *text, const char *format, ...);

bool text_add_list(struct text *text, const char *format, va_list arguments);

void text_free(struct text *text);

#endif
