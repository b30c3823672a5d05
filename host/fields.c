#include "fields.h"

#include <string.h>

#include "lines.h"
#include "numbers.h"

static void skip_blanks(struct fields *fields)
{
    while (fields->at < fields->end && is_blank(*fields->at))
        fields->at++;
}

/* Whether a field ends here; the blanks behind it are skipped. */
static bool field_end(struct fields *fields)
{
    const char *start = fields->at;

    skip_blanks(fields);
    return fields->at > start || fields->at == fields->end;
}

struct fields fields_of(const char *characters, size_t length)
{
    const char *comment = memchr(characters, '#', length);
    struct fields fields = {characters, comment != NULL ? comment : characters + length};

    skip_blanks(&fields);
    return fields;
}

bool fields_left(const struct fields *fields)
{
    return fields->at < fields->end;
}

bool field_number(struct fields *fields, uint64_t most, uint64_t *number)
{
    return number_read(&fields->at, fields->end, most, number) && field_end(fields);
}

const char *field_register(struct fields *fields, const struct names *names, uint32_t *reg)
{
    const char *start = fields->at;
    const char *end = start;
    uint64_t number;
    size_t named;

    while (end < fields->end && !is_blank(*end))
        end++;
    /* No name begins as a number does. */
    if (register_named(names, start, (size_t)(end - start), &named)) {
        fields->at = end;
        skip_blanks(fields);
        *reg = (uint32_t)named;
        return NULL;
    }
    if (field_number(fields, UINT32_MAX, &number)) {
        *reg = (uint32_t)number;
        return NULL;
    }
    if (names != NULL && names->text != NULL)
        return "the register is no name of one of the design and no number from 0 to 4294967295";
    return is_name(start, (size_t)(end - start))
               ? "the register is no number from 0 to 4294967295, and the design has no names file"
               : "the register is no number from 0 to 4294967295";
}

const char *field_value(struct fields *fields, uint32_t *value)
{
    return number_read_word(&fields->at, fields->end, value) && field_end(fields)
               ? NULL
               : "the value is no number from -2147483648 to 4294967295";
}
