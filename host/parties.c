#include "parties.h"

#include <string.h>

#include "numbers.h"
#include "say.h"
#include "table.h"

static const char name_characters[] = "abcdefghijklmnopqrstuvwxyz"
                                      "ABCDEFGHIJKLMNOPQRSTUVWXYZ"
                                      "0123456789-_.";

static const char *const label_names[CAISSON_LABELS] = {
    "label0", "label1", "label2",  "label3",  "label4",  "label5",  "label6",  "label7",
    "label8", "label9", "label10", "label11", "label12", "label13", "label14", "label15",
};

size_t party_name_span(const char *text)
{
    return strspn(text, name_characters);
}

bool party_read(struct party *party, const char *text)
{
    uint64_t number = 0;
    const char *level;

    party->name = text;
    party->name_length = party_name_span(text);
    if (party->name_length == 0 || party->name_length > PARTY_LONGEST_NAME || text[party->name_length] != ':')
        return false;
    level = text + party->name_length + 1;
    party->level_name = is_name(level, strlen(level)) ? level : NULL;
    if (party->level_name == NULL && !number_read_all(level, UINT32_MAX, &number))
        return false;
    party->level = (uint32_t)number;
    return true;
}

bool party_same_name(const struct party *party, const struct party *other)
{
    return party->name_length == other->name_length && memcmp(party->name, other->name, party->name_length) == 0;
}

size_t parties_of_labels(struct party parties[CAISSON_LABELS], const uint8_t *image, const struct names *names)
{
    size_t labels = table_labels(image);

    for (size_t label = 0; label < labels; label++) {
        const char *name = name_of_label(names, label);

        if (name == NULL)
            name = label_names[label];
        parties[label] = (struct party){.name = name, .name_length = strlen(name), .level = (uint32_t)label};
    }
    return labels;
}

static enum status no_such_name(const struct party *party, const struct names *names)
{
    say("party %.*s: level %s is no ", (int)party->name_length, party->name, party->level_name);
    if (name_of_label(names, 0) == NULL) {
        say("number, and the design has no names file\n");
        return STATUS_INPUT;
    }
    say("label of the design, which has ");
    for (size_t label = 0; label < CAISSON_LABELS && name_of_label(names, label) != NULL; label++)
        say("%s%s", label == 0 ? "" : ", ", name_of_label(names, label));
    say("\n");
    return STATUS_INPUT;
}

static enum status level_judge(struct party *party, size_t labels, const struct names *names)
{
    size_t label;

    if (party->level_name != NULL) {
        if (!label_named(names, party->level_name, strlen(party->level_name), &label))
            return no_such_name(party, names);
        party->level = (uint32_t)label;
    }
    if (party->level < labels)
        return STATUS_DONE;
    say("party %.*s: level %lu is no label of the design, which has labels 0 to %zu\n", (int)party->name_length,
        party->name, (unsigned long)party->level, labels - 1);
    return STATUS_INPUT;
}

enum status parties_judge(struct party *parties, size_t count, const uint8_t *image, const struct names *names)
{
    for (size_t i = 0; i < count; i++) {
        enum status status = level_judge(&parties[i], table_labels(image), names);

        if (status != STATUS_DONE)
            return status;
    }
    return STATUS_DONE;
}
