/* Filing from C and from C++: the form of a design under several numberings, which bytes change, what is refused,
   and which of two images is the earlier. The gate builds this file in both languages. */
#include "expect.h"

enum { COMMANDS = 11, EXPRESSIONS = 10 };

/* In its filing form: the condition of state 1's if stands behind the expressions of the branches. */
static const uint8_t form[] = {
    20, 0, 2, 0, 22, 0, 14, 0, 36, 0, 27, 0, 63, 0, 88, 0, 151, 0, 80, 0,
    /* labels */
    1, 0,
    /* registers: label, kind, reset, width */
    0, 0, 3, 0, 0, 0, 32, 0, 1, 0, 0, 0, 0, 32,
    /* states: parent, label, command, count and bounds of parameters */
    0, 0, 0, 0, 0, 0, 0, 0, 0,
    0, 0, 7, 0, 0, 0, 0, 0, 0,
    0, 0, 10, 0, 0, 0, 0, 0, 0,
    /* commands */
    3, 0, 0, 0, 0, 0, 0, 0, /* 0: fall */
    1, 0, 2, 0, 0, 0, 0, 0, /* 1: r0 := e2 */
    4, 2, 0, 0, 0, 0, 0, 0, /* 2: goto 2 */
    2, 0, 1, 0, 2, 0, 0, 0, /* 3: 1; 2 */
    1, 0, 3, 0, 0, 0, 0, 0, /* 4: r0 := e3 */
    4, 1, 0, 0, 0, 0, 0, 0, /* 5: goto 1 */
    2, 0, 4, 0, 5, 0, 0, 0, /* 6: 4; 5 */
    5, 0, 6, 0, 3, 0, 6, 0, /* 7: if e6 then 3 else 6 */
    1, 0, 9, 0, 0, 0, 0, 0, /* 8: r0 := e9 */
    4, 1, 0, 0, 0, 0, 0, 0, /* 9: goto 1 */
    2, 0, 8, 0, 9, 0, 0, 0, /* 10: 8; 9 */
    /* expressions */
    1, 0, 0, 0, 0, 0, 0, 0, /* 0: r0 */
    0, 0, 0, 0, 1, 0, 0, 0, /* 1: 1 */
    3, 0, 0, 0, 1, 0, 0, 0, /* 2: e0 - e1 */
    0, 0, 0, 0, 3, 0, 0, 0, /* 3: 3 */
    1, 1, 0, 0, 0, 0, 0, 0, /* 4: r1 */
    0, 0, 0, 0, 2, 0, 0, 0, /* 5: 2 */
    7, 0, 4, 0, 5, 0, 0, 0, /* 6: e4 == e5 */
    1, 0, 0, 0, 0, 0, 0, 0, /* 7: r0 */
    1, 1, 0, 0, 0, 0, 0, 0, /* 8: r1 */
    2, 0, 7, 0, 8, 0, 0, 0, /* 9: e7 + e8 */
};

/* Where states, commands and expressions begin, the kind of r0, and the constants 3 and 2 of expressions 3 and 5. */
enum { STATES_AT = 36, COMMANDS_AT = 63, EXPRESSIONS_AT = 151, R0_KIND = 23, CONSTANT_3 = 179, CONSTANT_5 = 195 };

/* The number that each node of the form has in another numbering. Parts stay below their owners. */
struct numbering {
    uint8_t commands[COMMANDS], expressions[EXPRESSIONS];
};

static const struct numbering numberings[] = {
    /* its own */
    {{0, 1, 2, 3, 4, 5, 6, 7, 8, 9, 10}, {0, 1, 2, 3, 4, 5, 6, 7, 8, 9}},
    /* the condition before the branches, as a text is numbered */
    {{0, 1, 2, 3, 4, 5, 6, 7, 8, 9, 10}, {3, 4, 5, 6, 0, 1, 2, 7, 8, 9}},
    /* from the last state to the first, the last part first */
    {{10, 7, 6, 8, 4, 3, 5, 9, 1, 0, 2}, {5, 4, 6, 3, 8, 7, 9, 1, 0, 2}},
    /* what has no parts before what has some */
    {{3, 6, 2, 8, 5, 1, 7, 10, 4, 0, 9}, {3, 5, 8, 1, 6, 2, 9, 4, 0, 7}},
};

enum { NUMBERINGS = sizeof numberings / sizeof *numberings };

/* A byte that the area has before a call. */
enum { BEFORE = 0xA5 };

/* An area that is long enough for every image. */
static uint8_t out[CAISSON_LARGEST_IMAGE];

static void fill(uint8_t byte)
{
    memset(out, byte, sizeof out);
}

/* From here on the area is as it was filled. */
static void expect_kept(const char *what, size_t from, uint8_t byte)
{
    static uint8_t before[sizeof out];

    memset(before, byte, sizeof before);
    expect_bytes(what, out + from, before, sizeof out - from);
}

/* An image with the records of the form, under another numbering. Every number here fits into a byte. */
static void renumber(const uint8_t *from, const struct numbering *numbers, uint8_t *to)
{
    memcpy(to, from, sizeof form);
    for (size_t command = STATES_AT + 2; command < COMMANDS_AT; command += CAISSON_STATE_LENGTH)
        to[command] = numbers->commands[from[command]];
    for (size_t i = 0; i < COMMANDS; i++) {
        const uint8_t *old = from + COMMANDS_AT + CAISSON_NODE_LENGTH * i;
        uint8_t *node = to + COMMANDS_AT + CAISSON_NODE_LENGTH * numbers->commands[i];

        memcpy(node, old, CAISSON_NODE_LENGTH);
        if (old[0] == 1 || old[0] == 5)
            node[2] = numbers->expressions[old[2]];
        if (old[0] == 2)
            node[2] = numbers->commands[old[2]];
        if (old[0] == 2 || old[0] == 5)
            node[4] = numbers->commands[old[4]];
        if (old[0] == 5)
            node[6] = numbers->commands[old[6]];
    }
    for (size_t i = 0; i < EXPRESSIONS; i++) {
        const uint8_t *old = from + EXPRESSIONS_AT + CAISSON_NODE_LENGTH * i;
        uint8_t *node = to + EXPRESSIONS_AT + CAISSON_NODE_LENGTH * numbers->expressions[i];

        memcpy(node, old, CAISSON_NODE_LENGTH);
        if (old[0] >= 2) {
            node[2] = numbers->expressions[old[2]];
            node[4] = numbers->expressions[old[4]];
        }
    }
}

/* At each length from that of the form on, whatever the area holds, under each numbering. */
static void accepted(void)
{
    static const size_t lengths[] = {sizeof form, sizeof form + 1, sizeof out};
    static const uint8_t bytes[] = {0, BEFORE, 0xFF};
    uint8_t image[sizeof form], again[sizeof form];

    for (size_t n = 0; n < NUMBERINGS; n++) {
        renumber(form, &numberings[n], image);
        memcpy(again, image, sizeof image);
        expect("check under a numbering", caisson_check(image, sizeof image), CAISSON_ACCEPTED, 0, 0);
        if ((memcmp(image, form, sizeof form) == 0) != (n == 0)) {
            fprintf(stderr, "numbering %zu is none of its own\n", n);
            failures++;
        }
        for (size_t i = 0; i < sizeof lengths / sizeof *lengths; i++)
            for (size_t k = 0; k < sizeof bytes; k++) {
                fill(bytes[k]);
                expect("file", caisson_file(image, sizeof image, out, lengths[i]), CAISSON_ACCEPTED, 0, sizeof form);
                expect_bytes("the filing form", out, form, sizeof form);
                expect_kept("bytes beyond the form", sizeof form, bytes[k]);
            }
        expect_bytes("the image that was filed", image, again, sizeof image);
    }
    expect("check of the form", caisson_check(out, sizeof form), CAISSON_ACCEPTED, 0, 0);
    expect("file the form", caisson_file(out, sizeof form, again, sizeof again), CAISSON_ACCEPTED, 0, sizeof form);
    expect_bytes("the form of the form", again, form, sizeof form);
}

/* The image checks, then 24. No byte changes. */
static void refusals(void)
{
    uint8_t image[sizeof form];

    fill(BEFORE);
    expect("a null image", caisson_file(NULL, 0, NULL, 0), CAISSON_DIRECTORY, 0, 0);
    expect("a null image and an area", caisson_file(NULL, 0, out, sizeof out), CAISSON_DIRECTORY, 0, 0);
    expect("a short image", caisson_file(form, sizeof form - 1, out, sizeof out), CAISSON_DIRECTORY, 0, 0);
    expect("no area", caisson_file(form, sizeof form, NULL, 0), CAISSON_OUTPUT_AREA, 0, 0);
    for (size_t n = 0; n < NUMBERINGS; n++) {
        renumber(form, &numberings[n], image);
        for (size_t length = 0; length < sizeof image; length++)
            expect("an area too short", caisson_file(image, sizeof image, out, length), CAISSON_OUTPUT_AREA, 0, 0);
    }
    memcpy(image, form, sizeof form);
    image[R0_KIND] = 1; /* r0 is a port, and command 1 assigns to it */
    expect("an assigned port", caisson_file(image, sizeof image, out, sizeof out), CAISSON_PORT_ASSIGNED, 1, 0);
    expect("an assigned port, no area", caisson_file(image, sizeof image, NULL, 0), CAISSON_PORT_ASSIGNED, 1, 0);
    expect_kept("the area after refusals", 0, BEFORE);
}

/* What is handed back, by its pointer, and the same without one. */
static void expect_part(const char *what, const uint8_t *first, size_t first_len, const uint8_t *second,
                        size_t second_len, const uint8_t *bytes, size_t len)
{
    caisson_part part = caisson_earlier(first, first_len, second, second_len);
    caisson_which which = caisson_which_earlier(first, first_len, second, second_len);

    answers += 2;
    if (part.bytes == bytes && part.len == len && which.second == (bytes != first) && which.len == len)
        return;
    fprintf(stderr, "%s: another part than expected: %zu bytes; %u, %zu bytes\n", what, part.len,
            (unsigned)which.second, which.len);
    failures++;
}

/* Either way round the same image is handed back. */
static void expect_earlier(const char *what, const uint8_t *early, size_t early_len, const uint8_t *late,
                           size_t late_len)
{
    expect_part(what, early, early_len, late, late_len, early, early_len);
    expect_part(what, late, late_len, early, early_len, early, early_len);
}

/* Whatever the numberings of two designs are. */
static void orders(void)
{
    /* A root alone: shorter, and earlier by its directory. */
    static const uint8_t small[] = {
        20, 0, 2, 0, 22, 0, 0, 0, 22, 0, 18, 0, 40, 0, 16, 0, 56, 0, 0, 0, 1, 0,
        0, 0, 0, 0, 0, 0, 0, 0, 0, 0, 0, 1, 0, 0, 0, 0, 0, 0, 3, 0, 0, 0, 0, 0, 0, 0, 4, 1, 0, 0, 0, 0, 0, 0};
    uint8_t lower[sizeof form], higher[sizeof form], one[sizeof form], other[sizeof form], before[2][sizeof form];
    int against_bytes = 0;

    memcpy(lower, form, sizeof form);
    lower[CONSTANT_3] = 2;
    /* Its first difference decides, whatever stands behind it. */
    memcpy(higher, form, sizeof form);
    higher[CONSTANT_3] = 4;
    higher[CONSTANT_5] = 0;
    for (size_t n = 0; n < NUMBERINGS; n++)
        for (size_t k = 0; k < NUMBERINGS; k++) {
            renumber(form, &numberings[n], one);
            renumber(form, &numberings[k], other);
            memcpy(before[0], one, sizeof one);
            memcpy(before[1], other, sizeof other);
            expect_part("of equal ones the first", one, sizeof one, other, sizeof other, one, sizeof one);
            expect_part("of equal ones the first", other, sizeof other, one, sizeof one, other, sizeof other);
            expect_bytes("the first image", one, before[0], sizeof one);
            expect_bytes("the second image", other, before[1], sizeof other);
            renumber(lower, &numberings[k], other);
            expect_earlier("a lower constant", other, sizeof other, one, sizeof one);
            against_bytes += memcmp(other, one, sizeof one) > 0;
            renumber(higher, &numberings[k], other);
            expect_earlier("a higher constant", one, sizeof one, other, sizeof other);
            expect_earlier("a shorter image", small, sizeof small, one, sizeof one);
        }
    if (against_bytes == 0) {
        fprintf(stderr, "the bytes of the images have the order of their forms\n");
        failures++;
    }
    expect_part("one image twice", one, sizeof one, one, sizeof one, one, sizeof one);
}

/* An empty part of the first, whichever is refused. */
static void not_ordered(void)
{
    uint8_t image[sizeof form], wrong[sizeof form];

    renumber(form, &numberings[2], image);
    memcpy(wrong, form, sizeof form);
    wrong[R0_KIND] = 1;
    expect_part("the first refused", wrong, sizeof wrong, image, sizeof image, wrong, 0);
    expect_part("the second refused", image, sizeof image, wrong, sizeof wrong, image, 0);
    expect_part("both refused", wrong, sizeof wrong, wrong, sizeof wrong, wrong, 0);
    expect_part("the first cut short", image, sizeof image - 1, form, sizeof form, image, 0);
    expect_part("the second cut short", form, sizeof form, image, sizeof image - 1, form, 0);
    expect_part("no first image", NULL, 0, form, sizeof form, NULL, 0);
    expect_part("no second image", form, sizeof form, NULL, 0, form, 0);
    expect_part("no image", NULL, 0, NULL, 0, NULL, 0);
}

#ifdef __cplusplus
#define LANGUAGE "C++"
#else
#define LANGUAGE "C"
#endif

int main(void)
{
    accepted();
    refusals();
    orders();
    not_ordered();
    return report("filing from " LANGUAGE);
}
