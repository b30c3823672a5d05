/* Gate tables from C: accepted, refused by each rule in its order, and which bytes change. */
#include "expect.h"

/* Document 001's figure 3, a counter of 1 bit with a reset: docs/FORMAT.md has it byte by byte. */
static const uint8_t counter[] = {
    12, 0, 1, 0, 13, 0, 4, 0, 17, 0, 16, 0,
    0,          /* wire 0: the reset, trusted */
    5, 0, 1, 1, /* wire 1: takes wire 5, starts as an untrusted 1 */
    0, 0, 0, 0, /* wire 2 */
    1, 0, 1, 0, /* wire 3 */
    2, 0, 3, 0, /* wire 4 */
    4, 0, 4, 0, /* wire 5 */
};

/* Where the fields stand. */
enum { INPUT_MARK = 12, NEXT = 13, START_VALUE = 15, START_MARK = 16, FIRST_GATE = 17, LAST_GATE = 29 };

/* A byte that is no value and no mark, which lent bytes have before a call. */
enum { BEFORE = 0xA5 };

/* The area, with a byte behind it. */
static uint8_t area[3];

static void fill(uint8_t value, uint8_t mark)
{
    area[0] = value;
    area[1] = mark;
    area[2] = BEFORE;
}

static void expect_area(const char *what, uint8_t value, uint8_t mark)
{
    expect_bytes(what, area, (const uint8_t[]){value, mark, BEFORE}, sizeof area);
}

static void counts(void)
{
    static const uint8_t inputs[] = {0, 0, 1, 0, 0};
    static const uint8_t values[] = {0, 1, 0, 1, 0}, marks[] = {1, 1, 0, 0, 0};
    uint8_t table[sizeof counter];

    memcpy(table, counter, sizeof counter);
    fill(BEFORE, BEFORE);
    expect("check", caisson_gates_check(table, sizeof table), CAISSON_ACCEPTED, 0, 0);
    expect("reset", caisson_gates_reset(table, sizeof table, area, 2), CAISSON_ACCEPTED, 0, 0);
    expect_area("the area after a reset", 1, CAISSON_UNTRUSTED);
    for (size_t i = 0; i < sizeof inputs; i++) {
        uint8_t input = inputs[i];

        expect("cycle", caisson_gates_cycle(table, sizeof table, &input, 1, area, 2), CAISSON_ACCEPTED, 0, 0);
        expect_area("the area after a cycle", values[i], marks[i]);
        expect_bytes("the input after a cycle", &input, inputs + i, 1);
    }
    expect_bytes("the table after the cycles", table, counter, sizeof table);
}

/* A refusal by all three calls, which change nothing. */
static void refused(const char *what, const uint8_t *table, size_t length, uint32_t number, size_t place)
{
    static const uint8_t input = 0;

    fill(0, 1);
    expect(what, caisson_gates_check(table, length), number, place, 0);
    expect(what, caisson_gates_reset(table, length, area, 2), number, place, 0);
    expect(what, caisson_gates_cycle(table, length, &input, 1, area, 2), number, place, 0);
    /* The table is judged before the lengths, and these before what is lent. */
    expect(what, caisson_gates_reset(table, length, NULL, 0), number, place, 0);
    expect(what, caisson_gates_cycle(table, length, NULL, 0, NULL, 0), number, place, 0);
    expect_area(what, 0, 1);
}

/* The counter with one byte changed. */
static void changed(const char *what, size_t at, uint8_t byte, uint32_t number, size_t place)
{
    uint8_t table[sizeof counter];

    memcpy(table, counter, sizeof counter);
    table[at] = byte;
    refused(what, table, sizeof table, number, place);
}

static void tables(void)
{
    uint8_t longer[sizeof counter + 1] = {0};

    memcpy(longer, counter, sizeof counter);
    refused("no table", NULL, 0, CAISSON_GATE_DIRECTORY, 0);
    refused("a directory cut short", counter, 11, CAISSON_GATE_DIRECTORY, 0);
    refused("a table cut short", counter, sizeof counter - 1, CAISSON_GATE_DIRECTORY, 0);
    refused("a table with one byte more", longer, sizeof longer, CAISSON_GATE_DIRECTORY, 0);
    changed("the first offset of a design", 0, 20, CAISSON_GATE_DIRECTORY, 0);
    changed("part of a gate", 10, 15, CAISSON_GATE_DIRECTORY, 0);
    changed("an input's mark", INPUT_MARK, 2, CAISSON_GATE_WIRE, 0);
    changed("a next wire", NEXT, 6, CAISSON_GATE_WIRE, 1);
    changed("a next wire, high byte", NEXT + 1, 1, CAISSON_GATE_WIRE, 1);
    changed("a start value", START_VALUE, 2, CAISSON_GATE_WIRE, 1);
    changed("a start mark", START_MARK, 2, CAISSON_GATE_WIRE, 1);
    changed("a gate that reads itself", FIRST_GATE, 2, CAISSON_GATE_WIRE, 2);
    changed("a gate that reads a higher wire", FIRST_GATE + 2, 3, CAISSON_GATE_WIRE, 2);
    changed("the last gate", LAST_GATE, 5, CAISSON_GATE_WIRE, 5);
}

static caisson_answer cycle(const uint8_t *inputs, size_t inputs_len, size_t area_len)
{
    return caisson_gates_cycle(counter, sizeof counter, inputs, inputs_len, area, area_len);
}

/* 14 for lengths, whatever is lent; then 26 at the lowest wire. */
static void lent(void)
{
    static const uint8_t bad[] = {2, 2}, good[] = {1, 1};

    fill(2, 2);
    expect("no input lent", cycle(NULL, 0, 2), CAISSON_AREA, 0, 0);
    expect("two inputs lent", cycle(bad, 2, 2), CAISSON_AREA, 0, 0);
    expect("no area lent", caisson_gates_cycle(counter, sizeof counter, bad, 1, NULL, 0), CAISSON_AREA, 0, 0);
    expect("half an area", cycle(bad, 1, 1), CAISSON_AREA, 0, 0);
    expect("an area with one byte more", cycle(bad, 1, 3), CAISSON_AREA, 0, 0);
    expect("reset of half an area", caisson_gates_reset(counter, sizeof counter, area, 1), CAISSON_AREA, 0, 0);
    expect("reset of a longer area", caisson_gates_reset(counter, sizeof counter, area, 3), CAISSON_AREA, 0, 0);
    expect("an input's value", cycle(bad, 1, 2), CAISSON_GATE_WIRE, 0, 0);
    expect("both of a flip-flop", cycle(good, 1, 2), CAISSON_GATE_WIRE, 1, 0);
    expect_area("the area after lengths and values", 2, 2);
    fill(1, 2);
    expect("a flip-flop's mark", cycle(good, 1, 2), CAISSON_GATE_WIRE, 1, 0);
    expect_area("the area after a mark", 1, 2);
    fill(2, 1);
    expect("a flip-flop's value", cycle(good, 1, 2), CAISSON_GATE_WIRE, 1, 0);
    expect_area("the area after a value", 2, 1);
    expect("reset judges no contents", caisson_gates_reset(counter, sizeof counter, area, 2), CAISSON_ACCEPTED, 0, 0);
    expect_area("the area after a reset", 1, 1);
}

/* A table of nothing has no inputs and no area, and NULL is lent for both. */
static void nothing(void)
{
    static const uint8_t empty[] = {12, 0, 0, 0, 12, 0, 0, 0, 12, 0, 0, 0};

    expect("check of nothing", caisson_gates_check(empty, sizeof empty), CAISSON_ACCEPTED, 0, 0);
    expect("reset of nothing", caisson_gates_reset(empty, sizeof empty, NULL, 0), CAISSON_ACCEPTED, 0, 0);
    expect("cycle of nothing", caisson_gates_cycle(empty, sizeof empty, NULL, 0, NULL, 0), CAISSON_ACCEPTED, 0, 0);
}

/* Neither kind is taken for the other. */
static void designs(void)
{
    expect("a gate table as a design", caisson_check(counter, sizeof counter), CAISSON_DIRECTORY, 0, 0);
}

int main(void)
{
    counts();
    tables();
    lent();
    nothing();
    designs();
    return report("gate tables from C");
}
