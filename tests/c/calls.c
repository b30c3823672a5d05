/* The library called from C: 01's lease design checked, its areas' lengths told, and run; narrow registers
   and signed operations; null slices, and what is refused. */
#include "expect.h"

/* The lease design, 235 bytes: labels, registers, states, commands, expressions. */
static const uint8_t lease[] = {
    20, 0, 4, 0, 24, 0, 14, 0, 38, 0, 45, 0, 83, 0, 104, 0, 187, 0, 48, 0,
    /* labels */
    3, 0, 2, 0,
    /* registers: label, kind, reset, width */
    0, 0, 3, 0, 0, 0, 32, 1, 1, 0, 0, 0, 0, 32,
    /* states: parent, label, command, count and bounds of parameters */
    0, 0, 0, 0, 0, 0, 0, 0, 0,
    0, 0, 3, 0, 0, 0, 0, 0, 0,
    0, 0, 8, 0, 0, 0, 0, 0, 0,
    2, 1, 11, 0, 0, 0, 0, 0, 0,
    2, 1, 12, 0, 0, 0, 0, 0, 0,
    /* commands */
    3, 0, 0, 0, 0, 0, 0, 0, /* 0: fall */
    1, 0, 0, 0, 0, 0, 0, 0, /* 1: r0 := e0 */
    4, 2, 0, 0, 0, 0, 0, 0, /* 2: goto 2 */
    2, 0, 1, 0, 2, 0, 0, 0, /* 3: 1; 2 */
    1, 0, 3, 0, 0, 0, 0, 0, /* 4: r0 := e3 */
    3, 0, 0, 0, 0, 0, 0, 0, /* 5: fall */
    4, 1, 0, 0, 0, 0, 0, 0, /* 6: goto 1 */
    5, 0, 4, 0, 5, 0, 6, 0, /* 7: if e4 then 5 else 6 */
    2, 0, 4, 0, 7, 0, 0, 0, /* 8: 4; 7 */
    4, 4, 0, 0, 0, 0, 0, 0, /* 9: goto 4 */
    4, 3, 0, 0, 0, 0, 0, 0, /* 10: goto 3 */
    5, 0, 5, 0, 9, 0, 10, 0, /* 11: if e5 then 9 else 10 */
    4, 3, 0, 0, 0, 0, 0, 0, /* 12: goto 3 */
    /* expressions */
    0, 0, 0, 0, 3, 0, 0, 0, /* 0: 3 */
    1, 0, 0, 0, 0, 0, 0, 0, /* 1: r0 */
    0, 0, 0, 0, 1, 0, 0, 0, /* 2: 1 */
    3, 0, 1, 0, 2, 0, 0, 0, /* 3: e1 - e2 */
    1, 0, 0, 0, 0, 0, 0, 0, /* 4: r0 */
    1, 1, 0, 0, 0, 0, 0, 0, /* 5: r1 */
};

/* A design without registers: a root that falls, and its child, which goes to itself. */
static const uint8_t smallest[] = {
    20, 0, 2, 0, 22, 0, 0, 0, 22, 0, 18, 0, 40, 0, 16, 0, 56, 0, 0, 0,
    /* labels */
    1, 0,
    /* states */
    0, 0, 0, 0, 0, 0, 0, 0, 0,
    0, 0, 1, 0, 0, 0, 0, 0, 0,
    /* commands */
    3, 0, 0, 0, 0, 0, 0, 0, /* 0: fall */
    4, 1, 0, 0, 0, 0, 0, 0, /* 1: goto 1 */
};

/* r0 of width 2, which counts, and the ports r1 of width 10 and r2 of width 1. */
static const uint8_t narrow[] = {
    20, 0, 2, 0, 22, 0, 21, 0, 43, 0, 18, 0, 61, 0, 32, 0, 93, 0, 24, 0,
    /* labels */
    1, 0,
    /* registers: label, kind, reset, width */
    0, 0, 2, 0, 0, 0, 2, 0, 1, 255, 3, 0, 0, 10, 0, 1, 0, 0, 0, 0, 1,
    /* states */
    0, 0, 0, 0, 0, 0, 0, 0, 0,
    0, 0, 3, 0, 0, 0, 0, 0, 0,
    /* commands */
    3, 0, 0, 0, 0, 0, 0, 0, /* 0: fall */
    1, 0, 2, 0, 0, 0, 0, 0, /* 1: r0 := e2 */
    4, 1, 0, 0, 0, 0, 0, 0, /* 2: goto 1 */
    2, 0, 1, 0, 2, 0, 0, 0, /* 3: 1; 2 */
    /* expressions */
    1, 0, 0, 0, 0, 0, 0, 0, /* 0: r0 */
    0, 0, 0, 0, 1, 0, 0, 0, /* 1: 1 */
    2, 0, 0, 0, 1, 0, 0, 0, /* 2: e0 + e1 */
};

/* r0, r1 and r2 take the signed less, the arithmetic right shift and the signed quotient of the ports r3
   and r4. */
static const uint8_t signed_operations[] = {
    20, 0, 2, 0, 22, 0, 35, 0, 57, 0, 18, 0, 75, 0, 64, 0, 139, 0, 72, 0,
    /* labels */
    1, 0,
    /* registers: label, kind, reset, width */
    0, 0, 0, 0, 0, 0, 32, 0, 0, 0, 0, 0, 0, 32, 0, 0, 0, 0, 0, 0, 32, 0, 1, 0, 0, 0, 0, 32, 0, 1, 0, 0, 0, 0, 32,
    /* states */
    0, 0, 0, 0, 0, 0, 0, 0, 0,
    0, 0, 7, 0, 0, 0, 0, 0, 0,
    /* commands */
    3, 0, 0, 0, 0, 0, 0, 0, /* 0: fall */
    1, 0, 2, 0, 0, 0, 0, 0, /* 1: r0 := e2 */
    1, 1, 5, 0, 0, 0, 0, 0, /* 2: r1 := e5 */
    1, 2, 8, 0, 0, 0, 0, 0, /* 3: r2 := e8 */
    2, 0, 1, 0, 2, 0, 0, 0, /* 4: 1; 2 */
    2, 0, 4, 0, 3, 0, 0, 0, /* 5: 4; 3 */
    4, 1, 0, 0, 0, 0, 0, 0, /* 6: goto 1 */
    2, 0, 5, 0, 6, 0, 0, 0, /* 7: 5; 6 */
    /* expressions */
    1, 3, 0, 0, 0, 0, 0, 0, /* 0: r3 */
    1, 4, 0, 0, 0, 0, 0, 0, /* 1: r4 */
    9, 0, 0, 0, 1, 0, 0, 0, /* 2: signed less of e0 and e1 */
    1, 3, 0, 0, 0, 0, 0, 0, /* 3: r3 */
    1, 4, 0, 0, 0, 0, 0, 0, /* 4: r4 */
    10, 0, 3, 0, 4, 0, 0, 0, /* 5: arithmetic right shift of e3 by e4 */
    1, 3, 0, 0, 0, 0, 0, 0, /* 6: r3 */
    1, 4, 0, 0, 0, 0, 0, 0, /* 7: r4 */
    11, 0, 6, 0, 7, 0, 0, 0, /* 8: signed quotient of e6 and e7 */
};

static void checks(void)
{
    uint8_t damaged[sizeof lease];

    expect("the lease design", caisson_check(lease, sizeof lease), CAISSON_ACCEPTED, 0, 0);
    expect("a null image", caisson_check(NULL, 0), CAISSON_DIRECTORY, 0, 0);
    expect("the image without its last byte", caisson_check(lease, sizeof lease - 1), CAISSON_DIRECTORY, 0, 0);

    memcpy(damaged, lease, sizeof lease);
    damaged[25] = 2; /* the kind of r0 */
    expect("a register of kind 2", caisson_check(damaged, sizeof damaged), CAISSON_REGISTER_RECORD, 0, 0);

    memcpy(damaged, lease, sizeof lease);
    damaged[211] = 11; /* the kind of expression 3, which has two parts */
    expect("an expression of kind 11", caisson_check(damaged, sizeof damaged), CAISSON_ACCEPTED, 0, 0);
    damaged[211] = 12;
    expect("an expression of kind 12", caisson_check(damaged, sizeof damaged), CAISSON_NODE_RECORD,
           CAISSON_EXPRESSION_PLACE + 3, 0);

    memcpy(damaged, lease, sizeof lease);
    damaged[66] = 0; /* the label of state 3, which branches on the port of label 1 */
    expect("a secret branch in a low state", caisson_check(damaged, sizeof damaged), CAISSON_GOTO_FLOW, 10, 0);
    damaged[92] = 1; /* the register of command 1: r1, a port. It is judged before the flow */
    expect("an assignment to a port", caisson_check(damaged, sizeof damaged), CAISSON_PORT_ASSIGNED, 1, 0);
}

/* A width is from 1 to 32, and a reset value below 2 to the power of it. */
static void widths(void)
{
    uint8_t damaged[sizeof lease];

    memcpy(damaged, lease, sizeof lease);
    damaged[37] = 33; /* the width of r1 */
    expect("a width of 33", caisson_check(damaged, sizeof damaged), CAISSON_REGISTER_RECORD, 1, 0);
    damaged[37] = 0;
    expect("a width of 0", caisson_check(damaged, sizeof damaged), CAISSON_REGISTER_RECORD, 1, 0);
    damaged[37] = 1;
    expect("a width of 1", caisson_check(damaged, sizeof damaged), CAISSON_ACCEPTED, 0, 0);
    damaged[30] = 2; /* the width of r0, whose reset value is 3 */
    expect("the largest reset value of a width", caisson_check(damaged, sizeof damaged), CAISSON_ACCEPTED, 0, 0);
    damaged[26] = 4; /* the reset value of r0 */
    expect("a reset value too large", caisson_check(damaged, sizeof damaged), CAISSON_REGISTER_RECORD, 0, 0);
}

/* Each length is told for an accepted image alone; a refusal is that of caisson_check. */
static void lengths(void)
{
    uint8_t damaged[sizeof lease];

    expect("the registers' length", caisson_registers_length(lease, sizeof lease), CAISSON_ACCEPTED, 0,
           2 * CAISSON_WORD);
    expect("the targets' length", caisson_targets_length(lease, sizeof lease), CAISSON_ACCEPTED, 0, 15);
    expect("the registers' length of no registers", caisson_registers_length(smallest, sizeof smallest),
           CAISSON_ACCEPTED, 0, 0);
    expect("the targets' length of two states", caisson_targets_length(smallest, sizeof smallest), CAISSON_ACCEPTED,
           0, 2 * CAISSON_TARGET_LENGTH);

    expect("the registers' length of a null image", caisson_registers_length(NULL, 0), CAISSON_DIRECTORY, 0, 0);
    expect("the targets' length of a null image", caisson_targets_length(NULL, 0), CAISSON_DIRECTORY, 0, 0);
    memcpy(damaged, lease, sizeof lease);
    damaged[66] = 0; /* the label of state 3, as above: refused by the last pass */
    expect("the registers' length of a refused image", caisson_registers_length(damaged, sizeof damaged),
           CAISSON_GOTO_FLOW, 10, 0);
    expect("the targets' length of a refused image", caisson_targets_length(damaged, sizeof damaged),
           CAISSON_GOTO_FLOW, 10, 0);
}

/* Document 01's four lines, with r1 = 7 written after the second cycle. */
static void cycles(void)
{
    /* Behind the targets no register is bound. */
    static const uint8_t after[4][8 + 15] = {
        {3, 0, 0, 0, 0, 0, 0, 0, 2, 1, 3, 3, 4},
        {2, 0, 0, 0, 0, 0, 0, 0, 2, 1, 3, 3, 4},
        {1, 0, 0, 0, 7, 0, 0, 0, 2, 1, 4, 3, 4},
        {0, 0, 0, 0, 7, 0, 0, 0, 1, 1, 4, 3, 4},
    };
    uint8_t registers[8], targets[15];

    expect("reset", caisson_reset(lease, sizeof lease, registers, 8, targets, 15), CAISSON_ACCEPTED, 0, 0);
    for (int i = 0; i < 4; i++) {
        if (i == 2)
            expect("a port write", caisson_write_port(lease, sizeof lease, registers, 8, 1, 7), CAISSON_ACCEPTED, 0, 0);
        expect("a cycle", caisson_run(lease, sizeof lease, registers, 8, targets, 15, 1), CAISSON_ACCEPTED, 0, 1);
        expect_bytes("registers after a cycle", registers, after[i], 8);
        expect_bytes("targets after a cycle", targets, after[i] + 8, 15);
    }
    expect("no cycle", caisson_run(lease, sizeof lease, registers, 8, targets, 15, 0), CAISSON_ACCEPTED, 0, 0);
    expect_bytes("registers after no cycle", registers, after[3], 8);
}

/* However long it is, a run leaves a port as the host wrote it. */
static void ports(void)
{
    static const uint8_t written[CAISSON_WORD] = {1, 2, 3, 4};
    uint8_t registers[8], targets[15];

    expect("reset", caisson_reset(lease, sizeof lease, registers, 8, targets, 15), CAISSON_ACCEPTED, 0, 0);
    expect("a port write", caisson_write_port(lease, sizeof lease, registers, 8, 1, 0x04030201), CAISSON_ACCEPTED, 0,
           0);
    expect("a long run", caisson_run(lease, sizeof lease, registers, 8, targets, 15, CAISSON_CYCLES), CAISSON_ACCEPTED,
           0, CAISSON_CYCLES);
    expect_bytes("the port after a long run", registers + CAISSON_WORD, written, CAISSON_WORD);
}

/* A count of two bits goes 2, 3, 0, 1, and ports take all values of their widths. */
static void narrow_registers(void)
{
    uint8_t registers[12], targets[6];

    expect("reset", caisson_reset(narrow, sizeof narrow, registers, 12, targets, 6), CAISSON_ACCEPTED, 0, 0);
    expect_bytes("reset values", registers, (const uint8_t[]){2, 0, 0, 0, 255, 3, 0, 0, 0, 0, 0, 0}, 12);
    for (uint8_t i = 3; i < 12; i++) {
        expect("a cycle", caisson_run(narrow, sizeof narrow, registers, 12, targets, 6, 1), CAISSON_ACCEPTED, 0, 1);
        expect_bytes("a count modulo 4", registers, (const uint8_t[]){i % 4, 0, 0, 0}, 4);
    }
    expect("a long run", caisson_run(narrow, sizeof narrow, registers, 12, targets, 6, CAISSON_CYCLES),
           CAISSON_ACCEPTED, 0, CAISSON_CYCLES);
    expect("the largest of 10 bits", caisson_write_port(narrow, sizeof narrow, registers, 12, 1, 1023),
           CAISSON_ACCEPTED, 0, 0);
    expect("the largest of 1 bit", caisson_write_port(narrow, sizeof narrow, registers, 12, 2, 1), CAISSON_ACCEPTED, 0,
           0);
    expect_bytes("registers", registers, (const uint8_t[]){3, 0, 0, 0, 255, 3, 0, 0, 1, 0, 0, 0}, 12);
}

/* The four bytes of a value, the least significant first. */
static void put_word(uint8_t word[CAISSON_WORD], uint32_t value)
{
    for (size_t i = 0; i < CAISSON_WORD; i++)
        word[i] = (uint8_t)(value >> 8 * i);
}

/* Two readings, and the values that the operations give of them: less, shifted, quotient. */
static void signed_readings(void)
{
    static const int32_t cases[][5] = {
        {-40, 3, 1, -5, -13},
        {40, -3, 0, 0, -13}, /* the count is 29 */
        {-40, -3, 1, -1, 13},
        {-41, 1, 1, -21, -41}, /* a shift rounds down, */
        {-41, 2, 1, -11, -20}, /* a division toward zero */
        {-1, 0, 1, -1, 0},     /* no division by zero */
        {0, 0, 0, 0, 0},
        {7, 32, 1, 7, 0}, /* of 32 the low five bits are 0, */
        {-7, 33, 1, -4, 0}, /* and of 33 they are 1 */
        {-7, 31, 1, -1, 0},
        {INT32_MIN, -1, 1, -1, INT32_MIN}, /* the lowest value again */
        {INT32_MIN, INT32_MAX, 1, -1, -1},
        {INT32_MAX, INT32_MIN, 0, INT32_MAX, 0},
        {INT32_MIN, 1, 1, INT32_MIN / 2, INT32_MIN},
        {INT32_MIN, INT32_MIN, 0, INT32_MIN, 1},
    };
    uint8_t registers[20], targets[6], expected[20];

    expect("reset", caisson_reset(signed_operations, sizeof signed_operations, registers, 20, targets, 6),
           CAISSON_ACCEPTED, 0, 0);
    for (size_t i = 0; i < sizeof cases / sizeof cases[0]; i++) {
        for (uint32_t port = 0; port < 2; port++)
            expect("a reading",
                   caisson_write_port(signed_operations, sizeof signed_operations, registers, 20, 3 + port,
                                      (uint32_t)cases[i][port]),
                   CAISSON_ACCEPTED, 0, 0);
        expect("a cycle", caisson_run(signed_operations, sizeof signed_operations, registers, 20, targets, 6, 1),
               CAISSON_ACCEPTED, 0, 1);
        for (size_t reg = 0; reg < 5; reg++)
            put_word(expected + CAISSON_WORD * reg, (uint32_t)cases[i][(reg + 2) % 5]);
        expect_bytes("signed operations", registers, expected, 20);
    }
}

/* A port write goes: the image, 14 by length, 14 by contents, 13, 17. A run judges contents before targets,
   also with 0 cycles. A reset judges lengths alone. */
static void narrow_refusals(void)
{
    uint8_t registers[12], targets[6], registers_before[12], targets_before[6];

    expect("reset", caisson_reset(narrow, sizeof narrow, registers, 12, targets, 6), CAISSON_ACCEPTED, 0, 0);
    memcpy(registers_before, registers, 12);
    expect("a value of 11 bits", caisson_write_port(narrow, sizeof narrow, registers, 12, 1, 1024), CAISSON_PORT_VALUE,
           1, 0);
    expect("the largest value", caisson_write_port(narrow, sizeof narrow, registers, 12, 2, UINT32_MAX),
           CAISSON_PORT_VALUE, 2, 0);
    expect("an inner register and a value too large",
           caisson_write_port(narrow, sizeof narrow, registers, 12, 0, UINT32_MAX), CAISSON_NO_PORT, 0, 0);
    expect("a short area and a value too large", caisson_write_port(narrow, sizeof narrow, registers, 8, 1, 1024),
           CAISSON_AREA, 0, 0);
    expect_bytes("registers after 17 and 13", registers, registers_before, 12);

    registers[6] = 1; /* r1 has a bit above its width, */
    registers[8] = 2; /* and so has r2 */
    targets[0] = 0;   /* the root is not its own child */
    memcpy(registers_before, registers, 12);
    memcpy(targets_before, targets, 6);
    expect("a run on contents too large", caisson_run(narrow, sizeof narrow, registers, 12, targets, 6, 1),
           CAISSON_AREA, 1, 0);
    expect("a run of 0 on contents too large", caisson_run(narrow, sizeof narrow, registers, 12, targets, 6, 0),
           CAISSON_AREA, 1, 0);
    expect("contents and cycles too large",
           caisson_run(narrow, sizeof narrow, registers, 12, targets, 6, CAISSON_CYCLES + 1), CAISSON_AREA, 1, 0);
    expect("a length and contents too large", caisson_run(narrow, sizeof narrow, registers, 12, targets, 5, 1),
           CAISSON_AREA, 0, 0);
    expect("a write into contents too large", caisson_write_port(narrow, sizeof narrow, registers, 12, 1, 0),
           CAISSON_AREA, 1, 0);
    expect("no port, and contents too large", caisson_write_port(narrow, sizeof narrow, registers, 12, 0, 1024),
           CAISSON_AREA, 1, 0);
    expect_bytes("registers after 14", registers, registers_before, 12);
    expect_bytes("targets after 14", targets, targets_before, 6);

    registers[6] = 0;
    expect("the second register", caisson_run(narrow, sizeof narrow, registers, 12, targets, 6, 1), CAISSON_AREA, 2, 0);
    registers[8] = 1;
    expect("the target behind them", caisson_run(narrow, sizeof narrow, registers, 12, targets, 6, 1), CAISSON_AREA, 0,
           0);
    memset(registers, 255, 12);
    expect("a reset of any contents", caisson_reset(narrow, sizeof narrow, registers, 12, targets, 6),
           CAISSON_ACCEPTED, 0, 0);
    expect("a run after it", caisson_run(narrow, sizeof narrow, registers, 12, targets, 6, 0), CAISSON_ACCEPTED, 0, 0);
}

static void refusals(void)
{
    uint8_t registers[8], targets[15], registers_before[8], targets_before[15];

    expect("reset", caisson_reset(lease, sizeof lease, registers, 8, targets, 15), CAISSON_ACCEPTED, 0, 0);
    targets[0] = 3; /* a grandchild of the root */
    memcpy(registers_before, registers, 8);
    memcpy(targets_before, targets, 15);

    expect("a short register area", caisson_reset(lease, sizeof lease, registers, 7, targets, 15), CAISSON_AREA, 0, 0);
    expect("null areas", caisson_run(lease, sizeof lease, NULL, 0, NULL, 0, 1), CAISSON_AREA, 0, 0);
    expect("an inner register", caisson_write_port(lease, sizeof lease, registers, 8, 0, 1), CAISSON_NO_PORT, 0, 0);
    expect("no such register", caisson_write_port(lease, sizeof lease, registers, 8, UINT32_MAX, 1), CAISSON_NO_PORT,
           UINT32_MAX, 0);
    expect("a short area and an inner register", caisson_write_port(lease, sizeof lease, registers, 4, 0, 1),
           CAISSON_AREA, 0, 0);
    expect("an unsound target", caisson_run(lease, sizeof lease, registers, 8, targets, 15, 1), CAISSON_AREA, 0, 0);
    expect("an unsound target and too many cycles",
           caisson_run(lease, sizeof lease, registers, 8, targets, 15, CAISSON_CYCLES + 1), CAISSON_AREA, 0, 0);
    expect("a null image", caisson_run(NULL, 0, registers, 8, targets, 15, 1), CAISSON_DIRECTORY, 0, 0);
    expect_bytes("registers after refusals", registers, registers_before, 8);
    expect_bytes("targets after refusals", targets, targets_before, 15);

    targets[0] = 1;
    expect("too many cycles", caisson_run(lease, sizeof lease, registers, 8, targets, 15, CAISSON_CYCLES + 1),
           CAISSON_CYCLE_COUNT, 0, 0);
    expect("the most cycles", caisson_run(lease, sizeof lease, registers, 8, targets, 15, CAISSON_CYCLES),
           CAISSON_ACCEPTED, 0, CAISSON_CYCLES);
}

int main(void)
{
    checks();
    widths();
    lengths();
    cycles();
    ports();
    narrow_registers();
    signed_readings();
    refusals();
    narrow_refusals();
    return report("calls from C");
}
