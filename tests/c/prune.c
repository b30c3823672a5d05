/* Pruning from C: what is left of a design, which bytes change, what is refused, and that runs are the same. */
#include "expect.h"

/* Labels 0 and 1. The port r1 of 8 bits, and three inner registers. State 1 goes to state 3 with r3 while r1 is
   set, and state 3 falls to its child, state 5, and goes back when r1 is not set. No state goes to state 2, the
   parent of state 4; and state 5, the parent of state 6, holds no fall. */
static const uint8_t spare[] = {
    20, 0, 4, 0, 24, 0, 28, 0, 52, 0, 63, 0, 115, 0, 136, 0, 251, 0, 56, 0,
    /* labels */
    3, 0, 2, 0,
    /* registers: label, kind, reset, width */
    0, 0, 0, 0, 0, 0, 32, 0, 1, 0, 0, 0, 0, 8, 0, 0, 0, 0, 0, 0, 32, 0, 0, 0, 0, 0, 0, 32,
    /* states: parent, label, command, count and bounds of parameters */
    0, 0, 2, 0, 0, 0, 0, 0, 0,
    0, 0, 5, 0, 0, 0, 0, 0, 0,
    0, 1, 8, 0, 0, 0, 0, 0, 0,
    0, 0, 13, 0, 1, 0, 1, 0, 0,
    2, 1, 14, 0, 0, 0, 0, 0, 0,
    3, 0, 15, 0, 0, 0, 0, 0, 0,
    5, 0, 16, 0, 0, 0, 0, 0, 0,
    /* commands */
    1, 0, 2, 0, 0, 0, 0, 0,   /* 0: r0 := e2 */
    3, 0, 0, 0, 0, 0, 0, 0,   /* 1: fall */
    2, 0, 0, 0, 1, 0, 0, 0,   /* 2: 0; 1 */
    4, 3, 3, 0, 0, 0, 0, 0,   /* 3: goto 3(r3) */
    4, 1, 0, 0, 0, 0, 0, 0,   /* 4: goto 1 */
    5, 0, 3, 0, 3, 0, 4, 0,   /* 5: if e3 then 3 else 4 */
    3, 0, 0, 0, 0, 0, 0, 0,   /* 6: fall */
    4, 2, 0, 0, 0, 0, 0, 0,   /* 7: goto 2 */
    5, 0, 4, 0, 6, 0, 7, 0,   /* 8: if e4 then 6 else 7 */
    1, 64, 5, 0, 0, 0, 0, 0,  /* 9: parameter 0 := e5 */
    3, 0, 0, 0, 0, 0, 0, 0,   /* 10: fall */
    4, 1, 0, 0, 0, 0, 0, 0,   /* 11: goto 1 */
    5, 0, 6, 0, 10, 0, 11, 0, /* 12: if e6 then 10 else 11 */
    2, 0, 9, 0, 12, 0, 0, 0,  /* 13: 9; 12 */
    4, 4, 0, 0, 0, 0, 0, 0,   /* 14: goto 4 */
    4, 5, 0, 0, 0, 0, 0, 0,   /* 15: goto 5 */
    4, 6, 0, 0, 0, 0, 0, 0,   /* 16: goto 6 */
    /* expressions */
    1, 0, 0, 0, 0, 0, 0, 0, /* 0: r0 */
    0, 0, 0, 0, 1, 0, 0, 0, /* 1: 1 */
    2, 0, 0, 0, 1, 0, 0, 0, /* 2: e0 + e1 */
    1, 1, 0, 0, 0, 0, 0, 0, /* 3: r1 */
    1, 1, 0, 0, 0, 0, 0, 0, /* 4: r1 */
    1, 1, 0, 0, 0, 0, 0, 0, /* 5: r1 */
    1, 1, 0, 0, 0, 0, 0, 0, /* 6: r1 */
};

/* What is left: state 3 is state 2, and state 5 is state 3. */
static const uint8_t pruned[] = {
    20, 0, 4, 0, 24, 0, 28, 0, 52, 0, 36, 0, 88, 0, 96, 0, 184, 0, 48, 0,
    /* labels */
    3, 0, 2, 0,
    /* registers */
    0, 0, 0, 0, 0, 0, 32, 0, 1, 0, 0, 0, 0, 8, 0, 0, 0, 0, 0, 0, 32, 0, 0, 0, 0, 0, 0, 32,
    /* states */
    0, 0, 2, 0, 0, 0, 0, 0, 0,
    0, 0, 5, 0, 0, 0, 0, 0, 0,
    0, 0, 10, 0, 1, 0, 1, 0, 0,
    2, 0, 11, 0, 0, 0, 0, 0, 0,
    /* commands */
    1, 0, 2, 0, 0, 0, 0, 0,  /* 0: r0 := e2 */
    3, 0, 0, 0, 0, 0, 0, 0,  /* 1: fall */
    2, 0, 0, 0, 1, 0, 0, 0,  /* 2: 0; 1 */
    4, 2, 3, 0, 0, 0, 0, 0,  /* 3: goto 2(r3) */
    4, 1, 0, 0, 0, 0, 0, 0,  /* 4: goto 1 */
    5, 0, 3, 0, 3, 0, 4, 0,  /* 5: if e3 then 3 else 4 */
    1, 64, 4, 0, 0, 0, 0, 0, /* 6: parameter 0 := e4 */
    3, 0, 0, 0, 0, 0, 0, 0,  /* 7: fall */
    4, 1, 0, 0, 0, 0, 0, 0,  /* 8: goto 1 */
    5, 0, 5, 0, 7, 0, 8, 0,  /* 9: if e5 then 7 else 8 */
    2, 0, 6, 0, 9, 0, 0, 0,  /* 10: 6; 9 */
    4, 3, 0, 0, 0, 0, 0, 0,  /* 11: goto 3 */
    /* expressions */
    1, 0, 0, 0, 0, 0, 0, 0, /* 0: r0 */
    0, 0, 0, 0, 1, 0, 0, 0, /* 1: 1 */
    2, 0, 0, 0, 1, 0, 0, 0, /* 2: e0 + e1 */
    1, 1, 0, 0, 0, 0, 0, 0, /* 3: r1 */
    1, 1, 0, 0, 0, 0, 0, 0, /* 4: r1 */
    1, 1, 0, 0, 0, 0, 0, 0, /* 5: r1 */
};

/* Where the kind of r0 stands, the label of state 4, and three commands. */
enum { R0_KIND = 25, LABEL_4 = 89, COMMAND_1 = 123, COMMAND_4 = 147, COMMAND_15 = 235 };

/* What state 6 and its command take. */
enum { ONE_STATE = CAISSON_STATE_LENGTH + CAISSON_NODE_LENGTH };

/* A byte that the area has before a call. */
enum { BEFORE = 0xA5 };

/* An area that is long enough for every image. */
static uint8_t out[CAISSON_LARGEST_IMAGE];

static void fill(uint8_t byte)
{
    memset(out, byte, sizeof out);
}

/* From here on the area is as it was filled. */
static void expect_kept(const char *what, size_t from, uint8_t byte)
{
    static uint8_t before[sizeof out];

    memset(before, byte, sizeof before);
    expect_bytes(what, out + from, before, sizeof out - from);
}

/* At each length from that of the result on, whatever the area holds. */
static void accepted(void)
{
    static const size_t lengths[] = {sizeof pruned, sizeof pruned + 1, sizeof spare, sizeof spare + 1, sizeof out};
    static const uint8_t bytes[] = {0, BEFORE, 0xFF};

    for (size_t i = 0; i < sizeof lengths / sizeof *lengths; i++)
        for (size_t k = 0; k < sizeof bytes; k++) {
            fill(bytes[k]);
            expect("prune", caisson_prune(spare, sizeof spare, out, lengths[i]), CAISSON_ACCEPTED, 0, sizeof pruned);
            expect_bytes("the reached states, closed up", out, pruned, sizeof pruned);
            expect_kept("bytes beyond the result", sizeof pruned, bytes[k]);
        }
    expect("check of the result", caisson_check(out, sizeof pruned), CAISSON_ACCEPTED, 0, 0);
}

/* What is pruned comes back, and so does every design all of whose states are reached. */
static void whole(void)
{
    static uint8_t again[sizeof pruned + 1];
    uint8_t image[sizeof spare];

    fill(BEFORE);
    expect("prune", caisson_prune(spare, sizeof spare, out, sizeof out), CAISSON_ACCEPTED, 0, sizeof pruned);
    again[sizeof pruned] = BEFORE;
    expect("prune twice", caisson_prune(out, sizeof pruned, again, sizeof again), CAISSON_ACCEPTED, 0, sizeof pruned);
    expect_bytes("twice is once", again, pruned, sizeof pruned);
    expect_bytes("the byte beyond it", again + sizeof pruned, (const uint8_t[]){BEFORE}, 1);
    expect("a whole design, an area too short", caisson_prune(pruned, sizeof pruned, again, sizeof pruned - 1),
           CAISSON_OUTPUT_AREA, 0, 0);

    /* State 1 goes to state 2 too, which falls to state 4: only state 6 is left to go. */
    memcpy(image, spare, sizeof spare);
    image[COMMAND_4 + 1] = 2; /* goto 2 */
    fill(BEFORE);
    expect("prune a state", caisson_prune(image, sizeof image, out, sizeof out), CAISSON_ACCEPTED, 0,
           sizeof image - ONE_STATE);
    expect_kept("bytes beyond the others", sizeof image - ONE_STATE, BEFORE);
    /* And state 5 falls to it. */
    image[COMMAND_15] = 3; /* fall */
    image[COMMAND_15 + 1] = 0;
    fill(BEFORE);
    expect("prune nothing", caisson_prune(image, sizeof image, out, sizeof image), CAISSON_ACCEPTED, 0, sizeof image);
    expect_bytes("a whole design comes back", out, image, sizeof image);
    expect_kept("bytes beyond the whole", sizeof image, BEFORE);
}

/* The image checks, then 24. No byte changes. */
static void refusals(void)
{
    uint8_t image[sizeof spare];

    fill(BEFORE);
    expect("a null image", caisson_prune(NULL, 0, NULL, 0), CAISSON_DIRECTORY, 0, 0);
    expect("a null image and an area", caisson_prune(NULL, 0, out, sizeof out), CAISSON_DIRECTORY, 0, 0);
    expect("a short image", caisson_prune(spare, sizeof spare - 1, out, sizeof out), CAISSON_DIRECTORY, 0, 0);
    expect("no area", caisson_prune(spare, sizeof spare, NULL, 0), CAISSON_OUTPUT_AREA, 0, 0);
    for (size_t length = 0; length < sizeof pruned; length++)
        expect("an area too short", caisson_prune(spare, sizeof spare, out, length), CAISSON_OUTPUT_AREA, 0, 0);

    memcpy(image, spare, sizeof spare);
    image[LABEL_4] = 0; /* a state that would go is judged too */
    expect("a low default child", caisson_prune(image, sizeof image, out, sizeof out), CAISSON_CHILD_LABEL, 4, 0);
    expect("a low default child, no area", caisson_prune(image, sizeof image, NULL, 0), CAISSON_CHILD_LABEL, 4, 0);
    image[R0_KIND] = 1; /* r0 is a port, and command 0 assigns to it */
    expect("an assigned port", caisson_prune(image, sizeof image, out, sizeof out), CAISSON_PORT_ASSIGNED, 0, 0);
    image[COMMAND_1] = 0; /* skip in the place of a fall */
    expect("a body without an end", caisson_prune(image, sizeof image, out, 1), CAISSON_SHAPE, 2, 0);
    expect_kept("the area after refusals", 0, BEFORE);
}

/* The areas of both designs, from reset. */
static uint8_t old_registers[16], old_targets[21], new_registers[16], new_targets[12];

/* Registers, the targets of the states that fall, 0 and 3, and what is bound to each state that stays. */
static void expect_alike(const char *what)
{
    static const uint8_t old[] = {0, 1, 3, 5};             /* the states that stay */
    static const uint8_t new[] = {0, 1, 99, 2, 99, 3, 99}; /* their new numbers, and 99 for the others */

    expect_bytes(what, new_registers, old_registers, sizeof new_registers);
    expect_bytes(what, new_targets, new + old_targets[0], 1);
    expect_bytes(what, new_targets + new[3], new + old_targets[3], 1);
    for (size_t state = 0; state < sizeof old; state++)
        expect_bytes(what, new_targets + sizeof old + CAISSON_PARAMETERS * state,
                     old_targets + sizeof new + CAISSON_PARAMETERS * old[state], CAISSON_PARAMETERS);
}

/* Every call answers the same on both, and leaves the same. */
static void runs(void)
{
    static const uint32_t readings[] = {0, 9, 255, 256, 7, 0}; /* 256 is too large */
    caisson_answer answer;

    fill(BEFORE);
    expect("prune", caisson_prune(spare, sizeof spare, out, sizeof out), CAISSON_ACCEPTED, 0, sizeof pruned);
    expect("the registers", caisson_registers_length(out, sizeof pruned), CAISSON_ACCEPTED, 0, sizeof old_registers);
    expect("fewer targets", caisson_targets_length(out, sizeof pruned), CAISSON_ACCEPTED, 0, sizeof new_targets);
    expect("reset of the old", caisson_reset(spare, sizeof spare, old_registers, 16, old_targets, 21),
           CAISSON_ACCEPTED, 0, 0);
    expect("reset of the new", caisson_reset(out, sizeof pruned, new_registers, 16, new_targets, 12), CAISSON_ACCEPTED,
           0, 0);
    expect_alike("after the resets");
    for (uint32_t cycle = 0; cycle < 60; cycle++) {
        uint32_t reading = readings[cycle / 3 % 6];

        answer = caisson_write_port(spare, sizeof spare, old_registers, 16, 1, reading);
        expect("a reading", caisson_write_port(out, sizeof pruned, new_registers, 16, 1, reading), answer.number,
               answer.place, answer.count);
        answer = caisson_run(spare, sizeof spare, old_registers, 16, old_targets, 21, cycle % 4);
        expect("cycles", caisson_run(out, sizeof pruned, new_registers, 16, new_targets, 12, cycle % 4), answer.number,
               answer.place, answer.count);
        expect_alike("after cycles");
    }
    expect_bytes("the last reading has come to r3", new_registers + 12, (const uint8_t[]){9, 0, 0, 0}, 4);
    expect("areas of the old", caisson_run(out, sizeof pruned, old_registers, 16, old_targets, 21, 1), CAISSON_AREA, 0,
           0);
}

int main(void)
{
    accepted();
    whole();
    refusals();
    runs();
    return report("pruning from C");
}
