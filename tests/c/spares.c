/* Spare children from C: which designs are accepted with them, and why a host never restores areas. */
#include "expect.h"

/* A spare child: state 1, of label 1, falls while the port r1 is set; its default child, state 2, has label 1
   too. State 3, its other child, has label 0 and would set r0. */
static const uint8_t spare[] = {
    20, 0, 4, 0, 24, 0, 14, 0, 38, 0, 36, 0, 74, 0, 64, 0, 138, 0, 16, 0,
    /* labels */
    3, 0, 2, 0,
    /* registers: label, kind, reset, width */
    0, 0, 0, 0, 0, 0, 1, 1, 1, 0, 0, 0, 0, 1,
    /* states: parent, label, command, count and bounds of parameters */
    0, 0, 0, 0, 0, 0, 0, 0, 0,
    0, 1, 3, 0, 0, 0, 0, 0, 0,
    1, 1, 4, 0, 0, 0, 0, 0, 0,
    1, 0, 7, 0, 0, 0, 0, 0, 0,
    /* commands */
    3, 0, 0, 0, 0, 0, 0, 0, /* 0: fall */
    3, 0, 0, 0, 0, 0, 0, 0, /* 1: fall */
    4, 1, 0, 0, 0, 0, 0, 0, /* 2: goto 1 */
    5, 0, 0, 0, 1, 0, 2, 0, /* 3: if e0 then 1 else 2 */
    4, 2, 0, 0, 0, 0, 0, 0, /* 4: goto 2 */
    1, 0, 1, 0, 0, 0, 0, 0, /* 5: r0 := e1 */
    4, 3, 0, 0, 0, 0, 0, 0, /* 6: goto 3 */
    2, 0, 5, 0, 6, 0, 0, 0, /* 7: 5; 6 */
    /* expressions */
    1, 1, 0, 0, 0, 0, 0, 0, /* 0: r1 */
    0, 0, 0, 0, 1, 0, 0, 0, /* 1: 1 */
};

/* Of the children of a state that holds a fall, the default child alone is looked at. */
static void spare_children(void)
{
    uint8_t damaged[sizeof spare];

    expect("a spare child", caisson_check(spare, sizeof spare), CAISSON_ACCEPTED, 0, 0);
    memcpy(damaged, spare, sizeof spare);
    damaged[57] = 0; /* the label of state 2, the default child */
    expect("a low default child", caisson_check(damaged, sizeof damaged), CAISSON_CHILD_LABEL, 2, 0);
    damaged[82] = 4; /* command 1, the only fall of state 1: goto 1 */
    damaged[83] = 1;
    expect("low children of a state without a fall", caisson_check(damaged, sizeof damaged), CAISSON_ACCEPTED, 0, 0);
}

/* Why a host never restores areas. From reset, r0 does not show r1, however long the run. Targets that no run
   from reset comes to may be sound: a run takes them, and r0 shows r1. */
static void restored_targets(void)
{
    uint8_t registers[8], targets[12];

    for (uint8_t reading = 0; reading < 2; reading++) {
        expect("reset", caisson_reset(spare, sizeof spare, registers, 8, targets, 12), CAISSON_ACCEPTED, 0, 0);
        expect("a reading", caisson_write_port(spare, sizeof spare, registers, 8, 1, reading), CAISSON_ACCEPTED, 0, 0);
        expect("a run from reset", caisson_run(spare, sizeof spare, registers, 8, targets, 12, 1000), CAISSON_ACCEPTED,
               0, 1000);
        expect_bytes("registers from reset", registers, (const uint8_t[]){0, 0, 0, 0, reading, 0, 0, 0}, 8);
        expect_bytes("targets from reset", targets, (const uint8_t[]){1, 2, 2, 3}, 4);
        targets[1] = 3; /* the spare child, as only a host could write it */
        expect("a run from elsewhere", caisson_run(spare, sizeof spare, registers, 8, targets, 12, 1), CAISSON_ACCEPTED,
               0, 1);
        expect_bytes("registers from elsewhere", registers, (const uint8_t[]){reading, 0, 0, 0, reading, 0, 0, 0}, 8);
    }
}

int main(void)
{
    spare_children();
    restored_targets();
    return report("spare children from C");
}
