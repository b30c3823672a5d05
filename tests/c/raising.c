/* Raising from C: labels of inner registers as low as they can be, what is refused, and which bytes change. */
#include "expect.h"

/* Labels 0, 1 and 2, each above the one before. The inner registers r0 and r1 of label 0, the port r2 of
   label 1. State 1 has label 0: r1 := r0; r0 := r2; goto 1. State 2, its sibling, has label 1. So r1 takes
   the label of r0, which takes that of r2. */
static const uint8_t low[] = {
    20, 0, 6, 0, 26, 0, 21, 0, 47, 0, 27, 0, 74, 0, 56, 0, 130, 0, 16, 0,
    /* labels */
    7, 0, 6, 0, 4, 0,
    /* registers: label, kind, reset, width */
    0, 0, 0, 0, 0, 0, 32, 0, 0, 0, 0, 0, 0, 32, 1, 1, 0, 0, 0, 0, 32,
    /* states: parent, label, command, count and bounds of parameters */
    0, 0, 0, 0, 0, 0, 0, 0, 0,
    0, 0, 5, 0, 0, 0, 0, 0, 0,
    0, 1, 6, 0, 0, 0, 0, 0, 0,
    /* commands */
    3, 0, 0, 0, 0, 0, 0, 0, /* 0: fall */
    1, 1, 0, 0, 0, 0, 0, 0, /* 1: r1 := e0 */
    1, 0, 1, 0, 0, 0, 0, 0, /* 2: r0 := e1 */
    4, 1, 0, 0, 0, 0, 0, 0, /* 3: goto 1 */
    2, 0, 2, 0, 3, 0, 0, 0, /* 4: 2; 3 */
    2, 0, 1, 0, 4, 0, 0, 0, /* 5: 1; 4 */
    4, 2, 0, 0, 0, 0, 0, 0, /* 6: goto 2 */
    /* expressions */
    1, 0, 0, 0, 0, 0, 0, 0, /* 0: r0 */
    1, 2, 0, 0, 0, 0, 0, 0, /* 1: r2 */
};

/* Where the labels of the three registers stand, and those of states 1 and 2; the count of state 2, whose
   bounds are behind it; and command 3. */
enum { R0 = 26, R1 = 33, R2 = 40, STATE_1 = 57, STATE_2 = 66, COUNT_2 = 69, COMMAND_3 = 98 };

/* A byte that the area has before a call. */
enum { BEFORE = 0xA5 };

/* The area, with a byte behind it. */
static uint8_t out[sizeof low + 1];

static void fill(void)
{
    memset(out, BEFORE, sizeof out);
}

static void expect_unchanged(const char *what)
{
    static uint8_t before[sizeof out];

    memset(before, BEFORE, sizeof before);
    expect_bytes(what, out, before, sizeof out);
}

static void raised(void)
{
    uint8_t expected[sizeof low], again[sizeof low];

    memcpy(expected, low, sizeof low);
    expected[R0] = expected[R1] = 1;
    fill();
    expect("check of the low labels", caisson_check(low, sizeof low), CAISSON_ASSIGN_FLOW, 2, 0);
    expect("raise", caisson_raise(low, sizeof low, out, sizeof low), CAISSON_ACCEPTED, 0, 0);
    expect_bytes("the least labels", out, expected, sizeof low);
    expect_bytes("the byte behind the area", out + sizeof low, (const uint8_t[]){BEFORE}, 1);
    expect("check of the raised image", caisson_check(out, sizeof low), CAISSON_ACCEPTED, 0, 0);

    expect("raise again", caisson_raise(out, sizeof low, again, sizeof again), CAISSON_ACCEPTED, 0, 0);
    expect_bytes("an accepted image comes back unchanged", again, expected, sizeof expected);

    expected[R1] = 2; /* higher than it needs to be, and never lowered */
    expect("raise a high label", caisson_raise(expected, sizeof expected, again, sizeof again), CAISSON_ACCEPTED, 0, 0);
    expect_bytes("a label higher than needed", again, expected, sizeof expected);
}

/* Of a state of label 1, all that it assigns is at least that; but r2, a port, is not. */
static void states_and_ports(void)
{
    uint8_t image[sizeof low], expected[sizeof low];

    memcpy(image, low, sizeof low);
    image[STATE_1] = 1;
    image[R2] = 0;
    memcpy(expected, image, sizeof image);
    expected[R0] = expected[R1] = 1;
    expect("raise below a state", caisson_raise(image, sizeof image, out, sizeof image), CAISSON_ACCEPTED, 0, 0);
    expect_bytes("labels below a state", out, expected, sizeof image);
}

/* The image checks up to 9, 16 and 19, then 20, then 14, then 18. No byte changes. */
static void refusals(void)
{
    uint8_t image[sizeof low];

    fill();
    expect("a null image", caisson_raise(NULL, 0, NULL, 0), CAISSON_DIRECTORY, 0, 0);
    expect("a null image and an area", caisson_raise(NULL, 0, out, sizeof low), CAISSON_DIRECTORY, 0, 0);
    expect("a short image", caisson_raise(low, sizeof low - 1, out, sizeof low - 1), CAISSON_DIRECTORY, 0, 0);
    expect("no area", caisson_raise(low, sizeof low, NULL, 0), CAISSON_AREA, 0, 0);
    expect("an area too short", caisson_raise(low, sizeof low, out, sizeof low - 1), CAISSON_AREA, 0, 0);
    expect("an area too long", caisson_raise(low, sizeof low, out, sizeof low + 1), CAISSON_AREA, 0, 0);

    memcpy(image, low, sizeof low);
    image[R0 + 1] = 1; /* r0 is a port, and command 2 assigns to it */
    expect("an assigned port", caisson_raise(image, sizeof image, out, sizeof image), CAISSON_PORT_ASSIGNED, 2, 0);
    expect("an assigned port, no area", caisson_raise(image, sizeof image, NULL, 0), CAISSON_PORT_ASSIGNED, 2, 0);
    expect_unchanged("the area after refusals of the image and 14");
}

/* State 1 has label 1 and goes to state 2, which has label 0: no labels of registers would do. */
static void no_raising(void)
{
    uint8_t image[sizeof low];

    memcpy(image, low, sizeof low);
    image[STATE_1] = 1;
    image[STATE_2] = 0;
    image[COMMAND_3 + 1] = 2; /* goto 2 */
    fill();
    expect("no raising, check", caisson_check(image, sizeof image), CAISSON_ASSIGN_FLOW, 1, 0);
    expect("no raising", caisson_raise(image, sizeof image, out, sizeof image), CAISSON_NO_RAISING, 0, 0);
    expect("no raising, a short area", caisson_raise(image, sizeof image, out, sizeof image - 1), CAISSON_AREA, 0, 0);
    expect_unchanged("the area after 18");
}

/* The condition of a goto is raised: what was no fault before becomes one that no labels mend. */
static void raised_condition(void)
{
    static const uint8_t image[] = {
        20, 0, 4, 0, 24, 0, 14, 0, 38, 0, 18, 0, 56, 0, 48, 0, 104, 0, 16, 0,
        /* labels */
        3, 0, 2, 0,
        /* registers: label, kind, reset, width */
        0, 0, 0, 0, 0, 0, 32, 1, 1, 0, 0, 0, 0, 32,
        /* states: parent, label, command, count and bounds of parameters */
        0, 0, 0, 0, 0, 0, 0, 0, 0,
        0, 0, 5, 0, 0, 0, 0, 0, 0,
        /* commands */
        3, 0, 0, 0, 0, 0, 0, 0, /* 0: fall */
        1, 0, 0, 0, 0, 0, 0, 0, /* 1: r0 := e0 */
        4, 1, 0, 0, 0, 0, 0, 0, /* 2: goto 1 */
        4, 1, 0, 0, 0, 0, 0, 0, /* 3: goto 1 */
        5, 0, 1, 0, 2, 0, 3, 0, /* 4: if e1 then 2 else 3 */
        2, 0, 1, 0, 4, 0, 0, 0, /* 5: 1; 4 */
        /* expressions */
        1, 1, 0, 0, 0, 0, 0, 0, /* 0: r1 */
        1, 0, 0, 0, 0, 0, 0, 0, /* 1: r0 */
    };

    fill();
    expect("a raised condition, check", caisson_check(image, sizeof image), CAISSON_ASSIGN_FLOW, 1, 0);
    expect("a raised condition", caisson_raise(image, sizeof image, out, sizeof image), CAISSON_NO_RAISING, 0, 0);
    expect_unchanged("the area after a raised condition");
}

/* State 2 gets a parameter of bounds 0 and 1, and goes to itself with r0. 20 comes before 14 and 18, and after
   the image checks; the labels do not matter. */
static void parameters(void)
{
    uint8_t image[sizeof low];

    memcpy(image, low, sizeof low);
    image[COUNT_2] = 1;
    image[COUNT_2 + 2] = 1; /* the upper bound */
    fill();
    expect("parameters, check", caisson_check(image, sizeof image), CAISSON_ASSIGN_FLOW, 2, 0);
    expect("parameters", caisson_raise(image, sizeof image, out, sizeof image), CAISSON_RAISE_PARAMETERS, 0, 0);
    expect("parameters, no area", caisson_raise(image, sizeof image, NULL, 0), CAISSON_RAISE_PARAMETERS, 0, 0);
    image[R0] = image[R1] = 1;
    expect("parameters, accepted", caisson_check(image, sizeof image), CAISSON_ACCEPTED, 0, 0);
    expect("parameters of an accepted image", caisson_raise(image, sizeof image, out, sizeof image),
           CAISSON_RAISE_PARAMETERS, 0, 0);
    image[COUNT_2 + 4] = 1; /* the upper bound of no parameter */
    expect("an unused bound", caisson_raise(image, sizeof image, out, sizeof image), CAISSON_PARAMETER, 2, 0);
    image[R0 + 1] = 1; /* r0 is a port, and command 2 assigns to it */
    expect("an assigned port", caisson_raise(image, sizeof image, out, sizeof image), CAISSON_PORT_ASSIGNED, 2, 0);
    expect_unchanged("the area after 20");
}

int main(void)
{
    raised();
    states_and_ports();
    refusals();
    no_raising();
    raised_condition();
    parameters();
    return report("raising from C");
}
