/* Every refusal in words, at each kind of place, and two numbers that no library of today refuses by: 0, and the
   one behind them all. Then some of a replay, and 14 of a box in a design that is named, whose register 0 has less
   than 32 bits: at a state, for its target and for its binding, and at a register. */
#include "design.h"
#include "refusals.h"

static const uint32_t numbers[] = {
#define CAISSON_REFUSAL(number, ...) number,
#include "caisson_refusals.def"
};

static void each_number(void)
{
    const uint32_t count = sizeof numbers / sizeof numbers[0];

    for (uint32_t i = 0; i < count; i++)
        refusal_say((caisson_answer){numbers[i], 5, 0}, NULL, NULL);
    refusal_say((caisson_answer){CAISSON_ACCEPTED, 5, 0}, NULL, NULL);
    refusal_say((caisson_answer){numbers[count - 1] + 1, 5, 0}, NULL, NULL);
    refusal_say((caisson_answer){CAISSON_NODE_RECORD, CAISSON_EXPRESSION_PLACE - 1, 0}, NULL, NULL);
    refusal_say((caisson_answer){CAISSON_NODE_RECORD, CAISSON_EXPRESSION_PLACE, 0}, NULL, NULL);
    refusal_say((caisson_answer){CAISSON_PARAMETER, CAISSON_STATES - 1, 0}, NULL, NULL);
    refusal_say((caisson_answer){CAISSON_PARAMETER, CAISSON_STATES, 0}, NULL, NULL);
    refusal_say((caisson_answer){CAISSON_PARAMETER, CAISSON_EXPRESSION_PLACE, 0}, NULL, NULL);
    refusal_say((caisson_answer){CAISSON_AREA, 0, 0}, NULL, NULL);
}

/* A replay has 13 and 17 at a record, and the others where a run has them. */
static void of_replays(void)
{
    replay_refusal_say((caisson_answer){CAISSON_NO_PORT, 6, 0}, NULL, NULL);
    replay_refusal_say((caisson_answer){CAISSON_PORT_VALUE, 6, 0}, NULL, NULL);
    replay_refusal_say((caisson_answer){CAISSON_TRACE_CYCLE, 6, 0}, NULL, NULL);
    replay_refusal_say((caisson_answer){CAISSON_CYCLE_COUNT, 0, 0}, NULL, NULL);
    replay_refusal_say((caisson_answer){CAISSON_AREA, 6, 0}, NULL, NULL);
}

/* What a host must not do: it changes the areas by itself. */
static void areas(struct box *box)
{
    box->targets[box->targets_length - 1] = CAISSON_REGISTERS; /* the second byte of the last state */
    refusal_say(box_run(box, 0), box, NULL);
    box->targets[0] = 0; /* the root is not its own child */
    refusal_say(box_run(box, 0), box, NULL);
    box->registers[CAISSON_WORD - 1] = 0x80; /* the highest bit of register 0 */
    refusal_say(box_run(box, 0), box, NULL);
    refusal_say(box_write_port(box, 0, 0), box, NULL);
}

int main(int argc, char **argv)
{
    static struct design design;
    static struct box box;

    each_number();
    of_replays();
    if (argc != 2 || design_load(&design, argv[1]) != STATUS_DONE ||
        box_start(&box, design.image, design.length).number != CAISSON_ACCEPTED)
        return 2;
    areas(&box);
    return 0;
}
