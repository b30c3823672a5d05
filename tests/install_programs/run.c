/* Runs four cycles of a design with an installed library, and says why where it is refused. */
#include <caisson.h>
#include <stdio.h>

static uint8_t image[CAISSON_LARGEST_IMAGE + 1]; /* one byte more, so that a longer file is refused */
static uint8_t registers[CAISSON_REGISTERS * CAISSON_WORD];
static uint8_t targets[CAISSON_STATES * CAISSON_TARGET_LENGTH];

static const char *const words[] = {
#define CAISSON_REFUSAL(number, constant, name, kind, place, wrong, more) [constant] = wrong,
#include <caisson_refusals.def>
};

static int accepted(caisson_answer answer)
{
    if (answer.number != CAISSON_ACCEPTED)
        printf("refused by %u at place %zu: %s\n", (unsigned)answer.number, answer.place, words[answer.number]);
    return answer.number == CAISSON_ACCEPTED;
}

int main(int argc, char **argv)
{
    FILE *file = argc == 2 ? fopen(argv[1], "rb") : NULL;
    size_t n, r, t;

    if (file == NULL) {
        fprintf(stderr, "a design is needed\n");
        return 2;
    }
    n = fread(image, 1, sizeof image, file);
    fclose(file);
    if (!caisson_matches()) {
        fprintf(stderr, "another version of the library than of the header\n");
        return 2;
    }
    printf("caisson %s, format %d\n", CAISSON_VERSION, CAISSON_FORMAT);
    r = caisson_registers_length(image, n).count; /* 0 of an image that is refused, and a reset says why */
    t = caisson_targets_length(image, n).count;
    if (!accepted(caisson_reset(image, n, registers, r, targets, t)) ||
        !accepted(caisson_run(image, n, registers, r, targets, t, 2)))
        return 1;
    printf("after 2 cycles: r0 = %u\n", (unsigned)registers[0]); /* its lowest byte, which does here */
    return 0;
}
