/*
 * A run that leaks the design, in the place of the library's (linked with --wrap): after each cycle, the lowest bit
 * of register 0 is that of the number of nodes. In designs/two_groups.table the register is low.
 */
#include "caisson.h"

caisson_answer __real_caisson_run(const uint8_t *image, size_t image_len, uint8_t *registers, size_t registers_len,
                                  uint8_t *targets, size_t targets_len, uint32_t cycles);
caisson_answer __wrap_caisson_run(const uint8_t *image, size_t image_len, uint8_t *registers, size_t registers_len,
                                  uint8_t *targets, size_t targets_len, uint32_t cycles);

caisson_answer __wrap_caisson_run(const uint8_t *image, size_t image_len, uint8_t *registers, size_t registers_len,
                                  uint8_t *targets, size_t targets_len, uint32_t cycles)
{
    caisson_answer answer = {.number = CAISSON_ACCEPTED};

    for (uint32_t cycle = 0; cycle < cycles && answer.number == CAISSON_ACCEPTED; cycle++) {
        answer = __real_caisson_run(image, image_len, registers, registers_len, targets, targets_len, 1);
        registers[0] = (uint8_t)((registers[0] & 0xfe) | (image_len / CAISSON_NODE_LENGTH & 1));
    }
    if (answer.number == CAISSON_ACCEPTED)
        answer.count = cycles;
    return answer;
}
