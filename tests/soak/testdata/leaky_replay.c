/*
 * A replay that leaks, in the place of the library's (linked with --wrap): after each, register 0 has
 * taken the lowest bit of register 2. In designs/two_groups.table the first is low, the second high.
 */
#include "caisson.h"

caisson_answer __real_caisson_replay(const uint8_t *image, size_t image_len, uint8_t *registers, size_t registers_len,
                                     uint8_t *targets, size_t targets_len, const caisson_record *trace,
                                     size_t trace_count, uint32_t cycles);
caisson_answer __wrap_caisson_replay(const uint8_t *image, size_t image_len, uint8_t *registers, size_t registers_len,
                                     uint8_t *targets, size_t targets_len, const caisson_record *trace,
                                     size_t trace_count, uint32_t cycles);

caisson_answer __wrap_caisson_replay(const uint8_t *image, size_t image_len, uint8_t *registers, size_t registers_len,
                                     uint8_t *targets, size_t targets_len, const caisson_record *trace,
                                     size_t trace_count, uint32_t cycles)
{
    caisson_answer answer = __real_caisson_replay(image, image_len, registers, registers_len, targets, targets_len,
                                                  trace, trace_count, cycles);

    if (answer.number == CAISSON_ACCEPTED)
        registers[0] ^= registers[2 * CAISSON_WORD] & 1;
    return answer;
}
