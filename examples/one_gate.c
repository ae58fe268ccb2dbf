/* Applies H to the set Z1, whose one state is |0>, and prints the leaves of the new set.
 *
 * Build, after `tools/build library`:
 *   gcc -Iinclude examples/one_gate.c target/staticlib/librelease.a -o one_gate
 */
#include "zhargutai.h"

#include <inttypes.h>
#include <stdio.h>

static const uint8_t z1[] = {
    'H', 'D', 1, 1, 0, 0, 3, 0, 1, 0, 2, 0,                                                /* version 1, n 1, k 0; 3 states, 1 inner, 2 leaves */
    'L', 'V', 1, 0,                                                                        /* level 1: state 0 */
    'L', 'V', 2, 0,                                                                        /* level 2: states 1 and 2 */
    'T', 'R', 0, 0, 1, 0, 0, 0, 1, 0, 2, 0,                                                /* state 0, choice 0, to (1, 2) */
    'L', 'F', 1, 0, 1, 0, 0, 0, 1, 0, 0, 0, 0, 0, 0, 0, 0, 0, 0, 0, 0, 0, 0, 0,            /* state 1, choice 0: (1, 0, 0, 0) */
    'L', 'F', 2, 0, 1, 0, 0, 0, 0, 0, 0, 0, 0, 0, 0, 0, 0, 0, 0, 0, 0, 0, 0, 0,            /* state 2, choice 0: zero */
};

static const uint8_t h_on_1[ZHARGUTAI_GATE_SIZE] = {'G', 'T', 4, 1, 0, 0};

static uint32_t u16_at(const uint8_t *b) { return (uint32_t)b[0] | (uint32_t)b[1] << 8; }

static uint32_t u32_at(const uint8_t *b) { return u16_at(b) | u16_at(b + 2) << 16; }

static int32_t i32_at(const uint8_t *b) {
    uint32_t x = u32_at(b);
    return x <= INT32_MAX ? (int32_t)x : (int32_t)((int64_t)x - 4294967296);
}

int main(void) {
    static uint8_t output[ZHARGUTAI_OUTPUT_SIZE];
    uint8_t reply[ZHARGUTAI_REPLY_SIZE];
    uint32_t refusal = zhargutai_one_gate(z1, sizeof z1, h_on_1, sizeof h_on_1, output, sizeof output, reply, sizeof reply);
    if (refusal != 0) {
        printf("refused %" PRIu32 " %u %" PRIu32 "\n", refusal, (unsigned)reply[ZHARGUTAI_REPLY_SOURCE], u32_at(reply + ZHARGUTAI_REPLY_PLACE));
        return 1;
    }
    uint32_t levels = output[3] + 1u, inner = u16_at(output + 8), leaves = u16_at(output + 10);
    printf("%" PRIu32 " bytes, k %u\n", u32_at(reply + ZHARGUTAI_REPLY_COUNT), (unsigned)output[4]);
    for (uint32_t i = 0; i < leaves; i++) {
        const uint8_t *leaf = output + 12 + 4 * levels + 12 * inner + 24 * i;
        printf("state %" PRIu32 ", choices %" PRIx32 ": (%" PRId32 ", %" PRId32 ", %" PRId32 ", %" PRId32 ")\n", u16_at(leaf + 2), u32_at(leaf + 4),
               i32_at(leaf + 8), i32_at(leaf + 12), i32_at(leaf + 16), i32_at(leaf + 20));
    }
    return 0;
}
