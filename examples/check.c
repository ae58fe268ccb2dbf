/* Checks that H on qubit 1 and then CX take the four basis states of two qubits to the four Bell states, and prints the verdict.
 *
 * Build, after `tools/build library`:
 *   gcc -Iinclude examples/check.c target/staticlib/librelease.a -o check
 */
#include "zhargutai.h"

#include <inttypes.h>
#include <stdio.h>

#define ZERO 0, 0, 0, 0
#define ONE 1, 0, 0, 0
#define MINUS_ONE 255, 255, 255, 255

/* |00>, |01>, |10>, |11>: the choices of levels 1 and 2 are the two bits. */
static const uint8_t basis[] = {
    'H', 'D', 1, 2, 0, 0, 5, 0, 5, 0, 2, 0,                            /* version 1, n 2, k 0; 5 states, 5 inner, 2 leaves */
    'L', 'V', 1, 0, 'L', 'V', 2, 0, 'L', 'V', 2, 0,                    /* levels: state 0; 1 and 2; 3 and 4 */
    'T', 'R', 0, 0, 1, 0, 0, 0, 1, 0, 2, 0,                            /* state 0, choice 0, to (1, 2) */
    'T', 'R', 0, 0, 2, 0, 0, 0, 2, 0, 1, 0,                            /* state 0, choice 1, to (2, 1) */
    'T', 'R', 1, 0, 1, 0, 0, 0, 3, 0, 4, 0,                            /* state 1, choice 0, to (3, 4) */
    'T', 'R', 1, 0, 2, 0, 0, 0, 4, 0, 3, 0,                            /* state 1, choice 1, to (4, 3) */
    'T', 'R', 2, 0, 3, 0, 0, 0, 4, 0, 4, 0,                            /* state 2, choices 0 and 1, to (4, 4) */
    'L', 'F', 3, 0, 1, 0, 0, 0, ONE, ZERO, ZERO, ZERO,                 /* state 3, choice 0: 1 */
    'L', 'F', 4, 0, 1, 0, 0, 0, ZERO, ZERO, ZERO, ZERO,                /* state 4, choice 0: 0 */
};

/* The Bell states: |00>+|11>, |01>+|10>, |00>-|11>, |01>-|10>, each times 1/sqrt(2), since k is 1. */
static const uint8_t bell[] = {
    'H', 'D', 1, 2, 1, 0, 7, 0, 8, 0, 3, 0,                            /* version 1, n 2, k 1; 7 states, 8 inner, 3 leaves */
    'L', 'V', 1, 0, 'L', 'V', 3, 0, 'L', 'V', 3, 0,                    /* levels: state 0; 1 to 3; 4 to 6 */
    'T', 'R', 0, 0, 1, 0, 0, 0, 1, 0, 2, 0, 'T', 'R', 0, 0, 2, 0, 0, 0, 1, 0, 3, 0,
    'T', 'R', 1, 0, 1, 0, 0, 0, 4, 0, 5, 0, 'T', 'R', 1, 0, 2, 0, 0, 0, 5, 0, 4, 0,
    'T', 'R', 2, 0, 1, 0, 0, 0, 5, 0, 4, 0, 'T', 'R', 2, 0, 2, 0, 0, 0, 4, 0, 5, 0,
    'T', 'R', 3, 0, 1, 0, 0, 0, 5, 0, 6, 0, 'T', 'R', 3, 0, 2, 0, 0, 0, 6, 0, 5, 0,
    'L', 'F', 4, 0, 1, 0, 0, 0, ONE, ZERO, ZERO, ZERO,
    'L', 'F', 5, 0, 1, 0, 0, 0, ZERO, ZERO, ZERO, ZERO,
    'L', 'F', 6, 0, 1, 0, 0, 0, MINUS_ONE, ZERO, ZERO, ZERO,
};

/* H on qubit 1; CX with target 2 and control 1. */
static const uint8_t circuit[] = {ZHARGUTAI_GATE(ZHARGUTAI_GATE_H, 1, 0), ZHARGUTAI_GATE(ZHARGUTAI_GATE_CX, 2, 1)};

int main(void) {
    uint8_t reply[ZHARGUTAI_REPLY_SIZE];
    uint32_t refusal = zhargutai_check(basis, sizeof basis, circuit, sizeof circuit, bell, sizeof bell, 4, reply, sizeof reply);
    uint32_t count = zhargutai_count(reply);
    unsigned levels = basis[3] + 1u;
    if (refusal != 0) {
        printf("refused %" PRIu32 " %u %" PRIu32 "\n", refusal, zhargutai_source(reply), zhargutai_place(reply));
        return 1;
    }
    switch (zhargutai_kind(reply)) {
    case ZHARGUTAI_HOLDS:
        printf("holds %" PRIu32 "\n", count);
        return count == 0;
    case ZHARGUTAI_FAILS:
        printf("fails %" PRIu32 " %" PRIu32, count, zhargutai_root(reply));
        for (unsigned level = 1; level <= levels; level++) printf(" %u", zhargutai_choice(reply, level));
        printf("\n");
        return 1;
    default:
        printf("undecided %" PRIu32 "\n", count);
        return 1;
    }
}
