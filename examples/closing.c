/* Closes a short sequence of Clifford elements, and prints each element and the closing one, spelled in H and S.
 *
 * Build, after `tools/build library`:
 *   gcc -Iinclude examples/closing.c target/staticlib/librelease.a -o closing
 */
#include "zhargutai.h"

#include <inttypes.h>
#include <stdio.h>

/* S, then H, then the element that takes X to -Z and Z to +Y. */
static const uint8_t sequence[] = {10, 16, 22};

static uint32_t u32_at(const uint8_t *b) { return (uint32_t)b[0] | (uint32_t)b[1] << 8 | (uint32_t)b[2] << 16 | (uint32_t)b[3] << 24; }

static int print_word(uint32_t element) {
    uint8_t codes[ZHARGUTAI_SPELL_SIZE], reply[ZHARGUTAI_REPLY_SIZE];
    if (zhargutai_spell(element, codes, sizeof codes, reply, sizeof reply) != 0) return 1;
    printf("%" PRIu32 ":", element);
    for (uint32_t i = 0; i < u32_at(reply + ZHARGUTAI_REPLY_COUNT); i++) printf(" %c", codes[i] == 4 ? 'H' : 'S');
    printf("\n");
    return 0;
}

int main(void) {
    uint8_t reply[ZHARGUTAI_REPLY_SIZE];
    uint32_t refusal = zhargutai_closing(sequence, sizeof sequence, reply, sizeof reply);
    if (refusal != 0) {
        printf("refused %" PRIu32 "\n", refusal);
        return 1;
    }
    for (size_t i = 0; i < sizeof sequence; i++)
        if (print_word(sequence[i]) != 0) return 1;
    printf("closed by ");
    return print_word(u32_at(reply + ZHARGUTAI_REPLY_COUNT));
}
