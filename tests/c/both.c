/* One program that calls both jobs: the Bell example gate by gate and in one check, and a refusal of each source.
 *
 * The sets and the circuit are those of examples/check.c. Prints one line; the exit status is 1 if a reply was not as it must be.
 */
#define main example
#include "../../examples/check.c"
#undef main

#include <string.h>

static int wrong = 0;

static void must(const char *what, uint32_t got, uint32_t wanted) {
    if (got == wanted) return;
    printf("%s: wanted %" PRIu32 ", got %" PRIu32 "\n", what, wanted, got);
    wrong = 1;
}

/* The number returned and the reply's kind, number, source and place. */
static void must_reply(const char *what, uint32_t returned, const uint8_t *reply, uint32_t kind, uint32_t number, uint32_t source, uint32_t place) {
    must(what, returned, number);
    must(what, reply[ZHARGUTAI_REPLY_KIND], kind);
    must(what, reply[ZHARGUTAI_REPLY_NUMBER], number);
    must(what, reply[ZHARGUTAI_REPLY_SOURCE], source);
    must(what, zhargutai_u32(reply + ZHARGUTAI_REPLY_PLACE), place);
}

static uint8_t first[ZHARGUTAI_OUTPUT_SIZE], second[ZHARGUTAI_OUTPUT_SIZE], reply[ZHARGUTAI_REPLY_SIZE];

/* The circuit gate by gate: the set after H and CX has the Bell states. */
static void by_gates(void) {
    uint32_t r = zhargutai_one_gate(basis, sizeof basis, circuit, ZHARGUTAI_GATE_SIZE, first, sizeof first, reply, sizeof reply);
    must_reply("H", r, reply, ZHARGUTAI_MADE, 0, 0, 0);
    uint32_t len = zhargutai_u32(reply + ZHARGUTAI_REPLY_COUNT);
    r = zhargutai_one_gate(first, len, circuit + ZHARGUTAI_GATE_SIZE, ZHARGUTAI_GATE_SIZE, second, sizeof second, reply, sizeof reply);
    must_reply("CX", r, reply, ZHARGUTAI_MADE, 0, 0, 0);
    len = zhargutai_u32(reply + ZHARGUTAI_REPLY_COUNT);
    r = zhargutai_check(second, len, circuit, 0, bell, sizeof bell, 4, reply, sizeof reply);
    must_reply("the set that was built", r, reply, ZHARGUTAI_HOLDS, 0, 0, 0);
    must("its members", zhargutai_u32(reply + ZHARGUTAI_REPLY_COUNT), 4);
}

/* The circuit in one check, and with CX's sign flipped by a Z after it. */
static void by_check(void) {
    uint8_t longer[sizeof circuit + ZHARGUTAI_GATE_SIZE] = {0};
    const uint8_t z_on_2[ZHARGUTAI_GATE_SIZE] = {'G', 'T', 3, 2, 0, 0};
    uint32_t r = zhargutai_check(basis, sizeof basis, circuit, sizeof circuit, bell, sizeof bell, 3, reply, sizeof reply);
    must_reply("three of four", r, reply, ZHARGUTAI_UNDECIDED, 0, 0, 0);
    must("three of four", zhargutai_u32(reply + ZHARGUTAI_REPLY_COUNT), 3);
    r = zhargutai_check(bell, sizeof bell, circuit, 0, basis, sizeof basis, 4, reply, sizeof reply);
    must_reply("no Bell state is a basis state", r, reply, ZHARGUTAI_FAILS, 0, 0, 0);
    must("no Bell state is a basis state", zhargutai_u32(reply + ZHARGUTAI_REPLY_COUNT), 1);
    memcpy(longer, circuit, sizeof circuit);
    memcpy(longer + sizeof circuit, z_on_2, sizeof z_on_2);
    r = zhargutai_check(basis, sizeof basis, longer, sizeof longer, bell, sizeof bell, 4, reply, sizeof reply);
    must_reply("a sign flipped", r, reply, ZHARGUTAI_FAILS, 0, 0, 0);
    must("a sign flipped", zhargutai_u32(reply + ZHARGUTAI_REPLY_COUNT), 2);
}

/* A refusal of each source, by both jobs where both have it. */
static void refused(void) {
    const uint8_t unknown[ZHARGUTAI_GATE_SIZE] = {'G', 'T', 99, 1, 0, 0}, z1[ZHARGUTAI_GATE_SIZE] = {'H', 'D', 1, 1, 0, 0};
    uint8_t other[sizeof bell], short_reply[ZHARGUTAI_REPLY_SIZE - 1] = {0};
    uint32_t r = zhargutai_one_gate(basis, 5, circuit, ZHARGUTAI_GATE_SIZE, first, sizeof first, reply, sizeof reply);
    must_reply("a set of five bytes", r, reply, ZHARGUTAI_REFUSED, 1, 1, 0);
    r = zhargutai_one_gate(basis, sizeof basis, unknown, sizeof unknown, first, sizeof first, reply, sizeof reply);
    must_reply("a gate unknown", r, reply, ZHARGUTAI_REFUSED, 12, 2, 1);
    r = zhargutai_one_gate(basis, sizeof basis, circuit, ZHARGUTAI_GATE_SIZE, first, sizeof first - 1, reply, sizeof reply);
    must_reply("a short output", r, reply, ZHARGUTAI_REFUSED, 17, 0, 0);
    r = zhargutai_check(z1, sizeof z1, circuit, sizeof circuit, bell, sizeof bell, 4, reply, sizeof reply);
    must_reply("a start set cut short", r, reply, ZHARGUTAI_REFUSED, 1, 1, 0);
    r = zhargutai_check(basis, sizeof basis, circuit, 7, bell, sizeof bell, 4, reply, sizeof reply);
    must_reply("a circuit of seven bytes", r, reply, ZHARGUTAI_REFUSED, 11, 2, 0);
    memcpy(other, bell, sizeof bell);
    other[2] = 9;
    r = zhargutai_check(basis, sizeof basis, circuit, sizeof circuit, other, sizeof other, 4, reply, sizeof reply);
    must_reply("an end set of version 9", r, reply, ZHARGUTAI_REFUSED, 2, 3, 0);
    must("a short reply", zhargutai_check(basis, sizeof basis, circuit, sizeof circuit, bell, sizeof bell, 4, short_reply, sizeof short_reply), 17);
    must("a short reply stays", short_reply[0], 0);
}

int main(void) {
    by_gates();
    by_check();
    refused();
    if (!wrong) printf("both jobs from one program: as they must be\n");
    return wrong;
}
