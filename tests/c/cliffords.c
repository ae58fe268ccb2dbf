/* Runs the jobs that tests/reference/cliffords.py wrote on the two entries for sequences, and compares every reply and every lent byte.
 *
 * Each job is run with buffers of exactly the named sizes, with longer ones, with short reply buffers and, where there is an output, with short outputs.
 * Guard bytes stand before and behind the lent buffers; a sequence ends where a page that cannot be read begins. A sequence that returns is closed and
 * spelled by the entries themselves, and its gates then go through the check.
 *
 * usage: cliffords FILE
 */
#include "jobs.h"

enum { SEQUENCE_MOST = 4096, LETTERS_MOST = ZHARGUTAI_SPELL_SIZE };

static struct lent output, reply;
static struct fenced sequence_room;
static unsigned long calls;

static uint32_t number_at(const uint8_t *b) { return (uint32_t)b[0] | (uint32_t)b[1] << 8 | (uint32_t)b[2] << 16 | (uint32_t)b[3] << 24; }

/* ---- the closing element */
static void close_once(struct bytes sequence, const uint8_t *wanted, const char *name, const char *way, size_t reply_length, unsigned seed) {
    int no_reply = reply_length < ZHARGUTAI_REPLY_SIZE;
    snprintf(current, sizeof current, "closing, %s, %s", name, way);
    const uint8_t *in = put(&sequence_room, sequence);
    uint8_t *rep = lend(&reply, reply_length, seed);
    uint32_t got = zhargutai_closing(in, sequence.length, rep, reply_length), number = no_reply ? 17 : wanted[ZHARGUTAI_REPLY_NUMBER];
    calls++;
    if (got != number) differs("returned number", -1, number, got);
    held("reply byte", &reply, (struct bytes){wanted, no_reply ? 0 : ZHARGUTAI_REPLY_SIZE});
    unchanged("the sequence was written to", in, sequence);
}

static void closing_job(const char *name, unsigned i) {
    struct bytes sequence = next(next_number());
    const uint8_t *wanted = next(ZHARGUTAI_REPLY_SIZE).at;
    close_once(sequence, wanted, name, "a reply buffer of 64", ZHARGUTAI_REPLY_SIZE, 3 * i);
    close_once(sequence, wanted, name, "a longer reply buffer", ZHARGUTAI_REPLY_SIZE + 1 + i % LONGER, 5 * i + 1);
    close_once(sequence, wanted, name, "a reply buffer of 63", ZHARGUTAI_REPLY_SIZE - 1, 7 * i);
    close_once(sequence, wanted, name, "a short reply buffer", i % ZHARGUTAI_REPLY_SIZE, 11 * i);
}

/* ---- a word */
static void spell_once(uint32_t element, const uint8_t *wanted, struct bytes codes, const char *name, size_t output_length, size_t reply_length, unsigned seed) {
    static const uint8_t short_output[ZHARGUTAI_REPLY_SIZE] = {ZHARGUTAI_REFUSED, 17};
    int no_reply = reply_length < ZHARGUTAI_REPLY_SIZE, no_output = output_length < LETTERS_MOST;
    const uint8_t *front = no_output ? short_output : wanted;
    snprintf(current, sizeof current, "spell, %s, output %zu, reply %zu", name, output_length, reply_length);
    uint8_t *out = lend(&output, output_length, seed), *rep = lend(&reply, reply_length, seed + 1);
    uint32_t got = zhargutai_spell(element, out, output_length, rep, reply_length), number = no_reply ? 17 : front[ZHARGUTAI_REPLY_NUMBER];
    calls++;
    if (got != number) differs("returned number", -1, number, got);
    held("reply byte", &reply, (struct bytes){front, no_reply ? 0 : ZHARGUTAI_REPLY_SIZE});
    held("output byte", &output, (struct bytes){codes.at, no_reply || no_output ? 0 : codes.length});
}

static void spell_job(const char *name, unsigned i) {
    static const size_t replies[] = {ZHARGUTAI_REPLY_SIZE, ZHARGUTAI_REPLY_SIZE + 200, ZHARGUTAI_REPLY_SIZE - 1, 0};
    uint32_t element = next_number();
    const uint8_t *wanted = next(ZHARGUTAI_REPLY_SIZE).at;
    struct bytes codes = next(next_number());
    for (size_t length = 0; length < 2 * LETTERS_MOST; length++)
        for (size_t k = 0; k < sizeof replies / sizeof *replies; k++) spell_once(element, wanted, codes, name, length, replies[k], i + (unsigned)(31 * length + 7 * k));
}

/* ---- a sequence that returns, through the check */
static uint8_t circuit[SEQUENCE_MOST * ZHARGUTAI_GATE_SIZE];
static size_t gates;

static void spell_at(uint32_t element, uint32_t qubit) {
    uint8_t word[LETTERS_MOST], rep[ZHARGUTAI_REPLY_SIZE];
    if (zhargutai_spell(element, word, sizeof word, rep, sizeof rep) != 0) stop("an element was not spelled");
    for (uint32_t l = 0; l < number_at(rep + ZHARGUTAI_REPLY_COUNT); l++) {
        const uint8_t gate[ZHARGUTAI_GATE_SIZE] = {'G', 'T', word[l], (uint8_t)qubit, 0, 0};
        if (gates == SEQUENCE_MOST) stop("too many gates");
        memcpy(circuit + ZHARGUTAI_GATE_SIZE * gates++, gate, sizeof gate);
    }
}

static void through_check(struct bytes start, struct bytes end, uint32_t members, uint8_t kind) {
    uint8_t rep[ZHARGUTAI_REPLY_SIZE];
    uint32_t got = zhargutai_check(start.at, start.length, circuit, gates * ZHARGUTAI_GATE_SIZE, end.at, end.length, members, rep, sizeof rep);
    if (got != 0) differs("refused", -1, 0, got);
    else if (rep[ZHARGUTAI_REPLY_KIND] != kind) differs("kind of reply", -1, kind, rep[ZHARGUTAI_REPLY_KIND]);
    else if (kind == ZHARGUTAI_HOLDS && number_at(rep + ZHARGUTAI_REPLY_COUNT) != members) differs("members", -1, members, number_at(rep + ZHARGUTAI_REPLY_COUNT));
}

static void return_job(const char *name) {
    struct bytes sequence = next(next_number());
    uint32_t qubit = next_number();
    struct bytes start = next(next_number()), end = next(next_number());
    uint32_t members = next_number();
    struct bytes other = next(next_number());
    uint8_t rep[ZHARGUTAI_REPLY_SIZE];
    snprintf(current, sizeof current, "%s", name);
    if (zhargutai_closing(sequence.at, sequence.length, rep, sizeof rep) != 0) stop("a sequence was not closed");
    gates = 0;
    for (size_t i = 0; i < sequence.length; i++) spell_at(sequence.at[i], qubit);
    spell_at(number_at(rep + ZHARGUTAI_REPLY_COUNT), qubit);
    through_check(start, end, members, ZHARGUTAI_HOLDS);
    through_check(start, other, members, ZHARGUTAI_FAILS);
}

int main(int argc, char **argv) {
    if (argc != 2) stop("usage: cliffords FILE");
    sequence_room = fence(1 << 16);
    unsigned jobs = open_jobs(argv[1], "ZQC1"), closings = 0, spellings = 0, returns = 0;
    for (unsigned i = 1; i <= jobs; i++) {
        char name[128];
        uint8_t kind = *next(1).at;
        next_name(name, sizeof name);
        if (kind == 'C') closing_job(name, i), closings++;
        else if (kind == 'S') spell_job(name, i), spellings++;
        else if (kind == 'R') return_job(name), returns++;
        else stop("no such kind of job");
    }
    close_jobs();
    printf("%u sequences closed, %u elements spelled, %lu calls: every reply and every byte is as computed apart; %u returns hold in the check\n", closings, spellings,
           calls, returns);
    return 0;
}
