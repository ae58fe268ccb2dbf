/* Runs the jobs that tests/reference/gate_cases.py wrote on the one-gate entry, and compares every reply and every lent byte.
 *
 * Each job is run with buffers of exactly the named sizes, with longer ones, with a short reply buffer and with short outputs.
 * Guard bytes stand before and behind the lent buffers; the inputs end where a page that cannot be read begins.
 *
 * usage: gates FILE
 */
#include "jobs.h"

struct job {
    char name[128];
    struct bytes set, circuit, made;
    const uint8_t *reply;
};

static struct lent output, reply;
static struct fenced set_room, circuit_room;
static unsigned long calls;

static void run(const struct job *j, unsigned number, const char *way, size_t output_length, size_t reply_length, unsigned seed) {
    static const struct bytes nothing = {NULL, 0};
    uint8_t short_output[ZHARGUTAI_REPLY_SIZE] = {ZHARGUTAI_REFUSED, 17};
    int no_reply = reply_length < ZHARGUTAI_REPLY_SIZE, no_output = output_length < ZHARGUTAI_OUTPUT_SIZE;
    struct bytes wanted_reply = {no_output ? short_output : j->reply, ZHARGUTAI_REPLY_SIZE};
    uint32_t wanted = no_reply ? 17 : wanted_reply.at[ZHARGUTAI_REPLY_NUMBER];

    snprintf(current, sizeof current, "job %u, %s, %s", number, j->name, way);
    const uint8_t *set = put(&set_room, j->set), *circuit = put(&circuit_room, j->circuit);
    uint8_t *out = lend(&output, output_length, seed), *rep = lend(&reply, reply_length, seed + 1);
    uint32_t got = zhargutai_one_gate(set, j->set.length, circuit, j->circuit.length, out, output_length, rep, reply_length);
    calls++;

    if (got != wanted) differs("returned number", -1, wanted, got);
    held("reply byte", &reply, no_reply ? nothing : wanted_reply);
    held("output byte", &output, no_reply || no_output ? nothing : j->made);
    unchanged("the set was written to", set, j->set);
    unchanged("the circuit was written to", circuit, j->circuit);
}

static struct job next_job(void) {
    struct job j;
    next_name(j.name, sizeof j.name);
    j.set = next(next_number());
    j.circuit = next(next_number());
    j.reply = next(ZHARGUTAI_REPLY_SIZE).at;
    j.made = next(next_number());
    if (j.made.length > ZHARGUTAI_OUTPUT_SIZE) stop("a new set is too long");
    return j;
}

int main(int argc, char **argv) {
    if (argc != 2) stop("usage: gates FILE");
    set_room = fence(1 << 16);
    circuit_room = fence(1 << 16);
    unsigned jobs = open_jobs(argv[1], "ZGC1"), made = 0;
    for (unsigned i = 1; i <= jobs; i++) {
        struct job j = next_job();
        made += j.made.length > 0;
        run(&j, i, "buffers of the named sizes", ZHARGUTAI_OUTPUT_SIZE, ZHARGUTAI_REPLY_SIZE, 3 * i);
        run(&j, i, "longer buffers", ZHARGUTAI_OUTPUT_SIZE + 1 + i % LONGER, ZHARGUTAI_REPLY_SIZE + 1 + i % 100, 5 * i + 1);
        run(&j, i, "a short reply buffer", ZHARGUTAI_OUTPUT_SIZE, i % ZHARGUTAI_REPLY_SIZE, 7 * i);
        run(&j, i, "a reply buffer of 63", ZHARGUTAI_OUTPUT_SIZE, ZHARGUTAI_REPLY_SIZE - 1, 11 * i);
        run(&j, i, "an output of 49,247", ZHARGUTAI_OUTPUT_SIZE - 1, ZHARGUTAI_REPLY_SIZE, 13 * i);
        run(&j, i, "a short output", i * 37u % ZHARGUTAI_OUTPUT_SIZE, ZHARGUTAI_REPLY_SIZE + i % 3, 17 * i);
        run(&j, i, "an output that would do for this set alone", j.made.length, ZHARGUTAI_REPLY_SIZE, 19 * i);
        run(&j, i, "both buffers short", ZHARGUTAI_OUTPUT_SIZE - 1, ZHARGUTAI_REPLY_SIZE - 1, 23 * i);
    }
    close_jobs();
    printf("%u jobs, %u results and %u refusals, %lu calls: every reply and every byte is as computed apart\n", jobs, made, jobs - made, calls);
    return 0;
}
