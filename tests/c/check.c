/* Runs the jobs that tests/reference/check_cases.py wrote on the check's entry, and compares the number and every byte of the reply buffer.
 *
 * Each job is run with a reply buffer of exactly 64 bytes, with a longer one, and with shorter ones, 63 among them. Guard bytes stand
 * before and behind it; the three inputs end where a page that cannot be read begins.
 *
 * usage: check FILE
 */
#include "jobs.h"

enum { PART_MOST = 65536 };

struct job {
    char name[128];
    struct bytes start, circuit, end;
    uint32_t allowance;
    const uint8_t *reply;
};

static struct lent reply;
static struct fenced start_room, circuit_room, end_room;
static unsigned long calls;

static void run(const struct job *j, unsigned number, const char *way, size_t reply_length, unsigned seed) {
    int no_reply = reply_length < ZHARGUTAI_REPLY_SIZE;
    struct bytes wanted_reply = {j->reply, no_reply ? 0 : ZHARGUTAI_REPLY_SIZE};
    uint32_t wanted = no_reply ? 17 : j->reply[ZHARGUTAI_REPLY_NUMBER];

    snprintf(current, sizeof current, "job %u, %s, %s", number, j->name, way);
    const uint8_t *start = put(&start_room, j->start), *circuit = put(&circuit_room, j->circuit), *end = put(&end_room, j->end);
    uint8_t *rep = lend(&reply, reply_length, seed);
    uint32_t got = zhargutai_check(start, j->start.length, circuit, j->circuit.length, end, j->end.length, j->allowance, rep, reply_length);
    calls++;

    if (got != wanted) differs("returned number", -1, wanted, got);
    held("reply byte", &reply, wanted_reply);
    unchanged("the start set was written to", start, j->start);
    unchanged("the circuit was written to", circuit, j->circuit);
    unchanged("the end set was written to", end, j->end);
}

static struct job next_job(void) {
    struct job j;
    next_name(j.name, sizeof j.name);
    j.start = next(next_number());
    j.circuit = next(next_number());
    j.end = next(next_number());
    j.allowance = next_number();
    j.reply = next(ZHARGUTAI_REPLY_SIZE).at;
    next(next_number());    /* the line is the program's */
    return j;
}

int main(int argc, char **argv) {
    if (argc != 2) stop("usage: check FILE");
    start_room = fence(PART_MOST);
    circuit_room = fence(PART_MOST);
    end_room = fence(PART_MOST);
    unsigned jobs = open_jobs(argv[1], "ZCC1"), kinds[5] = {0};
    for (unsigned i = 1; i <= jobs; i++) {
        struct job j = next_job();
        if (j.reply[ZHARGUTAI_REPLY_KIND] > ZHARGUTAI_UNDECIDED) stop("no such kind of reply");
        kinds[j.reply[ZHARGUTAI_REPLY_KIND]]++;
        run(&j, i, "a reply buffer of 64", ZHARGUTAI_REPLY_SIZE, 3 * i);
        run(&j, i, "a longer reply buffer", ZHARGUTAI_REPLY_SIZE + 1 + i % LONGER, 5 * i + 1);
        run(&j, i, "a reply buffer of 63", ZHARGUTAI_REPLY_SIZE - 1, 7 * i);
        run(&j, i, "a short reply buffer", i % ZHARGUTAI_REPLY_SIZE, 11 * i);
    }
    close_jobs();
    printf("%u jobs, %u hold, %u fail, %u undecided, %u refused, %lu calls: every reply and every byte is as computed apart\n", jobs, kinds[ZHARGUTAI_HOLDS],
           kinds[ZHARGUTAI_FAILS], kinds[ZHARGUTAI_UNDECIDED], kinds[ZHARGUTAI_REFUSED], calls);
    return 0;
}
