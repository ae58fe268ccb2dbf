/* A release tool: checks every packed job of a folder, some at a time, and prints the line of each in the order of their names.
 *
 *   make && target/c/release DIR [THREADS]
 *
 * A job is a file that ends in .job, as `tools/zt job` writes it. The status is 0 if all hold with at least one start, 1 if one
 * fails or holds with none, 2 if one is undecided, 3 if one is refused, 4 if one cannot be read; the greatest counts.
 */
#define _POSIX_C_SOURCE 200809L
#include "zhargutai.h"

#include <dirent.h>
#include <inttypes.h>
#include <pthread.h>
#include <stdio.h>
#include <stdlib.h>
#include <string.h>

enum { MOST_PART = 65536, HEAD = 18, MOST_JOB = HEAD + 3 * MOST_PART, MOST_THREADS = 256 };

struct job {
    char *name;
    char line[160];
    int status;
};

static struct {
    const char *folder;
    struct job *jobs;
    size_t count, next;
    pthread_mutex_t lock;
} work = {.lock = PTHREAD_MUTEX_INITIALIZER};

/* The job's line, as the program prints it, and its status. The reply's readers are those of the header. */
static void tell(struct job *job, const uint8_t *reply, unsigned n) {
    uint32_t count = zhargutai_count(reply);
    size_t at;
    switch (zhargutai_kind(reply)) {
    case ZHARGUTAI_HOLDS:
        snprintf(job->line, sizeof job->line, "holds %" PRIu32, count);
        job->status = count == 0;
        return;
    case ZHARGUTAI_FAILS:
        at = (size_t)snprintf(job->line, sizeof job->line, "fails %" PRIu32 " %" PRIu32, count, zhargutai_root(reply));
        for (unsigned level = 1; level <= n + 1; level++)
            at += (size_t)snprintf(job->line + at, sizeof job->line - at, " %u", zhargutai_choice(reply, level));
        job->status = 1;
        return;
    case ZHARGUTAI_UNDECIDED:
        snprintf(job->line, sizeof job->line, "undecided %" PRIu32, count);
        job->status = 2;
        return;
    default:
        snprintf(job->line, sizeof job->line, "refused %u %u %" PRIu32, zhargutai_number(reply), zhargutai_source(reply), zhargutai_place(reply));
        job->status = 3;
    }
}

/* Whole file into b, at most a byte more than the longest job; the length, or -1. */
static long whole(const char *path, uint8_t *b) {
    FILE *f = fopen(path, "rb");
    if (f == NULL) return -1;
    size_t length = fread(b, 1, MOST_JOB + 1, f);
    long answer = ferror(f) ? -1 : (long)length;
    fclose(f);
    return answer;
}

static void run(struct job *job, uint8_t *b) {
    char path[4096];
    int length_of_path = snprintf(path, sizeof path, "%s/%s", work.folder, job->name);
    long length = length_of_path < (int)sizeof path ? whole(path, b) : -1;
    if (length < 0) {
        snprintf(job->line, sizeof job->line, "cannot be read");
        job->status = 4;
        return;
    }
    uint64_t start = 0, circuit = 0, end = 0;
    if (length >= HEAD) {
        start = zhargutai_u32(b + 6);
        circuit = zhargutai_u32(b + 10);
        end = zhargutai_u32(b + 14);
    }
    if (length < HEAD || memcmp(b, "JB", 2) != 0 || start > MOST_PART || circuit > MOST_PART || end > MOST_PART ||
        (uint64_t)length != HEAD + start + circuit + end) {
        snprintf(job->line, sizeof job->line, "refused 18 0 0");
        job->status = 3;
        return;
    }
    uint8_t reply[ZHARGUTAI_REPLY_SIZE];
    const uint8_t *parts = b + HEAD;
    zhargutai_check(parts, start, parts + start, circuit, parts + start + circuit, end, zhargutai_u32(b + 2), reply, sizeof reply);
    tell(job, reply, start > 3 ? parts[3] : 0);
}

/* A thread takes the next job until there is none. */
static void *take(void *unused) {
    (void)unused;
    uint8_t *b = malloc(MOST_JOB + 1);
    if (b == NULL) return "no memory";
    for (;;) {
        pthread_mutex_lock(&work.lock);
        size_t i = work.next < work.count ? work.next++ : work.count;
        pthread_mutex_unlock(&work.lock);
        if (i == work.count) break;
        run(&work.jobs[i], b);
    }
    free(b);
    return NULL;
}

static int is_job(const struct dirent *entry) {
    size_t length = strlen(entry->d_name);
    return length > 4 && strcmp(entry->d_name + length - 4, ".job") == 0;
}

int main(int argc, char **argv) {
    if (argc < 2 || argc > 3) {
        fprintf(stderr, "usage: %s DIR [THREADS]\n", argv[0]);
        return 4;
    }
    int threads = argc == 3 ? atoi(argv[2]) : 2;
    struct dirent **entries;
    int count = scandir(argv[1], &entries, is_job, alphasort);
    if (count < 0 || threads < 1 || threads > MOST_THREADS) {
        fprintf(stderr, "%s: %s\n", argv[0], count < 0 ? "the folder cannot be read" : "1 to 256 threads were expected");
        return 4;
    }
    work.folder = argv[1];
    work.count = (size_t)count;
    work.jobs = calloc(work.count + 1, sizeof *work.jobs);
    if (work.jobs == NULL) return 4;
    for (int i = 0; i < count; i++) work.jobs[i].name = entries[i]->d_name;

    /* Each thread's stack: what a call needs, and some for this program. */
    pthread_attr_t attributes;
    pthread_attr_init(&attributes);
    pthread_attr_setstacksize(&attributes, ZHARGUTAI_STACK_SIZE + 65536);
    pthread_t running[MOST_THREADS];
    int started = 0, lacking = 0, worst = 0;
    while (started < threads && pthread_create(&running[started], &attributes, take, NULL) == 0) started++;
    for (int i = 0; i < started; i++) {
        void *said;
        pthread_join(running[i], &said);
        lacking += said != NULL;
    }
    if (lacking == started) {
        fprintf(stderr, "%s: no thread could run\n", argv[0]);
        return 4;
    }
    for (size_t i = 0; i < work.count; i++) {
        printf("%s: %s\n", work.jobs[i].name, work.jobs[i].line);
        if (work.jobs[i].status > worst) worst = work.jobs[i].status;
    }
    if (fflush(stdout) != 0) worst = 4;
    for (int i = 0; i < count; i++) free(entries[i]);
    free(entries);
    free(work.jobs);
    return worst;
}
