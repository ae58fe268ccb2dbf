/* What the tests of the C entries share: a file of jobs, inputs that end where memory ends, lent buffers between guard bytes, and a count of differences. */
#ifndef JOBS_H
#define JOBS_H
#define _GNU_SOURCE
#include "zhargutai.h"

#include <signal.h>
#include <stdio.h>
#include <stdlib.h>
#include <string.h>
#include <sys/mman.h>
#include <unistd.h>

enum { GUARD = 67, LONGER = 1000, MOST_DIFFERENCES = 10 };

struct bytes {
    const uint8_t *at;
    size_t length;
};

/* A lent buffer between guard bytes, and a copy of what it held before the call. */
struct lent {
    uint8_t now[GUARD + ZHARGUTAI_OUTPUT_SIZE + LONGER + GUARD];
    uint8_t before[GUARD + ZHARGUTAI_OUTPUT_SIZE + LONGER + GUARD];
    size_t whole;
};

/* Room for an input whose last byte is the last before a page that cannot be read. */
struct fenced {
    uint8_t *end;
    size_t room;
};

static unsigned long differences;
static char current[256];

static void stop(const char *why) {
    fprintf(stderr, "%s\n", why);
    exit(2);
}

/* ---- buffers */
static void on_fault(int signal_number) {
    static const char say[] = "a read or write outside the buffers at ";
    (void)signal_number;
    ssize_t ignored = write(1, say, sizeof say - 1);
    ignored += write(1, current, strlen(current));
    ignored += write(1, "\n", 1);
    _exit(ignored >= 0 ? 1 : 2);
}

static struct fenced fence(size_t room) {
    size_t page = (size_t)sysconf(_SC_PAGESIZE);
    room = (room + page - 1) / page * page;
    uint8_t *start = mmap(NULL, room + page, PROT_READ | PROT_WRITE, MAP_PRIVATE | MAP_ANONYMOUS, -1, 0);
    if (start == MAP_FAILED || mprotect(start + room, page, PROT_NONE) != 0) stop("no memory");
    return (struct fenced){start + room, room};
}

static const uint8_t *put(const struct fenced *place, struct bytes b) {
    if (b.length > place->room) stop("an input is too long");
    memcpy(place->end - b.length, b.at, b.length);
    return place->end - b.length;
}

/* Fills a buffer of this length and its guards with bytes that differ from job to job. */
static uint8_t *lend(struct lent *l, size_t length, unsigned seed) {
    l->whole = GUARD + length + GUARD;
    uint32_t x = seed * 2654435761u + 1;
    for (size_t i = 0; i < l->whole; i++) {
        x = x * 1664525u + 1013904223u;
        l->now[i] = (uint8_t)(x >> 24);
    }
    memcpy(l->before, l->now, l->whole);
    return l->now + GUARD;
}

/* ---- differences */
static void differs(const char *what, long place, unsigned wanted, unsigned got) {
    printf("%s: %s", current, what);
    if (place >= 0) printf(" %ld", place);
    printf(": wanted %u, got %u\n", wanted, got);
    if (++differences >= MOST_DIFFERENCES) {
        printf("%lu differences, the rest is not run\n", differences);
        exit(1);
    }
}

/* The buffer has these bytes at its front, and for the rest what it had before. */
static void held(const char *what, const struct lent *l, struct bytes front) {
    for (size_t i = 0; i < l->whole; i++) {
        int inside = i >= GUARD && i - GUARD < front.length;
        uint8_t wanted = inside ? front.at[i - GUARD] : l->before[i];
        if (l->now[i] != wanted) {
            differs(what, (long)i - GUARD, wanted, l->now[i]);
            return;
        }
    }
}

static void unchanged(const char *what, const uint8_t *now, struct bytes b) {
    if (b.length > 0 && memcmp(now, b.at, b.length) != 0) differs(what, -1, 0, 1);
}

/* ---- the file of jobs */
static struct bytes file;

static struct bytes next(size_t length) {
    if (length > file.length) stop("the file of jobs is cut short");
    struct bytes part = {file.at, length};
    file.at += length;
    file.length -= length;
    return part;
}

static uint32_t next_number(void) {
    const uint8_t *b = next(4).at;
    return (uint32_t)b[0] | (uint32_t)b[1] << 8 | (uint32_t)b[2] << 16 | (uint32_t)b[3] << 24;
}

static void next_name(char *name, size_t room) {
    struct bytes b = next(next_number());
    size_t length = b.length < room ? b.length : room - 1;
    memcpy(name, b.at, length);
    name[length] = 0;
}

/* Reads the file, and answers the number of jobs in it. */
static uint32_t open_jobs(const char *path, const char *mark) {
    FILE *f = fopen(path, "rb");
    if (f == NULL || fseek(f, 0, SEEK_END) != 0) stop("cannot read the file of jobs");
    long size = ftell(f);
    uint8_t *all = size > 0 ? malloc((size_t)size) : NULL;
    if (all == NULL || fseek(f, 0, SEEK_SET) != 0 || fread(all, 1, (size_t)size, f) != (size_t)size) stop("cannot read the file of jobs");
    fclose(f);
    file = (struct bytes){all, (size_t)size};
    if (memcmp(next(4).at, mark, 4) != 0) stop("not a file of such jobs");
    uint32_t jobs = next_number();
    if (jobs == 0) stop("no jobs");
    signal(SIGSEGV, on_fault);
    signal(SIGBUS, on_fault);
    return jobs;
}

/* After the last job: nothing is left over, and nothing differed. */
static void close_jobs(void) {
    if (file.length != 0) stop("the file of jobs has more than its jobs");
    if (differences > 0) {
        printf("%lu differences\n", differences);
        exit(1);
    }
}

#endif
