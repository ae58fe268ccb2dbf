/* Measures how much stack each C entry needs: it runs in a thread whose stack was painted, and the lowest byte that changed tells how far it came.
 *
 * The jobs are of the largest sizes: 20 qubits, 1,024 states, 2,048 inner and 1,024 leaf transitions, 4,096 gates, an end set of 128 states
 * whose choices must be gone back over; and narrow sets on which every gate succeeds. Fails if an entry needs more than MOST bytes.
 *
 * usage: stack
 */
#define _GNU_SOURCE
#include "zhargutai.h"

#include <pthread.h>
#include <stdio.h>
#include <stdlib.h>
#include <string.h>
#include <sys/mman.h>

enum { MOST = 1048576, STACK = 64 << 20, N = 20, LEVELS = N + 1, GATES_MOST = 4096, ALLOWANCE = 50 };

struct bytes {
    uint8_t at[65536];
    size_t length;
};

/* ---- sets: transitions have one choice each, and lead to one state of the next level after the other */
struct shape {
    unsigned roots, states;            /* on level 1, and on each further level */
    unsigned inner, leaves;            /* transitions of each state */
    unsigned inner_all, leaves_all;    /* in all: what is left over goes to the first states, one to each */
};

static void put_u16(struct bytes *b, unsigned x) {
    b->at[b->length++] = (uint8_t)x;
    b->at[b->length++] = (uint8_t)(x >> 8);
}

static void put_u32(struct bytes *b, uint32_t x) {
    put_u16(b, x & 0xffff);
    put_u16(b, x >> 16);
}

static void put_mark(struct bytes *b, const char *mark) {
    b->at[b->length++] = (uint8_t)mark[0];
    b->at[b->length++] = (uint8_t)mark[1];
}

static unsigned share(unsigned place, unsigned states, unsigned each, unsigned all) { return each + (place < all - each * states); }

/* first: the leaf of choice 0; further: that of every other choice. */
static void make_set(struct bytes *b, struct shape s, uint32_t first, uint32_t further) {
    unsigned inner_states = s.roots + (N - 1) * s.states, below = s.roots, next_child = 0;
    b->length = 0;
    put_mark(b, "HD");
    b->at[b->length++] = 1;
    b->at[b->length++] = N;
    b->at[b->length++] = 0;
    b->at[b->length++] = 0;
    put_u16(b, inner_states + s.states);
    put_u16(b, s.inner_all);
    put_u16(b, s.leaves_all);
    for (unsigned level = 0; level < LEVELS; level++) {
        put_mark(b, "LV");
        put_u16(b, level == 0 ? s.roots : s.states);
    }
    for (unsigned q = 0; q < inner_states; q++) {
        if (q == below) {
            below = q + s.states;
            next_child = 0;
        }
        for (unsigned c = 0; c < share(q, inner_states, s.inner, s.inner_all); c++) {
            put_mark(b, "TR");
            put_u16(b, q);
            put_u32(b, UINT32_C(1) << c);
            put_u16(b, below + next_child++ % s.states);
            put_u16(b, below + next_child++ % s.states);
        }
    }
    for (unsigned i = 0; i < s.states; i++)
        for (unsigned c = 0; c < share(i, s.states, s.leaves, s.leaves_all); c++) {
            put_mark(b, "LF");
            put_u16(b, inner_states + i);
            put_u32(b, UINT32_C(1) << c);
            put_u32(b, c == 0 ? first : further);
            for (int zero = 0; zero < 3; zero++) put_u32(b, 0);
        }
}

static void make_circuit(struct bytes *b, unsigned gates, uint8_t code, uint8_t target, uint8_t control) {
    b->length = 0;
    for (unsigned i = 0; i < gates; i++) {
        put_mark(b, "GT");
        b->at[b->length++] = code;
        b->at[b->length++] = target;
        b->at[b->length++] = control;
        b->at[b->length++] = 0;
    }
}

/* ---- a call on a painted stack */
static struct bytes start, circuit, end;
static uint32_t allowance, number;
static uint8_t output[ZHARGUTAI_OUTPUT_SIZE], reply[ZHARGUTAI_REPLY_SIZE];
static uint8_t *volatile top;

static void *one_gate(void *unused) {
    uint8_t here = 0;
    top = &here;
    number = zhargutai_one_gate(start.at, start.length, circuit.at, circuit.length, output, sizeof output, reply, sizeof reply);
    return unused;
}

static void *check(void *unused) {
    uint8_t here = 0;
    top = &here;
    number = zhargutai_check(start.at, start.length, circuit.at, circuit.length, end.at, end.length, allowance, reply, sizeof reply);
    return unused;
}

static void stop(const char *why) {
    fprintf(stderr, "stack: %s\n", why);
    exit(2);
}

static size_t touched_over(uint8_t *stack, uint8_t paint, void *(*entry)(void *)) {
    pthread_attr_t attributes;
    pthread_t thread;
    memset(stack, paint, STACK);
    if (pthread_attr_init(&attributes) != 0 || pthread_attr_setstack(&attributes, stack, STACK) != 0) stop("no thread");
    if (pthread_create(&thread, &attributes, entry, NULL) != 0 || pthread_join(thread, NULL) != 0) stop("no thread");
    pthread_attr_destroy(&attributes);
    size_t lowest = 0;
    while (stack[lowest] == paint) lowest++;
    return (size_t)(top - (stack + lowest));
}

/* The most of two runs with different paints: a byte that is written as it was painted is not seen. The job must give this kind of reply. */
static void measure(const char *name, void *(*entry)(void *), unsigned kind, size_t *most) {
    static uint8_t *stack;
    if (stack == NULL) stack = mmap(NULL, STACK, PROT_READ | PROT_WRITE, MAP_PRIVATE | MAP_ANONYMOUS | MAP_STACK, -1, 0);
    if (stack == MAP_FAILED) stop("no memory");
    static const uint8_t paints[] = {0xa5, 0x5a};
    size_t used = 0;
    for (size_t i = 0; i < sizeof paints; i++) {
        size_t now = touched_over(stack, paints[i], entry);
        if (now > used) used = now;
    }
    if (reply[ZHARGUTAI_REPLY_KIND] != kind) {
        printf("%s: kind of reply %u wanted, got %u, number %u\n", name, kind, (unsigned)reply[ZHARGUTAI_REPLY_KIND], (unsigned)number);
        exit(1);
    }
    if (used > *most) {
        *most = used;
        printf("%7zu bytes: %s\n", used, name);
    }
}

int main(void) {
    static const struct shape largest = {44, 49, 2, 20, 2048, 1024}, narrow = {2, 2, 1, 1, 40, 2}, end_largest = {8, 6, 2, 2, 244, 12}, end_narrow = {8, 6, 1, 2, 122, 12};
    size_t gate_most = 0, check_most = 0;
    char name[128];

    make_set(&start, largest, 1, 1);
    make_circuit(&circuit, 1, 1, N, 0);
    measure("one gate, the largest set, X on the last qubit", one_gate, ZHARGUTAI_MADE, &gate_most);
    if (number == 0 && reply[ZHARGUTAI_REPLY_COUNT] + 256 * reply[ZHARGUTAI_REPLY_COUNT + 1] != ZHARGUTAI_OUTPUT_SIZE) stop("the result is not of the whole length");
    make_circuit(&circuit, 1, 4, 1, 0);
    measure("one gate, the largest set, H on the first qubit", one_gate, ZHARGUTAI_REFUSED, &gate_most);
    make_set(&start, narrow, 1, 1);
    for (uint8_t code = 1; code <= 10; code++)
        for (int up = 0; up < 2; up++) {
            uint8_t target = up ? 1 : N;
            make_circuit(&circuit, 1, code, target, code < 9 ? 0 : (uint8_t)(N + 1 - target));
            snprintf(name, sizeof name, "one gate, a narrow set, code %u on qubit %u", code, target);
            measure(name, one_gate, ZHARGUTAI_MADE, &gate_most);
        }

    make_set(&start, largest, 1, 1);
    make_circuit(&circuit, GATES_MOST, 1, N, 0);
    make_set(&end, end_largest, 2, 1);
    allowance = ALLOWANCE;
    measure("check, the largest sets, 4,096 gates, undecided", check, ZHARGUTAI_UNDECIDED, &check_most);
    make_circuit(&circuit, 0, 1, N, 0);
    measure("check, the largest sets, no gate, undecided", check, ZHARGUTAI_UNDECIDED, &check_most);
    make_set(&end, end_narrow, 2, 2);
    measure("check, the largest sets, fails", check, ZHARGUTAI_FAILS, &check_most);
    make_circuit(&circuit, 1, 4, 1, 0);
    measure("check, the largest set, refused at a gate", check, ZHARGUTAI_REFUSED, &check_most);
    make_set(&start, narrow, 1, 1);
    for (uint8_t code = 1; code <= 10; code++) {
        make_circuit(&circuit, 1, code, 1, code < 9 ? 0 : N);
        snprintf(name, sizeof name, "check, a narrow set, code %u", code);
        measure(name, check, ZHARGUTAI_FAILS, &check_most);
    }

    printf("zhargutai_one_gate: %zu bytes of stack\nzhargutai_check: %zu bytes of stack\n", gate_most, check_most);
    if (gate_most > MOST || check_most > MOST) {
        printf("over %d\n", MOST);
        return 1;
    }
    return 0;
}
