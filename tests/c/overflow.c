/* A thread with too little stack: the call ends the process by SIGSEGV at the guard page and writes nothing outside the stack. A page of the caller's below the
 * guard keeps its bytes, which the parent sees since it is shared; with ZHARGUTAI_STACK_SIZE the same call answers. */
#define _GNU_SOURCE
#include "zhargutai.h"

#include <pthread.h>
#include <stdio.h>
#include <stdlib.h>
#include <string.h>
#include <sys/mman.h>
#include <sys/wait.h>
#include <unistd.h>

enum { GUARD = 4096, BELOW = 1 << 20 };

static const uint8_t set[] = {'H', 'D', 1, 1, 0, 0, 2, 0, 1, 0, 1, 0, 'L', 'V', 1, 0, 'L', 'V', 1, 0, 'T', 'R', 0, 0, 1, 0, 0, 0, 1, 0, 1, 0,
                              'L', 'F', 1, 0, 1, 0, 0, 0, 1, 0, 0, 0, 0, 0, 0, 0, 0, 0, 0, 0, 0, 0, 0, 0};
static uint8_t reply[ZHARGUTAI_REPLY_SIZE];

static void *call(void *unused) {
    (void)unused;
    zhargutai_check(set, sizeof set, set, 0, set, sizeof set, 1, reply, sizeof reply);
    return NULL;
}

/* The status of a child that makes the call in a thread with this stack, which lies in the shared memory above the part BELOW and a guard page. */
static int child(uint8_t *memory, size_t size) {
    int status = 0;
    pid_t pid = fork();
    if (pid == 0) {
        pthread_attr_t attributes;
        pthread_t thread;
        mprotect(memory + BELOW, GUARD, PROT_NONE);
        pthread_attr_init(&attributes);
        if (pthread_attr_setstack(&attributes, memory + BELOW + GUARD, size) != 0 || pthread_create(&thread, &attributes, call, NULL) != 0) _exit(9);
        pthread_join(thread, NULL);
        _exit(zhargutai_kind(reply) == ZHARGUTAI_HOLDS && zhargutai_count(reply) == 1 ? 0 : 8);
    }
    waitpid(pid, &status, 0);
    return status;
}

int main(void) {
    size_t whole = BELOW + GUARD + ZHARGUTAI_STACK_SIZE;
    uint8_t *memory = mmap(NULL, whole, PROT_READ | PROT_WRITE, MAP_SHARED | MAP_ANONYMOUS, -1, 0);
    if (memory == MAP_FAILED) return 1;
    memset(memory, 0xA5, BELOW);
    for (size_t size = 32768; size <= 262144; size *= 2) {
        int status = child(memory, size);
        if (!WIFSIGNALED(status) || WTERMSIG(status) != SIGSEGV) {
            printf("%zu bytes of stack: status %d, expected SIGSEGV\n", size, status);
            return 1;
        }
    }
    for (size_t i = 0; i < BELOW; i++) {
        if (memory[i] != 0xA5) {
            printf("a byte %zu below the guard page was written\n", (size_t)BELOW - i);
            return 1;
        }
    }
    if (child(memory, ZHARGUTAI_STACK_SIZE) != 0) {
        printf("ZHARGUTAI_STACK_SIZE is not enough\n");
        return 1;
    }
    printf("an overflow ends the process and writes nothing below the guard page; ZHARGUTAI_STACK_SIZE is enough\n");
    return 0;
}
