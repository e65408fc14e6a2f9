/* What the benchmarks of the C interface share: the time of a call, and the stack that it wants. */
#ifndef MEASURE_H
#define MEASURE_H

#include <stddef.h>
#include <stdint.h>
#include <string.h>
#include <time.h>
#include <ucontext.h>

enum { CALLS = 2000, STACK = 1 << 18 };

/* A call, and what has to come before it so that it does its work. */
struct workload {
    const char *name;
    void (*before)(void);
    void (*call)(void);
};

static uint8_t stack[STACK] __attribute__((aligned(64)));
static ucontext_t here, there;

static inline void nothing(void) {}

static inline double now(void)
{
    struct timespec t;
    clock_gettime(CLOCK_MONOTONIC, &t);
    return (double)t.tv_sec * 1e9 + (double)t.tv_nsec;
}

/* The shortest round, a call. */
static inline double shortest_of(int rounds, void (*first)(void), void (*second)(void))
{
    double best = 1e9;
    for (int round = 0; round < rounds; round++) {
        double start = now();
        for (int i = 0; i < CALLS; i++) {
            first();
            second();
        }
        double took = (now() - start) / CALLS;
        if (took < best)
            best = took;
    }
    return best;
}

/* How much of a fresh stack a call writes. */
static inline size_t stack_of(void (*call)(void))
{
    memset(stack, 0xa5, sizeof stack);
    getcontext(&there);
    there.uc_stack.ss_sp = stack;
    there.uc_stack.ss_size = sizeof stack;
    there.uc_link = &here;
    makecontext(&there, call, 0);
    swapcontext(&here, &there);
    size_t blank = 0;
    while (blank < sizeof stack && stack[blank] == 0xa5)
        blank++;
    return sizeof stack - blank;
}

#endif
