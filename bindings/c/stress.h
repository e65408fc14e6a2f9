/* What the two stress tests share: chance, guests' stores, memory between pages that nobody may touch, and threads that write. */
#ifndef STRESS_H
#define STRESS_H

#include "chance.h"

#include <inttypes.h>
#include <pthread.h>
#include <stdatomic.h>
#include <stdbool.h>
#include <stdio.h>
#include <stdlib.h>
#include <string.h>
#include <sys/mman.h>
#include <time.h>
#include <unistd.h>

enum { PATTERN = 0xA5 };

#define COUNT(array) (sizeof(array) / sizeof *(array))
#define WANT(holds) want(__FILE__, __LINE__, (holds), #holds)

/* How many calls were made. */
static uint64_t calls;
static atomic_bool is_over;

static inline void want(const char *file, int line, bool holds, const char *what)
{
    if (!holds) {
        fprintf(stderr, "%s:%d: after %" PRIu64 " calls not so: %s\n", file, line, calls, what);
        exit(1);
    }
}

/* Writes a byte as another processor does: one store, whatever else goes on. */
static inline void store(uint8_t *at, uint64_t byte)
{
    __atomic_store_n(at, (uint8_t)byte, __ATOMIC_RELAXED);
}

/* Writes a number of 8 bytes, lowest first. */
static inline void store_word(uint8_t *at, uint64_t word)
{
    for (unsigned i = 0; i < 8; i++)
        store(at + i, word >> (8 * i));
}

/* A thread: what it does all the time, to one of so many functions and then to another. */
struct writer {
    pthread_t thread;
    unsigned guests;
    void (*write)(uint64_t *chance, unsigned guest);
    uint64_t chance;
    uint64_t writes;
};

static inline void *write_on(void *of)
{
    struct writer *writer = of;
    while (!atomic_load_explicit(&is_over, memory_order_relaxed)) {
        writer->write(&writer->chance, below(&writer->chance, writer->guests));
        writer->writes++;
    }
    return NULL;
}

/* So many bytes between two pages that nobody may touch. */
static inline uint8_t *guarded(size_t size)
{
    size_t page = (size_t)sysconf(_SC_PAGESIZE);
    WANT(size % page == 0);
    uint8_t *all = mmap(NULL, size + 2 * page, PROT_NONE, MAP_PRIVATE | MAP_ANONYMOUS, -1, 0);
    WANT(all != MAP_FAILED);
    WANT(mprotect(all + page, size, PROT_READ | PROT_WRITE) == 0);
    return all + page;
}

/* Whether so many bytes are all the pattern. */
static inline bool is_pattern(const uint8_t *bytes, size_t count)
{
    return count == 0 || (bytes[0] == PATTERN && memcmp(bytes, bytes + 1, count - 1) == 0);
}

static inline double seconds(void)
{
    struct timespec now;
    WANT(clock_gettime(CLOCK_MONOTONIC, &now) == 0);
    return (double)now.tv_sec + (double)now.tv_nsec / 1e9;
}

#endif
