/* Loaded before a program's C library, it refuses memory and threads: the allocation of the number in REFUSE_AT, counted from
   0; every one from that in REFUSE_FROM on; or the first of so many bytes as REFUSE_AFTER says, and every one after it. A thread
   that is started counts as an allocation. */
#define _GNU_SOURCE
#include <dlfcn.h>
#include <errno.h>
#include <pthread.h>
#include <stdlib.h>

static long at = -1, from = -1, after = -1, count;
static int is_ready, is_marked;
static void *(*real_malloc)(size_t);
static void *(*real_realloc)(void *, size_t);
static int (*real_create)(pthread_t *, const pthread_attr_t *, void *(*)(void *), void *);

static long number_in(const char *name)
{
    const char *word = getenv(name);
    return word ? atol(word) : -1;
}

__attribute__((constructor)) static void begin(void)
{
    real_malloc = (void *(*)(size_t))dlsym(RTLD_NEXT, "malloc");
    real_realloc = (void *(*)(void *, size_t))dlsym(RTLD_NEXT, "realloc");
    real_create = (int (*)(pthread_t *, const pthread_attr_t *, void *(*)(void *), void *))dlsym(RTLD_NEXT, "pthread_create");
    at = number_in("REFUSE_AT");
    from = number_in("REFUSE_FROM");
    after = number_in("REFUSE_AFTER");
    is_ready = 1;
}

static int is_refused(size_t size)
{
    long here;
    if (!is_ready)
        return 0;
    if (after >= 0 && size == (size_t)after)
        __atomic_store_n(&is_marked, 1, __ATOMIC_SEQ_CST);
    if (__atomic_load_n(&is_marked, __ATOMIC_SEQ_CST))
        return 1;
    here = __atomic_fetch_add(&count, 1, __ATOMIC_SEQ_CST);
    return here == at || (from >= 0 && here >= from);
}

void *malloc(size_t size)
{
    if (!real_malloc)
        real_malloc = (void *(*)(size_t))dlsym(RTLD_NEXT, "malloc");
    if (is_refused(size)) {
        errno = ENOMEM;
        return NULL;
    }
    return real_malloc(size);
}

void *realloc(void *old, size_t size)
{
    if (is_refused(size)) {
        errno = ENOMEM;
        return NULL;
    }
    return real_realloc(old, size);
}

int pthread_create(pthread_t *thread, const pthread_attr_t *how, void *(*work)(void *), void *with)
{
    return is_refused(0) ? EAGAIN : real_create(thread, how, work, with);
}
