// Refuses one allocation of a program, or one thread: the one whose number REFUSE_MEMORY or REFUSE_THREAD has, from 1. It
// says so on the standard error. To be loaded before the C library (LD_PRELOAD).
#define _GNU_SOURCE
#include <dlfcn.h>
#include <errno.h>
#include <pthread.h>
#include <stdatomic.h>
#include <stdlib.h>
#include <unistd.h>

extern void *__libc_malloc(size_t);
extern void *__libc_calloc(size_t, size_t);
extern void *__libc_realloc(void *, size_t);
extern void *__libc_memalign(size_t, size_t);

struct turn {
    const char *name;
    atomic_long wanted, come;
};

static struct turn memory = {"REFUSE_MEMORY", -1, 0}, threads = {"REFUSE_THREAD", -1, 0};

static int refused(struct turn *turn) {
    long wanted = atomic_load(&turn->wanted);
    if (wanted < 0) {
        const char *number = getenv(turn->name);
        wanted = number ? atol(number) : 0;
        atomic_store(&turn->wanted, wanted);
    }
    if (wanted == 0 || atomic_fetch_add(&turn->come, 1) + 1 != wanted)
        return 0;
    if (write(2, "refused\n", 8) != 8)
        abort();
    return 1;
}

static void *none(void) {
    errno = ENOMEM;
    return NULL;
}

void *malloc(size_t size) { return refused(&memory) ? none() : __libc_malloc(size); }

void *calloc(size_t count, size_t size) { return refused(&memory) ? none() : __libc_calloc(count, size); }

void *realloc(void *old, size_t size) { return refused(&memory) ? none() : __libc_realloc(old, size); }

void *aligned_alloc(size_t align, size_t size) { return refused(&memory) ? none() : __libc_memalign(align, size); }

int posix_memalign(void **result, size_t align, size_t size) {
    void *place = refused(&memory) ? NULL : __libc_memalign(align, size);
    if (place == NULL)
        return ENOMEM;
    *result = place;
    return 0;
}

int pthread_create(pthread_t *thread, const pthread_attr_t *attr, void *(*run)(void *), void *with) {
    if (refused(&threads))
        return EAGAIN;
    int (*real)(pthread_t *, const pthread_attr_t *, void *(*)(void *), void *) = dlsym(RTLD_NEXT, "pthread_create");
    return real(thread, attr, run, with);
}
