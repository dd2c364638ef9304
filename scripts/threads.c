/* Preloaded: counts the threads that a program starts, or lets it start none. The file THREADS_COUNT has two machine words
   however the program ends: how many threads were started, and how many ran at once at most, the first thread left out.
   Where THREADS_REFUSED is set, each start fails as one for which the system has no room. */
#define _GNU_SOURCE
#include <dlfcn.h>
#include <errno.h>
#include <fcntl.h>
#include <pthread.h>
#include <stdatomic.h>
#include <stdlib.h>
#include <sys/mman.h>
#include <unistd.h>

typedef int creating(pthread_t *, const pthread_attr_t *, void *(*)(void *), void *);

struct counts {
    atomic_ulong started;
    atomic_ulong most;
};

struct start {
    void *(*routine)(void *);
    void *given;
};

static struct counts *counts;
static atomic_ulong running;

static void *run(void *given)
{
    struct start start = *(struct start *)given;
    free(given);
    void *result = start.routine(start.given);
    atomic_fetch_sub(&running, 1);
    return result;
}

static void count(void)
{
    unsigned long now = atomic_fetch_add(&running, 1) + 1;
    unsigned long most = atomic_load(&counts->most);
    while (most < now && !atomic_compare_exchange_weak(&counts->most, &most, now))
        ;
    atomic_fetch_add(&counts->started, 1);
}

int pthread_create(pthread_t *thread, const pthread_attr_t *attributes, void *(*routine)(void *), void *given)
{
    creating *real = (creating *)dlsym(RTLD_NEXT, "pthread_create");
    struct start *start;
    if (getenv("THREADS_REFUSED") != NULL)
        return EAGAIN;
    start = malloc(sizeof *start);
    if (start == NULL)
        return EAGAIN;
    *start = (struct start){routine, given};
    count();
    return real(thread, attributes, run, start);
}

__attribute__((constructor)) static void begin(void)
{
    int file = open(getenv("THREADS_COUNT"), O_RDWR | O_CREAT, 0644);
    if (file < 0 || ftruncate(file, sizeof *counts) != 0)
        abort();
    counts = mmap(NULL, sizeof *counts, PROT_READ | PROT_WRITE, MAP_SHARED, file, 0);
    if (counts == MAP_FAILED)
        abort();
    close(file);
}
