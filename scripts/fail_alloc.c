/* Preloaded: lets one allocation of a program fail, the one of the number FAIL_ALLOC, from 1. A number of 0 lets none
   fail. The file FAIL_ALLOC_COUNT has the count of the allocations as a machine word, however the program ends. */
#include <errno.h>
#include <fcntl.h>
#include <stdatomic.h>
#include <stddef.h>
#include <stdlib.h>
#include <sys/mman.h>
#include <unistd.h>

extern void *__libc_malloc(size_t);
extern void *__libc_calloc(size_t, size_t);
extern void *__libc_realloc(void *, size_t);
extern void *__libc_memalign(size_t, size_t);

/* The count, in the file. Null before the program's own code begins: what was allocated until then is not counted. */
static atomic_ulong *made;
static unsigned long failing;

/* Counts an allocation. Whether it is the one to fail. */
static int fails(void)
{
    if (made == NULL || atomic_fetch_add(made, 1) + 1 != failing)
        return 0;
    errno = ENOMEM;
    return 1;
}

void *malloc(size_t size)
{
    return fails() ? NULL : __libc_malloc(size);
}

void *calloc(size_t count, size_t size)
{
    return fails() ? NULL : __libc_calloc(count, size);
}

void *realloc(void *old, size_t size)
{
    return fails() ? NULL : __libc_realloc(old, size);
}

void *memalign(size_t alignment, size_t size)
{
    return fails() ? NULL : __libc_memalign(alignment, size);
}

void *aligned_alloc(size_t alignment, size_t size)
{
    return memalign(alignment, size);
}

int posix_memalign(void **place, size_t alignment, size_t size)
{
    void *taken = memalign(alignment, size);
    if (taken == NULL)
        return ENOMEM;
    *place = taken;
    return 0;
}

__attribute__((constructor)) static void begin(void)
{
    const char *number = getenv("FAIL_ALLOC");
    const char *path = getenv("FAIL_ALLOC_COUNT");
    if (number == NULL || path == NULL)
        return;
    failing = strtoul(number, NULL, 10);
    int file = open(path, O_RDWR | O_CREAT | O_TRUNC, 0644);
    if (file < 0 || ftruncate(file, sizeof *made) != 0)
        _exit(99);
    void *shared = mmap(NULL, sizeof *made, PROT_READ | PROT_WRITE, MAP_SHARED, file, 0);
    if (shared == MAP_FAILED)
        _exit(99);
    close(file);
    made = shared;
}
