/* Refuses the allocation of a process that REFUSE numbers, counted from 1; with REFUSE_ONWARD, all that follow it too.
   A byte on the descriptor REFUSE_TOLD says that it was refused. To be loaded before the C library (LD_PRELOAD). */
#define _GNU_SOURCE
#include <errno.h>
#include <stddef.h>
#include <stdlib.h>
#include <unistd.h>

extern void *__libc_malloc(size_t);
extern void *__libc_calloc(size_t, size_t);
extern void *__libc_realloc(void *, size_t);
extern void *__libc_memalign(size_t, size_t);

static unsigned long count, wanted;
static int told = -1, onward;

/* The environment is not there yet at the first calls of the loader. */
static void learn(void)
{
    const char *number = getenv("REFUSE"), *descriptor = getenv("REFUSE_TOLD");
    if (number != NULL && descriptor != NULL) {
        wanted = strtoul(number, NULL, 10);
        told = atoi(descriptor);
        onward = getenv("REFUSE_ONWARD") != NULL;
    }
}

static int refused(void)
{
    count++;
    if (wanted == 0)
        learn();
    if (wanted == 0 || count < wanted || (count > wanted && !onward))
        return 0;
    if (count == wanted && write(told, "r", 1) != 1)
        abort();
    errno = ENOMEM;
    return 1;
}

void *malloc(size_t size) { return refused() ? NULL : __libc_malloc(size); }

void *calloc(size_t number, size_t size) { return refused() ? NULL : __libc_calloc(number, size); }

void *realloc(void *old, size_t size) { return refused() ? NULL : __libc_realloc(old, size); }

void *reallocarray(void *old, size_t number, size_t size)
{
    size_t bytes;
    if (__builtin_mul_overflow(number, size, &bytes)) {
        errno = ENOMEM;
        return NULL;
    }
    return realloc(old, bytes);
}

void *memalign(size_t align, size_t size) { return refused() ? NULL : __libc_memalign(align, size); }

void *aligned_alloc(size_t align, size_t size) { return memalign(align, size); }

int posix_memalign(void **made, size_t align, size_t size)
{
    void *block = memalign(align, size);
    if (block == NULL)
        return ENOMEM;
    *made = block;
    return 0;
}
