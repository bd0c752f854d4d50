/* Counts the allocations of each thread, if it is preloaded. When the program first writes to its standard output, which is at its end, a line for each
 * thread goes to standard error, in the order of their first calls: mallocs, with reallocs, and frees. */
#define _GNU_SOURCE
#include <stdio.h>
#include <stdlib.h>
#include <sys/syscall.h>
#include <unistd.h>

enum { MOST = 64 };

extern void *__libc_malloc(size_t size);
extern void *__libc_calloc(size_t count, size_t size);
extern void *__libc_realloc(void *old, size_t size);
extern void __libc_free(void *old);

static struct {
    long mallocs, frees;
} counts[MOST];
static int used, told;
static __thread int mine = -1;

static int place(void)
{
    if (mine < 0) {
        mine = __sync_fetch_and_add(&used, 1);
        if (mine >= MOST)
            mine = MOST - 1;
    }
    return mine;
}

void *malloc(size_t size)
{
    counts[place()].mallocs++;
    return __libc_malloc(size);
}

void *calloc(size_t count, size_t size)
{
    counts[place()].mallocs++;
    return __libc_calloc(count, size);
}

void *realloc(void *old, size_t size)
{
    counts[place()].mallocs++;
    return __libc_realloc(old, size);
}

void free(void *old)
{
    if (old)
        counts[place()].frees++;
    __libc_free(old);
}

ssize_t write(int file, const void *bytes, size_t count)
{
    if (file == 1 && !__sync_fetch_and_add(&told, 1))
        for (int i = 0; i < used && i < MOST; i++)
            fprintf(stderr, "%ld %ld\n", counts[i].mallocs, counts[i].frees);
    return syscall(SYS_write, file, bytes, count);
}
