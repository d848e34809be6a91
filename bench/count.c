/* Preloaded: sums what a program asks of malloc and its kin, and tells it on standard error at the end. */
#define _GNU_SOURCE
#include <dlfcn.h>
#include <malloc.h>
#include <stdio.h>
#include <stdlib.h>

extern void *__libc_malloc(size_t);
extern void *__libc_calloc(size_t, size_t);
extern void *__libc_realloc(void *, size_t);

static size_t bytes, calls;

void *malloc(size_t n)
{
    bytes += n;
    calls++;
    return __libc_malloc(n);
}

void *calloc(size_t n, size_t m)
{
    bytes += n * m;
    calls++;
    return __libc_calloc(n, m);
}

void *realloc(void *p, size_t n)
{
    bytes += n;
    calls++;
    return __libc_realloc(p, n);
}

__attribute__((destructor)) static void tell(void)
{
    char text[64];
    int n = snprintf(text, sizeof text, "%zu %zu\n", bytes, calls);
    if (fwrite(text, 1, (size_t)n, stderr) != (size_t)n)
        return;
}
