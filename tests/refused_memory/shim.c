/*
 * Preloaded into a program: counts its requests for memory and refuses some.
 *
 * REFUSED_REQUEST=N refuses request N, counted from 1; with REFUSED_FROM=1 each one from it on. At the end the
 * number of requests, the most bytes that were there at once and those that are left are written to the file
 * that REQUESTS_TO names.
 */
#define _GNU_SOURCE
#include <errno.h>
#include <malloc.h>
#include <stdio.h>
#include <stdlib.h>
#include <fcntl.h>
#include <unistd.h>

extern void *__libc_malloc(size_t size);
extern void *__libc_calloc(size_t count, size_t size);
extern void *__libc_realloc(void *old, size_t size);
extern void *__libc_memalign(size_t alignment, size_t size);
extern void __libc_free(void *old);

static long requests;
static long there;
static long most;
static long refused;
static int from_there;

__attribute__((constructor)) static void read_environment(void)
{
    const char *number = getenv("REFUSED_REQUEST");
    refused = number ? atol(number) : 0;
    from_there = getenv("REFUSED_FROM") != NULL;
    requests = 0;
}

__attribute__((destructor)) static void tell_requests(void)
{
    const char *path = getenv("REQUESTS_TO");
    int file = path ? open(path, O_WRONLY | O_CREAT | O_TRUNC, 0600) : -1;
    if (file >= 0) {
        dprintf(file, "%ld %ld %ld\n", requests, most, there);
        close(file);
    }
}

static int is_refused(void)
{
    requests++;
    if (refused && (requests == refused || (from_there && requests > refused))) {
        errno = ENOMEM;
        return 1;
    }
    return 0;
}

/* Counts the bytes of a new block. */
static void *counted(void *block)
{
    there += block ? (long)malloc_usable_size(block) : 0;
    most = there > most ? there : most;
    return block;
}

static void uncounted(void *block)
{
    there -= block ? (long)malloc_usable_size(block) : 0;
}

void *malloc(size_t size)
{
    return is_refused() ? NULL : counted(__libc_malloc(size));
}

void *calloc(size_t count, size_t size)
{
    return is_refused() ? NULL : counted(__libc_calloc(count, size));
}

void *realloc(void *old, size_t size)
{
    if (is_refused())
        return NULL;
    uncounted(old);
    return counted(__libc_realloc(old, size));
}

void free(void *old)
{
    uncounted(old);
    __libc_free(old);
}

void *aligned_alloc(size_t alignment, size_t size)
{
    return is_refused() ? NULL : counted(__libc_memalign(alignment, size));
}

int posix_memalign(void **out, size_t alignment, size_t size)
{
    if (is_refused())
        return ENOMEM;
    *out = counted(__libc_memalign(alignment, size));
    return *out ? 0 : ENOMEM;
}
