/* SPDX-License-Identifier: Apache-2.0 OR MIT */
/* Preloaded into a program: refuses its Nth request for memory (STARVE=N; 0 refuses none) and each that is larger than STARVE_MOST
   bytes, if that is set, and writes how many requests there were to the file that STARVE_COUNT names, if it is set. */
#define _GNU_SOURCE
#include <dlfcn.h>
#include <errno.h>
#include <fcntl.h>
#include <stdio.h>
#include <stdlib.h>
#include <sys/syscall.h>
#include <unistd.h>

static long refused = -1, requests;
static size_t most = (size_t)-1;
static void *(*real_malloc)(size_t);
static void *(*real_calloc)(size_t, size_t);
static void *(*real_realloc)(void *, size_t);
static int (*real_posix_memalign)(void **, size_t, size_t);
static void *(*real_aligned_alloc)(size_t, size_t);

/* Served from here while the real functions are looked up, and never freed. */
static char early[16384] __attribute__((aligned(16)));
static size_t early_used;
static int looking;

static void *early_block(size_t size)
{
    void *block = early + early_used;
    early_used += (size + 15) & ~(size_t)15;
    return early_used <= sizeof early ? block : NULL;
}

static void look_up(void)
{
    const char *number = getenv("STARVE"), *limit = getenv("STARVE_MOST");
    looking = 1;
    real_malloc = dlsym(RTLD_NEXT, "malloc");
    real_calloc = dlsym(RTLD_NEXT, "calloc");
    real_realloc = dlsym(RTLD_NEXT, "realloc");
    real_posix_memalign = dlsym(RTLD_NEXT, "posix_memalign");
    real_aligned_alloc = dlsym(RTLD_NEXT, "aligned_alloc");
    refused = number ? atol(number) : 0;
    most = limit ? strtoul(limit, NULL, 10) : most;
    looking = 0;
}

static int is_refused(size_t size)
{
    if (refused < 0)
        look_up();
    if (__atomic_add_fetch(&requests, 1, __ATOMIC_SEQ_CST) != refused && size <= most)
        return 0;
    errno = ENOMEM;
    return 1;
}

void *malloc(size_t size)
{
    if (looking)
        return early_block(size);
    return is_refused(size) ? NULL : real_malloc(size);
}

void *calloc(size_t count, size_t size)
{
    if (looking)
        return early_block(count * size);
    return is_refused(count * size) ? NULL : real_calloc(count, size);
}

void *realloc(void *block, size_t size)
{
    return is_refused(size) ? NULL : real_realloc(block, size);
}

int posix_memalign(void **block, size_t alignment, size_t size)
{
    return is_refused(size) ? ENOMEM : real_posix_memalign(block, alignment, size);
}

void *aligned_alloc(size_t alignment, size_t size)
{
    return is_refused(size) ? NULL : real_aligned_alloc(alignment, size);
}

__attribute__((destructor)) static void tell(void)
{
    const char *path = getenv("STARVE_COUNT");
    char text[32];
    int file, length;
    if (!path || (file = open(path, O_WRONLY | O_CREAT | O_TRUNC, 0600)) < 0)
        return;
    length = snprintf(text, sizeof text, "%ld", requests);
    if (write(file, text, (size_t)length) < 0)
        syscall(SYS_exit_group, 9);
    close(file);
}

/* A program that ends with a status of its own ends so, without the destructors. */
void _exit(int status)
{
    tell();
    for (;;)
        syscall(SYS_exit_group, status);
}
