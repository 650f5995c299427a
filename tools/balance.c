/* SPDX-License-Identifier: Apache-2.0 OR MIT */
/* Linked with a program whose malloc, realloc and free are wrapped (cc -Wl,--wrap=malloc,--wrap=realloc,--wrap=free): refuses the
   request for memory that the environment's REFUSE names, from 1, and at the end writes to the file that BALANCE names how many
   requests there were and how many blocks were not given back. */
#include <stdatomic.h>
#include <stddef.h>
#include <stdio.h>
#include <stdlib.h>

void *__real_malloc(size_t size);
void *__real_realloc(void *block, size_t size);
void __real_free(void *block);

static atomic_long requests, blocks;

static int is_refused(void)
{
    const char *number = getenv("REFUSE");
    return atomic_fetch_add(&requests, 1) + 1 == (number ? atol(number) : 0);
}

void *__wrap_malloc(size_t size)
{
    void *block = is_refused() ? NULL : __real_malloc(size);
    if (block)
        atomic_fetch_add(&blocks, 1);
    return block;
}

void *__wrap_realloc(void *old, size_t size)
{
    void *block = is_refused() ? NULL : __real_realloc(old, size);
    if (block && !old)
        atomic_fetch_add(&blocks, 1);
    return block;
}

void __wrap_free(void *block)
{
    if (block)
        atomic_fetch_sub(&blocks, 1);
    __real_free(block);
}

__attribute__((destructor)) static void tell(void)
{
    const char *path = getenv("BALANCE");
    FILE *file = path ? fopen(path, "w") : NULL;
    if (file) {
        fprintf(file, "%ld %ld", (long)requests, (long)blocks);
        fclose(file);
    }
}
