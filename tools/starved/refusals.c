/* SPDX-License-Identifier: Apache-2.0 OR MIT */
#include "refusals.h"

#include <stddef.h>

void *__real_malloc(size_t size);
void *__real_realloc(void *block, size_t size);
void __real_free(void *block);
void *__wrap_malloc(size_t size);
void *__wrap_realloc(void *block, size_t size);
void __wrap_free(void *block);

static long refused, count, in_use;
static bool is_all, is_news;

void refuse(long request, bool all)
{
    refused = request;
    is_all = all;
    count = 0;
    is_news = false;
}

long requests(void)
{
    return count;
}

bool was_refused(void)
{
    bool was = is_news;
    is_news = false;
    return was;
}

long blocks(void)
{
    return in_use;
}

static bool is_refused(void)
{
    bool is_next = ++count == refused;
    is_news |= is_next;
    return is_next || (is_all && is_news);
}

void *__wrap_malloc(size_t size)
{
    void *block = is_refused() ? NULL : __real_malloc(size);
    in_use += block != NULL;
    return block;
}

void *__wrap_realloc(void *old, size_t size)
{
    void *block = is_refused() ? NULL : __real_realloc(old, size);
    in_use += block && !old;
    return block;
}

void __wrap_free(void *block)
{
    in_use -= block != NULL;
    __real_free(block);
}
