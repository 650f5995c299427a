/* SPDX-License-Identifier: Apache-2.0 OR MIT */
/*
 * memory.c: whether the program's pointers lead anywhere. The kernel answers a bad one with EFAULT; here to follow it would end the
 * program. So the kernel is asked about each page before it's touched: by system calls that look at a word and do nothing
 * else. What it has said of a page holds for the thread until the program unmaps or protects something, so that buffers that are
 * used again cost nothing. (To have the kernel copy, by process_vm_readv, takes 1.4 to 2 us a time, a question 0.2 to 0.3.)
 */
#include "preload.h"

#include <linux/futex.h>
#include <sys/syscall.h>

#define PAGE_BYTES ((uintptr_t)4096)

/* As many pages are asked about one by one; more at once, where the kernel can. */
#define ONE_BY_ONE 4

#ifndef MADV_POPULATE_READ
#define MADV_POPULATE_READ 22
#define MADV_POPULATE_WRITE 23
#endif

enum access { READS = 1, WRITES = 2 };

/* What a thread knows of pages: their addresses, with what may be done there in the lowest bits. */
#define KNOWN 64
static __thread struct {
    uint32_t generation;
    uintptr_t pages[KNOWN];
} known __attribute__((tls_model("initial-exec")));

static _Atomic uint32_t generation;

void memory_changed(void)
{
    atomic_fetch_add(&generation, 1);
}

/* Where it is noted what may be done with a page. */
static uintptr_t *entry_of(uintptr_t page)
{
    uint32_t now = atomic_load_explicit(&generation, memory_order_relaxed);
    if (known.generation != now) {
        for (int i = 0; i < KNOWN; i++)
            known.pages[i] = 0;
        known.generation = now;
    }
    return &known.pages[page / PAGE_BYTES % KNOWN];
}

/* A mask of signals is read from there before it's seen that there is no such way to set it. */
static bool reads_word(uintptr_t at)
{
    enum { NO_WAY = 99 };
    return syscall(SYS_rt_sigprocmask, NO_WAY, at & ~(uintptr_t)7, NULL, 8) == 0 || errno != EFAULT;
}

/* Nothing is added to the bits of a word there, and nobody woken. */
static bool writes_word(uintptr_t at)
{
    static const uint32_t none;
    const uint32_t nothing = FUTEX_OP(FUTEX_OP_OR, 0, FUTEX_OP_CMP_LT, 0);
    return syscall(SYS_futex, &none, FUTEX_WAKE_OP | FUTEX_PRIVATE_FLAG, 0, NULL, at & ~(uintptr_t)3, nothing) >= 0 || errno != EFAULT;
}

static bool has_page(uintptr_t at, enum access access)
{
    uintptr_t page = at & ~(PAGE_BYTES - 1), *entry = entry_of(page);
    if (!page) /* no program has the first one, and to both questions NULL means something else */
        return false;
    if ((*entry & ~(PAGE_BYTES - 1)) != page)
        *entry = page;
    if (*entry & access)
        return true;
    if (!(access == READS ? reads_word(at) : writes_word(at)))
        return false;
    *entry |= access;
    return true;
}

/* Whether all pages are there; where the kernel can't say so at once, it has to be asked one by one. */
static bool has_many(uintptr_t first, uintptr_t last, enum access access, bool *is_known)
{
    int advice = access == READS ? MADV_POPULATE_READ : MADV_POPULATE_WRITE;
    int result = madvise((void *)(first & ~(PAGE_BYTES - 1)), (last | (PAGE_BYTES - 1)) - (first & ~(PAGE_BYTES - 1)) + 1, advice);
    *is_known = !result || errno != EINVAL;
    return !result;
}

static bool has(const void *at, uint64_t size, enum access access)
{
    int error = errno;
    uintptr_t first = (uintptr_t)at, last = first + size - 1;
    bool all = true, is_known = false;
    if (!size)
        return true;
    if (last < first)
        return false;
    if (last / PAGE_BYTES - first / PAGE_BYTES >= ONE_BY_ONE)
        all = has_many(first, last, access, &is_known);
    if (!is_known) {
        all = has_page(first, access);
        for (uintptr_t page = (first | (PAGE_BYTES - 1)) + 1; all && page <= last && page; page += PAGE_BYTES)
            all = has_page(page, access);
    }
    errno = error;
    return all;
}

bool memory_can_be_read(const void *at, uint64_t size)
{
    return has(at, size, READS);
}

bool memory_can_be_written(const void *at, uint64_t size)
{
    return has(at, size, WRITES);
}
