/* SPDX-License-Identifier: Apache-2.0 OR MIT */
/*
 * reserve.c: memory that each device has set aside, so that what ends can end, whoever has taken all other. Where there is none for a step
 * of the daemon's own seat, it is let go of, and nobody gets anything more in its share (shares.c) until it is there again.
 */
#include "daemon.h"

#include <malloc.h>
#include <sys/mman.h>

/* Such a part of the daemon's memory, or so much, is more than the largest end takes: of each of 160,000 watched objects that is 180 bytes,
   and a process has no more things of one kind than a KiB each in the 80th part of the memory. It is no memory before it is written, but
   room for that, as limits and overcommitment count it. */
#define PART_OF_RESERVE 256u
#define RESERVE_LEAST (UINT64_C(8) << 20)

static size_t size(void)
{
    uint64_t part = shares_memory() / PART_OF_RESERVE;
    return part > RESERVE_LEAST ? part : RESERVE_LEAST;
}

bool reserve_take(struct engine *engine)
{
    void *at = mmap(NULL, size(), PROT_READ | PROT_WRITE, MAP_PRIVATE | MAP_ANONYMOUS, -1, 0);
    engine->reserve = at == MAP_FAILED ? NULL : at;
    return engine->reserve;
}

void reserve_use(struct engine *engine)
{
    if (!engine->reserve)
        return;
    log_line("%s: there is no memory for processes to come or go but what was set aside: others get none until that is back",
             engine->device);
    munmap(engine->reserve, size());
    engine->reserve = NULL;
    engine->uses_reserve = true;
    shares_close();
}

void reserve_regain(struct engine *engine)
{
    if (!engine->uses_reserve)
        return;
    malloc_trim(0);
    if (!reserve_take(engine))
        return;
    engine->uses_reserve = false;
    shares_open();
    log_line("%s: memory is set aside again", engine->device);
}

void reserve_free(struct engine *engine)
{
    if (engine->reserve)
        munmap(engine->reserve, size());
    if (engine->uses_reserve)
        shares_open();
    engine->reserve = NULL;
    engine->uses_reserve = false;
}
