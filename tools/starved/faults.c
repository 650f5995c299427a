/* SPDX-License-Identifier: Apache-2.0 OR MIT */
/* Faults that a library could have, each of which has to be found: linked with the functions below wrapped, by which a call that memory was
   refused to does what it may not. The environment's FAULT says which. */
#include "hullpippin.h"

#include <stdlib.h>
#include <string.h>

uint32_t __real_hullpippin_open(hullpippin_seat *seat, uint32_t pid, uint32_t euid, uint32_t window, hullpippin_answer *answer);
uint32_t __wrap_hullpippin_open(hullpippin_seat *seat, uint32_t pid, uint32_t euid, uint32_t window, hullpippin_answer *answer);
uint32_t __real_hullpippin_write(hullpippin_seat *seat, const uint8_t *stream, size_t stream_size, const uint8_t *area, size_t area_size,
                                 hullpippin_answer *answer);
uint32_t __wrap_hullpippin_write(hullpippin_seat *seat, const uint8_t *stream, size_t stream_size, const uint8_t *area, size_t area_size,
                                 hullpippin_answer *answer);
uint32_t __real_hullpippin_live_read(hullpippin_live *live, uint32_t seat, uint32_t limit, hullpippin_answer *answer);
uint32_t __wrap_hullpippin_live_read(hullpippin_live *live, uint32_t seat, uint32_t limit, hullpippin_answer *answer);
uint32_t __real_hullpippin_post(hullpippin_seat *seat, const hullpippin_request *request, const uint8_t *stream, size_t stream_size,
                                const uint8_t *area, size_t area_size);
uint32_t __wrap_hullpippin_post(hullpippin_seat *seat, const hullpippin_request *request, const uint8_t *stream, size_t stream_size,
                                const uint8_t *area, size_t area_size);
uint32_t __real_hullpippin_journal(hullpippin_driver *driver, uint8_t *out, size_t room, size_t *size);
uint32_t __wrap_hullpippin_journal(hullpippin_driver *driver, uint8_t *out, size_t room, size_t *size);
bool __real_hullpippin_live_thread(hullpippin_live *live, uint32_t seat, hullpippin_thread *thread);
bool __wrap_hullpippin_live_thread(hullpippin_live *live, uint32_t seat, hullpippin_thread *thread);
uint32_t __real_hullpippin_live_ask_reached(hullpippin_live *live, size_t *count);
uint32_t __wrap_hullpippin_live_ask_reached(hullpippin_live *live, size_t *count);

static bool is_fault(const char *name)
{
    const char *fault = getenv("FAULT");
    return fault && !strcmp(fault, name);
}

/* A request that comes back opens the process all the same, as another step. */
uint32_t __wrap_hullpippin_open(hullpippin_seat *seat, uint32_t pid, uint32_t euid, uint32_t window, hullpippin_answer *answer)
{
    hullpippin_answer other;
    uint32_t status = __real_hullpippin_open(seat, pid, euid, window, answer);
    if (is_fault("open") && status == HULLPIPPIN_DONE && answer->kind == HULLPIPPIN_BACK)
        __real_hullpippin_open(seat, pid, euid, window, &other);
    return status;
}

/* What is written after a write that came back has another first byte in its area; or each write asks for memory of its own. */
uint32_t __wrap_hullpippin_write(hullpippin_seat *seat, const uint8_t *stream, size_t stream_size, const uint8_t *area, size_t area_size,
                                 hullpippin_answer *answer)
{
    static bool came_back;
    uint8_t other[64];
    void *volatile copy = is_fault("copy") ? malloc(stream_size + 1) : NULL;
    if (is_fault("copy") && !copy)
        return HULLPIPPIN_NO_MEMORY;
    free(copy);
    if (came_back && area_size > 0 && area_size <= sizeof other) {
        memcpy(other, area, area_size);
        other[0] ^= 1;
        area = other;
    }
    uint32_t status = __real_hullpippin_write(seat, stream, stream_size, area, area_size, answer);
    came_back = is_fault("write") && status == HULLPIPPIN_DONE && answer->kind == HULLPIPPIN_BACK;
    return status;
}

/* A step that isn't made fills a field of its answer. */
uint32_t __wrap_hullpippin_live_read(hullpippin_live *live, uint32_t seat, uint32_t limit, hullpippin_answer *answer)
{
    uint32_t status = __real_hullpippin_live_read(live, seat, limit, answer);
    if (is_fault("live_read") && status == HULLPIPPIN_NO_MEMORY)
        answer->offsets++;
    return status;
}

/* What couldn't be copied is handed over without its area, and that isn't told. */
uint32_t __wrap_hullpippin_post(hullpippin_seat *seat, const hullpippin_request *request, const uint8_t *stream, size_t stream_size,
                                const uint8_t *area, size_t area_size)
{
    uint32_t status = __real_hullpippin_post(seat, request, stream, stream_size, area, area_size);
    if (is_fault("post") && status == HULLPIPPIN_NO_MEMORY)
        return __real_hullpippin_post(seat, request, stream, stream_size, NULL, 0);
    return status;
}

/* Want of memory is told as another status. */
uint32_t __wrap_hullpippin_journal(hullpippin_driver *driver, uint8_t *out, size_t room, size_t *size)
{
    uint32_t status = __real_hullpippin_journal(driver, out, room, size);
    return is_fault("journal") && status == HULLPIPPIN_NO_MEMORY ? HULLPIPPIN_NO_JOURNAL : status;
}

/* A look asks for memory. */
bool __wrap_hullpippin_live_thread(hullpippin_live *live, uint32_t seat, hullpippin_thread *thread)
{
    void *volatile block = is_fault("live_thread") ? malloc(1) : NULL;
    free(block);
    return __real_hullpippin_live_thread(live, seat, thread);
}

/* Lists that weren't found for want of memory are forgotten. */
uint32_t __wrap_hullpippin_live_ask_reached(hullpippin_live *live, size_t *count)
{
    size_t forgotten;
    uint32_t status = __real_hullpippin_live_ask_reached(live, count);
    if (is_fault("live_ask_reached") && status == HULLPIPPIN_NO_MEMORY)
        __real_hullpippin_live_ask_reached(live, &forgotten);
    return status;
}
