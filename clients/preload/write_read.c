/* SPDX-License-Identifier: Apache-2.0 OR MIT */
/*
 * write_read.c: BINDER_WRITE_READ: the commands go to the daemon as many at a time as a page takes, with the last of
 * them the read.
 */
#include "preload.h"

#include <string.h>

static bool is_call(uint32_t code)
{
    return code == BC_TRANSACTION || code == BC_REPLY || code == BC_TRANSACTION_SG || code == BC_REPLY_SG;
}

/* Puts the parcel of the command at the end of the page's stream into the page. */
static bool pack_call(struct packing *packing, uint8_t *payload, uint32_t size)
{
    struct binder_transaction_data_sg record = {0};
    memcpy(&record, payload, size);
    if (!parcel_pack(packing, &record, packing->area_size == 0))
        return false;
    memcpy(payload, &record, size);
    return true;
}

/* Takes the arrays of a buffer out before the daemon hears that it is freed, since its place may soon be another's then. */
static void take_arrays(struct device *device, const uint8_t *free_command, struct array **taken)
{
    uint64_t buffer;
    memcpy(&buffer, free_command + sizeof(uint32_t), sizeof buffer);
    arrays_take(device, buffer, taken);
}

/* Puts one command at the end of the stream: its size, or 0 where it has to wait for the next stream. A command that
   is cut short, or longer than any, is the last, and goes without its payload: the daemon says what the kernel would. What
   follows is no command, and may be anything. One whose bytes aren't there isn't put anywhere. */
static uint32_t pack_command(struct packing *packing, const uint8_t *command, uint64_t left)
{
    uint8_t *to = packing->page->stream + packing->stream_size;
    uint32_t code = 0, room = PAGE_STREAM - packing->stream_size;
    packing->is_lost = !memory_can_be_read(command, left < sizeof code ? left : sizeof code);
    if (packing->is_lost)
        return 0;
    memcpy(&code, command, left < sizeof code ? left : sizeof code);
    uint64_t size = left < sizeof code ? left : sizeof code + _IOC_SIZE(code);
    bool is_whole = left >= sizeof code && size <= left && size <= PAGE_STREAM;
    if (!is_whole)
        size = left < sizeof code ? left : sizeof code;
    if (size > room)
        return 0;
    packing->is_lost = !memory_can_be_read(command, size);
    if (packing->is_lost)
        return 0;
    packing->is_over = !is_whole;
    memcpy(to, command, size);
    if (is_whole && is_call(code) && !pack_call(packing, to + sizeof code, _IOC_SIZE(code)))
        return 0;
    if (is_whole && code == BC_FREE_BUFFER)
        take_arrays(packing->device, command, &packing->taken);
    packing->stream_size += (uint32_t)size;
    return (uint32_t)size;
}

/* Fills the page's stream; answers how many of the bytes are in it. */
static uint64_t pack_stream(struct packing *packing, const uint8_t *commands, uint64_t size)
{
    uint64_t done = 0;
    while (done < size && !packing->is_over) {
        uint32_t packed = pack_command(packing, commands + done, size - done);
        if (!packed)
            break;
        done += packed;
    }
    return done;
}

/* Fetches the descriptors of what was read, and tells the daemon their numbers, which it writes into the window. Where there
   is no room for all of them in the process, or no memory to remember them, -1 stays there for each. */
static int place_descriptors(struct link *link, uint32_t wanted)
{
    uint32_t count;
    int fds[DESCRIPTORS_MAX];
    struct page_answer answer;
    int error = link_receive(link, fds, DESCRIPTORS_MAX, &count);
    if (error)
        return error == EMFILE ? 0 : ENODEV;
    if (count != wanted)
        return ENODEV;
    if (!arrays_keep(link->device, link->page, fds, count)) {
        descriptors_close(fds, count);
        return 0;
    }
    memcpy(link->page->numbers, fds, count * sizeof *fds);
    const struct page_request request = {.op = PAGE_PLACE, .stream_size = count};
    return link_ask(link, &request, &answer);
}

static void *place_of_returns(const struct binder_write_read *what)
{
    return (uint8_t *)(uintptr_t)what->read_buffer + what->read_consumed;
}

/* Makes one request of what was packed, and takes its answer. */
static int exchange(struct link *link, const struct packing *packing, uint32_t room, struct binder_write_read *what,
                    struct page_answer *answer)
{
    uint32_t flags = link->device->is_nonblocking ? PAGE_NONBLOCK : 0;
    const struct page_request request = {PAGE_WRITE_READ, packing->stream_size, room, flags, packing->fd_count};
    bool is_sent = !packing->fd_count
                   || packet_send(link->socket, &packing->fd_count, sizeof packing->fd_count, packing->fds, packing->fd_count, 0);
    arrays_close(packing->taken); /* after those that a call sends on have gone, before a read waits */
    if (!is_sent)
        return errno;
    link_use_area(link, packing->area_size);
    int error = link_ask(link, &request, answer);
    link_keep_area(link, packing->area_size);
    link->is_refused = answer->refused;
    what->write_consumed += answer->consumed;
    if (error || !answer->returns_size || answer->returns_size > room)
        return error;
    bool is_there = memory_can_be_written(place_of_returns(what), answer->returns_size);
    if (is_there) {
        memcpy(place_of_returns(what), link->page->returns, answer->returns_size);
        what->read_consumed += answer->returns_size;
    }
    error = answer->descriptors ? place_descriptors(link, answer->descriptors) : 0;
    return is_there ? error : EFAULT;
}

static uint32_t room_for_returns(const struct binder_write_read *what)
{
    uint64_t room = what->read_size > what->read_consumed ? what->read_size - what->read_consumed : 0;
    return room < PAGE_RETURNS ? (uint32_t)room : PAGE_RETURNS;
}

/* A write of nothing but BC_FREE_BUFFER, of which nothing is ever told: it isn't waited for. False where it is
   another one. */
static bool free_buffers(struct link *link, struct binder_write_read *what)
{
    const uint8_t *commands = (const uint8_t *)(uintptr_t)what->write_buffer + what->write_consumed;
    uint64_t size = what->write_size - what->write_consumed, each = sizeof(uint32_t) + _IOC_SIZE(BC_FREE_BUFFER);
    uint64_t buffers[PAGE_FREES];
    if (link->is_refused || room_for_returns(what) || what->write_size <= what->write_consumed || size % each
        || size / each > PAGE_FREES || !memory_can_be_read(commands, size))
        return false;
    for (uint64_t i = 0; i < size / each; i++) {
        uint32_t code;
        memcpy(&code, commands + i * each, sizeof code);
        memcpy(&buffers[i], commands + i * each + sizeof code, sizeof buffers[i]);
        if (code != BC_FREE_BUFFER)
            return false;
    }
    struct array *taken = NULL;
    for (uint64_t i = 0; i < size / each; i++)
        arrays_take(link->device, buffers[i], &taken);
    arrays_close(taken);
    if (!link_free_buffers(link, buffers, (uint32_t)(size / each)))
        return false;
    what->write_consumed = what->write_size;
    return true;
}

/* Whether there is a place for the first return, so that no read waits for what nobody gets. */
static bool is_place(const struct binder_write_read *what, uint32_t room)
{
    return memory_can_be_written(place_of_returns(what), room < sizeof(uint32_t) ? room : sizeof(uint32_t));
}

/* A refused command ends the write, not the read; and until its refusal is read nothing that is written is run. Memory that isn't there
   ends both, once what comes before it is done. */
int write_read(struct link *link, struct binder_write_read *what)
{
    bool is_end = free_buffers(link, what);
    while (!is_end) {
        struct packing packing = {.device = link->device, .page = link->page};
        struct page_answer answer;
        uint64_t left = what->write_size > what->write_consumed && !link->is_refused ? what->write_size - what->write_consumed : 0;
        uint64_t packed = pack_stream(&packing, (const uint8_t *)(uintptr_t)what->write_buffer + what->write_consumed, left);
        is_end = packed == left || packing.is_over;
        uint32_t room = is_end ? room_for_returns(what) : 0;
        bool has_place = is_place(what, room);
        if (!packing.stream_size && !(room && has_place))
            return packing.is_lost || !has_place ? EFAULT : 0;
        int error = exchange(link, &packing, has_place ? room : 0, what, &answer);
        if (error || !has_place || (packing.is_lost && !link->is_refused))
            return error ? error : EFAULT;
    }
    return 0;
}
