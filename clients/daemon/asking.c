/* SPDX-License-Identifier: Apache-2.0 OR MIT */
/* asking.c: what a daemon that runs tells of a device, for who asks on the command line. It is another program than this one, and whoever
   listens there may be none at all: what it sends is looked at before it is relied on. */
#include "daemon.h"

#include "../address.h"

#include <errno.h>
#include <fcntl.h>
#include <inttypes.h>
#include <stdlib.h>
#include <string.h>
#include <sys/mman.h>
#include <sys/stat.h>

static const char no_daemon[] = "no daemon of this build answers", too_slow[] = "not all of it is told in time";

static int fail(const char *what, const char *why)
{
    fprintf(stderr, "hullpippind: %s: %s\n", what, why);
    return 1;
}

/* Asks, with a device's name, for an answer of some size, and what comes with it. Where none comes it is no daemon of this build. */
static bool ask(int fd, struct control_request *request, const char *device, void *answer, size_t size, int *descriptor)
{
    uint32_t count;
    request->version = PROTOCOL_VERSION;
    snprintf(request->device, sizeof request->device, "%s", device);
    return packet_send(fd, request, sizeof *request, NULL, 0, 0)
           && packet_receive(fd, answer, size, descriptor, descriptor ? 1 : 0, &count, 0) == 1 && (!descriptor || count <= 1);
}

/* A connection that a daemon answers, if it is one. */
static int connect_to(const char *path)
{
    struct sockaddr_un address = {0};
    int fd = daemon_dial(path, ASKING_PATIENCE, &address);
    if (fd < 0)
        fail(address.sun_path, strerror(errno));
    return fd;
}

/* Why what an answer begins with is no good one, or NULL: an errno comes first in all of them. */
static const char *why_not(bool is_answered, const int32_t *error)
{
    return !is_answered ? no_daemon : *error ? strerror(*error) : NULL;
}

/* --- What it has counted --- */

static uint64_t get(const uint64_t *word)
{
    return __atomic_load_n(word, __ATOMIC_RELAXED);
}

/* A line for each number that was counted, as debugfs has them. */
static void print_numbers(uint32_t kind, const char *letter, const uint64_t *counts)
{
    for (uint32_t i = 0; i < 32; i++)
        if (get(&counts[i]))
            printf("%s%u %s: %llu\n", letter, i, hullpippin_text(kind, i), (unsigned long long)get(&counts[i]));
}

/* The same of commands or returns, by their codes. */
static void print_codes(uint32_t kind, const uint32_t *codes, size_t size, const uint64_t *counts)
{
    for (size_t i = 0; i < size / sizeof *codes; i++)
        if (get(&counts[_IOC_NR(codes[i])]))
            printf("%s: %llu\n", hullpippin_text(kind, codes[i]), (unsigned long long)get(&counts[_IOC_NR(codes[i])]));
}

static void print_counts(const struct ring_heading *ring, const char *device)
{
    static const uint32_t commands[] = {BC_TRANSACTION, BC_REPLY, BC_FREE_BUFFER, BC_INCREFS, BC_ACQUIRE, BC_RELEASE, BC_DECREFS,
                                        BC_INCREFS_DONE, BC_ACQUIRE_DONE, BC_ENTER_LOOPER, BC_EXIT_LOOPER, BC_REQUEST_DEATH_NOTIFICATION,
                                        BC_CLEAR_DEATH_NOTIFICATION, BC_DEAD_BINDER_DONE};
    static const uint32_t returns[] = {BR_TRANSACTION, BR_REPLY, BR_DEAD_REPLY, BR_TRANSACTION_COMPLETE, BR_INCREFS, BR_ACQUIRE,
                                       BR_RELEASE, BR_DECREFS, BR_NOOP, BR_DEAD_BINDER, BR_CLEAR_DEATH_NOTIFICATION_DONE, BR_FAILED_REPLY,
                                       BR_ONEWAY_SPAM_SUSPECT};
    const struct ring_counts *counts = &ring->counts;
    printf("%s: %llu steps, %llu processes, %llu of %u seats lent, %llu at most\n", device, (unsigned long long)get(&ring->count),
           (unsigned long long)get(&counts->processes), (unsigned long long)get(&counts->seats_lent), ring->seats - 1,
           (unsigned long long)get(&counts->most_lent));
    print_codes(HULLPIPPIN_TEXT_COMMAND, commands, sizeof commands, counts->commands);
    print_codes(HULLPIPPIN_TEXT_RETURN, returns, sizeof returns, counts->returns);
    print_numbers(HULLPIPPIN_TEXT_FAULT, "F", counts->faults);
    print_numbers(HULLPIPPIN_TEXT_CAUSE, "X", counts->causes);
    print_numbers(HULLPIPPIN_TEXT_NOTE, "N", counts->notes);
    printf("turns: %llu, the longest of %llu steps; one client has waited for %llu\n", (unsigned long long)get(&counts->turns),
           (unsigned long long)get(&counts->longest_turn), (unsigned long long)get(&counts->longest_wait));
    printf("looks: %llu; %llu left to be looked at in %llu seconds of rest\nbytes of parcels: %llu\n", (unsigned long long)get(&counts->looks),
           (unsigned long long)get(&ring->left_idle), (unsigned long long)get(&ring->rests), (unsigned long long)get(&counts->copied));
    printf("longest turn: %llu us of the processor's time; by which clients come: %llu us; by which they end: %llu us\n",
           (unsigned long long)get(&counts->longest_time) / 1000, (unsigned long long)get(&counts->longest_open) / 1000,
           (unsigned long long)get(&counts->longest_end) / 1000);
    printf("costly turns: %llu us; parcels put off: %llu\n", (unsigned long long)get(&counts->costly_time) / 1000,
           (unsigned long long)get(&counts->put_off));
}

/* Whether so much memory is there, and stays: else a look at it would end this program. */
static bool is_whole(int memory, uint64_t size)
{
    struct stat file;
    int seals = fcntl(memory, F_GET_SEALS);
    return size >= RING_HEADING && !fstat(memory, &file) && (uint64_t)file.st_size == size && seals >= 0 && seals & F_SEAL_SHRINK;
}

static bool is_ring(const struct ring_heading *ring, uint64_t size, const char *device)
{
    return !memcmp(ring->magic, RING_MAGIC, sizeof ring->magic) && ring->heading_size == RING_HEADING && ring->slot_size == RING_SLOT
           && size == RING_HEADING + (uint64_t)ring->slot_count * RING_SLOT && !strncmp(ring->device, device, sizeof ring->device);
}

int ask_stats(const char *path, const char *device)
{
    struct control_request request = {.op = CONTROL_RING};
    struct control_answer answer = {0};
    int memory = -1, fd = connect_to(path);
    if (fd < 0)
        return 1;
    const char *why = why_not(ask(fd, &request, device, &answer, sizeof answer, &memory), &answer.error);
    if (why)
        return fail(device, why);
    if (!is_whole(memory, answer.size))
        return fail(device, no_daemon);
    const void *at = mmap(NULL, answer.size, PROT_READ, MAP_SHARED, memory, 0);
    if (at == MAP_FAILED)
        return fail(device, strerror(errno));
    if (!is_ring(at, answer.size, device))
        return fail(device, no_daemon);
    print_counts(at, device);
    return 0;
}

/* --- What its processes and threads are at, and what they have --- */

struct records {
    struct state_record *all;
    size_t count;
    uint64_t place;
};

static bool keep(struct records *records, const struct state_page *page)
{
    struct state_record *all = realloc(records->all, (records->count + page->count + 1) * sizeof *all);
    if (!all)
        return false;
    memcpy(all + records->count, page->records, page->count * sizeof *all);
    *records = (struct records){all, records->count + page->count, page->place};
    return true;
}

/* Whether it is one that a daemon tells: each begins behind the one before it, which the request asked for. */
static bool is_page(const struct state_page *page, const struct control_request *request)
{
    bool is_behind = page->next > request->size || (page->next == request->size && page->within > request->base);
    return page->count <= STATE_ROOM && (!page->next || is_behind);
}

/* So many pages are asked for, 4,194,304 records, and for so many seconds: what listens there may be no daemon, and would be asked without
   end. */
#define PAGES_MAX (1u << 18)
uint32_t asking_most = 60;

/* Why no page is asked for behind so many, the first of which was asked for then; or NULL. */
static const char *why_no_more(uint32_t count, uint64_t since)
{
    return count == PAGES_MAX ? no_daemon : nanoseconds() - since > asking_most * UINT64_C(1000000000) ? too_slow : NULL;
}

/* Fetches page after page, up to the last. Why they can't be had, or NULL. */
static const char *fetch_all(int fd, const char *device, struct records *records)
{
    struct control_request request = {.op = CONTROL_STATE};
    struct state_page page = {.next = 1};
    const char *why = NULL;
    uint64_t since = nanoseconds();
    for (uint32_t i = 0; !why && page.next; i++) {
        why = why_no_more(i, since);
        if (!why)
            why = why_not(ask(fd, &request, device, &page, sizeof page, NULL), &page.error);
        if (!why && !is_page(&page, &request))
            why = no_daemon;
        if (!why && !keep(records, &page))
            why = strerror(ENOMEM);
        request.size = page.next;
        request.base = page.within;
    }
    return why;
}

static void print_unread(const struct state_record *record)
{
    if (record->unread)
        printf(", %u%s to read", record->unread, record->unread == STATE_UNREAD ? " or more" : "");
    putchar('\n');
}

/* Clients choose their names, which aren't to be taken for a line of their own, or do what a terminal is told. */
static const char *spell(const struct state_record *record, char text[ESCAPED * COMM_ROOM + 1])
{
    char name[sizeof record->comm + 1] = "";
    memcpy(name, record->comm, sizeof record->comm);
    text[name_escape(name, text)] = 0;
    return text;
}

static void print_process(const struct state_record *process)
{
    char name[ESCAPED * COMM_ROOM + 1];
    printf("proc %u %s: euid %u, window %u, %u threads", process->pid, spell(process, name), process->euid, process->window, process->threads);
    printf(", of %u asked for %u have come", process->max_threads, process->started);
    if (process->process != process->pid)
        printf(", in the history %u", process->process);
    printf("%s%s", process->flags & STATE_MANAGER ? ", context manager" : "", process->flags & STATE_DETECTS_SPAM ? ", detects spam" : "");
    print_unread(process);
}

static void print_thread(const struct state_record *thread)
{
    char name[ESCAPED * COMM_ROOM + 1];
    printf("  thread %u %s: seat %u%s%s", thread->tid, spell(thread, name), thread->seat, thread->flags & STATE_LOOPS ? ", loops" : "",
           thread->flags & STATE_WAITS ? ", waits" : "");
    if (thread->serving)
        printf(", serves %u", thread->serving);
    if (thread->calling)
        printf(", calls %u", thread->calling);
    if (thread->innermost != RING_NONE)
        printf(", the innermost from step %" PRIu64, thread->innermost);
    print_unread(thread);
}

/* A process by its pid in the history, as it was told of. */
static void print_party(const struct records *records, const char *word, uint32_t process)
{
    char name[ESCAPED * COMM_ROOM + 1];
    for (size_t i = 0; i < records->count; i++)
        if (records->all[i].kind == STATE_PROCESS && records->all[i].process == process) {
            printf(" %s %u %s", word, records->all[i].pid, spell(&records->all[i], name));
            return;
        }
    printf(" %s a process that has ended", word);
}

static void print_handle(const struct records *records, const struct state_record *handle)
{
    printf("  handle %u: object %" PRIu64 ".%u", handle->handle, handle->object_place, handle->object_index);
    print_party(records, "of", handle->party);
    putchar('\n');
}

static void print_buffer(const struct records *records, const struct state_record *buffer)
{
    printf("  buffer at %u: %u bytes, %s %#x", buffer->start, buffer->size, buffer->flags & STATE_CALL ? "a call with code" : "a reply with code",
           buffer->code);
    if (buffer->flags & STATE_CALL)
        printf(" on object %" PRIu64 ".%u", buffer->object_place, buffer->object_index);
    print_party(records, "from", buffer->party);
    printf("%s%s, made by step %" PRIu64 "\n", buffer->flags & STATE_ONE_WAY ? ", one-way" : "", buffer->flags & STATE_HANDED ? "" : ", unread",
           buffer->made);
}

static void print_what_has(const struct records *records, uint32_t process)
{
    for (size_t i = 0; i < records->count; i++) {
        const struct state_record *record = &records->all[i];
        if (record->process == process && record->kind == STATE_THREAD)
            print_thread(record);
        else if (record->process == process && record->kind == STATE_HANDLE)
            print_handle(records, record);
        else if (record->process == process && record->kind == STATE_BUFFER)
            print_buffer(records, record);
    }
}

/* Whether two shares are of one account, user or process. */
static bool are_of_one(const struct state_record *share, const struct state_record *other)
{
    return share->flags == other->flags && share->object_place == other->object_place && share->euid == other->euid
           && share->pid == other->pid;
}

static void print_owner(const struct state_record *share)
{
    if (share->flags & STATE_OF_ACCOUNT)
        printf("account %" PRIu64 " has", share->object_place);
    else if (share->flags & STATE_OF_USER)
        printf("user %u of account %" PRIu64 " has", share->euid, share->object_place);
    else
        printf("process %u of user %u has", share->pid, share->euid);
}

/* A line for whose they are. */
static void print_shares(const struct records *records)
{
    static const char *const names[] = {STATE_SHARES};
    const struct state_record *before = NULL;
    for (size_t i = 0; i < records->count; i++) {
        const struct state_record *share = &records->all[i];
        if (share->kind != STATE_SHARE || share->code >= sizeof names / sizeof *names)
            continue;
        bool is_next = before && are_of_one(share, before);
        if (!is_next) {
            fputs(before ? "\n" : "", stdout);
            print_owner(share);
        }
        printf("%s %s %" PRIu64, is_next ? "," : "", names[share->code], share->made);
        if (share->innermost)
            printf(" (%" PRIu64 " refused)", share->innermost);
        before = share;
    }
    fputs(before ? "\n" : "", stdout);
}

static void print_all(const char *device, const struct records *records)
{
    printf("%s: %llu steps\n", device, (unsigned long long)records->place);
    for (size_t i = 0; i < records->count; i++) {
        if (records->all[i].kind != STATE_PROCESS)
            continue;
        print_process(&records->all[i]);
        print_what_has(records, records->all[i].process);
    }
    print_shares(records);
}

int ask_state(const char *path, const char *device)
{
    struct control_request request = {.op = CONTROL_OPEN};
    struct control_answer answer = {0};
    struct records records = {0};
    int fd = connect_to(path);
    if (fd < 0)
        return 1;
    const char *why = why_not(ask(fd, &request, device, &answer, sizeof answer, NULL), &answer.error);
    why = why ? why : fetch_all(fd, device, &records);
    if (!why)
        print_all(device, &records);
    free(records.all);
    return why ? fail(device, why) : 0;
}
