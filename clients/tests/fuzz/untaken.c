/* SPDX-License-Identifier: Apache-2.0 OR MIT */
/*
 * untaken DEVICE THREADS ROUNDS [UID NEWCOMER]: sends itself as many descriptors as go into a parcel, round after round, to threads of a
 * context manager that never take them from their links. Prints how many lie there in all, and in the fullest link at most, as the kernel
 * tells, and whether a newcomer is let in then; with users it is of the first, and the newcomer of the other one.
 */
#include "../raw/raw.h"
#include "hostile.h"

#include <linux/android/binder.h>
#include <stdio.h>
#include <stdlib.h>
#include <string.h>
#include <sys/prctl.h>
#include <unistd.h>

#define THREADS_MOST 64

/* Descriptors that lie in a socket. */
static unsigned long lying_in(int socket)
{
    char path[64], line[128];
    unsigned long count = 0;
    snprintf(path, sizeof path, "/proc/self/fdinfo/%d", socket);
    FILE *file = fopen(path, "re");
    CHECK(file, "no %s", path);
    while (fgets(line, sizeof line, file))
        sscanf(line, "scm_fds: %lu", &count);
    fclose(file);
    return count;
}

static void ask(struct hostile *hostile)
{
    CHECK(hostile_await(hostile), "there is no answer");
}

static void ask_to_write(struct hostile *hostile, const void *stream, size_t size, uint32_t room, uint32_t descriptors)
{
    if (size)
        memcpy(hostile->page->stream, stream, size);
    hostile->page->request = (struct page_request){PAGE_WRITE_READ, (uint32_t)size, room, PAGE_NONBLOCK, descriptors};
    ask(hostile);
}

/* A one-way call of the context manager, with all descriptors that a packet takes. */
static void send_all(struct hostile *sender)
{
    struct {
        uint32_t code;
        struct binder_transaction_data data;
    } __attribute__((packed)) call = {BC_TRANSACTION, {.flags = TF_ONE_WAY | TF_ACCEPT_FDS}};
    const uint32_t count = DESCRIPTORS_MAX;
    for (uint64_t i = 0; i < count; i++) {
        const struct binder_fd_object object = {.hdr.type = BINDER_TYPE_FD, .fd = (uint32_t)i};
        const uint64_t offset = i * sizeof object;
        memcpy(sender->page->area + offset, &object, sizeof object);
        memcpy(sender->page->area + count * sizeof object + 8 * i, &offset, sizeof offset);
    }
    call.data.data_size = call.data.data.ptr.offsets = count * sizeof(struct binder_fd_object);
    call.data.offsets_size = 8 * count;
    if (hostile_send(sender->link, &count, sizeof count, count))
        ask_to_write(sender, &call, sizeof call, 256, count);
}

/* Reads a call, gives its buffer back, and leaves what lies in the link. */
static void read_and_free(struct hostile *reader)
{
    struct {
        uint32_t code;
        uint64_t buffer;
    } __attribute__((packed)) done = {BC_FREE_BUFFER, 0};
    struct binder_transaction_data call;
    ask_to_write(reader, NULL, 0, 256, 0);
    if (reader->page->answer.returns_size < 8 + sizeof call)
        return;
    memcpy(&call, reader->page->returns + 8, sizeof call);
    done.buffer = call.data.ptr.buffer;
    ask_to_write(reader, &done, sizeof done, 0, 0);
}

/* What was sent before counts until it is closed, which takes its time on a busy machine; till then the share may have no room. */
static void join(struct hostile *reader)
{
    for (unsigned waited = 0; !hostile_thread(reader); waited += 10) {
        CHECK(waited < hostile_patience, "no thread");
        usleep(10000);
    }
}

static void become(uid_t user)
{
    CHECK(!setgid(user) && !setuid(user) && !prctl(PR_SET_DUMPABLE, 1), "can't be user %u", user);
}

/* Another process, which does something each time that it is told to. */
struct helper {
    int told, done;
};

static struct helper start(void (*act)(void *), void *with, uid_t user)
{
    int told[2], done[2];
    CHECK(!pipe(told) && !pipe(done), "no pipes");
    pid_t pid = fork();
    CHECK(pid >= 0, "no process");
    if (!pid) {
        char byte;
        close(told[1]);
        close(done[0]);
        if (user)
            become(user);
        while (read(told[0], &byte, 1) == 1) {
            act(with);
            CHECK(write(done[1], &byte, 1) == 1, "nobody waits");
        }
        _exit(0);
    }
    close(told[0]);
    close(done[1]);
    return (struct helper){told[1], done[0]};
}

/* Whether it has done that, and lives. */
static bool has_done(const struct helper *helper)
{
    char byte = 0;
    return write(helper->told, &byte, 1) == 1 && read(helper->done, &byte, 1) == 1;
}

static void send_to(void *device)
{
    static struct hostile sender;
    static bool has_begun;
    CHECK(has_begun || hostile_begin(&sender, device), "no sender");
    has_begun = true;
    send_all(&sender);
}

/* A newcomer gets a window and a thread. */
static void come(void *device)
{
    static struct hostile newcomer;
    if (!hostile_begin(&newcomer, device))
        _exit(1);
}

int main(int argc, char **argv)
{
    static struct hostile readers[THREADS_MOST];
    const uint32_t loops = BC_ENTER_LOOPER;
    CHECK(argc >= 4, "untaken DEVICE THREADS ROUNDS [UID NEWCOMER]");
    size_t threads = strtoul(argv[2], NULL, 10), rounds = strtoul(argv[3], NULL, 10);
    uid_t user = argc > 5 ? (uid_t)atoi(argv[4]) : 0;
    unsigned long all = 0, most = 0;
    raw_begin(100);
    CHECK(threads <= THREADS_MOST, "too many threads");
    struct helper sender = start(send_to, argv[1], user), newcomer = start(come, "/dev/hwbinder", argc > 5 ? (uid_t)atoi(argv[5]) : 0);
    if (user)
        become(user);
    CHECK(hostile_begin(&readers[0], argv[1]), "no client");
    readers[0].page->request = (struct page_request){.op = PAGE_SET_MANAGER, .flags = PAGE_TAKES_DESCRIPTORS};
    ask(&readers[0]);
    CHECK(!readers[0].page->answer.error, "no context manager");
    for (size_t i = 0; i < threads; i++) {
        readers[i].control = readers[0].control;
        if (i)
            join(&readers[i]);
        ask_to_write(&readers[i], &loops, sizeof loops, 0, 0);
        for (size_t j = 0; j < rounds && has_done(&sender); j++)
            read_and_free(&readers[i]);
        unsigned long lying = lying_in(readers[i].link);
        all += lying;
        most = lying > most ? lying : most;
    }
    printf("untaken %lu most %lu, a newcomer is %s\n", all, most, has_done(&newcomer) ? "let in" : "kept out");
    return 0;
}
