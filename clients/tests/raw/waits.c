/* SPDX-License-Identifier: Apache-2.0 OR MIT */
/*
 * waits: what waits for a thread, and what threads wait for. As with Linux's driver nothing that a thread writes is run before
 * it has read what was refused of it, be that a call or a reply; and of the threads that wait for what comes to their process
 * the one gets a call that began to wait last.
 */
#include "raw.h"

#include <pthread.h>
#include <stdio.h>
#include <sys/ioctl.h>
#include <unistd.h>

enum { REFUSE = 1, WHO };

#define NOBODY 77

/* How many bytes of the commands a bare write has run. */
static size_t run_of(int fd, const struct commands *commands)
{
    struct binder_write_read both = {.write_size = commands->size, .write_buffer = (uintptr_t)commands->bytes};
    CHECK(!ioctl(fd, BINDER_WRITE_READ, &both), "can't write");
    return both.write_consumed;
}

/* Whether a command that is always taken is run. */
static bool writes_run(int fd)
{
    struct commands commands = {0};
    put_code(&commands, BC_ENTER_LOOPER);
    return run_of(fd, &commands) == commands.size;
}

/* The same of one that nobody waits for: back with nothing but a buffer that isn't there. */
static bool frees_run(int fd)
{
    struct commands commands = {0};
    put_pointer(&commands, BC_FREE_BUFFER, 0);
    return run_of(fd, &commands) == commands.size;
}

/* Reads, and tells the code that came last. */
static uint32_t read_last(int fd)
{
    uint8_t room[256];
    struct binder_write_read both = {.read_size = sizeof room, .read_buffer = (uintptr_t)room};
    CHECK(!ioctl(fd, BINDER_WRITE_READ, &both), "can't read");
    struct returns returns = {room, room + both.read_consumed};
    const uint8_t *payload;
    uint32_t code = 0;
    while (next_return(&returns, &code, &payload))
        ;
    return code;
}

/* The refused command itself is run, nothing behind it, and nothing more until its refusal is read. */
static void is_refused(int fd, uint32_t code, const struct binder_transaction_data *record, uint32_t told)
{
    struct commands commands = {0};
    put_record(&commands, code, record);
    size_t size = commands.size;
    put_code(&commands, BC_ENTER_LOOPER);
    CHECK(run_of(fd, &commands) == size, "what stands behind a refused command was run");
    CHECK(!writes_run(fd) && !frees_run(fd), "a write was run before the refusal was read");
    uint32_t code_read = read_last(fd);
    CHECK(code_read == told, "the refusal was read as %x", code_read);
    CHECK(frees_run(fd) && writes_run(fd), "no write is run after the refusal was read");
}

static void call_nobody(int fd)
{
    struct binder_transaction_data call = {.target.handle = NOBODY, .flags = TF_ONE_WAY};
    is_refused(fd, BC_TRANSACTION, &call, BR_FAILED_REPLY);
}

/* A reply whose parcel is none: who made it is told that it was taken, and its caller that there is none. */
static void refuse(struct looper *looper)
{
    struct binder_transaction_data call = {.target.handle = NOBODY, .flags = TF_ONE_WAY}, reply = {.offsets_size = 4};
    is_refused(looper->binder->fd, BC_TRANSACTION, &call, BR_FAILED_REPLY);
    is_refused(looper->binder->fd, BC_REPLY, &reply, BR_TRANSACTION_COMPLETE);
    is_refused(looper->binder->fd, BC_REPLY, &reply, BR_FAILED_REPLY); /* there is no call any more */
}

/* In microseconds: so long is waited until a thread surely waits, and longer where that wasn't enough. */
#define FIRST_PAUSE 100000u
#define LAST_PAUSE 3200000u

static struct client server;
static unsigned pause_us;

static void serve(struct looper *looper, const struct binder_transaction_data *call)
{
    uint32_t number = looper == &server.looper ? 1 : 2;
    if (call->code == REFUSE)
        refuse(looper);
    else
        raw_answer(looper, &number, sizeof number);
}

static void *wait_later(void *with)
{
    struct looper looper;
    raw_looper(&looper, &server, serve);
    usleep(2 * pause_us); /* the first waits by then */
    looper_run(&looper);
    return with;
}

static void run_server(void *with)
{
    pthread_t thread;
    bool is_manager = false;
    (void)with;
    raw_open(&server, WINDOW, serve);
    for (int turn = 0; turn < RAW_PATIENCE && !(is_manager = binder_become_manager(&server.binder)); turn++)
        usleep(1000); /* the one before is it for a moment */
    CHECK(is_manager, "can't be the context manager");
    CHECK(!pthread_create(&thread, NULL, wait_later, NULL), "no thread");
    raw_ready();
    looper_run(&server.looper);
}

/* Whether the second of two threads, which has begun to wait last, gets all calls, as it waits again before each; also behind one
   whose reply it is refused. */
static bool is_last_called(struct client *client)
{
    struct binder_transaction_data reply;
    bool is_last = true;
    pid_t manager = raw_start(run_server, NULL);
    usleep(6 * pause_us); /* both wait by now */
    for (int i = 0; i < 3; i++, usleep(pause_us))
        is_last = raw_ask(&client->looper, (struct call){.code = WHO}) == 2 && is_last;
    call_nobody(client->binder.fd);
    CHECK(raw_call(&client->looper, (struct call){.code = REFUSE}, &reply) == BR_FAILED_REPLY, "a refused reply came");
    usleep(pause_us); /* else who served that call may find fault with it after this */
    is_last = raw_ask(&client->looper, (struct call){.code = WHO}) == 2 && is_last;
    raw_kill(manager);
    return is_last;
}

int main(void)
{
    struct client client;
    bool is_last = false;
    raw_begin(60);
    raw_open(&client, WINDOW, NULL);
    for (pause_us = FIRST_PAUSE; !is_last && pause_us <= LAST_PAUSE; pause_us *= 2)
        is_last = is_last_called(&client);
    CHECK(is_last, "who waited longer got the call, or who refused its reply no longer serves");
    printf("nothing runs before a refusal is read, who waits last is called first\n");
    return 0;
}
