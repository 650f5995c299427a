/* SPDX-License-Identifier: Apache-2.0 OR MIT */
/*
 * deaths: who holds an object hears of its process's end, in both directions; who waits for a reply hears it at once, also
 * where just the server's thread ends, or its file is closed; who asks afterwards too; and a notification that was taken back
 * is told as taken back.
 */
#include "raw.h"

#include <stdio.h>
#include <sys/ioctl.h>
#include <unistd.h>

enum { GIVE = 1, TAKE, TELL, HANG, LEAVE, CLOSE };

#define COOKIE 0x1234567890abcdef

/* Of the server: how many of its clients' objects have died; the handle of the latest. */
static uint32_t dead;

static void server_died(struct looper *looper, binder_uintptr_t cookie)
{
    (void)looper;
    dead += cookie == COOKIE;
}

static void serve(struct looper *looper, const struct binder_transaction_data *call)
{
    struct writer object = {0};
    struct binder_transaction_data answer;
    looper->died = server_died;
    switch (call->code) {
    case GIVE:
        write_own_object(&object, 0x4000, 0x4000);
        answer = record_of(&object);
        CHECK(looper_answer(looper, &answer, 0), "can't answer");
        writer_free(&object);
        break;
    case TAKE:
        put_death(&looper->commands, BC_REQUEST_DEATH_NOTIFICATION, raw_keep(looper, call), COOKIE);
        raw_answer(looper, NULL, 0);
        break;
    case TELL:
        raw_answer(looper, &dead, sizeof dead);
        break;
    case LEAVE:
        CHECK(!ioctl(looper->binder->fd, BINDER_THREAD_EXIT, 0), "the thread can't leave");
        put_code(&looper->commands, BC_ENTER_LOOPER); /* as another thread */
        break;
    case CLOSE:
        binder_close(looper->binder);
        pause();
        break;
    case HANG:
        pause();
        break;
    }
}

static uint32_t take_object(struct client *client)
{
    struct binder_transaction_data reply;
    CHECK(raw_call(&client->looper, (struct call){.code = GIVE}, &reply) == BR_REPLY, "no object came");
    uint32_t handle = raw_keep(&client->looper, &reply);
    looper_free(&client->looper, &reply);
    return handle;
}

/* Gives the server an object, and ends without a word, or waits to be killed. */
static void give_and_end(void *with)
{
    struct client client;
    raw_open(&client, WINDOW, NULL);
    raw_give(&client, TAKE);
    CHECK(looper_flush(&client.looper), "can't write");
    raw_ready();
    if (*(bool *)with)
        pause();
    _exit(0);
}

static void clients_die(struct client *client)
{
    for (uint32_t i = 0; i < 6; i++) {
        bool waits = i % 2;
        pid_t pid = raw_start(give_and_end, &waits);
        raw_kill(pid);
        uint32_t heard = 0;
        for (int turn = 0; turn < RAW_PATIENCE && heard <= i; turn++, usleep(1000))
            heard = raw_ask(&client->looper, (struct call){.code = TELL});
        CHECK(heard == i + 1, "the server heard of %u deaths in place of %u", heard, i + 1);
    }
}

static binder_uintptr_t told;

static void client_died(struct looper *looper, binder_uintptr_t cookie)
{
    (void)looper;
    told = cookie;
}

static void hang(void *with)
{
    struct client client;
    struct binder_transaction_data reply;
    (void)with;
    raw_open(&client, WINDOW, NULL);
    raw_ready();
    uint32_t ending = raw_call(&client.looper, (struct call){.code = HANG}, &reply);
    CHECK(ending == BR_DEAD_REPLY, "a call whose server was killed ended as %x", ending);
}

/* A call whose server ends while it's served. */
static void call_the_dying(struct client *client, uint32_t code)
{
    struct binder_transaction_data reply;
    uint32_t ending = raw_call(&client->looper, (struct call){.code = code}, &reply);
    CHECK(ending == BR_DEAD_REPLY, "call %u ended as %x", code, ending);
}

static void server_dies(struct client *client, pid_t manager)
{
    uint32_t handle = take_object(client);
    struct looper *looper = &client->looper;
    struct turn turn;
    struct binder_transaction_data reply;
    looper->died = client_died;
    put_death(&looper->commands, BC_REQUEST_DEATH_NOTIFICATION, handle, COOKIE);
    put_code(&looper->commands, BC_ENTER_LOOPER);
    CHECK(looper_flush(looper), "can't ask for the death");
    pid_t waiting = raw_start(hang, NULL);
    usleep(100000); /* it waits for its reply by then; were it later, it would hear the same */
    raw_kill(manager);
    raw_join(waiting);
    while (!told)
        CHECK(looper_turn(looper, &turn), "can't read");
    CHECK(told == COOKIE, "a death came with the cookie %llx", (unsigned long long)told);
    CHECK(raw_call(looper, (struct call){.handle = handle}, &reply) == BR_DEAD_REPLY, "a call of the dead didn't end so");
    CHECK(raw_call(looper, (struct call){0}, &reply) == BR_DEAD_REPLY, "a call of no manager didn't end so");
}

int main(void)
{
    struct client client;
    raw_begin(30);
    pid_t manager = raw_start_manager(serve);
    raw_open(&client, WINDOW, NULL);
    clients_die(&client);
    call_the_dying(&client, LEAVE);
    server_dies(&client, manager);
    manager = raw_start_manager(serve);
    call_the_dying(&client, CLOSE);
    raw_kill(manager);
    printf("heard on both sides\n");
    return 0;
}
