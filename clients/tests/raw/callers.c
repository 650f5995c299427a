/* SPDX-License-Identifier: Apache-2.0 OR MIT */
/*
 * callers: a receiver is told the effective uid that the main thread of its caller's process has at the call, and not what it had when the
 * device was opened: of calls with objects too, of one-way calls, and of replies. With the word `serve` it is only the other side,
 * for callers that aren't what they seem.
 */
#include "raw.h"

#include <grp.h>
#include <pthread.h>
#include <stdio.h>
#include <string.h>
#include <sys/syscall.h>
#include <unistd.h>

/* TELL is 1 elsewhere too (fuzz/impostor.c). */
enum { TELL = 1, TELL_OF_OBJECT, HEAR, TELL_HEARD, BECOME, QUIT };

#define NOBODY 65534
#define SOMEBODY 1000
#define GROUPS 3000

static const char words[] = "what is said";

static void serve(struct looper *looper, const struct binder_transaction_data *call)
{
    static uint32_t heard;
    uint32_t told = call->code == TELL_HEARD ? heard : call->sender_euid;
    if (call->code == HEAR || call->code == TELL)
        CHECK(!call->data_size || !memcmp(raw_data(call), words, sizeof words), "other words came");
    if (call->code == HEAR)
        heard = call->sender_euid;
    if (call->code == QUIT)
        _exit(0);
    if (call->code == BECOME)
        CHECK(!seteuid(raw_number(call)), "can't become another user");
    if (!(call->flags & TF_ONE_WAY))
        raw_answer(looper, &told, sizeof told);
}

static uint32_t told_with_object(struct client *client)
{
    struct writer object = {0};
    struct binder_transaction_data reply;
    write_own_object(&object, 0x1000, 0x2000);
    CHECK(raw_call_with(&client->looper, (struct call){.code = TELL_OF_OBJECT}, &object, &reply) == BR_REPLY, "an object isn't taken");
    uint32_t euid = raw_number(&reply);
    looper_free(&client->looper, &reply);
    return euid;
}

static uint32_t told_with_descriptor(struct client *client)
{
    struct writer descriptor = {0};
    struct binder_transaction_data reply;
    write_descriptor(&descriptor, STDOUT_FILENO);
    CHECK(raw_call_with(&client->looper, (struct call){.code = TELL_OF_OBJECT}, &descriptor, &reply) == BR_REPLY, "no descriptor goes");
    uint32_t euid = raw_number(&reply);
    looper_free(&client->looper, &reply);
    return euid;
}

static uint32_t told_one_way(struct client *client)
{
    struct binder_transaction_data none;
    struct call call = {.code = HEAR, .flags = TF_ONE_WAY, .bytes = words, .size = sizeof words};
    CHECK(raw_call(&client->looper, call, &none) == BR_TRANSACTION_COMPLETE, "a one-way call isn't taken");
    return raw_ask(&client->looper, (struct call){.code = TELL_HEARD});
}

/* All ways of calling tell this uid. */
static void are_told(struct client *client, uint32_t euid)
{
    CHECK(raw_ask(&client->looper, (struct call){.code = TELL}) == euid, "a call without words isn't told as %u's", euid);
    uint32_t told = raw_ask(&client->looper, (struct call){.code = TELL, .bytes = words, .size = sizeof words});
    CHECK(told == euid, "a call is told as %u's, and is %u's", told, euid);
    told = told_with_object(client);
    CHECK(told == euid, "a call with an object is told as %u's, and is %u's", told, euid);
    told = told_with_descriptor(client);
    CHECK(told == euid, "a call with a descriptor is told as %u's, and is %u's", told, euid);
    told = told_one_way(client);
    CHECK(told == euid, "a one-way call is told as %u's, and is %u's", told, euid);
}

/* A thread that alone has become another user. */
static void *call_as_another(void *with)
{
    struct looper looper;
    raw_looper(&looper, with, NULL);
    CHECK(!syscall(SYS_setresuid, -1, NOBODY, -1), "a thread can't become another user");
    uint32_t told = raw_ask(&looper, (struct call){.code = TELL});
    CHECK(told == 0, "a call is told as %u's, where the main thread is root's", told);
    return NULL;
}

/* Somebody with so many groups that a process's `status` takes many pages is known all the same. */
static void with_many_groups(void *with)
{
    static gid_t groups[GROUPS];
    struct client client;
    (void)with;
    for (gid_t i = 0; i < GROUPS; i++)
        groups[i] = 4000000000 + i;
    CHECK(!setgroups(GROUPS, groups), "can't be of many groups");
    raw_open(&client, WINDOW, NULL);
    CHECK(raw_ask(&client.looper, (struct call){.code = TELL}) == 0, "root with many groups isn't told as root");
    raw_ready();
    _exit(0);
}

static void replies(struct client *client, uint32_t euid)
{
    struct binder_transaction_data reply;
    CHECK(raw_call(&client->looper, (struct call){.code = BECOME, .bytes = &euid, .size = sizeof euid}, &reply) == BR_REPLY, "no reply");
    CHECK(reply.sender_euid == euid, "a reply is told as %u's, and is %u's", reply.sender_euid, euid);
    looper_free(&client->looper, &reply);
}

/* A context manager that takes descriptors too. */
static noreturn void serve_as_manager(void (*tell_ready)(void))
{
    struct client client;
    raw_open(&client, WINDOW, serve);
    CHECK(raw_become_taking_manager(&client.binder), "can't be the context manager");
    tell_ready();
    looper_run(&client.looper);
    raw_fail(__FILE__, __LINE__, "the device failed");
}

static void manage(void *with)
{
    (void)with;
    serve_as_manager(raw_ready);
}

static void print_ready(void)
{
    puts("ready");
}

int main(int argc, char **argv)
{
    struct client client;
    pthread_t thread;
    raw_begin(30);
    if (argc > 1 && !strcmp(argv[1], "serve"))
        serve_as_manager(print_ready);
    CHECK(!geteuid(), "only root can become another user");
    pid_t manager = raw_start(manage, NULL);
    raw_open(&client, WINDOW, NULL);
    are_told(&client, 0);
    CHECK(!seteuid(SOMEBODY), "can't become another user");
    are_told(&client, SOMEBODY);
    CHECK(!seteuid(0), "can't be root again");
    are_told(&client, 0);
    CHECK(!pthread_create(&thread, NULL, call_as_another, &client) && !pthread_join(thread, NULL), "no thread");
    raw_join(raw_start(with_many_groups, NULL));
    replies(&client, SOMEBODY);
    replies(&client, 0);
    CHECK(!setresuid(SOMEBODY, SOMEBODY, SOMEBODY), "can't become another user for good");
    are_told(&client, SOMEBODY);
    printf("root's calls are told as root's, and as another's once it is another\n");
    CHECK(raw_call(&client.looper, (struct call){.code = QUIT}, &(struct binder_transaction_data){0}) == BR_DEAD_REPLY, "who ends answers");
    raw_join(manager); /* it is root's, and can't be ended otherwise by who isn't any more */
    return 0;
}
