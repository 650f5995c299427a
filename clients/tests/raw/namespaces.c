/* SPDX-License-Identifier: Apache-2.0 OR MIT */
/*
 * namespaces: a process is told the pid of its caller as its own pid namespace has it, and 0 where that one has none for it. A server and
 * a client are in a namespace of their own; the manager is outside.
 */
#include "raw.h"

#include <sched.h>
#include <signal.h>
#include <stdio.h>
#include <sys/prctl.h>
#include <sys/wait.h>
#include <unistd.h>

enum { KEEP = 1, HAND, WHO, ASK_KEPT, LAST };

/* Answers with the caller's pid, or with what was asked for. */
static void manage(struct looper *looper, const struct binder_transaction_data *call)
{
    static uint32_t kept, last;
    uint32_t answer = call->code == LAST ? last : (uint32_t)call->sender_pid;
    struct writer writer = {0};
    if (call->code == WHO)
        last = (uint32_t)call->sender_pid;
    if (call->code == KEEP)
        kept = raw_keep(looper, call);
    if (call->code == ASK_KEPT)
        answer = raw_ask(looper, (struct call){.handle = kept, .code = WHO});
    if (call->code == HAND)
        write_strong_handle(&writer, kept);
    else
        write_number(&writer, answer);
    struct binder_transaction_data record = record_of(&writer);
    CHECK(looper_answer(looper, &record, 0), "can't answer");
    writer_free(&writer);
}

static void tell_who(struct looper *looper, const struct binder_transaction_data *call)
{
    uint32_t who = (uint32_t)call->sender_pid;
    raw_answer(looper, &who, sizeof who);
}

/* Starts a process in the namespace that comes next; it tells when it is ready, and dies with this one. */
static pid_t start(void (*body)(int ready))
{
    int ends[2];
    char byte;
    CHECK(!pipe(ends), "no pipe");
    pid_t pid = fork();
    CHECK(pid >= 0, "can't fork");
    if (!pid) {
        prctl(PR_SET_PDEATHSIG, SIGKILL);
        close(ends[0]);
        body(ends[1]);
        _exit(0);
    }
    close(ends[1]);
    CHECK(read(ends[0], &byte, 1) == 1, "the other side ended before it was ready");
    close(ends[0]);
    return pid;
}

static void be_the_server(int ready)
{
    struct client client;
    CHECK(getpid() == 1, "this isn't the first process of a namespace");
    raw_open(&client, WINDOW, tell_who);
    raw_ask(&client.looper, (struct call){.code = WHO});
    raw_give(&client, KEEP);
    CHECK(looper_flush(&client.looper) && write(ready, "r", 1) == 1, "can't tell that it is ready");
    looper_run(&client.looper);
}

static void be_the_client(int ready)
{
    struct client client;
    struct binder_transaction_data reply;
    raw_open(&client, WINDOW, NULL);
    CHECK(raw_call(&client.looper, (struct call){.code = HAND}, &reply) == BR_REPLY, "the manager hands nothing over");
    uint32_t handle = raw_keep(&client.looper, &reply);
    looper_free(&client.looper, &reply);
    uint32_t told = raw_ask(&client.looper, (struct call){.handle = handle, .code = WHO});
    CHECK(told == (uint32_t)getpid(), "a call of process %d of the same namespace is told as %u's", getpid(), told);
    CHECK(write(ready, "r", 1) == 1, "nobody waits");
}

int main(void)
{
    struct client client;
    raw_begin(30);
    pid_t manager = raw_start_manager(manage);
    raw_open(&client, WINDOW, NULL);
    uint32_t told = raw_ask(&client.looper, (struct call){.code = WHO});
    CHECK(told == (uint32_t)getpid(), "a call of process %d is told as %u's", getpid(), told);
    if (unshare(CLONE_NEWPID) && unshare(CLONE_NEWUSER | CLONE_NEWPID)) {
        printf("nothing was seen: no pid namespaces can be had here\n");
        raw_kill(manager);
        return 0;
    }
    pid_t server = start(be_the_server);
    told = raw_ask(&client.looper, (struct call){.code = LAST});
    CHECK(told == (uint32_t)server, "a call of process %d in a namespace below is told as %u's", server, told);
    told = raw_ask(&client.looper, (struct call){.code = ASK_KEPT});
    CHECK(told == 0, "a call from outside is told as %u's in a namespace that has no pid for it", told);
    pid_t caller = start(be_the_client);
    raw_join(caller);
    printf("told the pids of their own namespaces\n");
    raw_kill(server);
    raw_kill(manager);
    _exit(0); /* with the namespace's first process gone no more can be started there, as LeakSanitizer would at an exit */
}
