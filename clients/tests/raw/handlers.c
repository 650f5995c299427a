/* SPDX-License-Identifier: Apache-2.0 OR MIT */
/*
 * handlers COUNT: a signal's handler calls through the file for which its thread waits: in a read, and in a call whose reply is slow. Each
 * call has its reply, the read is ended by EINTR as any other, and afterwards the thread is who it was: it is still in the loop.
 */
#include "raw.h"

#include <errno.h>
#include <signal.h>
#include <stdio.h>
#include <stdlib.h>
#include <string.h>
#include <sys/ioctl.h>
#include <sys/prctl.h>
#include <unistd.h>

enum { ECHO = 1, SLOW, CALL_BACK };

#define SLOW_MICROSECONDS 200000
#define PAUSE_MICROSECONDS 10000

static struct client client;
static volatile sig_atomic_t handled;
static uint32_t called_back;

static void serve(struct looper *looper, const struct binder_transaction_data *call)
{
    static uint32_t kept;
    if (call->code == SLOW)
        usleep(SLOW_MICROSECONDS);
    if (call->code == CALL_BACK)
        kept = raw_keep(looper, call);
    raw_answer(looper, NULL, 0);
    if (call->code == CALL_BACK) {
        struct binder_transaction_data reply;
        if (raw_call(looper, (struct call){.handle = kept}, &reply) == BR_REPLY) /* the client ends once it is called */
            looper_free(looper, &reply);
    }
}

/* A call of the handler's own, with nothing of libc's but system calls: whether its reply has come. */
static bool call_now(void)
{
    struct {
        uint32_t code;
        struct binder_transaction_data data;
    } __attribute__((packed)) call = {BC_TRANSACTION, {.code = ECHO}};
    uint8_t returns[256];
    struct binder_write_read both = {.write_size = sizeof call, .write_buffer = (uintptr_t)&call};
    for (;;) {
        both.read_size = sizeof returns;
        both.read_consumed = 0;
        both.read_buffer = (uintptr_t)returns;
        if (ioctl(client.binder.fd, BINDER_WRITE_READ, &both))
            return false;
        for (uint32_t at = 0, code; at + sizeof code <= both.read_consumed; at += sizeof code + _IOC_SIZE(code)) {
            memcpy(&code, returns + at, sizeof code);
            if (code == BR_REPLY || code == BR_FAILED_REPLY || code == BR_DEAD_REPLY)
                return code == BR_REPLY;
        }
    }
}

static void handle(int signal)
{
    int error = errno;
    (void)signal;
    if (call_now())
        handled++;
    errno = error;
}

/* Signals the test again and again, until that ends. */
static void signal_often(void *with)
{
    (void)with;
    pid_t test = getppid();
    raw_ready();
    for (;;) {
        usleep(PAUSE_MICROSECONDS);
        kill(test, SIGUSR1);
    }
}

static void read_until(uint32_t count)
{
    struct {
        uint32_t enter;
    } commands = {BC_ENTER_LOOPER};
    uint8_t returns[256];
    struct binder_write_read both = {.write_size = sizeof commands, .write_buffer = (uintptr_t)&commands};
    while ((uint32_t)handled < count) {
        both.read_size = sizeof returns;
        both.read_consumed = 0;
        both.read_buffer = (uintptr_t)returns;
        int status = ioctl(client.binder.fd, BINDER_WRITE_READ, &both);
        CHECK(!status || errno == EINTR, "a read fails");
    }
}

static void is_called(struct looper *looper, const struct binder_transaction_data *call)
{
    (void)call;
    called_back++;
    raw_answer(looper, NULL, 0);
}

int main(int argc, char **argv)
{
    uint32_t count = argc > 1 ? (uint32_t)atoi(argv[1]) : 20;
    struct binder_transaction_data reply;
    const struct sigaction action = {.sa_handler = handle};
    raw_begin(30);
    raw_start_manager(serve);
    raw_open(&client, WINDOW, is_called);
    CHECK(!sigaction(SIGUSR1, &action, NULL), "no handler");
    pid_t signals = raw_start(signal_often, NULL);
    read_until(count);
    handled = 0;
    for (int i = 0; i < 3 || (handled < 3 && i < 30); i++) { /* as many more as a busy machine needs */
        CHECK(raw_call(&client.looper, (struct call){.code = SLOW}, &reply) == BR_REPLY, "a slow call has no reply");
        looper_free(&client.looper, &reply);
    }
    CHECK(handled >= 3, "only %d calls of handlers have come to their ends beside slow ones", (int)handled);
    raw_kill(signals);
    raw_give(&client, CALL_BACK);
    struct turn turn;
    while (!called_back)
        CHECK(looper_turn(&client.looper, &turn), "a thread that has entered the loop isn't called");
    printf("%u calls of handlers within reads, and %d within calls\n", count, (int)handled);
    return 0;
}
