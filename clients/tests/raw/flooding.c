/* SPDX-License-Identifier: Apache-2.0 OR MIT */
/*
 * flooding asked|unasked: who has asked for it is told when its one-way calls take more than a quarter of a window, of each
 * call as long as they do. Who hasn't asked, or does no longer, is told of nothing. (That is the rule of this project. Linux's driver
 * tells once, and only where less than a tenth of the window is left for one-way calls.)
 */
#include "raw.h"

#include <errno.h>
#include <fcntl.h>
#include <stdio.h>
#include <stdlib.h>
#include <string.h>
#include <sys/ioctl.h>
#include <sys/mman.h>

#define QUARTER (WINDOW / 4)
#define LITTLE 8
#define HANDLE 1 /* of the server, for each client */

static struct client server;
static uint32_t sent, come;
static uint8_t bytes[WINDOW];

static void count(struct looper *looper, const struct binder_transaction_data *call)
{
    (void)looper, (void)call;
    come++;
}

static void ask(int fd, uint32_t on)
{
    CHECK(!ioctl(fd, BINDER_ENABLE_ONEWAY_SPAM_DETECTION, &on), "can't ask for reports: %u", on);
}

/* The manager is another process, since nobody can call one of its own process. */
static void find_server(struct client *client)
{
    CHECK(raw_fetch(client) == HANDLE && looper_flush(&client->looper), "the server has another handle");
}

/* Asks between its open and its mmap, as Android's own library does; so often. */
static void open_asking(struct client *client, const uint32_t *on, size_t times)
{
    int fd = open(raw_device(), O_RDWR | O_CLOEXEC);
    CHECK(fd >= 0, "can't open %s", raw_device());
    for (size_t i = 0; i < times; i++)
        ask(fd, on[i]);
    void *window = mmap(NULL, WINDOW, PROT_READ, MAP_PRIVATE, fd, 0);
    CHECK(window != MAP_FAILED, "no window");
    client->binder = (struct binder){.fd = fd, .window = window, .size = WINDOW};
    raw_looper(&client->looper, client, NULL);
    find_server(client);
}

static void open_unasking(struct client *client)
{
    raw_open(client, WINDOW, NULL);
    find_server(client);
}

/* A one-way call, and what is told of it. */
static void sends(struct client *client, size_t size, uint32_t wanted)
{
    struct binder_transaction_data none;
    struct call call = {.handle = HANDLE, .flags = TF_ONE_WAY, .bytes = bytes, .size = size};
    uint32_t told = raw_call(&client->looper, call, &none);
    CHECK(told == wanted, "one-way call %u of %zu bytes ended as %x, not as %x", sent, size, told, wanted);
    sent += told != BR_FAILED_REPLY;
}

/* The server reads all that was sent, and gives it back. */
static void serve_all(void)
{
    struct turn turn;
    while (come < sent)
        CHECK(looper_turn(&server.looper, &turn), "the server can't read");
    put_code(&server.looper.commands, BC_ENTER_LOOPER); /* else nobody waits for the buffer's end */
    CHECK(looper_flush(&server.looper), "the server can't write");
}

static void play_asked(void)
{
    struct client client, other;
    open_asking(&client, (const uint32_t[]){1}, 1);
    open_unasking(&other);
    CHECK(ioctl(client.binder.fd, BINDER_ENABLE_ONEWAY_SPAM_DETECTION, NULL) < 0 && errno == EFAULT, "nothing was asked, and taken");
    errno = 0;
    sends(&other, QUARTER - 1024, BR_TRANSACTION_COMPLETE);
    sends(&client, QUARTER, BR_TRANSACTION_COMPLETE);
    sends(&client, LITTLE, BR_ONEWAY_SPAM_SUSPECT);
    sends(&client, 0, BR_ONEWAY_SPAM_SUSPECT);
    sends(&other, LITTLE, BR_TRANSACTION_COMPLETE);
    serve_all();
    sends(&client, LITTLE, BR_TRANSACTION_COMPLETE);
    sends(&client, QUARTER, BR_ONEWAY_SPAM_SUSPECT);
    ask(client.binder.fd, 0);
    sends(&client, LITTLE, BR_TRANSACTION_COMPLETE);
    ask(client.binder.fd, 77);
    sends(&client, LITTLE, BR_ONEWAY_SPAM_SUSPECT);
    sends(&client, QUARTER, BR_FAILED_REPLY);
    serve_all();
}

/* Sends as much as there may be, and a call more. */
static void floods_untold(struct client *client)
{
    sends(client, QUARTER, BR_TRANSACTION_COMPLETE);
    sends(client, LITTLE, BR_TRANSACTION_COMPLETE);
    sends(client, QUARTER - LITTLE, BR_TRANSACTION_COMPLETE);
    sends(client, LITTLE, BR_FAILED_REPLY);
    serve_all();
}

static void play_unasked(void)
{
    struct client never, withdrawn, gone, heir;
    open_unasking(&never);
    floods_untold(&never);
    open_asking(&withdrawn, (const uint32_t[]){1, 0}, 2);
    floods_untold(&withdrawn);
    open_asking(&gone, (const uint32_t[]){1}, 1);
    binder_close(&gone.binder);
    open_unasking(&heir);
    floods_untold(&heir);
}

int main(int argc, char **argv)
{
    bool is_asked = argc == 2 && !strcmp(argv[1], "asked");
    CHECK(is_asked || (argc == 2 && !strcmp(argv[1], "unasked")), "usage: flooding asked|unasked");
    raw_begin(30);
    pid_t manager = raw_start_keeper();
    raw_open(&server, WINDOW, count);
    raw_give(&server, RAW_KEEP);
    put_code(&server.looper.commands, BC_ENTER_LOOPER);
    if (is_asked)
        play_asked();
    else
        play_unasked();
    printf("%u one-way calls, told as they should be\n", sent);
    raw_kill(manager);
    return 0;
}
