/* SPDX-License-Identifier: Apache-2.0 OR MIT */
/*
 * server: threads that sleep until a live engine has something for them, each woken by what a bridge says, and by nothing else.
 *
 *     server [CALLS]
 *
 * Each of four clients makes so many calls (200) to a server of two threads. Prints how many replies have come, how many are wrong, and
 * how many threads are still to be looked at in the end.
 */
#include "hullpippin.h"

#include <pthread.h>
#include <stdio.h>
#include <stdlib.h>
#include <string.h>

enum { SERVERS = 2, CLIENTS = 4, SEATS = SERVERS + CLIENTS, ROOM = 256, LAST = 1 << 30 };

/* A thread of the program: what was read for it while it waits. */
static struct waiter {
    pthread_t thread;
    pthread_cond_t woken;
    bool waits;
    uint8_t returns[2 * ROOM];
    size_t size;
} waiters[SEATS];

static hullpippin_live live;
static pthread_mutex_t lock = PTHREAD_MUTEX_INITIALIZER; /* whoever has it may call with the engine */
static uint32_t calls_each = 200, wrong;

static void check(uint32_t status)
{
    if (status == HULLPIPPIN_DONE)
        return;
    fprintf(stderr, "server: %s\n", hullpippin_text(HULLPIPPIN_TEXT_STATUS, status));
    exit(1);
}

/* Wakes whoever is to be woken. */
static void settle(void)
{
    hullpippin_signal signal;
    do {
        check(hullpippin_bridge_settle(&live, 16, &signal));
        if (signal.kind != HULLPIPPIN_SIGNAL_READ)
            continue;
        check(signal.status);
        struct waiter *waiter = &waiters[signal.seat];
        waiter->size += hullpippin_live_bytes(&live, HULLPIPPIN_STREAM, waiter->returns + waiter->size, ROOM);
        waiter->waits = !signal.wakes;
        if (signal.wakes)
            pthread_cond_signal(&waiter->woken);
    } while (signal.is_left);
}

static void write_command(uint32_t seat, const hullpippin_command *command)
{
    uint8_t bytes[72];
    hullpippin_answer answer;
    size_t size = hullpippin_spell_command(command, bytes, sizeof bytes);
    pthread_mutex_lock(&lock);
    check(hullpippin_live_command(&live, seat, bytes, size, NULL, 0, NULL, 0, &answer));
    settle();
    pthread_mutex_unlock(&lock);
}

/* Sleeps until there is something else than the completion of a call, and tells the call or reply that has come. */
static hullpippin_transaction read_call(uint32_t seat)
{
    struct waiter *waiter = &waiters[seat];
    hullpippin_return returned = { 0 };
    pthread_mutex_lock(&lock);
    waiter->size = 0;
    waiter->waits = true;
    check(hullpippin_bridge_wait(&live, seat, ROOM, 1));
    settle();
    while (waiter->waits)
        pthread_cond_wait(&waiter->woken, &lock);
    for (size_t at = 0; at < waiter->size && !hullpippin_next_return(waiter->returns + at, waiter->size - at, &returned);)
        at += returned.size; /* the last one is the call or reply */
    pthread_mutex_unlock(&lock);
    hullpippin_command command = { .code = HULLPIPPIN_BC_FREE_BUFFER, .pointer = returned.transaction.buffer };
    if (returned.code == HULLPIPPIN_BR_TRANSACTION || returned.code == HULLPIPPIN_BR_REPLY)
        write_command(seat, &command);
    return returned.transaction;
}

static void *serve(void *context)
{
    uint32_t seat = (uint32_t)((struct waiter *)context - waiters);
    hullpippin_command reply = { .code = HULLPIPPIN_BC_ENTER_LOOPER };
    for (write_command(seat, &reply);; write_command(seat, &reply)) {
        hullpippin_transaction call = read_call(seat);
        if (call.code == LAST)
            return NULL;
        reply = (hullpippin_command){ .code = HULLPIPPIN_BC_REPLY, .transaction = { .code = call.code + 1 } };
        write_command(seat, &reply);
        read_call(seat); /* it is told that its reply was taken */
        reply = (hullpippin_command){ .code = HULLPIPPIN_BC_ENTER_LOOPER };
    }
}

static void *call(void *context)
{
    uint32_t seat = (uint32_t)((struct waiter *)context - waiters);
    for (uint32_t i = 0; i < calls_each; i++) {
        hullpippin_command command = { .code = HULLPIPPIN_BC_TRANSACTION, .transaction = { .code = seat * LAST / SEATS / 2 + i } };
        write_command(seat, &command);
        bool is_right = read_call(seat).code == command.transaction.code + 1;
        pthread_mutex_lock(&lock);
        wrong += !is_right;
        pthread_mutex_unlock(&lock);
    }
    return NULL;
}

int main(int count, char **words)
{
    hullpippin_answer answer;
    hullpippin_command last = { .code = HULLPIPPIN_BC_TRANSACTION, .transaction = { .code = LAST, .flags = HULLPIPPIN_TF_ONE_WAY } };
    if (count > 1)
        calls_each = (uint32_t)strtoul(words[1], NULL, 10);
    check(hullpippin_bridge_new(SEATS, &live));
    check(hullpippin_live_open(&live, 0, 100, 1000, 65536, &answer));
    check(hullpippin_live_manager(&live, 0, &answer));
    check(hullpippin_live_attach(&live, 1, 100, &answer));
    for (uint32_t seat = SERVERS; seat < SEATS; seat++)
        check(hullpippin_live_open(&live, seat, 100 + seat, 1000, 65536, &answer));
    for (uint32_t seat = 0; seat < SEATS; seat++) {
        pthread_cond_init(&waiters[seat].woken, NULL);
        pthread_create(&waiters[seat].thread, NULL, seat < SERVERS ? serve : call, &waiters[seat]);
    }
    for (uint32_t seat = SERVERS; seat < SEATS; seat++)
        pthread_join(waiters[seat].thread, NULL);
    for (uint32_t seat = 0; seat < SERVERS; seat++)
        write_command(SERVERS, &last);
    for (uint32_t seat = 0; seat < SERVERS; seat++)
        pthread_join(waiters[seat].thread, NULL);
    printf("%u replies, %u wrong, %zu left to be looked at\n", CLIENTS * calls_each, wrong, hullpippin_bridge_suspects(&live));
    hullpippin_free_live(&live);
    return wrong > 0;
}
