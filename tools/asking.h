/* SPDX-License-Identifier: Apache-2.0 OR MIT */
/* What programs share that ask the library (tools/library, bench/crowds): commands, what an answer has to be, and the first complaint. */
#ifndef HULLPIPPIN_TOOLS_ASKING_H
#define HULLPIPPIN_TOOLS_ASKING_H

#include "hullpippin.h"

#include <stdbool.h>
#include <stddef.h>
#include <stdint.h>
#include <string.h>

#define WINDOW 4096u

/* A command of a call, with its code. */
#define CALL_SIZE 68

/* An object in a parcel. */
#define OBJECT_SIZE 24u

static const char *complaint;

static inline bool fails(const char *why)
{
    if (!complaint)
        complaint = why;
    return false;
}

/* Whether it is as it has to be; else what it is otherwise. */
static inline bool is(bool so, const char *otherwise)
{
    return so || fails(otherwise);
}

static inline bool is_done(uint32_t status)
{
    return status == HULLPIPPIN_DONE || fails(status == HULLPIPPIN_NO_MEMORY ? "no memory" : "not made");
}

/* Whether a step came to this kind of answer, without a stop or a note. */
static inline bool is_made(uint32_t status, const hullpippin_answer *answer, uint32_t kind)
{
    if (!is_done(status))
        return false;
    if ((answer->kind == HULLPIPPIN_BACK && answer->why == HULLPIPPIN_BACK_NO_MEMORY)
        || (answer->stop == HULLPIPPIN_AT_FAULT && answer->number == HULLPIPPIN_FAULT_NO_MEMORY))
        return fails("no memory");
    return (answer->kind == kind && answer->stop == 0 && answer->notes == 0) || fails("another answer to a step");
}

/* What a call that isn't made would fill. */
static const hullpippin_answer BLANK = {.kind = 77, .from = 77};

static inline bool is_blank(const hullpippin_answer *answer)
{
    return (answer->kind == BLANK.kind && answer->from == BLANK.from) || fails("a call that isn't made fills the answer");
}

static inline void put32(uint8_t *at, uint32_t value)
{
    for (int i = 0; i < 4; i++)
        at[i] = (uint8_t)(value >> 8 * i);
}

/* A one-way call to the context manager, with so many bytes of data. */
static inline void spell_call(uint8_t command[CALL_SIZE], uint32_t data)
{
    memset(command, 0, CALL_SIZE);
    put32(command, HULLPIPPIN_BC_TRANSACTION);
    put32(command + 4 + 20, HULLPIPPIN_TF_ONE_WAY);
    put32(command + 4 + 32, data);
}

/* The offsets of all parcels: of as many objects as there are, one behind the other. */
static const uint8_t OFFSETS[2 * 8] = {[8] = OBJECT_SIZE};

/* A step of a live engine by a command, with the data and as many offsets as its record says. */
static inline uint32_t step(hullpippin_live *live, uint32_t seat, const hullpippin_command *command, const uint8_t *data,
                            hullpippin_answer *answer)
{
    uint8_t bytes[CALL_SIZE];
    size_t size = hullpippin_spell_command(command, bytes, sizeof bytes);
    return hullpippin_live_command(live, seat, bytes, size, data, (size_t)command->transaction.data_size, OFFSETS,
                                   (size_t)command->transaction.offsets_size, answer);
}

static inline bool runs(hullpippin_live *live, uint32_t seat, const hullpippin_command *command, const uint8_t *data)
{
    hullpippin_answer answer;
    return is_made(step(live, seat, command, data, &answer), &answer, HULLPIPPIN_WROTE);
}

static inline bool reads(hullpippin_live *live, uint32_t seat)
{
    hullpippin_answer answer;
    return is_made(hullpippin_live_read(live, seat, 256, &answer), &answer, HULLPIPPIN_GOT);
}

/* Reads until nothing is left. */
static inline bool drains(hullpippin_live *live, uint32_t seat)
{
    while (hullpippin_live_ready(live, seat))
        if (!reads(live, seat))
            return false;
    return true;
}

/* A call with nothing in its parcel; with HULLPIPPIN_TF_ONE_WAY nobody replies. */
static inline bool calls(hullpippin_live *live, uint32_t seat, uint32_t handle, uint32_t flags)
{
    hullpippin_command command = {.code = HULLPIPPIN_BC_TRANSACTION, .transaction = {.target = handle, .flags = flags}};
    return runs(live, seat, &command, NULL);
}

static inline bool replies(hullpippin_live *live, uint32_t seat)
{
    hullpippin_command command = {.code = HULLPIPPIN_BC_REPLY};
    return runs(live, seat, &command, NULL);
}

/* Reads once, and tells which buffer the call or reply that came is in. */
static inline bool takes(hullpippin_live *live, uint32_t seat, uint64_t *buffer)
{
    uint8_t stream[256];
    if (!reads(live, seat))
        return false;
    size_t size = hullpippin_live_bytes(live, HULLPIPPIN_STREAM, stream, sizeof stream);
    if (size < CALL_SIZE || size > sizeof stream)
        return fails("no call and no reply is read");
    *buffer = 0;
    for (size_t i = 0; i < 8; i++)
        *buffer |= (uint64_t)stream[size - 16 + i] << 8 * i;
    return true;
}

static inline bool frees(hullpippin_live *live, uint32_t seat, uint64_t buffer)
{
    hullpippin_command command = {.code = HULLPIPPIN_BC_FREE_BUFFER, .pointer = buffer};
    return runs(live, seat, &command, NULL);
}

static inline bool enters_loop(hullpippin_live *live, uint32_t seat)
{
    hullpippin_command command = {.code = HULLPIPPIN_BC_ENTER_LOOPER};
    return runs(live, seat, &command, NULL);
}

static inline bool opens_process(hullpippin_live *live, uint32_t seat, uint32_t pid, uint32_t window)
{
    hullpippin_answer answer;
    return is_made(hullpippin_live_open(live, seat, pid, 1000, window, &answer), &answer, HULLPIPPIN_OPENED);
}

static inline bool attaches(hullpippin_live *live, uint32_t seat, uint32_t pid)
{
    hullpippin_answer answer;
    return is_made(hullpippin_live_attach(live, seat, pid, &answer), &answer, HULLPIPPIN_OPENED);
}

static inline bool exits_thread(hullpippin_live *live, uint32_t seat)
{
    hullpippin_answer answer;
    return is_made(hullpippin_live_exit_thread(live, seat, &answer), &answer, HULLPIPPIN_EXITED);
}

static inline bool exits_process(hullpippin_live *live, uint32_t seat)
{
    hullpippin_answer answer;
    return is_made(hullpippin_live_exit_process(live, seat, &answer), &answer, HULLPIPPIN_EXITED);
}

/* Two processes of a live engine, the first the context manager's. */
static inline bool opens_live(hullpippin_live *live, uint32_t manager, uint32_t client)
{
    hullpippin_answer answer;
    return is_made(hullpippin_live_open(live, manager, 100, 1000, WINDOW, &answer), &answer, HULLPIPPIN_OPENED)
           && is_made(hullpippin_live_manager(live, manager, &answer), &answer, HULLPIPPIN_SET)
           && is_made(hullpippin_live_open(live, client, 200, 2000, WINDOW, &answer), &answer, HULLPIPPIN_OPENED);
}

#endif
