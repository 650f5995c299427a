/* SPDX-License-Identifier: Apache-2.0 OR MIT */
/* What threads that read are told (include/hullpippin.h, "Readers"). What is wanted was worked out by hand. Complains where it is otherwise, and
   prints nothing else. */
#include "asking.h"

#include <stdio.h>

enum { AT_FLAGS = 24, ALL = 256 };

/* Returns, one behind the other, as an engine gives them. */
struct returns {
    uint8_t bytes[ALL];
    size_t size;
};

/* One more, of so many bytes, of which all behind the code are 0. */
static void add(struct returns *returns, uint32_t code, size_t size)
{
    put32(returns->bytes + returns->size, code);
    returns->size += size;
}

static size_t read_one(hullpippin_reader *reader, uint32_t code, size_t size, uint32_t flags)
{
    struct returns returns = {.size = 0};
    add(&returns, HULLPIPPIN_BR_NOOP, 4);
    add(&returns, code, size);
    if (code == HULLPIPPIN_BR_TRANSACTION)
        put32(returns.bytes + 4 + AT_FLAGS, flags);
    return hullpippin_reader_read(reader, returns.bytes, returns.size);
}

static hullpippin_returns_told told_into(hullpippin_reader *reader, const struct returns *returns, uint32_t room)
{
    hullpippin_returns_told told;
    hullpippin_reader_told(reader, returns->bytes, returns->size, room, &told);
    return told;
}

static hullpippin_returns_told told_one(hullpippin_reader *reader, uint32_t code, size_t size)
{
    struct returns returns = {.size = 0};
    add(&returns, code, size);
    return told_into(reader, &returns, ALL);
}

static hullpippin_facts facts_with(const hullpippin_reader *reader, uint32_t size, uint32_t room)
{
    const hullpippin_pending pending = {size, room, 1};
    hullpippin_facts facts;
    hullpippin_reader_facts(reader, &pending, &facts);
    return facts;
}

/* The completion of a call waits for the reply, with what is told of an object that it carries. */
static bool waits_for_the_reply(void)
{
    hullpippin_reader reader = {0};
    hullpippin_reader_sent(&reader, HULLPIPPIN_SENT_CALL, HULLPIPPIN_AT_END, 0);
    if (!is(reader.calling == 1 && facts_with(&reader, 0, 256).fetches && facts_with(&reader, 0, 256).is_left, "a call isn't counted"))
        return false;
    struct returns returns = {.size = 0};
    add(&returns, HULLPIPPIN_BR_NOOP, 4);
    add(&returns, HULLPIPPIN_BR_TRANSACTION_COMPLETE, 4);
    add(&returns, HULLPIPPIN_BR_ACQUIRE, 20);
    if (!is(hullpippin_reader_read(&reader, returns.bytes, returns.size) == returns.size && reader.completed == 1, "there is a call"))
        return false;
    hullpippin_facts facts = facts_with(&reader, 24, 256);
    if (!is(!facts.is_there && facts.defers && !facts.fetches && !facts.is_idle && !facts.is_left, "it comes back before the reply"))
        return false;
    if (!is(read_one(&reader, HULLPIPPIN_BR_REPLY, CALL_SIZE, 0) == 4, "a reply begins elsewhere"))
        return false;
    facts = facts_with(&reader, 92, 256);
    if (!is(facts.is_there && facts.is_whole && facts.is_idle && !reader.calling, "the reply waits"))
        return false;
    hullpippin_returns_told told = told_one(&reader, HULLPIPPIN_BR_TRANSACTION_COMPLETE, 4);
    if (!is(told.is_all && !told.has_call && told.size == 4 && !reader.completed, "something is left to be told"))
        return false;
    told = told_one(&reader, HULLPIPPIN_BR_REPLY, CALL_SIZE);
    return is(told.has_call && !told.is_all && told.size == CALL_SIZE, "a reply tells of what was sent");
}

/* A reply to nobody is told as a call that was refused; any other by the last completion. */
static bool tells_what_was_refused(void)
{
    hullpippin_reader reader = {0};
    hullpippin_reader_sent(&reader, HULLPIPPIN_SENT_REPLY, HULLPIPPIN_AT_CAUSE, HULLPIPPIN_CAUSE_NO_CALL);
    if (!is(reader.refusal == HULLPIPPIN_REFUSAL_CALL && reader.refusals == 1 && !reader.untold, "a reply to nobody is a reply"))
        return false;
    read_one(&reader, HULLPIPPIN_BR_FAILED_REPLY, 4, 0);
    told_one(&reader, HULLPIPPIN_BR_FAILED_REPLY, 4);
    if (!is(!reader.refusal && !reader.refusals, "a refusal isn't told"))
        return false;
    read_one(&reader, HULLPIPPIN_BR_TRANSACTION, CALL_SIZE, 0);
    read_one(&reader, HULLPIPPIN_BR_TRANSACTION, CALL_SIZE, HULLPIPPIN_TF_ONE_WAY);
    if (!is(reader.serving == 1, "a one-way call is to be answered"))
        return false;
    hullpippin_reader_sent(&reader, HULLPIPPIN_SENT_ONE_WAY, HULLPIPPIN_AT_END, 0);
    hullpippin_reader_sent(&reader, HULLPIPPIN_SENT_REPLY, HULLPIPPIN_AT_CAUSE, HULLPIPPIN_CAUSE_NO_ROOM);
    if (!is(!reader.serving && reader.untold == 2 && reader.refusal == HULLPIPPIN_REFUSAL_REPLY, "a refused reply leaves its call open"))
        return false;
    bool is_all = told_one(&reader, HULLPIPPIN_BR_TRANSACTION_COMPLETE, 4).is_all;
    return is(!is_all && reader.refusal == HULLPIPPIN_REFUSAL_REPLY, "the first completion tells of the second command")
           && is(told_one(&reader, HULLPIPPIN_BR_TRANSACTION_COMPLETE, 4).is_all && !reader.refusal, "the last completion doesn't tell of it");
}

/* A return more is read while so many bytes are left behind what there is, and its code, and told while so many are left. */
static bool keeps_room(void)
{
    hullpippin_reader reader = {0};
    struct returns returns = {.size = 0};
    for (int i = 0; i < 3; i++)
        add(&returns, HULLPIPPIN_BR_INCREFS, 20);
    const uint32_t room = HULLPIPPIN_RETURN_ROOM;
    return is(facts_with(&reader, 4, 256).limit == 244 && facts_with(&reader, 176, 256).limit == HULLPIPPIN_READ_LEAST, "another limit")
           && is(facts_with(&reader, 0, room + 4).has_room && !facts_with(&reader, 0, room + 3).has_room, "another room")
           && is(!told_into(&reader, &returns, room - 1).size && told_into(&reader, &returns, room).size == 20
                     && told_into(&reader, &returns, room + 20).size == 40 && told_into(&reader, &returns, room + 40).size == 60,
                 "it is told more, or less");
}

/* What ends before it is whole is no return: garbage neither. */
static bool takes_whole_ones(void)
{
    hullpippin_reader reader = {0}, before;
    struct returns returns = {.size = 0};
    add(&returns, HULLPIPPIN_BR_NOOP, 4);
    add(&returns, HULLPIPPIN_BR_TRANSACTION, CALL_SIZE - 1);
    if (!is(hullpippin_reader_read(&reader, returns.bytes, returns.size) == 4 && !reader.serving, "half a call is read"))
        return false;
    memset(&reader, 0xff, sizeof reader);
    memset(returns.bytes, 0xff, sizeof returns.bytes);
    before = reader;
    return is(!hullpippin_reader_read(&reader, returns.bytes, sizeof returns.bytes) && !memcmp(&reader, &before, sizeof reader), "garbage is read");
}

/* What stays behind keeps a read going; what others have brought isn't whole before the engine's. */
static bool goes_on(void)
{
    hullpippin_reader reader = {0};
    hullpippin_reader_sent(&reader, HULLPIPPIN_SENT_ONE_WAY, HULLPIPPIN_AT_END, 0);
    reader.is_behind = 1;
    if (!is(facts_with(&reader, 20, 256).is_there && !facts_with(&reader, 20, 256).is_whole, "others come before the engine"))
        return false;
    hullpippin_reader_delivered(&reader, 0, 0);
    if (!is(reader.is_prompt && !reader.is_behind, "a completion that isn't told yet can wait"))
        return false;
    told_one(&reader, HULLPIPPIN_BR_TRANSACTION_COMPLETE, 4);
    hullpippin_reader_delivered(&reader, 0, 0);
    return is(!reader.is_prompt, "there is more where all is told");
}

int main(void)
{
    bool done = waits_for_the_reply() && tells_what_was_refused() && keeps_room() && takes_whole_ones() && goes_on();
    if (!done)
        fprintf(stderr, "readers: %s\n", complaint);
    return !done;
}
