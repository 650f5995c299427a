/* SPDX-License-Identifier: Apache-2.0 OR MIT */
#include "outcome.h"

#include <inttypes.h>
#include <stdarg.h>
#include <stdio.h>
#include <string.h>

bool is_starved(const hullpippin_answer *answer)
{
    return (answer->kind == HULLPIPPIN_BACK && answer->why == HULLPIPPIN_BACK_NO_MEMORY)
           || (answer->kind == HULLPIPPIN_WROTE && answer->stop == HULLPIPPIN_AT_FAULT
               && answer->number == HULLPIPPIN_FAULT_NO_MEMORY);
}

void join(struct outcome *whole, const struct outcome *rest)
{
    hullpippin_answer begun = whole->answer;
    if (begun.kind != HULLPIPPIN_WROTE) {
        *whole = *rest;
        return;
    }
    whole->answer = rest->answer;
    whole->answer.from = begun.from;
    whole->answer.consumed += begun.consumed;
    whole->answer.notes += begun.notes;
    for (size_t i = 0; i < rest->answer.notes; i++) {
        hullpippin_note *note = &whole->notes[begun.notes + i];
        *note = rest->notes[i];
        note->command += (uint32_t)(begun.to - begun.from);
    }
}

static void add(struct text *text, const char *format, ...)
{
    va_list rest;
    size_t room = sizeof text->at - text->size;
    va_start(rest, format);
    int size = vsnprintf(text->at + text->size, room, format, rest);
    va_end(rest);
    text->size += (size_t)size < room ? (size_t)size : room - 1;
}

static void add_digits(struct text *text, const uint8_t *bytes, size_t size)
{
    add(text, size ? " " : " -");
    for (size_t i = 0; i < size; i++)
        add(text, "%02x", bytes[i]);
}

static void add_wrote(struct text *text, const struct outcome *outcome)
{
    const hullpippin_answer *answer = &outcome->answer;
    add(text, "wrote %u %" PRIu64 " %" PRIu64, answer->consumed, answer->from, answer->to);
    for (size_t i = 0; i < answer->notes; i++)
        add(text, " %u:N%u", outcome->notes[i].command, outcome->notes[i].number);
    if (answer->stop != HULLPIPPIN_AT_END)
        add(text, " stop %c%u", answer->stop == HULLPIPPIN_AT_FAULT ? 'F' : 'X', answer->number);
}

static const char *word_of(uint32_t kind)
{
    switch (kind) {
    case HULLPIPPIN_OPENED:
        return "opened";
    case HULLPIPPIN_SET:
        return "set";
    case HULLPIPPIN_EXITED:
        return "exited";
    case HULLPIPPIN_GOT:
        return "got";
    default:
        return "something else";
    }
}

void say(struct text *text, unsigned number, const struct outcome *outcome)
{
    const hullpippin_answer *answer = &outcome->answer;
    const size_t sizes[PARTS] = {answer->stream, answer->data, answer->offsets};
    add(text, "%u: ", number);
    if (answer->kind == HULLPIPPIN_WROTE) {
        add_wrote(text, outcome);
    } else if (answer->kind == HULLPIPPIN_REFUSED) {
        add(text, "refused F%u %" PRIu64 " %" PRIu64, answer->number, answer->from, answer->to);
    } else {
        add(text, "%s", word_of(answer->kind));
        for (int part = 0; answer->kind == HULLPIPPIN_GOT && part < PARTS; part++)
            add_digits(text, outcome->parts[part], sizes[part]);
        add(text, " %" PRIu64 " %" PRIu64, answer->from, answer->to);
    }
    add(text, "\n");
}
