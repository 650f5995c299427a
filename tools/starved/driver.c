/* SPDX-License-Identifier: Apache-2.0 OR MIT */
/* Requests of a driver's seats, by a call or handed over. */
#include "refusals.h"
#include "run.h"
#include "space.h"

/* ---- begin and end */

static uint32_t make_driver(struct run *run, uint32_t seats)
{
    return hullpippin_new(seats, &run->driver);
}

static uint32_t take_seat(struct run *run, uint32_t number)
{
    return hullpippin_take_seat(&run->driver, &run->seats[number]);
}

/* What the latest answer has besides its numbers. */
static uint64_t kept_by(hullpippin_seat *seat)
{
    static uint8_t bytes[MOST_GOT];
    hullpippin_note note;
    uint64_t sum = NO_SUM;
    for (uint32_t part = 0; part < PARTS; part++) {
        size_t size = hullpippin_answer_bytes(seat, part, bytes, sizeof bytes);
        sum = added_bytes(sum, bytes, size < sizeof bytes ? size : 0);
    }
    for (size_t i = 0; hullpippin_answer_note(seat, i, &note); i++)
        sum = added(added(sum, note.command), note.number);
    return sum;
}

static bool begin(struct run *run)
{
    if (!makes(run, "new", make_driver, run->script->seats))
        return false;
    for (uint32_t i = 0; i < run->script->seats; i++) {
        if (!makes(run, "take_seat", take_seat, i))
            return false;
        run->kept[i] = kept_by(&run->seats[i]);
        run->room[i][0] = run->room[i][1] = 0;
    }
    return true;
}

static uint32_t tell_size(struct run *run, uint32_t unused)
{
    (void)unused;
    return hullpippin_journal(&run->driver, NULL, 0, &run->journal_size);
}

static uint32_t take_journal(struct run *run, uint32_t unused)
{
    size_t size = MOST_JOURNAL + 1;
    uint32_t status = hullpippin_journal(&run->driver, run->journal, sizeof run->journal, &size);
    (void)unused;
    if (size != (status == HULLPIPPIN_DONE ? run->journal_size : MOST_JOURNAL + 1))
        fails("another size of a journal");
    return status;
}

static uint32_t judge(struct run *run, uint32_t unused)
{
    hullpippin_verdict_on verdict = {.entries = MOST_STEPS + 1};
    uint32_t status = hullpippin_verdict(run->journal, run->journal_size, &verdict);
    (void)unused;
    if (status == HULLPIPPIN_DONE ? !verdict.lawful || verdict.entries != run->steps : verdict.entries != MOST_STEPS + 1)
        fails("another verdict");
    return status;
}

/* All seats go back, and the driver ends, without memory. */
static bool finish(struct run *run)
{
    long before = requests();
    for (uint32_t i = 0; i < run->script->seats; i++)
        if (hullpippin_return_seat(&run->driver, &run->seats[i]) != HULLPIPPIN_DONE)
            return fails("a seat doesn't go back");
    return (hullpippin_finish(&run->driver) == HULLPIPPIN_DONE || fails("a driver doesn't end")) && took_none(before);
}

/* The verdict is that of all ways, as they have one journal. */
static bool end(struct run *run)
{
    return finish(run) && makes(run, "journal", tell_size, 0) && makes(run, "journal", take_journal, 0)
           && (run->way != CALL || makes(run, "verdict", judge, 0)) && !complaint;
}

/* ---- requests */

static uint32_t ask(hullpippin_seat *seat, const struct line *line, hullpippin_answer *answer)
{
    const hullpippin_request *request = &line->request;
    switch (request->kind) {
    case HULLPIPPIN_OPEN:
        return hullpippin_open(seat, request->pid, request->euid, request->window, answer);
    case HULLPIPPIN_ATTACH:
        return hullpippin_attach(seat, request->pid, answer);
    case HULLPIPPIN_MANAGER:
        return hullpippin_manager(seat, answer);
    case HULLPIPPIN_WRITE:
        return hullpippin_write(seat, line->stream.at, line->stream.size, line->area.at, line->area.size, answer);
    case HULLPIPPIN_READ:
        return hullpippin_read(seat, request->limit, answer);
    case HULLPIPPIN_EXIT_THREAD:
        return hullpippin_exit_thread(seat, answer);
    case HULLPIPPIN_EXIT_PROCESS:
        return hullpippin_exit_process(seat, answer);
    default:
        return hullpippin_set_spam(seat, request->on, answer);
    }
}

/* Fetches what the latest answer has besides its numbers. */
static bool fetch(struct run *run, uint32_t number, struct outcome *outcome)
{
    hullpippin_seat *seat = &run->seats[number];
    const hullpippin_answer *answer = &outcome->answer;
    const size_t sizes[PARTS] = {answer->stream, answer->data, answer->offsets};
    long before = requests();
    for (uint32_t part = 0; part < PARTS; part++)
        if (hullpippin_answer_bytes(seat, part, outcome->parts[part], MOST_GOT) != sizes[part] || sizes[part] > MOST_GOT)
            return fails("another number of bytes");
    for (size_t i = 0; i < answer->notes && i < MOST_NOTES; i++)
        if (!hullpippin_answer_note(seat, i, &outcome->notes[i]))
            return fails("a note is missing");
    run->kept[number] = kept_by(seat);
    return took_none(before);
}

/* Where nothing was done, the seat has its latest answer still. */
static uint32_t answered(struct run *run, uint32_t number, uint32_t status, struct outcome *outcome)
{
    if (status == HULLPIPPIN_DONE)
        fetch(run, number, outcome);
    else if (run->kept[number] != kept_by(&run->seats[number]))
        fails("a call that isn't made takes the latest answer away");
    return status;
}

static size_t larger(size_t one, size_t other)
{
    return one > other ? one : other;
}

/* The bytes of a write are lent to the engine. A seat asks for memory ahead of it only where the write is longer than those before: for room
   for a copy, which a write that comes back takes along. */
static void note_room(struct run *run, const struct line *line, uint32_t status, uint32_t kind)
{
    size_t *room = run->room[line->seat];
    if (status == HULLPIPPIN_NO_MEMORY && line->stream.size <= room[0] && line->area.size <= room[1])
        fails("a seat that has room for a write asks for more");
    if (status != HULLPIPPIN_DONE)
        return;
    bool is_back = kind == HULLPIPPIN_BACK;
    room[0] = is_back ? 0 : larger(room[0], line->stream.size);
    room[1] = is_back ? 0 : larger(room[1], line->area.size);
}

static uint32_t call(struct run *run, const struct line *line, struct outcome *outcome)
{
    uint32_t status = ask(&run->seats[line->seat], line, &outcome->answer);
    if (line->request.kind == HULLPIPPIN_WRITE)
        note_room(run, line, status, outcome->answer.kind);
    return answered(run, line->seat, status, outcome);
}

/* ---- handed over */

/* Where memory was refused, nothing is handed over. */
static uint32_t post(struct run *run, const struct line *line)
{
    hullpippin_seat *seat = &run->seats[line->seat];
    hullpippin_answer answer = FILLER;
    uint32_t status =
        hullpippin_post(seat, &line->request, line->stream.at, line->stream.size, line->area.at, line->area.size);
    if (status != HULLPIPPIN_DONE && (hullpippin_collect(seat, &answer) != HULLPIPPIN_NOT_WAITING || !is_filler(&answer)))
        fails("what isn't handed over is answered");
    return status;
}

/* Takes back what was handed over, without memory. */
static bool takes_back(struct run *run, uint32_t number)
{
    hullpippin_answer answer = FILLER;
    long before = requests();
    if (hullpippin_withdraw(&run->seats[number], &answer) != HULLPIPPIN_DONE || answer.kind != HULLPIPPIN_BACK
        || answer.why != HULLPIPPIN_BACK_WITHDRAWN)
        return fails("nobody has picked it");
    run->kept[number] = kept_by(&run->seats[number]);
    return took_none(before);
}

/* The seat before it serves it, and it collects the answer. */
static bool is_served(struct run *run, uint32_t number, struct outcome *outcome)
{
    uint32_t picked = 0, server = (number ? number : run->script->seats) - 1;
    if (hullpippin_serve(&run->seats[server], &picked) != HULLPIPPIN_DONE || picked != 1)
        return fails("one request was handed over");
    long before = requests();
    if (hullpippin_collect(&run->seats[number], &outcome->answer) != HULLPIPPIN_DONE || outcome->answer.kind == HULLPIPPIN_HANDED)
        return fails("it was served, and has no answer");
    return took_none(before);
}

/* It is handed over, taken back, handed over again and served. */
static uint32_t hand_over(struct run *run, const struct line *line, struct outcome *outcome)
{
    for (int time = 0; time < 2; time++) {
        uint32_t status = post(run, line);
        if (status != HULLPIPPIN_DONE)
            return answered(run, line->seat, status, outcome);
        if (time == 0 && !takes_back(run, line->seat))
            return HULLPIPPIN_MISUSE;
    }
    if (!is_served(run, line->seat, outcome))
        return HULLPIPPIN_MISUSE;
    return answered(run, line->seat, HULLPIPPIN_DONE, outcome);
}

/* The page, which takes no memory. */
static uint64_t seen(struct run *run, uint32_t number)
{
    hullpippin_page page;
    long before = requests();
    hullpippin_look(&run->seats[number], &page);
    if (hullpippin_ready(&run->seats[number]) != page.ready)
        fails("other seats are ready");
    took_none(before);
    return added(added(added(NO_SUM, page.stamp), page.ready), page.taken);
}

const struct actions BY_CALL = {begin, call, seen, end};
const struct actions BY_HANDING_OVER = {begin, hand_over, seen, end};
