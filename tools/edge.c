/* SPDX-License-Identifier: Apache-2.0 OR MIT */
/* Plays the same steps in two live engines, of which the one begins and the other goes over an edge: its history has all but four of
   2^32 steps behind it, which were refused, so its places come to need more than 32 bits. Complains where it answers otherwise, spells
   another entry, or a look tells another place than the same one so much further on. The entries are a journal, which has to be lawful.
   Another engine has all but four of 2^64 steps behind it: it makes three, and says then that its history is full. Prints nothing else. */
#include "asking.h"
#include "starved/space.h"

#include <stdio.h>
#include <stdlib.h>

/* For tests, so the header hasn't got it: a live engine that is as after so many steps that were refused. */
uint32_t hullpippin_live_begun_at(uint32_t seats, uint64_t steps, hullpippin_live *live);

enum { SEATS = 6, STEPS = 4000, LOOK = 25, MOST_ENTRY = 4096, FIRST_PID = 100, LISTS = 256 };

/* So many steps are behind the other engine. */
#define BEHIND (UINT64_C(4294967296) - 4)

/* An engine, the place of its first step that is played, and the bytes of its latest entry. */
struct player {
    hullpippin_live live;
    uint64_t first;
    hullpippin_answer answer;
    uint8_t entry[MOST_ENTRY];
    size_t size;
};

static uint8_t journal[1 << 20];
static size_t journal_size;
static struct script script = {.seats = SEATS, .pid_count = SEATS};

/* ---- steps, by chance */

static uint64_t seed = 83;

static uint32_t chance(uint32_t below)
{
    seed = seed * UINT64_C(6364136223846793005) + UINT64_C(1442695040888963407);
    return (uint32_t)(seed >> 33) % below;
}

/* A command by chance: what is named and what is freed often is there. */
static hullpippin_command command_by_chance(void)
{
    static const uint32_t codes[] = {
        HULLPIPPIN_BC_TRANSACTION, HULLPIPPIN_BC_TRANSACTION, HULLPIPPIN_BC_TRANSACTION, HULLPIPPIN_BC_TRANSACTION, HULLPIPPIN_BC_REPLY,
        HULLPIPPIN_BC_REPLY, HULLPIPPIN_BC_FREE_BUFFER, HULLPIPPIN_BC_FREE_BUFFER, HULLPIPPIN_BC_INCREFS, HULLPIPPIN_BC_ACQUIRE,
        HULLPIPPIN_BC_RELEASE, HULLPIPPIN_BC_DECREFS, HULLPIPPIN_BC_INCREFS_DONE, HULLPIPPIN_BC_ACQUIRE_DONE, HULLPIPPIN_BC_ENTER_LOOPER,
        HULLPIPPIN_BC_REQUEST_DEATH_NOTIFICATION, HULLPIPPIN_BC_CLEAR_DEATH_NOTIFICATION, HULLPIPPIN_BC_DEAD_BINDER_DONE};
    hullpippin_command command = {.code = codes[chance(sizeof codes / sizeof *codes)], .handle = chance(4)};
    command.pointer = command.code == HULLPIPPIN_BC_FREE_BUFFER ? 65536 + 8 * chance(16) : 0x1000 * (1 + chance(3));
    command.cookie = command.code == HULLPIPPIN_BC_INCREFS_DONE || command.code == HULLPIPPIN_BC_ACQUIRE_DONE ? 0x20 : chance(2);
    command.transaction.target = command.handle;
    command.transaction.flags = chance(2) ? HULLPIPPIN_TF_ONE_WAY : 0;
    return command;
}

/* The same with an object in its parcel, every other time. */
static void put_object(hullpippin_command *command, uint8_t data[OBJECT_SIZE])
{
    const hullpippin_flat_object own = {.kind = HULLPIPPIN_TYPE_BINDER, .binder = 0x1000 * (1 + chance(3)), .cookie = 0x20};
    const hullpippin_flat_object known = {.kind = HULLPIPPIN_TYPE_HANDLE, .binder = chance(4)};
    if (chance(2))
        return;
    command->transaction.data_size = OBJECT_SIZE;
    command->transaction.offsets_size = 8;
    hullpippin_put_object(chance(3) ? &own : &known, data, OBJECT_SIZE);
}

/* What is asked for, of either engine. */
struct request {
    uint32_t kind, seat, other;
    hullpippin_command command;
    uint8_t data[OBJECT_SIZE];
};

/* Threads come at first, and go now and then. */
static struct request request_by_chance(void)
{
    static const uint32_t kinds[] = {HULLPIPPIN_WRITE, HULLPIPPIN_WRITE, HULLPIPPIN_WRITE, HULLPIPPIN_READ, HULLPIPPIN_READ};
    struct request request = {.kind = kinds[chance(5)], .seat = chance(SEATS), .other = chance(SEATS)};
    if (!chance(10))
        request.kind = chance(3) ? HULLPIPPIN_OPEN : HULLPIPPIN_ATTACH;
    else if (!chance(40))
        request.kind = chance(3) ? HULLPIPPIN_MANAGER : HULLPIPPIN_SET_SPAM;
    else if (!chance(60))
        request.kind = chance(3) ? HULLPIPPIN_EXIT_THREAD : HULLPIPPIN_EXIT_PROCESS;
    request.command = command_by_chance();
    if (request.command.code == HULLPIPPIN_BC_TRANSACTION || request.command.code == HULLPIPPIN_BC_REPLY)
        put_object(&request.command, request.data);
    return request;
}

static uint32_t ask(hullpippin_live *live, const struct request *request, hullpippin_answer *answer)
{
    switch (request->kind) {
    case HULLPIPPIN_OPEN:
        return hullpippin_live_open(live, request->seat, FIRST_PID + request->seat, 1000, WINDOW, answer);
    case HULLPIPPIN_ATTACH:
        return hullpippin_live_attach(live, request->seat, FIRST_PID + request->other, answer);
    case HULLPIPPIN_MANAGER:
        return hullpippin_live_manager(live, request->seat, answer);
    case HULLPIPPIN_SET_SPAM:
        return hullpippin_live_set_spam(live, request->seat, request->other % 2, answer);
    case HULLPIPPIN_READ:
        return hullpippin_live_read(live, request->seat, 256, answer);
    case HULLPIPPIN_EXIT_THREAD:
        return hullpippin_live_exit_thread(live, request->seat, answer);
    case HULLPIPPIN_EXIT_PROCESS:
        return hullpippin_live_exit_process(live, request->seat, answer);
    default:
        return step(live, request->seat, &request->command, request->data, answer);
    }
}

/* ---- what both tell */

static bool makes(struct player *player, const struct request *request)
{
    player->answer = (hullpippin_answer){0};
    return is_done(ask(&player->live, request, &player->answer))
           && is_done(hullpippin_live_entry(&player->live, player->entry, sizeof player->entry, &player->size))
           && is(player->size <= sizeof player->entry, "an entry is longer than any");
}

static bool is_same_answer(const struct player *near, const struct player *far)
{
    const hullpippin_answer *one = &near->answer, *other = &far->answer;
    return is(one->kind == other->kind && one->notes == other->notes && one->stop == other->stop && one->number == other->number
                  && one->stream == other->stream && one->data == other->data && one->offsets == other->offsets,
              "another answer")
           && is(one->to == one->from + 1 && other->to == other->from + 1 && other->from == one->from + far->first, "another place of a step")
           && is(near->size == far->size && !memcmp(near->entry, far->entry, far->size), "another entry");
}

/* The lists that were filled or emptied, whatever their order. */
static bool sum_lists(struct player *player, uint64_t *sum)
{
    hullpippin_todo_list list;
    size_t count = 0;
    *sum = 0;
    if (!is_done(hullpippin_live_ask_reached(&player->live, &count)))
        return false;
    for (size_t i = 0; i < count && hullpippin_live_reached(&player->live, i, &list); i++)
        *sum += added(added(NO_SUM, list.kind), list.kind == HULLPIPPIN_LIST_OF_PROCESS ? list.number - player->first : list.number);
    return true;
}

/* The processes that live, with their buffers, in the order in which they came. */
static uint64_t sum_next(struct player *player)
{
    uint64_t sum = NO_SUM;
    for (uint64_t process = 0, made; hullpippin_live_next_process(&player->live, process, &process); process++) {
        sum = added(sum, process - player->first);
        for (uint64_t from = 0; hullpippin_live_next_buffer(&player->live, process, from, &made); from = made + 1)
            sum = added(sum, made - player->first);
    }
    return sum;
}

static bool look_alike(struct player *near, struct player *far)
{
    return is(sum_next(near) == sum_next(far), "other processes or buffers are next")
           && is(sum_of(&near->live, &script, near->first) == sum_of(&far->live, &script, far->first), "a look tells something else");
}

static bool goes_on(struct player *near, struct player *far, uint32_t number)
{
    const struct request request = request_by_chance();
    uint64_t lists, others;
    if (!makes(near, &request) || !makes(far, &request) || !is_same_answer(near, far))
        return false;
    if (!sum_lists(near, &lists) || !sum_lists(far, &others) || !is(lists == others, "other lists were filled or emptied"))
        return false;
    memcpy(journal + journal_size, far->entry, far->size);
    journal_size += far->size;
    return number % LOOK || look_alike(near, far);
}

/* ---- both edges */

static bool is_lawful(struct player *far)
{
    hullpippin_verdict_on verdict = {0};
    size_t size = 0;
    return is_done(hullpippin_live_heading(&far->live, STEPS, journal, sizeof journal, &size))
           && is_done(hullpippin_verdict(journal, journal_size, &verdict))
           && is(verdict.lawful && verdict.entries == STEPS, "the entries are not lawful");
}

static bool goes_over(void)
{
    static struct player near, far = {.first = BEHIND};
    size_t size = 0;
    bool done = is_done(hullpippin_live_new(SEATS, &near.live)) && is_done(hullpippin_live_begun_at(SEATS, BEHIND, &far.live))
                && is_done(hullpippin_live_heading(&far.live, STEPS, journal, sizeof journal, &size));
    journal_size = size;
    for (uint32_t number = 0; number < STEPS && done; number++)
        done = goes_on(&near, &far, number);
    done = done && is(hullpippin_live_len(&far.live) == BEHIND + STEPS, "another number of steps") && is_lawful(&far);
    hullpippin_free_live(&near.live);
    hullpippin_free_live(&far.live);
    return done;
}

static bool is_full(hullpippin_live *live)
{
    const hullpippin_command enter = {.code = HULLPIPPIN_BC_ENTER_LOOPER};
    hullpippin_answer answer = BLANK;
    return is(hullpippin_live_open(live, 0, FIRST_PID, 1000, WINDOW, &answer) == HULLPIPPIN_HISTORY_FULL && is_blank(&answer),
              "a full history takes a step")
           && is(step(live, 0, &enter, NULL, &answer) == HULLPIPPIN_HISTORY_FULL && is_blank(&answer), "a full history takes a command")
           && is(hullpippin_live_len(live) == UINT64_MAX, "a full history has another length");
}

static bool comes_to_the_end(void)
{
    hullpippin_live live = HULLPIPPIN_NO_LIVE;
    hullpippin_process process;
    bool done = is_done(hullpippin_live_begun_at(2, UINT64_MAX - 3, &live)) && opens_live(&live, 0, 1)
                && is(hullpippin_live_process(&live, UINT64_MAX - 1, &process) && process.pid == 200, "no process of the last step")
                && is_full(&live);
    hullpippin_free_live(&live);
    return done;
}

int main(void)
{
    for (uint32_t seat = 0; seat < SEATS; seat++)
        script.pids[seat] = FIRST_PID + seat;
    if (goes_over() && comes_to_the_end())
        return 0;
    fprintf(stderr, "edge: %s\n", complaint);
    return 1;
}
