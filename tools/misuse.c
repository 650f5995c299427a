/* SPDX-License-Identifier: Apache-2.0 OR MIT */
/* Handles that aren't what a call is for: empty ones, ones that were let go of, full ones that a call would fill, drivers before
   and after their end, seats of another driver. Each call has to tell it, and to leave what it would fill; and all goes on as if it
   hadn't been made. And what isn't misuse: letting go of nothing, and (NULL, 0) for no bytes. Complains where that isn't so. Prints
   nothing else. */
#include "asking.h"

#include <stdio.h>

/* What no call may have written. */
#define UNTOUCHED 77

static bool is_misuse(uint32_t status)
{
    return status == HULLPIPPIN_MISUSE || fails("a misuse isn't told");
}

/* A call that tells misuse, and leaves its answer. */
static bool refuses(uint32_t status, const hullpippin_answer *answer)
{
    return is_misuse(status) && is_blank(answer);
}

/* ---- a seat's handle that has no seat */

static bool requests_are_misuse(hullpippin_seat *seat)
{
    static const uint8_t bytes[4];
    hullpippin_answer answer = BLANK;
    return refuses(hullpippin_open(seat, 100, 1000, WINDOW, &answer), &answer)
           && refuses(hullpippin_attach(seat, 100, &answer), &answer) && refuses(hullpippin_manager(seat, &answer), &answer)
           && refuses(hullpippin_set_spam(seat, 1, &answer), &answer) && refuses(hullpippin_set_spam(seat, 2, &answer), &answer)
           && refuses(hullpippin_write(seat, bytes, sizeof bytes, bytes, sizeof bytes, &answer), &answer)
           && refuses(hullpippin_read(seat, 256, &answer), &answer) && refuses(hullpippin_exit_thread(seat, &answer), &answer)
           && refuses(hullpippin_exit_process(seat, &answer), &answer);
}

static bool handing_is_misuse(hullpippin_seat *seat)
{
    hullpippin_request read = {.kind = HULLPIPPIN_READ, .limit = 256}, none = {.kind = UNTOUCHED};
    hullpippin_answer answer = BLANK;
    uint32_t picked = UNTOUCHED;
    return is_misuse(hullpippin_post(seat, &read, NULL, 0, NULL, 0)) && is_misuse(hullpippin_post(seat, &none, NULL, 0, NULL, 0))
           && is_misuse(hullpippin_serve(seat, &picked)) && (picked == UNTOUCHED || fails("a misuse tells a count"))
           && refuses(hullpippin_collect(seat, &answer), &answer) && refuses(hullpippin_withdraw(seat, &answer), &answer);
}

static bool looks_see_nothing(hullpippin_seat *seat)
{
    uint8_t out[4] = {UNTOUCHED};
    hullpippin_note note = {UNTOUCHED, UNTOUCHED};
    hullpippin_page page = {UNTOUCHED, UNTOUCHED, true};
    hullpippin_look(seat, &page);
    if (hullpippin_answer_bytes(seat, HULLPIPPIN_STREAM, out, sizeof out) != 0 || hullpippin_answer_note(seat, 0, &note)
        || hullpippin_ready(seat) != 0)
        return fails("something is seen with a seat that isn't there");
    return (out[0] == UNTOUCHED && note.command == UNTOUCHED && note.number == UNTOUCHED && page.stamp == UNTOUCHED
            && page.ready == UNTOUCHED && page.taken)
           || fails("a look with no seat writes");
}

/* With none of its calls does anything happen; to let go of it is no misuse. */
static bool is_no_seat(hullpippin_seat *seat)
{
    bool done = requests_are_misuse(seat) && handing_is_misuse(seat) && looks_see_nothing(seat);
    hullpippin_free_seat(seat);
    return done && (!seat->at || fails("an empty handle has come to have something"));
}

/* ---- a driver's handle that has no driver, or no history */

static bool is_no_driver(hullpippin_driver *driver)
{
    hullpippin_seat seat = HULLPIPPIN_NO_SEAT;
    return is_misuse(hullpippin_take_seat(driver, &seat)) && is_misuse(hullpippin_return_seat(driver, &seat))
           && is_misuse(hullpippin_finish(driver)) && (!seat.at || fails("a seat of no driver"));
}

static bool is_no_history(hullpippin_driver *driver)
{
    uint8_t out[4] = {UNTOUCHED};
    size_t size = UNTOUCHED;
    return is_misuse(hullpippin_journal(driver, out, sizeof out, &size))
           && ((out[0] == UNTOUCHED && size == UNTOUCHED) || fails("the journal of no history is written"));
}

static bool is_nothing(hullpippin_driver *driver)
{
    bool done = is_no_driver(driver) && is_no_history(driver);
    hullpippin_free_driver(driver);
    return done && (!driver->at || fails("an empty handle has come to have something"));
}

/* ---- a live engine's handle that has none */

static bool steps_are_misuse(hullpippin_live *live)
{
    static const uint8_t bytes[4];
    hullpippin_answer answer = BLANK;
    return refuses(hullpippin_live_open(live, 0, 100, 1000, WINDOW, &answer), &answer)
           && refuses(hullpippin_live_attach(live, 0, 100, &answer), &answer)
           && refuses(hullpippin_live_manager(live, 0, &answer), &answer)
           && refuses(hullpippin_live_set_spam(live, 0, 1, &answer), &answer)
           && refuses(hullpippin_live_set_spam(live, 0, 2, &answer), &answer)
           && refuses(hullpippin_live_command(live, 0, bytes, sizeof bytes, NULL, 0, NULL, 0, &answer), &answer)
           && refuses(hullpippin_live_read(live, 0, 256, &answer), &answer)
           && refuses(hullpippin_live_exit_thread(live, 0, &answer), &answer)
           && refuses(hullpippin_live_exit_process(live, 0, &answer), &answer);
}

static bool no_engine_is_seen(hullpippin_live *live)
{
    uint8_t out[4] = {UNTOUCHED};
    uint32_t numbers[1] = {UNTOUCHED}, seat = 0;
    uint64_t places[1] = {UNTOUCHED};
    hullpippin_todo_list list = {UNTOUCHED, UNTOUCHED};
    size_t size = UNTOUCHED;
    if (hullpippin_live_ready(live, 0) || hullpippin_live_len(live) != 0 || hullpippin_live_ended(live, places, 1) != 0
        || hullpippin_live_changed(live, numbers, 1) != 0 || hullpippin_live_bytes(live, HULLPIPPIN_DATA, out, sizeof out) != 0
        || hullpippin_live_reached(live, 0, &list))
        return fails("something is seen of an engine that isn't there");
    return is_misuse(hullpippin_live_poll(live, &seat, 1, &size)) && is_misuse(hullpippin_live_entry(live, out, sizeof out, &size))
           && is_misuse(hullpippin_live_heading(live, 0, out, sizeof out, &size)) && is_misuse(hullpippin_live_ask_reached(live, &size))
           && ((out[0] == UNTOUCHED && numbers[0] == UNTOUCHED && places[0] == UNTOUCHED && size == UNTOUCHED
                && list.kind == UNTOUCHED && list.number == UNTOUCHED)
               || fails("a look at no engine writes"));
}

/* What each look would tell. */
union told {
    uint32_t number;
    uint64_t place;
    hullpippin_process process;
    hullpippin_thread thread;
    hullpippin_object_id id;
    hullpippin_object object;
    hullpippin_buffer buffer;
    hullpippin_work work;
    hullpippin_frame frame;
    hullpippin_death death;
};

static bool no_space_is_seen(hullpippin_live *live)
{
    union told told, before;
    memset(&told, UNTOUCHED, sizeof told);
    before = told;
    bool finds = hullpippin_live_process(live, 0, &told.process) || hullpippin_live_process_of_pid(live, 100, &told.place)
                 || hullpippin_live_thread(live, 0, &told.thread) || hullpippin_live_manager_object(live, &told.id)
                 || hullpippin_live_object(live, 0, 0, &told.object) || hullpippin_live_named(live, 100, 0, &told.id)
                 || hullpippin_live_buffer(live, 0, &told.buffer) || hullpippin_live_carried(live, 0, 0, &told.id)
                 || hullpippin_live_unread_of_thread(live, 0, 0, &told.work) || hullpippin_live_unread_of_process(live, 0, 0, &told.work)
                 || hullpippin_live_innermost(live, 0, &told.frame) || hullpippin_live_death(live, 0, &told.death)
                 || hullpippin_live_next_process(live, 0, &told.place) || hullpippin_live_next_handle(live, 100, 0, &told.number)
                 || hullpippin_live_next_buffer(live, 0, 0, &told.place);
    if (finds)
        return fails("something is found in the space of an engine that isn't there");
    return !memcmp(&told, &before, sizeof told) || fails("a look at no engine's space writes");
}

static bool is_no_engine(hullpippin_live *live)
{
    bool done = steps_are_misuse(live) && no_engine_is_seen(live) && no_space_is_seen(live);
    hullpippin_free_live(live);
    return done && (!live->at || fails("an empty handle has come to have something"));
}

/* ---- handles that never had anything */

static bool empty_handles(void)
{
    static hullpippin_seat zeros;
    hullpippin_driver driver = HULLPIPPIN_NO_DRIVER;
    hullpippin_seat seat = HULLPIPPIN_NO_SEAT;
    hullpippin_live live = HULLPIPPIN_NO_LIVE;
    return is_nothing(&driver) && is_no_seat(&seat) && is_no_seat(&zeros) && is_no_engine(&live);
}

/* ---- the life of a driver */

struct run {
    hullpippin_driver driver, other;
    hullpippin_seat seat, others;
};

/* What has something isn't filled, nor taken by nothing, and goes on. */
static bool full_handles(struct run *run)
{
    hullpippin_driver none = HULLPIPPIN_NO_DRIVER;
    hullpippin_answer answer;
    if (!is_misuse(hullpippin_new(1, &run->driver)) || !is_misuse(hullpippin_new(0, &run->driver))
        || !is_done(hullpippin_take_seat(&run->driver, &run->seat)) || !is_misuse(hullpippin_take_seat(&run->driver, &run->seat))
        || !is_misuse(hullpippin_take_seat(&run->other, &run->seat)) || !is_misuse(hullpippin_return_seat(&none, &run->seat)))
        return false;
    return is_made(hullpippin_open(&run->seat, 100, 1000, WINDOW, &answer), &answer, HULLPIPPIN_OPENED);
}

/* Only what comes after the end is misuse before it. */
static bool before_the_end(struct run *run)
{
    if (hullpippin_finish(&run->driver) != HULLPIPPIN_SEATS_AWAY)
        return fails("a driver ends without its seats");
    return is_no_history(&run->driver) && is_misuse(hullpippin_return_seat(&run->driver, &run->others))
           && is_done(hullpippin_return_seat(&run->driver, &run->seat)) && is_no_seat(&run->seat)
           && is_misuse(hullpippin_return_seat(&run->driver, &run->seat)) && is_done(hullpippin_finish(&run->driver));
}

/* Only the journal is for a driver that has ended; a seat of another stays where it is. */
static bool behind_the_end(struct run *run)
{
    uint8_t journal[256];
    size_t size = 0;
    if (!is_no_driver(&run->driver) || !is_misuse(hullpippin_new(1, &run->driver))
        || !is_done(hullpippin_take_seat(&run->other, &run->others))
        || !is_misuse(hullpippin_return_seat(&run->driver, &run->others)))
        return false;
    return is_done(hullpippin_journal(&run->driver, journal, sizeof journal, &size)) && (size > 0 || fails("no journal"));
}

static bool lives(struct run *run)
{
    hullpippin_answer answer;
    if (!is_done(hullpippin_new(1, &run->driver)) || !is_done(hullpippin_new(1, &run->other)))
        return false;
    return full_handles(run) && before_the_end(run) && behind_the_end(run)
           && is_made(hullpippin_open(&run->others, 100, 1000, WINDOW, &answer), &answer, HULLPIPPIN_OPENED);
}

/* What was let go of is empty. */
static bool drivers(void)
{
    struct run run = {HULLPIPPIN_NO_DRIVER, HULLPIPPIN_NO_DRIVER, HULLPIPPIN_NO_SEAT, HULLPIPPIN_NO_SEAT};
    bool done = lives(&run);
    hullpippin_free_seat(&run.others);
    hullpippin_free_seat(&run.seat);
    hullpippin_free_driver(&run.driver);
    hullpippin_free_driver(&run.other);
    done = done && is_no_seat(&run.others) && is_nothing(&run.driver);
    run.seat = HULLPIPPIN_NO_SEAT;
    run.driver = HULLPIPPIN_NO_DRIVER;
    return done && is_no_seat(&run.seat) && is_nothing(&run.driver);
}

/* ---- seats of another driver */

struct two {
    hullpippin_driver drivers[2];
    hullpippin_seat seats[2];
};

static bool opens_two(struct two *two)
{
    for (int i = 0; i < 2; i++)
        if (!is_done(hullpippin_new(2, &two->drivers[i])) || !is_done(hullpippin_take_seat(&two->drivers[i], &two->seats[i])))
            return false;
    return true;
}

/* Each stays with who has it, goes on, and goes back to its own driver alone. */
static bool only_its_own_takes_it(struct two *two)
{
    hullpippin_answer answer;
    for (int i = 0; i < 2; i++)
        if (!is_misuse(hullpippin_return_seat(&two->drivers[1 - i], &two->seats[i]))
            || !is_made(hullpippin_open(&two->seats[i], 100, 1000, WINDOW, &answer), &answer, HULLPIPPIN_OPENED))
            return false;
    for (int i = 0; i < 2; i++)
        if (!is_done(hullpippin_return_seat(&two->drivers[i], &two->seats[i])) || !is_done(hullpippin_finish(&two->drivers[i])))
            return false;
    return true;
}

/* Nor does a driver take the seat of one that was let go of, which may have lain where this one does. */
static bool none_takes_what_is_left(struct two *two)
{
    hullpippin_free_driver(&two->drivers[0]);
    hullpippin_free_driver(&two->drivers[1]);
    if (!is_done(hullpippin_new(1, &two->drivers[0])) || !is_done(hullpippin_take_seat(&two->drivers[0], &two->seats[0])))
        return false;
    hullpippin_free_driver(&two->drivers[0]);
    if (!is_done(hullpippin_new(1, &two->drivers[0])) || !is_done(hullpippin_take_seat(&two->drivers[0], &two->seats[1])))
        return false;
    return is_misuse(hullpippin_return_seat(&two->drivers[0], &two->seats[0]))
           && is_done(hullpippin_return_seat(&two->drivers[0], &two->seats[1])) && is_done(hullpippin_finish(&two->drivers[0]));
}

static bool seats_of_another(void)
{
    struct two two = {{HULLPIPPIN_NO_DRIVER, HULLPIPPIN_NO_DRIVER}, {HULLPIPPIN_NO_SEAT, HULLPIPPIN_NO_SEAT}};
    bool done = opens_two(&two) && only_its_own_takes_it(&two) && none_takes_what_is_left(&two);
    for (int i = 0; i < 2; i++) {
        hullpippin_free_seat(&two.seats[i]);
        hullpippin_free_driver(&two.drivers[i]);
    }
    return done;
}

/* ---- a live engine */

static bool engines(void)
{
    hullpippin_live live = HULLPIPPIN_NO_LIVE;
    if (!is_done(hullpippin_live_new(2, &live)))
        return false;
    bool done = is_misuse(hullpippin_live_new(2, &live)) && opens_live(&live, 0, 1);
    hullpippin_free_live(&live);
    done = done && is_no_engine(&live);
    live = HULLPIPPIN_NO_LIVE;
    return done && is_no_engine(&live);
}

/* ---- (NULL, 0) */

static bool is_empty_write(hullpippin_seat *seat)
{
    hullpippin_request request = {.kind = HULLPIPPIN_WRITE};
    hullpippin_answer answer;
    uint32_t picked;
    return is_made(hullpippin_open(seat, 100, 1000, WINDOW, &answer), &answer, HULLPIPPIN_OPENED)
           && is_made(hullpippin_write(seat, NULL, 0, NULL, 0, &answer), &answer, HULLPIPPIN_WROTE)
           && (hullpippin_answer_bytes(seat, HULLPIPPIN_STREAM, NULL, 0) == 0 || fails("bytes of a write"))
           && is_done(hullpippin_post(seat, &request, NULL, 0, NULL, 0)) && is_done(hullpippin_serve(seat, &picked))
           && is_made(hullpippin_collect(seat, &answer), &answer, HULLPIPPIN_WROTE);
}

static bool no_bytes_with_a_driver(void)
{
    hullpippin_driver driver = HULLPIPPIN_NO_DRIVER;
    hullpippin_seat seat = HULLPIPPIN_NO_SEAT;
    size_t size = 0;
    bool done = is_done(hullpippin_new(1, &driver)) && is_done(hullpippin_take_seat(&driver, &seat)) && is_empty_write(&seat)
                && is_done(hullpippin_return_seat(&driver, &seat)) && is_done(hullpippin_finish(&driver))
                && is_done(hullpippin_journal(&driver, NULL, 0, &size)) && (size > 0 || fails("a journal of no bytes"));
    hullpippin_free_seat(&seat);
    hullpippin_free_driver(&driver);
    return done;
}

static bool is_told_without_room(hullpippin_live *live)
{
    uint8_t command[4];
    hullpippin_answer answer;
    size_t size = 0;
    put32(command, HULLPIPPIN_BC_ENTER_LOOPER);
    if (hullpippin_live_command(live, 0, NULL, 0, NULL, 0, NULL, 0, &answer) != HULLPIPPIN_NO_COMMAND)
        return fails("no bytes are a command");
    if (!is_made(hullpippin_live_command(live, 0, command, sizeof command, NULL, 0, NULL, 0, &answer), &answer, HULLPIPPIN_WROTE)
        || hullpippin_live_ended(live, NULL, 0) != 0 || hullpippin_live_changed(live, NULL, 0) != 0
        || hullpippin_live_bytes(live, HULLPIPPIN_STREAM, NULL, 0) != 0)
        return fails("something of no size");
    return is_done(hullpippin_live_poll(live, NULL, 0, &size)) && is_done(hullpippin_live_entry(live, NULL, 0, &size))
           && (size > 0 || fails("no entry")) && is_done(hullpippin_live_heading(live, 1, NULL, 0, &size));
}

static bool no_bytes_with_an_engine(void)
{
    hullpippin_live live = HULLPIPPIN_NO_LIVE;
    bool done = is_done(hullpippin_live_new(2, &live)) && opens_live(&live, 0, 1) && is_told_without_room(&live);
    hullpippin_free_live(&live);
    return done;
}

/* No bytes have no command and no return, and take none. */
static bool no_bytes_are_spelled(void)
{
    hullpippin_command command = {.code = HULLPIPPIN_BC_ACQUIRE, .handle = UNTOUCHED};
    hullpippin_return returned = {.code = HULLPIPPIN_BR_NOOP, .cookie = UNTOUCHED};
    if (hullpippin_next_command(NULL, 0, &command) != HULLPIPPIN_FAULT_SHORT_COMMAND || command.handle != UNTOUCHED
        || hullpippin_next_return(NULL, 0, &returned) != HULLPIPPIN_FAULT_SHORT_COMMAND || returned.cookie != UNTOUCHED)
        return fails("something is read of no bytes");
    return (hullpippin_spell_command(&command, NULL, 0) == 8 && hullpippin_spell_return(&returned, NULL, 0) == 4
            && hullpippin_text_bytes(HULLPIPPIN_TEXT_COMMAND, HULLPIPPIN_BC_ACQUIRE, NULL, 0) == strlen("BC_ACQUIRE"))
           || fails("another size without room");
}

/* A parcel of no bytes has no objects, and no place for one. */
static bool no_bytes_are_a_parcel(void)
{
    hullpippin_walk walk = {0, 0, UNTOUCHED};
    hullpippin_flat_object object = {.kind = HULLPIPPIN_TYPE_BINDER, .flags = UNTOUCHED};
    if (hullpippin_next_object(NULL, 0, NULL, 0, &walk, &object) || walk.cause || walk.index || object.flags != UNTOUCHED)
        return fails("an object of no bytes");
    return hullpippin_put_object(&object, NULL, 0) == HULLPIPPIN_CAUSE_BAD_OBJECT || fails("an object is written nowhere");
}

static bool no_bytes(void)
{
    hullpippin_verdict_on verdict;
    uint32_t status = hullpippin_verdict(NULL, 0, &verdict);
    if (status != HULLPIPPIN_NO_JOURNAL)
        return status == HULLPIPPIN_NO_MEMORY ? fails("no memory") : fails("no bytes are a journal");
    return no_bytes_with_a_driver() && no_bytes_with_an_engine() && no_bytes_are_spelled() && no_bytes_are_a_parcel();
}

int main(void)
{
    if (empty_handles() && drivers() && seats_of_another() && engines() && no_bytes())
        return 0;
    fprintf(stderr, "misuse: %s\n", complaint);
    return 1;
}
