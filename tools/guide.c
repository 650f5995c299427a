/* SPDX-License-Identifier: Apache-2.0 OR MIT */
/* The examples of docs/LIBRARY.md, in their order, as tools/library takes them out of the page: each has to come to what it says. An example
   that isn't run here doesn't compile. Prints nothing. */
#include "hullpippin.h"

#include <stdio.h>
#include <string.h>

#include "examples.h"

#define MOST 4096

static bool fails(const char *why)
{
    fprintf(stderr, "guide: %s\n", why);
    return false;
}

/* A driver: a call, handed over and read, and the journal judged. */
static bool drives(void)
{
    hullpippin_driver driver = HULLPIPPIN_NO_DRIVER;
    hullpippin_seat manager = HULLPIPPIN_NO_SEAT, client = HULLPIPPIN_NO_SEAT;
    bool is_made = one_way(&driver, &manager, &client) && handed_over(&client, &manager) && judged(&driver, &manager, &client);
    hullpippin_free_seat(&manager);
    hullpippin_free_seat(&client);
    hullpippin_free_driver(&driver);
    return is_made || fails("the driver's examples");
}

/* Who was told last to wake, and whose doorbell to ring. */
static uint32_t woken, rung;

static void wake(uint32_t seat)
{
    woken = seat;
}

static void ring(uint32_t seat, bool rings)
{
    rung = rings ? seat : 0;
}

/* Runs a command with its parcel: an object, or nothing. */
static bool runs(hullpippin_live *live, uint32_t seat, hullpippin_command command, const uint8_t *data, const uint8_t *offsets)
{
    hullpippin_answer answer;
    uint8_t bytes[68];
    size_t size = hullpippin_spell_command(&command, bytes, sizeof bytes);
    return !hullpippin_live_command(live, seat, bytes, size, data, (size_t)command.transaction.data_size, offsets,
                                    (size_t)command.transaction.offsets_size, &answer)
           && answer.kind == HULLPIPPIN_WROTE && answer.stop == HULLPIPPIN_AT_END && answer.notes == 0;
}

/* Sends an object one-way, and appends the entry to a journal. */
static bool sends(hullpippin_live *live, uint32_t seat, uint32_t handle, hullpippin_flat_object object)
{
    static const uint8_t offsets[8] = {0};
    uint8_t data[24];
    hullpippin_command command = {.code = HULLPIPPIN_BC_TRANSACTION,
                                  .transaction = {.target = handle, .code = 1, .flags = HULLPIPPIN_TF_ONE_WAY, .data_size = sizeof data,
                                                  .offsets_size = sizeof offsets}};
    return !hullpippin_put_object(&object, data, sizeof data) && runs(live, seat, command, data, offsets);
}

/* Reads all of a seat's, and counts the objects that come with it. */
static size_t reads(hullpippin_live *live, uint32_t seat)
{
    static uint8_t stream[MOST], data[MOST], offsets[MOST];
    hullpippin_answer answer;
    if (hullpippin_live_read(live, seat, MOST, &answer) || answer.kind != HULLPIPPIN_GOT)
        return 0;
    hullpippin_live_bytes(live, HULLPIPPIN_STREAM, stream, MOST);
    hullpippin_live_bytes(live, HULLPIPPIN_DATA, data, MOST);
    hullpippin_live_bytes(live, HULLPIPPIN_OFFSETS, offsets, MOST);
    return objects_in(stream, answer.stream, data, answer.data, offsets, answer.offsets);
}

/* A manager, a client that sends it an object, and a third process. */
static bool lives(FILE *journal)
{
    hullpippin_live live = HULLPIPPIN_NO_LIVE;
    hullpippin_answer answer;
    hullpippin_flat_object object = {.kind = HULLPIPPIN_TYPE_BINDER, .binder = 0x1000, .cookie = 0x2000};
    hullpippin_command enter = {.code = HULLPIPPIN_BC_ENTER_LOOPER};
    bool is_made = !hullpippin_live_new(3, &live) && !hullpippin_live_open(&live, 0, 100, 1000, 4096, &answer)
                   && !hullpippin_live_manager(&live, 0, &answer) && runs(&live, 0, enter, NULL, NULL)
                   && !hullpippin_live_open(&live, 1, 200, 2000, 4096, &answer) && recorded(&live, 2, journal) && ftell(journal) > 0
                   && sends(&live, 1, 0, object) && reads(&live, 0) == 1 && processes_in(&live) == 3;
    hullpippin_free_live(&live);
    return is_made || fails("the live engine's examples");
}

/* Of a manager that waits in a read, and a client that polls, each is told once that something has come. */
static bool waits(void)
{
    enum { NOBODY = 9, MANAGER = 2, CLIENT = 1 };
    hullpippin_live live = HULLPIPPIN_NO_LIVE;
    hullpippin_answer answer;
    hullpippin_flat_object object = {.kind = HULLPIPPIN_TYPE_BINDER, .binder = 0x1000, .cookie = 0x2000};
    hullpippin_command enter = {.code = HULLPIPPIN_BC_ENTER_LOOPER};
    woken = rung = NOBODY;
    bool is_made = !hullpippin_bridge_new(3, &live) && !hullpippin_live_open(&live, MANAGER, 100, 1000, 4096, &answer)
                   && !hullpippin_live_manager(&live, MANAGER, &answer) && runs(&live, MANAGER, enter, NULL, NULL)
                   && !hullpippin_live_open(&live, CLIENT, 200, 2000, 4096, &answer) && !hullpippin_bridge_wait(&live, MANAGER, MOST, 0)
                   && !hullpippin_bridge_give_doorbell(&live, CLIENT) && settled(&live, wake, ring) && woken == NOBODY && rung == NOBODY
                   && sends(&live, CLIENT, 0, object) && settled(&live, wake, ring) && woken == MANAGER && rung == CLIENT;
    hullpippin_free_live(&live);
    return is_made || fails("the bridge's example");
}

/* Appends the latest entry of a live engine to a journal. */
static bool keeps(hullpippin_live *live, uint8_t *journal, size_t *end)
{
    size_t size;
    bool has = !hullpippin_live_entry(live, journal + *end, MOST - *end, &size) && size <= MOST - *end;
    *end += has ? size : 0;
    return has;
}

/* An object of process 300 goes to the manager, who sends it on to process 200, for which it has handle 1 as its own object. */
static bool gives(hullpippin_live *live, uint8_t *journal, size_t *end)
{
    hullpippin_answer answer;
    hullpippin_flat_object object = {.kind = HULLPIPPIN_TYPE_BINDER, .binder = 0x1000, .cookie = 0x2000};
    hullpippin_flat_object named = {.kind = HULLPIPPIN_TYPE_HANDLE, .binder = 2};
    hullpippin_command enter = {.code = HULLPIPPIN_BC_ENTER_LOOPER};
    return !hullpippin_live_open(live, 0, 100, 1000, 4096, &answer) && keeps(live, journal, end) && !hullpippin_live_manager(live, 0, &answer)
           && keeps(live, journal, end) && runs(live, 0, enter, NULL, NULL) && keeps(live, journal, end)
           && !hullpippin_live_open(live, 1, 200, 2000, 4096, &answer) && keeps(live, journal, end)
           && !hullpippin_live_open(live, 2, 300, 3000, 4096, &answer) && keeps(live, journal, end)
           && sends(live, 1, 0, object) && keeps(live, journal, end) && sends(live, 2, 0, object) && keeps(live, journal, end)
           && sends(live, 0, 1, named) && keeps(live, journal, end);
}

/* The manager gets handle 1 from process 200, an object of its own, and by that sends handle 2 on, which process 300 has sent. */
static bool certifies(void)
{
    static uint8_t journal[MOST];
    hullpippin_live live = HULLPIPPIN_NO_LIVE;
    size_t end = 16, size;
    bool is_made = !hullpippin_live_new(3, &live) && gives(&live, journal, &end)
                   && !hullpippin_live_heading(&live, hullpippin_live_len(&live), journal, 16, &size) && size == 16 && has_two_gifts(journal, end);
    hullpippin_free_live(&live);
    return is_made || fails("the certificate's example");
}

int main(void)
{
    FILE *journal = tmpfile();
    bool is_well = journal && drives() && lives(journal) && waits() && certifies();
    if (journal)
        fclose(journal);
    return !is_well;
}
