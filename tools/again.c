/* SPDX-License-Identifier: Apache-2.0 OR MIT */
/* Whether hullpippin_again makes the request that came back, with the bytes that it had when it was given, and makes it once: a call
   is posted and withdrawn, its bytes are overwritten, and it is made again. Prints nothing but its complaints. */
#include "asking.h"

#include <stdio.h>
#include <stdlib.h>

enum { MANAGER, CLIENT, SEATS };

static const uint8_t DATA[4] = {'o', 'n', 'c', 'e'};

struct run {
    hullpippin_driver driver;
    hullpippin_seat seats[SEATS];
};

static bool opens(struct run *run)
{
    hullpippin_answer answer;
    uint8_t enter[4];
    put32(enter, HULLPIPPIN_BC_ENTER_LOOPER);
    hullpippin_seat *manager = &run->seats[MANAGER], *client = &run->seats[CLIENT];
    return is_done(hullpippin_new(SEATS, &run->driver)) && is_done(hullpippin_take_seat(&run->driver, manager))
           && is_done(hullpippin_take_seat(&run->driver, client))
           && is_made(hullpippin_open(manager, 100, 1000, WINDOW, &answer), &answer, HULLPIPPIN_OPENED)
           && is_made(hullpippin_manager(manager, &answer), &answer, HULLPIPPIN_SET)
           && is_made(hullpippin_write(manager, enter, sizeof enter, HULLPIPPIN_NOWHERE, 0, &answer), &answer, HULLPIPPIN_WROTE)
           && is_made(hullpippin_open(client, 200, 2000, WINDOW, &answer), &answer, HULLPIPPIN_OPENED);
}

/* Whether the call answers this status, and nothing else. */
static bool answers_only(hullpippin_seat *seat, uint32_t status)
{
    hullpippin_answer answer = BLANK;
    return (hullpippin_again(seat, &answer) == status || fails("another status of a request that isn't made again")) && is_blank(&answer);
}

/* Has a call to the manager come back: it is posted, withdrawn, and its bytes are no more. */
static bool comes_back(hullpippin_seat *client)
{
    uint8_t stream[CALL_SIZE], area[sizeof DATA];
    spell_call(stream, sizeof DATA);
    memcpy(area, DATA, sizeof DATA);
    hullpippin_request request = {.kind = HULLPIPPIN_WRITE};
    hullpippin_answer answer;
    if (!is_done(hullpippin_post(client, &request, stream, sizeof stream, area, sizeof area)))
        return false;
    if (!answers_only(client, HULLPIPPIN_WAITING) || !is_done(hullpippin_withdraw(client, &answer)))
        return false;
    memset(stream, 0xff, sizeof stream);
    memset(area, 0xff, sizeof area);
    return (answer.kind == HULLPIPPIN_BACK && answer.why == HULLPIPPIN_BACK_WITHDRAWN) || fails("it doesn't come back");
}

/* Whether the manager reads one call, with the data that it was made with, and nothing more. */
static bool is_read_once(hullpippin_seat *manager)
{
    hullpippin_answer answer;
    uint8_t data[64];
    if (!is_made(hullpippin_read(manager, 256, &answer), &answer, HULLPIPPIN_GOT))
        return false;
    size_t size = hullpippin_answer_bytes(manager, HULLPIPPIN_DATA, data, sizeof data);
    if (size != sizeof DATA || memcmp(data, DATA, size) != 0)
        return fails("the call has other data");
    if (!is_done(hullpippin_read(manager, 256, &answer)))
        return false;
    return (answer.kind == HULLPIPPIN_REFUSED && answer.number == HULLPIPPIN_FAULT_AGAIN) || fails("there is more than one call");
}

static bool play(struct run *run)
{
    hullpippin_seat *client = &run->seats[CLIENT], empty = HULLPIPPIN_NO_SEAT;
    hullpippin_answer answer;
    if (!answers_only(&empty, HULLPIPPIN_MISUSE) || !opens(run) || !answers_only(client, HULLPIPPIN_NO_SUCH_REQUEST))
        return false;
    return comes_back(client) && is_made(hullpippin_again(client, &answer), &answer, HULLPIPPIN_WROTE)
           && (answer.consumed == CALL_SIZE || fails("another request")) && answers_only(client, HULLPIPPIN_NO_SUCH_REQUEST)
           && is_read_once(&run->seats[MANAGER]);
}

int main(void)
{
    struct run run = {HULLPIPPIN_NO_DRIVER, {HULLPIPPIN_NO_SEAT, HULLPIPPIN_NO_SEAT}};
    bool done = play(&run);
    for (int i = 0; i < SEATS; i++)
        hullpippin_free_seat(&run.seats[i]);
    hullpippin_free_driver(&run.driver);
    if (!done)
        fprintf(stderr, "again: %s\n", complaint);
    return done ? 0 : 1;
}
