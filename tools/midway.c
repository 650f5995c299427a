/* SPDX-License-Identifier: Apache-2.0 OR MIT */
/* What other seats get while a serve stands between its pick and its answer. Linked with malloc and realloc wrapped
   (cc -Wl,--wrap=malloc,--wrap=realloc,--wrap=free): the serve is stopped where it asks for memory, at each request in turn, and
   the other seats act there. What it has picked is then neither withdrawn nor run twice, and nobody else gets the engine. Prints nothing
   but its complaints. */
#include "asking.h"

#include <stdio.h>
#include <stdlib.h>

enum { POSTER, SERVER, THIRD, SEATS };

enum { ROOM = 4096 };

struct run {
    hullpippin_driver driver;
    hullpippin_seat seats[SEATS];
};

static const struct run EMPTY = {{NULL}, {{NULL}, {NULL}, {NULL}}};

/* ---- where a serve is stopped */

void *__real_malloc(size_t size);
void *__real_realloc(void *block, size_t size);
void __real_free(void *block);

/* Whose serve is being counted, how many requests for memory it has made, and at which of them others act. */
static struct run *serving;
static unsigned requests, stops_at;
static bool others_are_right;

static bool others_meanwhile(struct run *run);

static void asked(void)
{
    struct run *run = serving;
    if (!run || ++requests != stops_at)
        return;
    serving = NULL; /* (what the others ask for isn't counted) */
    others_are_right = others_meanwhile(run);
    serving = run;
}

void *__wrap_malloc(size_t size)
{
    asked();
    return __real_malloc(size);
}

void *__wrap_realloc(void *old, size_t size)
{
    asked();
    return __real_realloc(old, size);
}

void __wrap_free(void *block)
{
    __real_free(block);
}

/* ---- what the others get */

static bool is_back(const hullpippin_answer *answer, uint32_t why)
{
    return (answer->kind == HULLPIPPIN_BACK && answer->why == why) || fails("a request that isn't run doesn't come back");
}

static bool is_handed(uint32_t status, const hullpippin_answer *answer)
{
    return is_done(status) && is(answer->kind == HULLPIPPIN_HANDED, "what is picked is withdrawn, or answered before its run ends");
}

/* What is picked stays handed over. The engine is taken, for a call as for a serve; so nothing that is posted meanwhile is picked. */
static bool others_meanwhile(struct run *run)
{
    hullpippin_seat *poster = &run->seats[POSTER], *third = &run->seats[THIRD];
    const hullpippin_request request = {.kind = HULLPIPPIN_READ, .limit = 72};
    hullpippin_answer answer;
    hullpippin_page page;
    uint32_t picked = 77;
    hullpippin_look(third, &page);
    return is(page.taken && page.stamp == 0, "the page doesn't say that the engine is taken, or has a step that isn't answered")
           && is_done(hullpippin_read(third, 72, &answer)) && is_back(&answer, HULLPIPPIN_BACK_TAKEN)
           && is(hullpippin_serve(third, &picked) == HULLPIPPIN_TAKEN && picked == 77, "two seats serve")
           && is_handed(hullpippin_withdraw(poster, &answer), &answer) && is_handed(hullpippin_collect(poster, &answer), &answer)
           && is_done(hullpippin_post(third, &request, HULLPIPPIN_NOWHERE, 0, HULLPIPPIN_NOWHERE, 0))
           && is_done(hullpippin_withdraw(third, &answer)) && is_back(&answer, HULLPIPPIN_BACK_WITHDRAWN);
}

/* ---- a run */

static bool begins(struct run *run)
{
    bool done = is_done(hullpippin_new(SEATS, &run->driver));
    for (int i = 0; done && i < SEATS; i++)
        done = is_done(hullpippin_take_seat(&run->driver, &run->seats[i]));
    return done;
}

static bool opens_by_call(struct run *run)
{
    hullpippin_answer answer;
    return is_made(hullpippin_open(&run->seats[POSTER], 100, 1000, WINDOW, &answer), &answer, HULLPIPPIN_OPENED);
}

/* Posts what is to be opened, and has it served, stopped at this request for memory, if there are so many. */
static bool opens_by_serve(struct run *run, unsigned stop)
{
    const hullpippin_request request = {.kind = HULLPIPPIN_OPEN, .pid = 100, .euid = 1000, .window = WINDOW};
    uint32_t picked = 0;
    hullpippin_answer answer;
    if (!is_done(hullpippin_post(&run->seats[POSTER], &request, HULLPIPPIN_NOWHERE, 0, HULLPIPPIN_NOWHERE, 0)))
        return false;
    serving = run, requests = 0, stops_at = stop, others_are_right = true;
    uint32_t status = hullpippin_serve(&run->seats[SERVER], &picked);
    serving = NULL;
    return is_done(status) && is(others_are_right, "the others get something else") && is(picked == 1, "it isn't picked once")
           && is_made(hullpippin_collect(&run->seats[POSTER], &answer), &answer, HULLPIPPIN_OPENED)
           && is(answer.from == 0 && answer.to == 1, "it is run at another place");
}

/* Ends the driver; the size of its journal, or 0. */
static size_t ends(struct run *run, uint8_t journal[ROOM])
{
    size_t size = 0;
    for (int i = 0; i < SEATS; i++)
        if (!is_done(hullpippin_return_seat(&run->driver, &run->seats[i])))
            return 0;
    return is_done(hullpippin_finish(&run->driver)) && is_done(hullpippin_journal(&run->driver, journal, ROOM, &size)) && size <= ROOM ? size : 0;
}

static void frees_all(struct run *run)
{
    for (int i = 0; i < SEATS; i++)
        hullpippin_free_seat(&run->seats[i]);
    hullpippin_free_driver(&run->driver);
}

/* Whether a run whose serve is stopped there has this journal: one entry, of the seat that posted. */
static bool plays(unsigned stop, const uint8_t *wanted, size_t wanted_size)
{
    struct run run = EMPTY;
    uint8_t journal[ROOM];
    bool done = begins(&run) && opens_by_serve(&run, stop)
                && is(ends(&run, journal) == wanted_size && memcmp(journal, wanted, wanted_size) == 0, "another journal");
    frees_all(&run);
    return done;
}

int main(void)
{
    struct run run = EMPTY;
    uint8_t wanted[ROOM];
    size_t size = 0;
    bool done = begins(&run) && opens_by_call(&run) && (size = ends(&run, wanted)) > 0;
    frees_all(&run);
    done = done && plays(0, wanted, size);
    unsigned all = requests;
    done = done && is(all > 0, "a serve asks for no memory, so it isn't stopped");
    for (unsigned stop = 1; done && stop <= all; stop++)
        done = plays(stop, wanted, size);
    if (!done)
        fprintf(stderr, "midway: %s\n", complaint ? complaint : "no journal");
    return done ? 0 : 1;
}
