/* SPDX-License-Identifier: Apache-2.0 OR MIT */
/*
 * turns.c: who wants a turn, and what it took. An account has as many turns as another, however many users it has that want one, a user of it
 * as many as another, however many processes want one, and a process as many as another of its user, however many files and threads it has.
 *
 * Whose turn it is the library says (include/hullpippin.h, "Rings"): proved is that while one wants a turn each other in its ring has one at
 * most, and one more for each time that the one was passed over. Here is said who comes, who leaves, and who is passed over for what it owes.
 *
 * A turn ends after some microseconds or steps, and what isn't done by then goes on with the next one. What can't be divided, as a
 * large parcel, may take longer; who had that is passed over until the others have had as much, or the time has gone by.
 *
 * Who is asleep between two calls isn't there to be passed over for. So a turn that takes much longer is a costly one: while two others
 * have been about, its account rests twice as long as it took before it has another such turn, also where nobody else wants one then. A
 * client that asks for a step whose price is as high meanwhile, or has had two of the longest, has its turns among those for a while;
 * all others of its account have theirs as before. One alone may have been the machine's doing.
 */
#include "daemon.h"

#include <stdlib.h>
#include <time.h>

#define TURN_NANOSECONDS 20000u
#define TURN_STEPS 64u

/* To ask for the processor's time takes as long as a step, so what a turn takes of it is told from an asking that is so old at most,
   but where it matters who has had a costly turn. */
#define ASKING_NANOSECONDS 50000u

/* A turn of more is a costly one, and its account rests so many times as long before the next one. Other work on the machine makes
   many turns look as long; so it takes one of more to make its client's next turns costly .. */
#define COSTLY_NANOSECONDS 50000u
#define DEAR_NANOSECONDS 150000u
#define REST_TIMES 2u
/* .. where two others were about so long ago at most. So long, too, a client that has had one is costly. */
#define MEMORY_NANOSECONDS UINT64_C(50000000)

/* Of what is left for a recording an account may have such a part at once, and another one each second, however little that is; and while
   much waits to be written no more than so many bytes. It waits for so long at a time, in which the disk may have taken them. */
#define PART_AT_ONCE 64u
#define PART_OF_SECOND 1024u
#define LEAST_AT_ONCE (UINT64_C(1) << 20)
#define LEAST_OF_SECOND (UINT64_C(64) << 10)
#define PRESSED_AT_ONCE (UINT64_C(8) << 20)
#define PRESSED_OF_SECOND (UINT64_C(4) << 20)
#define WAIT_NANOSECONDS UINT64_C(1000000000)

static uint64_t read_clock(clockid_t clock)
{
    struct timespec now;
    clock_gettime(clock, &now);
    return (uint64_t)now.tv_sec * 1000000000u + (uint64_t)now.tv_nsec;
}

uint64_t nanoseconds(void)
{
    return read_clock(CLOCK_MONOTONIC);
}

uint64_t realtime_offset(void)
{
    struct timespec now;
    clock_gettime(CLOCK_REALTIME, &now);
    return (uint64_t)now.tv_sec * 1000000000u + (uint64_t)now.tv_nsec - nanoseconds();
}

/* An account and a user that nobody has, and for how many numbers there is room at first. */
#define NO_ACCOUNT UINT64_MAX
#define NO_UID ((uid_t)-1)
#define LEAST_NUMBERS 64u

/* Room for a number more: those are counted from 0. */
static bool note_number(struct turns *turns, struct queuer *queuer)
{
    if (queuer->number >= turns->numbers) {
        uint32_t numbers = turns->numbers ? 2 * turns->numbers : LEAST_NUMBERS;
        struct queuer **more = realloc(turns->numbered, numbers * sizeof *more);
        if (!more)
            return false;
        turns->numbered = more;
        turns->numbers = numbers;
    }
    turns->numbered[queuer->number] = queuer;
    return true;
}

/* One that stands in no ring, and in whose own nobody does. False where there is no memory. */
static bool begin_queuer(struct queuer *queuer, struct turns *turns, struct queuer *above)
{
    queuer->turns = turns;
    queuer->above = above;
    if (hullpippin_rings_add(&turns->rings, &queuer->number) != HULLPIPPIN_DONE)
        return false;
    if (note_number(turns, queuer))
        return true;
    hullpippin_rings_remove(&turns->rings, queuer->number);
    return false;
}

/* It comes last into a ring, if it stands in none. */
static void stand_in(struct turns *turns, struct queuer *ring, struct queuer *queuer)
{
    if (!hullpippin_rings_enter(&turns->rings, ring->number, queuer->number))
        return;
    queuer->in = ring;
    ring->standing++;
}

static void stand_in_none(struct queuer *queuer)
{
    if (!queuer->in)
        return;
    hullpippin_rings_leave(&queuer->turns->rings, queuer->number);
    queuer->in->standing--;
    queuer->in = NULL;
}

/* Whose turn it is in a ring: somebody stands there. */
static struct queuer *first_in(const struct queuer *ring)
{
    struct turns *turns = ring->turns;
    hullpippin_rings_first(&turns->rings, ring->number, &turns->told);
    return turns->numbered[turns->told];
}

/* .. who stands there no more. */
static struct queuer *take_first_in(struct turns *turns, struct queuer *ring)
{
    hullpippin_rings_take(&turns->rings, ring->number, &turns->told);
    struct queuer *queuer = turns->numbered[turns->told];
    queuer->in = NULL;
    ring->standing--;
    return queuer;
}

static __attribute__((noinline)) void owe(struct queuer *queuer, uint64_t owed)
{
    queuer->above->debtors += (owed != 0) - (queuer->owed != 0);
    queuer->owed = owed;
}

static void owe_nothing(struct queuer *queuer)
{
    if (queuer->owed)
        owe(queuer, 0);
}

static void end_queuer(struct queuer *queuer)
{
    owe_nothing(queuer);
    stand_in_none(queuer);
    hullpippin_rings_remove(&queuer->turns->rings, queuer->number);
}

bool turns_begin(struct turns *turns)
{
    *turns = (struct turns){.now = nanoseconds()};
    list_begin(&turns->accounts);
    for (size_t i = 0; i < TURNS_BUCKETS; i++) {
        list_begin(&turns->by_account[i]);
        list_begin(&turns->by_uid[i]);
        list_begin(&turns->by_pid[i]);
    }
    if (hullpippin_rings_new(&turns->rings) != HULLPIPPIN_DONE || !begin_queuer(&turns->all, turns, NULL)
        || !begin_queuer(&turns->costly, turns, NULL))
        return false;
    turns->ending = client_hold(turns, NO_ACCOUNT, NO_UID, 0);
    return turns->ending != NULL;
}

static void free_payers(struct list *bucket);

void turns_end(struct turns *turns)
{
    if (turns->latest)
        client_release(turns->latest);
    if (turns->ending)
        client_release(turns->ending);
    turns->latest = turns->ending = NULL;
    for (size_t i = 0; i < TURNS_BUCKETS && turns->by_account[i].next; i++)
        free_payers(&turns->by_account[i]);
    hullpippin_free_rings(&turns->rings);
    free(turns->numbered);
    turns->numbered = NULL;
}

/* --- Who there is. --- */

static struct payer *find_payer(struct turns *turns, uint64_t account)
{
    struct list *bucket = &turns->by_account[account % TURNS_BUCKETS];
    for (struct list *entry = bucket->next; entry != bucket; entry = entry->next) {
        struct payer *payer = container_of(entry, struct payer, in_bucket);
        if (payer->account == account)
            return payer;
    }
    return NULL;
}

static struct payer *new_payer(struct turns *turns, uint64_t account)
{
    struct payer *payer = calloc(1, sizeof *payer);
    if (!payer)
        return NULL;
    payer->account = account;
    list_begin(&payer->in_costly);
    if (!begin_queuer(&payer->queuer, turns, &turns->all)) {
        free(payer);
        return NULL;
    }
    if (!begin_queuer(&payer->costly, turns, &turns->costly)) {
        end_queuer(&payer->queuer);
        free(payer);
        return NULL;
    }
    list_append(&turns->by_account[account % TURNS_BUCKETS], &payer->in_bucket);
    return payer;
}

static struct payer *hold_payer(struct turns *turns, uint64_t account)
{
    struct payer *payer = find_payer(turns, account);
    payer = payer ? payer : new_payer(turns, account);
    if (payer)
        payer->references++;
    return payer;
}

static void free_payer(struct payer *payer)
{
    end_queuer(&payer->queuer);
    end_queuer(&payer->costly);
    list_remove(&payer->in_costly);
    list_remove(&payer->in_bucket);
    free(payer);
}

/* Who has had to wait for what it has recorded has to so also where it comes anew. */
static void release_payer(struct payer *payer)
{
    if (!--payer->references && !payer->is_told)
        free_payer(payer);
}

/* Those that nobody holds. */
static void free_payers(struct list *bucket)
{
    for (struct list *entry = bucket->next, *next; entry != bucket; entry = next) {
        struct payer *payer = container_of(entry, struct payer, in_bucket);
        next = entry->next;
        if (!payer->references)
            free_payer(payer);
    }
}

static struct user *find_user(struct turns *turns, const struct payer *payer, uid_t uid)
{
    struct list *bucket = &turns->by_uid[uid % TURNS_BUCKETS];
    for (struct list *entry = bucket->next; entry != bucket; entry = entry->next) {
        struct user *user = container_of(entry, struct user, in_bucket);
        if (user->uid == uid && user->payer == payer)
            return user;
    }
    return NULL;
}

static struct user *new_user(struct turns *turns, struct payer *payer, uid_t uid)
{
    struct user *user = calloc(1, sizeof *user);
    if (!user)
        return NULL;
    user->payer = payer;
    user->uid = uid;
    if (!begin_queuer(&user->queuer, turns, &payer->queuer)) {
        free(user);
        return NULL;
    }
    list_append(&turns->by_uid[uid % TURNS_BUCKETS], &user->in_bucket);
    return user;
}

/* A user has one reference on its account. */
static struct user *hold_user(struct turns *turns, uint64_t account, uid_t uid)
{
    struct payer *payer = hold_payer(turns, account);
    struct user *user = payer ? find_user(turns, payer, uid) : NULL;
    bool is_new = payer && !user;
    if (is_new)
        user = new_user(turns, payer, uid);
    if (payer && (!is_new || !user))
        release_payer(payer);
    if (user)
        user->references++;
    return user;
}

static void release_user(struct user *user)
{
    if (--user->references)
        return;
    end_queuer(&user->queuer);
    list_remove(&user->in_bucket);
    release_payer(user->payer);
    free(user);
}

static struct client *find_client(struct turns *turns, const struct user *user, pid_t pid)
{
    struct list *bucket = &turns->by_pid[(unsigned)pid % TURNS_BUCKETS];
    for (struct list *entry = bucket->next; entry != bucket; entry = entry->next) {
        struct client *client = container_of(entry, struct client, in_bucket);
        if (client->pid == pid && client->user == user)
            return client;
    }
    return NULL;
}

static struct client *new_client(struct turns *turns, struct user *user, pid_t pid)
{
    struct client *client = calloc(1, sizeof *client);
    if (!client)
        return NULL;
    client->user = user;
    client->pid = pid;
    list_begin(&client->watches);
    if (!begin_queuer(&client->queuer, turns, &user->queuer)) {
        free(client);
        return NULL;
    }
    list_append(&turns->by_pid[(unsigned)pid % TURNS_BUCKETS], &client->in_bucket);
    return client;
}

/* A client has one reference on its user. */
struct client *client_hold(struct turns *turns, uint64_t account, uid_t uid, pid_t pid)
{
    struct user *user = hold_user(turns, account, uid);
    struct client *client = user ? find_client(turns, user, pid) : NULL;
    bool is_new = user && !client;
    if (is_new)
        client = new_client(turns, user, pid);
    if (user && (!is_new || !client))
        release_user(user);
    if (client)
        client->references++;
    return client;
}

static void leave(struct client *client);

void client_release(struct client *client)
{
    if (--client->references)
        return;
    if (client->queuer.in)
        leave(client);
    end_queuer(&client->queuer);
    list_remove(&client->in_bucket);
    release_user(client->user);
    free(client);
}

/* --- Costly turns. --- */

/* Until when two other clients than this one count as being about. */
static uint64_t company_until(const struct turns *turns, const struct client *client)
{
    unsigned others = 0;
    for (size_t i = 0; i < TURNS_RECENT; i++)
        if (turns->recent[i].client != client && ++others == 2)
            return turns->recent[i].at ? turns->recent[i].at + MEMORY_NANOSECONDS : 0;
    return 0;
}

/* A client has had a turn: it comes first of those that had the latest. It is only told apart from others there, never looked at. */
static void note_recent(struct turns *turns, const struct client *client, uint64_t now)
{
    size_t at = 0;
    while (at < TURNS_RECENT - 1 && turns->recent[at].client != client)
        at++;
    for (; at > 0; at--)
        turns->recent[at] = turns->recent[at - 1];
    turns->recent[0].client = client;
    turns->recent[0].at = now;
}

/* In how many nanoseconds the client may have a costly turn. */
static uint64_t due_in(const struct turns *turns, const struct client *client, uint64_t now)
{
    const struct payer *payer = client->user->payer;
    uint64_t company = company_until(turns, client), until = payer->rests_until < company ? payer->rests_until : company;
    until = payer->waits_until > until ? payer->waits_until : until;
    return until > now ? until - now : 0;
}

static bool is_costly(const struct turns *turns, const struct client *client)
{
    return client->costly_until > turns->now || client->user->payer->waits_until > turns->now;
}

bool turns_may_make(struct turns *turns, uint64_t price)
{
    struct client *client = turns->latest;
    if (price <= COSTLY_NANOSECONDS || turns->is_costly || !due_in(turns, client, turns->began))
        return true;
    client->costly_until = turns->began + MEMORY_NANOSECONDS;
    turns->put_off++;
    return false;
}

static struct client *first_costly(const struct queuer *costly)
{
    return container_of(first_in(costly), struct client, queuer);
}

/* The account that has the next costly turn: who rests is passed over. NULL where none may have one yet, and all stand as before. */
static struct payer *next_costly(struct turns *turns)
{
    for (uint32_t i = 0; i < turns->costly.standing; i++) {
        struct payer *payer = container_of(first_in(&turns->costly), struct payer, costly);
        if (!due_in(turns, first_costly(&payer->costly), turns->now))
            return payer;
        hullpippin_rings_pass(&turns->rings, turns->costly.number);
    }
    return NULL;
}

/* --- What turns record. --- */

static uint64_t within(uint64_t number, uint64_t least, uint64_t most)
{
    return number < least ? least : number > most ? most : number;
}

/* How much of a second is what an account may have of so many bytes in each. */
static uint64_t time_of(uint64_t bytes, uint64_t of_second)
{
    return (uint64_t)((double)bytes / (double)of_second * 1e9);
}

const struct payer *turns_count_recorded(struct turns *turns, uint64_t bytes, const struct recording *recording, uint64_t time)
{
    struct payer *payer = turns->latest ? turns->latest->user->payer : NULL;
    if (!payer || turns->latest == turns->ending)
        return NULL;
    uint64_t at_once = within(recording->left / PART_AT_ONCE, LEAST_AT_ONCE, recording->is_pressed ? PRESSED_AT_ONCE : UINT64_MAX);
    uint64_t of_second = within(recording->left / PART_OF_SECOND, LEAST_OF_SECOND, recording->is_pressed ? PRESSED_OF_SECOND : UINT64_MAX);
    uint64_t paid = (uint64_t)((double)(time - payer->recorded_at) * 1e-9 * (double)of_second);
    payer->recorded = (payer->recorded > paid ? payer->recorded - paid : 0) + bytes;
    payer->recorded_at = time;
    if (payer->recorded <= at_once)
        return NULL;
    uint64_t waits = time_of(payer->recorded - at_once, of_second);
    payer->waits_until = time + (waits < WAIT_NANOSECONDS ? waits : WAIT_NANOSECONDS);
    bool was_told = payer->is_told;
    payer->is_told = true;
    return was_told ? NULL : payer;
}

/* --- Who wants a turn. --- */

/* Puts it into the ring above it, last. Time that went by while it wanted nothing is as good as others' turns. */
static void enter_one(struct turns *turns, struct queuer *queuer)
{
    if (queuer->owed) {
        uint64_t passed = turns->now > queuer->since ? turns->now - queuer->since : 0;
        owe(queuer, passed < queuer->owed ? queuer->owed - passed : 0);
    }
    stand_in(turns, queuer->above, queuer);
}

/* .. and so those above it. */
static void enter(struct turns *turns, struct queuer *queuer)
{
    for (; queuer->above && !queuer->has_turn && !queuer->in; queuer = queuer->above)
        enter_one(turns, queuer);
}

static void want_costly(struct turns *turns, struct payer *payer)
{
    if (payer->costly.in)
        return;
    stand_in(turns, &turns->costly, &payer->costly);
    list_append(&turns->accounts, &payer->in_costly);
}

static void want_no_costly(struct payer *payer)
{
    stand_in_none(&payer->costly);
    list_remove(&payer->in_costly);
}

static void enter_client(struct turns *turns, struct client *client)
{
    struct payer *payer = client->user->payer;
    if (client->queuer.has_turn || client->queuer.in)
        return;
    client->queuer.from = turns->count;
    if (!is_costly(turns, client)) {
        turns->standing++;
        enter_one(turns, &client->queuer);
        if (!client->user->queuer.has_turn)
            enter(turns, &client->user->queuer);
        return;
    }
    stand_in(turns, &payer->costly, &client->queuer);
    want_costly(turns, payer);
}

/* Who had the latest turn stays out of the rings until it is seen who else has come meanwhile. */
void turns_want(struct turns *turns, struct watch *watch)
{
    struct client *client = watch->client;
    if (!list_is_empty(&watch->in_watches))
        return;
    list_append(&client->watches, &watch->in_watches);
    enter_client(turns, client);
}

/* It is in no ring any more for a turn. */
static void leave(struct client *client)
{
    struct payer *payer = client->user->payer;
    client->queuer.turns->standing -= client->queuer.in == client->queuer.above;
    stand_in_none(&client->queuer);
    if (!payer->costly.standing)
        want_no_costly(payer);
    for (struct queuer *queuer = client->queuer.above; queuer->above && !queuer->standing; queuer = queuer->above)
        stand_in_none(queuer);
}

void turns_want_none(struct watch *watch)
{
    struct client *client = watch->client;
    list_remove(&watch->in_watches);
    if (list_is_empty(&client->watches))
        leave(client);
}

void turns_want_end(struct turns *turns, struct watch *watch)
{
    turns_want_none(watch);
    watch->client = turns->ending;
    turns_want(turns, watch);
}

bool turns_are_ending(const struct turns *turns, const struct watch *watch)
{
    return watch->client == turns->ending;
}

/* Who had the latest turn, and those above, are put into the rings again. */
static void readmit(struct turns *turns)
{
    struct client *client = turns->latest;
    if (!client)
        return;
    client->queuer.has_turn = false;
    if (!list_is_empty(&client->watches))
        enter_client(turns, client);
    for (struct queuer *queuer = client->queuer.above; queuer; queuer = queuer->above) {
        bool was_out = queuer->has_turn;
        queuer->has_turn = false;
        if (was_out && queuer->standing)
            enter(turns, queuer);
    }
    client_release(client);
    turns->latest = NULL;
}

uint64_t turns_due_in(const struct turns *turns)
{
    const struct client *latest = turns->latest;
    if (turns->standing)
        return 0;
    bool latest_wants = latest && !list_is_empty(&latest->watches), latest_is_costly = latest_wants && is_costly(turns, latest);
    if (latest_wants && !latest_is_costly)
        return 0;
    if (!latest_is_costly && !turns->costly.standing)
        return NO_TURN;
    uint64_t now = nanoseconds(), least = latest_is_costly ? due_in(turns, latest, now) : NO_TURN;
    for (const struct list *entry = turns->accounts.next; entry != &turns->accounts; entry = entry->next) {
        uint64_t due = due_in(turns, first_costly(&container_of(entry, struct payer, in_costly)->costly), now);
        least = due < least ? due : least;
    }
    return least;
}

/* --- Giving turns. --- */

/* The first that owes nothing, who stands there no more then. Each look at another takes a turn off what that one owes, so these are as few
   as its time was long. */
static struct queuer *take_in(struct turns *turns, struct queuer *ring)
{
    while (ring->debtors && ring->standing > 1) {
        struct queuer *queuer = first_in(ring);
        if (queuer->owed < TURN_NANOSECONDS)
            break;
        owe(queuer, queuer->owed - TURN_NANOSECONDS);
        queuer->from = turns->count;
        hullpippin_rings_pass(&turns->rings, ring->number);
    }
    struct queuer *queuer = take_first_in(turns, ring);
    owe_nothing(queuer);
    queuer->has_turn = true;
    return queuer;
}

/* The client whose turn it is among all that have no costly ones. It and those above it are out of the rings then. */
static struct client *take_first(struct turns *turns)
{
    struct queuer *queuer = &turns->all;
    for (int i = 0; i < TURNS_LEVELS; i++)
        queuer = take_in(turns, queuer);
    turns->standing--;
    return container_of(queuer, struct client, queuer);
}

/* Which client has the next turn where only such of the latest one's user want any: what is above these would come first again, and stays
   out of the rings. NULL where it takes more to tell. */
static struct client *take_of_user(struct turns *turns)
{
    struct client *latest = turns->latest;
    struct queuer *user = latest ? &latest->user->queuer : NULL;
    if (!user || !user->has_turn || turns->costly.standing || turns->standing != user->standing)
        return NULL;
    bool wants = !list_is_empty(&latest->watches);
    if (wants ? is_costly(turns, latest) : !user->standing)
        return NULL;
    latest->queuer.has_turn = false;
    if (wants)
        enter_client(turns, latest);
    struct client *client = container_of(take_in(turns, user), struct client, queuer);
    turns->standing--;
    client->references++;
    owe_nothing(user);
    owe_nothing(user->above);
    turns->is_costly = false;
    client_release(latest);
    return client;
}

/* The same of one that has a costly turn: its account comes last then. */
static struct client *take_costly(struct turns *turns, struct payer *payer)
{
    struct client *client = container_of(take_first_in(turns, &payer->costly), struct client, queuer);
    client->queuer.has_turn = true;
    take_first_in(turns, &turns->costly);
    list_remove(&payer->in_costly);
    if (payer->costly.standing)
        want_costly(turns, payer);
    return client;
}

/* So much of the processor's time has passed since the turn began, at most: other programs' work isn't in it. */
static uint64_t time_taken(const struct turns *turns, uint64_t now)
{
    uint64_t used = read_clock(CLOCK_THREAD_CPUTIME_ID) - turns->used, passed = now - turns->began;
    return used < passed ? used : passed;
}

static void note_time(struct turns *turns, uint64_t taken)
{
    if (taken > atomic_load_explicit(&turns->longest_time, memory_order_relaxed))
        atomic_store_explicit(&turns->longest_time, taken, memory_order_relaxed);
}

void turns_note_time(struct turns *turns)
{
    uint64_t now = nanoseconds();
    if (now - turns->began > atomic_load_explicit(&turns->longest_time, memory_order_relaxed))
        note_time(turns, time_taken(turns, now));
}

static void begin_turn(struct turns *turns, struct client *client)
{
    uint64_t from = 0; /* any of these may have been passed over, as who has ended something large is by its account */
    for (const struct queuer *it = &client->queuer; it; it = it->above)
        from = it->from > from ? it->from : from;
    uint64_t waited = turns->count - from;
    if (waited > turns->longest_wait && !turns->is_costly)
        turns->longest_wait = waited;
    turns->count++;
    turns->steps = 0;
    turns->latest_step = 0;
    turns->began = turns->now;
    if (turns->began - turns->asked >= ASKING_NANOSECONDS || client->user->payer->rests_until > turns->began) {
        turns->used = read_clock(CLOCK_THREAD_CPUTIME_ID);
        turns->asked = turns->began;
    }
}

static void charge(struct client *client, uint64_t now, uint64_t took)
{
    struct payer *payer = client->user->payer;
    client->queuer.since = client->user->queuer.since = payer->queuer.since = now;
    if (took <= TURN_NANOSECONDS)
        return;
    for (struct queuer *queuer = &client->queuer; queuer->above; queuer = queuer->above)
        owe(queuer, queuer->owed + took - TURN_NANOSECONDS);
    if (took <= COSTLY_NANOSECONDS)
        return;
    if (took > DEAR_NANOSECONDS && now - client->was_dear < MEMORY_NANOSECONDS)
        client->costly_until = now + MEMORY_NANOSECONDS;
    if (took > DEAR_NANOSECONDS)
        client->was_dear = now;
    uint64_t rests = (payer->rests_until > now ? payer->rests_until - now : 0) + REST_TIMES * (took - TURN_NANOSECONDS);
    payer->rests_until = now + (rests < MEMORY_NANOSECONDS ? rests : MEMORY_NANOSECONDS);
}

static void end_turn(struct turns *turns, struct client *client)
{
    uint64_t now = nanoseconds(), took = now - turns->began;
    if (turns->steps > turns->longest_turn)
        turns->longest_turn = turns->steps;
    if (took > COSTLY_NANOSECONDS) {
        took = time_taken(turns, now);
        note_time(turns, took);
        turns->costly_time += took > COSTLY_NANOSECONDS ? took : 0;
    } else if (turns->longest_time < COSTLY_NANOSECONDS) {
        note_time(turns, took);
    }
    charge(client, now, took);
    if (client != turns->ending)
        note_recent(turns, client, now);
    else if (took > turns->longest_end)
        turns->longest_end = took;
}

/* Which client has the next turn of all. NULL: none may have one now. */
static struct client *take(struct turns *turns)
{
    readmit(turns);
    bool has_other = turns->standing;
    struct payer *costly = has_other && turns->is_costly ? NULL : next_costly(turns);
    if (!costly && !has_other)
        return NULL;
    turns->is_costly = costly;
    struct client *client = costly ? take_costly(turns, costly) : take_first(turns);
    client->references++;
    return client;
}

void turns_give(struct turns *turns)
{
    struct client *client = take_of_user(turns);
    if (!client && !(client = take(turns)))
        return;
    struct watch *watch = container_of(client->watches.next, struct watch, in_watches);
    list_remove(&watch->in_watches);
    begin_turn(turns, client);
    turns->latest = client;
    watch->ready(watch);
    end_turn(turns, client);
}

bool turns_has_made_steps(const struct turns *turns)
{
    return turns->steps >= TURN_STEPS;
}

uint64_t turns_read_clock(struct turns *turns)
{
    return turns->latest_step = nanoseconds();
}

/* A step that has just been made tells the time too. */
bool turns_is_over(struct turns *turns)
{
    if (turns_has_made_steps(turns))
        return true;
    uint64_t now = turns->latest_step ? turns->latest_step : nanoseconds();
    turns->latest_step = 0;
    return now - turns->began >= TURN_NANOSECONDS;
}
