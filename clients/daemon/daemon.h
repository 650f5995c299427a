/* SPDX-License-Identifier: Apache-2.0 OR MIT */
/*
 * daemon.h: what the files of the daemon share.
 *
 * The daemon has a thread that takes connections, and one for each device (handover.c). Each waits for all of its descriptors at
 * once (loop.c), and nothing that it does waits for a client. A device that is recorded has one more, which writes the file and waits
 * for the disk alone (recorder.c). An engine stands behind each device name (engine.c); an open file is a
 * process of it (processes.c), a client's thread one of its seats (threads.c, seats.c).
 */
#ifndef HULLPIPPIN_DAEMON_H
#define HULLPIPPIN_DAEMON_H

#include "hullpippin.h"
#include "../packets.h"
#include "../protocol.h"
#include "../ring.h"

#include <linux/android/binder.h>
#include <pthread.h>
#include <stdbool.h>
#include <stddef.h>
#include <stdint.h>
#include <stdio.h>
#include <sys/socket.h>
#include <sys/types.h>
#include <sys/un.h>

/* The engine's pointers begin here, at a window's first byte (docs/RULES.md, "Buffers and windows"). */
#define WINDOW_BASE UINT64_C(65536)

/* A handle that nobody has. */
#define NO_HANDLE UINT32_MAX

/* Stands where a seat would for a thread that no seat is lent to. */
#define NO_SEAT UINT32_MAX

/* These are told of below, and pointed at before. */
struct process;
struct thread;
struct device;

#define container_of(pointer, type, member) ((type *)(void *)((char *)(pointer) - offsetof(type, member)))

/* --- Lists: a ring through the heads. --- */

struct list {
    struct list *next, *previous;
};

static inline void list_begin(struct list *list)
{
    list->next = list->previous = list;
}

static inline bool list_is_empty(const struct list *list)
{
    return list->next == list;
}

static inline void list_append(struct list *list, struct list *entry)
{
    entry->previous = list->previous;
    entry->next = list;
    list->previous->next = entry;
    list->previous = entry;
}

/* Takes an entry out of its list. It is a list of its own then, so that it may be removed once more. */
static inline void list_remove(struct list *entry)
{
    entry->previous->next = entry->next;
    entry->next->previous = entry->previous;
    list_begin(entry);
}

/* --- turns.c: whose turn it is. --- */

/* By accounts, then by their users, then by the processes of these, in the order in which they want one: who had a turn comes last. */
struct queuer {
    struct turns *turns;
    struct queuer *above;  /* NULL: it is a whole machine */
    struct queuer *in;     /* in whose ring it stands; NULL: in none */
    uint32_t number;       /* by which the library knows it, and the ring of those below it that want a turn .. */
    uint32_t standing;     /* .. who are so many */
    uint32_t debtors;      /* so many below it owe anything, whether they want a turn or not */
    bool has_turn;         /* the latest, and isn't in the ring again */
    uint64_t owed;  /* nanoseconds that it had beyond its turns: as many turns pass it over */
    uint64_t since; /* when it last wanted no more */
    uint64_t from;  /* how many turns there were when it began to want this one, or was passed over last */
};

/* An account (account.c), which pays for what its users' turns cost. */
struct payer {
    struct queuer queuer;
    struct list in_bucket;
    uint64_t account;
    uint32_t references;
    struct queuer costly;  /* its clients that want a costly turn; it stands among those that have such .. */
    struct list in_costly; /* .. and is one of these */
    uint64_t rests_until;  /* it has no costly turn before */
    uint64_t recorded;     /* bytes that its turns have recorded beyond what it may .. */
    uint64_t recorded_at;  /* .. as of then */
    uint64_t waits_until;  /* it has no turn at all before, since these are too many */
    bool is_told;
};

struct user {
    struct queuer queuer;
    struct list in_bucket;
    struct payer *payer;
    uid_t uid;
    uint32_t references;
};

/* A process of the system, with all of its open files. */
struct client {
    struct queuer queuer;
    struct list in_bucket;
    struct user *user;
    pid_t pid;
    uint32_t references;
    struct list watches;   /* those of its own that want a turn */
    uint64_t was_dear;     /* when it last had a turn that was far too long */
    uint64_t costly_until; /* until then its turns are among the costly ones */
};

#define TURNS_BUCKETS 256
/* Account, user, client. */
#define TURNS_LEVELS 3
/* So many clients are known that have had the latest turns: one, and two others. */
#define TURNS_RECENT 3

struct turns {
    hullpippin_rings rings;  /* who stands in which ring, and in which order */
    struct queuer **numbered;
    uint32_t numbers;        /* so many have room there */
    uint32_t told;           /* the number that the library told last */
    uint32_t standing;       /* so many clients stand in their users' rings */
    struct queuer all;
    struct queuer costly;    /* accounts with clients that want a costly turn .. */
    struct list accounts;    /* .. in any order */
    struct list by_account[TURNS_BUCKETS], by_uid[TURNS_BUCKETS], by_pid[TURNS_BUCKETS];
    struct client *latest;   /* who had the latest turn, and isn't in the ring again; NULL: nobody */
    struct client *ending;   /* whose turns those are by which the daemon sees to ends */
    struct {
        const struct client *client; /* which may have gone */
        uint64_t at;
    } recent[TURNS_RECENT];
    bool is_costly;          /* this turn, or the latest */
    uint64_t now, began;     /* nanoseconds: when events were last fetched, and when this turn began */
    uint64_t latest_step;    /* .. and the latest step, whose time was read; 0: it is older than the last look whether the turn is over */
    uint32_t steps;          /* that were made in this turn */
    uint64_t count;          /* of the turns that were given */
    uint64_t longest_wait;   /* .. of them to others while one client wanted its own, and no costly one */
    uint64_t put_off;        /* how many steps weren't made in a turn for their price */
    uint64_t costly_time;    /* nanoseconds that costly turns took in all */
    uint32_t longest_turn;   /* how many steps were made in the longest turn of all */
    uint64_t asked, used;    /* nanoseconds: when the kernel was last asked for the thread's processor time, and what that was */
    _Atomic uint64_t longest_time; /* .. of which the longest turn took so much, at most .. */
    uint64_t longest_end;    /* .. and so much the longest in which ends were seen to */
};

struct watch;

bool turns_begin(struct turns *turns);
void turns_end(struct turns *turns);
/* The client of a process of an account's user, which is the caller's until it is let go of. NULL where there is no memory. */
struct client *client_hold(struct turns *turns, uint64_t account, uid_t uid, pid_t pid);
void client_release(struct client *client);
/* The watch wants a turn, and comes to have it behind those that wanted one before. */
void turns_want(struct turns *turns, struct watch *watch);
/* The watch wants no turn any more. */
void turns_want_none(struct watch *watch);
/* The watch gets its turns among those for ends from now on: however many end at once, others wait for one at a time. */
void turns_want_end(struct turns *turns, struct watch *watch);
bool turns_are_ending(const struct turns *turns, const struct watch *watch);
/* In how many nanoseconds the next turn may be given; NO_TURN: nobody wants one. */
#define NO_TURN UINT64_MAX
uint64_t turns_due_in(const struct turns *turns);
/* Gives the next turn, if one may be given now. */
void turns_give(struct turns *turns);
/* Whether a step that takes some nanoseconds may be made in this turn. Else it is to be put off, and who asks for it gets a turn in which
   it may once that is paid for. */
bool turns_may_make(struct turns *turns, uint64_t price);
/* Counts a step that was made in this turn. */
static inline void turns_count_step(struct turns *turns)
{
    turns->steps++;
}
/* What was done up to now since the latest turn began took as long as a turn does. */
void turns_note_time(struct turns *turns);
/* The time, of a step that was made in this turn. */
uint64_t turns_read_clock(struct turns *turns);
/* How much a recording may take: its account waits whose turns record more than its share of that. */
struct recording {
    uint64_t left;     /* bytes of the disk */
    bool is_pressed;   /* more waits to be written than half of what can */
};
/* So many bytes are recorded for a step of this turn, which was made at a time. The account that has to wait for the first time, or NULL. */
const struct payer *turns_count_recorded(struct turns *turns, uint64_t bytes, const struct recording *recording, uint64_t time);
/* Whether this turn has had its time: what isn't done by then goes on with the next one. */
bool turns_is_over(struct turns *turns);
/* Whether it has made all the steps that it may, whatever time they took. */
bool turns_has_made_steps(const struct turns *turns);
uint64_t nanoseconds(void);
/* What CLOCK_REALTIME is ahead of CLOCK_MONOTONIC now, in nanoseconds, modulo 2^64. */
uint64_t realtime_offset(void);

/* --- account.c: with whose a client is counted. --- */

/* Reads whose ids are. */
void accounts_begin(void);
void accounts_end(void);
/* With whose a user's process is counted, be it known by its ids alone .. */
uint64_t account_of(uid_t uid, gid_t gid);
/* .. or also by its folder in /proc, which tells of its slice. */
uint64_t account_in(uid_t uid, gid_t gid, int folder);

/* --- loop.c: one wait for all descriptors. --- */

/* A descriptor that is waited for. A client's is seen to by turns, and `ready` may drop and free any watch then, its own too; what
   is nobody's is seen to at once, and may drop none. A client's events are told once, when they come. */
struct watch {
    int fd; /* -1: it isn't waited for */
    void (*ready)(struct watch *watch);
    struct client *client;  /* NULL: it is nobody's */
    struct list in_watches; /* of its client */
    uint32_t waits_for;
    bool is_deaf; /* until its turn: it was heard again while it wanted one already */
    bool was_heard;
};

struct loop {
    int epoll;
    bool is_stopped;
    struct turns turns;
    /* What is to be done between two turns, a little each time: false where there is no more. */
    bool (*between)(void *context);
    /* Nothing has come for a second. Whether it wants to be called again after another one; else nothing is done until something
       comes. */
    bool (*idle)(void *context);
    void *context;
};

bool loop_begin(struct loop *loop);
void loop_end(struct loop *loop);
bool loop_add(struct loop *loop, struct watch *watch, uint32_t events);
/* The same of a client's, which it stays until it is dropped. */
bool loop_add_client(struct loop *loop, struct watch *watch, struct client *client, uint32_t events);
/* The watch isn't waited for any more in this loop. */
void loop_leave(struct loop *loop, struct watch *watch);
/* The watch is waited for with other events from now on: with 0 for none but errors. */
void loop_change(struct loop *loop, struct watch *watch, uint32_t events);
/* The watch of a client, which has its turn, is heard again. */
void loop_listen(struct loop *loop, struct watch *watch);
/* Leaves the loop with a watch, and closes its descriptor. */
void loop_drop(struct loop *loop, struct watch *watch);
/* Runs until it is stopped, or can't wait: then false. */
bool loop_run(struct loop *loop);

/* --- shares.c: how much of what all share one user and one process may have. --- */

enum shared {
    SHARED_DESCRIPTORS,
    SHARED_THREADS,
    SHARED_WINDOWS, /* bytes of memory; what follows the engine keeps, and each takes about THING_BYTES of it */
    SHARED_CALLS,   /* and replies, until their buffers end: sent.c */
    SHARED_OWED,    /* to threads: what they wait for or haven't read of their own */
    SHARED_OBJECTS, /* owned.c */
    SHARED_HANDLES, /* kept.c */
    SHARED_DEATHS,  /* that are asked for */
    SHARED_KINDS    /* STATE_SHARES (protocol.h) names them */
};

/* What a connection, a thread and a doorbell have of the daemon's descriptors. */
enum { CONNECTION_DESCRIPTORS = 3, THREAD_DESCRIPTORS = 3, DOORBELL_DESCRIPTORS = 2 };

struct account;

/* So many seats are there for threads. What is asked of the kernel for it is asked here. */
void shares_begin(uint32_t seats);
/* Bytes of memory that the daemon may have. */
uint64_t shares_memory(void);
/* Whether it is the daemon's own user, or root. */
bool user_is_own(uid_t uid);
/* The account of a process of a user, whose that counts with (account.c), which is the caller's until it is let go of. NULL where there is
   no memory. It stays for as long as it has taken anything. */
struct account *account_hold(uint64_t whose, uid_t uid, pid_t pid);
/* It is held once more. */
struct account *account_keep(struct account *account);
void account_release(struct account *account);
/* Takes so much, or nothing and answers false where that would be over the share, which is counted. */
bool account_take(struct account *account, enum shared what, uint64_t amount);
/* It was refused more for another reason than its share, which is counted too. */
void account_refuse(struct account *account, enum shared what);
void account_give(struct account *account, enum shared what, uint64_t amount);
/* Takes what is there already, be it over the share, in which there is nothing left then. */
void account_force(struct account *account, enum shared what, uint64_t amount);
/* That of all that count with the same one as this process. It stays while the process's does. */
const struct account *account_whole(const struct account *account);
/* A share that an account has something of, or was refused. */
struct share {
    enum { OF_WHOLE, OF_USER, OF_PROCESS } kind;
    uint64_t whose;
    uid_t uid; /* of a user or process */
    pid_t pid; /* of a process */
    enum shared what;
    uint64_t used, refused;
};
/* So many lists there are of accounts. Fills in those of a list's shares that find room, but for so many first ones; how many there are. */
#define SHARE_LISTS 1024u
uint32_t shares_tell(uint32_t list, uint64_t skipped, struct share *shares, uint32_t room);
/* Nobody gets anything more; each is undone by the other. */
void shares_close(void);
void shares_open(void);

/* --- filter.c: what the daemon may ask of the kernel. --- */

/* From now on no more than its clients need. False where the kernel can't see to that. */
bool filter_begin(void);

/* --- proved.c --- */

void version_tell(FILE *out);

/* --- log.c --- */

bool log_open(const char *path, bool verbose);
void log_close(void);
/* An event that only `-v` shows. */
void log_event(const char *format, ...) __attribute__((format(printf, 1, 2)));
/* A line that is left out where the log would have to be waited for: what a client can bring about on a device's thread. */
void log_line_at_once(const char *format, ...) __attribute__((format(printf, 1, 2)));
/* A line that is always shown. */
void log_line(const char *format, ...) __attribute__((format(printf, 1, 2)));

/* --- recorder.c: files that a thread of its own writes. --- */

/* The files of a recording, in the order in which they are written: what stands beside a journal is there before that. */
enum track { TRACK_TIMES, TRACK_WHO, TRACK_JOURNAL, TRACKS };

struct span {
    const void *bytes;
    size_t size;
};

struct recorder;

/* Writes files anew, each of which begins with these bytes; -1: there is none. NULL where it can't, which is told. The journal's path is
   the caller's, and stays; the files, which are open and don't wait, are the recorder's then, and -1 here. */
struct recorder *recorder_begin(const char *path, int files[TRACKS], const struct span fronts[TRACKS]);
/* The bytes will be in the files behind all before them, a second later at most; those of no file aren't looked at. False where the
   recording has broken off, which is told: then nothing may be appended any more. */
bool recorder_append(struct recorder *recorder, const struct span spans[TRACKS]);
/* How much it may take from now on. */
struct recording recorder_look(const struct recorder *recorder);
/* It breaks off here, since what follows can't be had. */
void recorder_break_off(struct recorder *recorder, const char *why);
/* Waits until all is written, while the disk takes something, puts these bytes in the place of the journal's first, and closes the files.
   Whether all of it is there. */
bool recorder_end(struct recorder *recorder, struct span front);

/* --- names.c: threads of clients by name. --- */

#define COMM_ROOM 16

struct name {
    pid_t tid;            /* as the daemon's /proc has it; 0: it isn't known */
    char comm[COMM_ROOM]; /* with a 0 behind it */
};

struct caller;

/* How a thread of the caller's process is called now, which has told its tid. */
void name_find(struct name *name, const struct caller *caller, uint64_t told);

/* The longest that a byte of a name becomes. */
#define ESCAPED 4

/* A name's bytes so that it is one word in a line, but for spaces, and tells a terminal nothing: its length. The name has a 0 behind it,
   the text none. */
size_t name_escape(const char *name, char *text);

/* --- journal.c: the file that an engine's entries go to, with times and names beside it. --- */

struct journal {
    struct recorder *recorder; /* NULL: there is no journal */
    const char *path;
    uint32_t seats;
    uint64_t first; /* the place in the history of its first entry: 0, but in a daemon of the tests */
    uint8_t *entry;
    size_t room;
    bool has_broken_off;
};

/* How many entries the journal of a device with so few seats can count that it is of version two. */
extern uint64_t narrow_most;

/* Makes the journal of a device; closed it has to be in either case. The files that it uses are -1 then. */
bool journal_open(struct journal *journal, struct device *device, hullpippin_live *live, uint32_t seats);
/* Appends the latest step's entry, and when it was made: how many bytes that were. A journal that can't have it breaks off there, and has
   no more. */
size_t journal_append(struct journal *journal, hullpippin_live *live, uint64_t time);
/* From the next step on the seat is that thread's of a process; NULL: nobody's. */
void journal_note_seat(struct journal *journal, hullpippin_live *live, uint32_t seat, pid_t pid, const struct name *name);
/* Puts the number of entries right, and closes the file. Whether it has all of them. */
bool journal_close(struct journal *journal, hullpippin_live *live);

/* What is to be put right where a parcel lands. */
struct fixups {
    hullpippin_fixup *all; /* NULL: nothing */
    size_t count;
};

/* --- tickets.c: descriptors of parcels that are on their way. --- */

struct engine;

/* The parcel that the engine's next step sends goes on its way with these, in its sender's share. False where there is no memory, or they are
   over the share: then they are still the caller's. */
bool tickets_put(struct process *process, uint64_t step, const int *fds, uint32_t count);
/* Those of a step's parcel, which are the caller's from then on: how many. They are in their sender's share still. */
uint32_t tickets_take(struct engine *engine, uint64_t step, int fds[DESCRIPTORS_MAX]);
/* Closes such, and gives the share back. The account is NULL where it isn't known any more. */
void tickets_close(struct account *account, int *fds, uint32_t count);
/* Takes those of a step's parcel, if there are any, and closes them. */
void tickets_end(struct engine *engine, uint64_t step);
void tickets_end_all(struct engine *engine);

/* --- sent.c: what the engine keeps for who sends. --- */

#define SENT_LISTS 16384u

/* A call or reply whose buffer lives, and what a process has of the share of these. */
struct sent;
struct purse;

struct sent_all {
    struct sent **heads; /* by the place of the step that has sent it */
    struct sent *spare;  /* in no use */
    uint32_t spare_count;
    uint32_t wrapped;    /* how many have a trailer, and weren't read yet */
    uint64_t *ended;     /* room for the buffers that a step ends */
};

struct parcel;

bool sent_all_begin(struct sent_all *all);
void sent_all_end(struct sent_all *all);
/* For a parcel that the engine is to get, whose fix-ups it takes over; NULL where there is no memory, or it is over the sender's share. */
struct sent *sent_new(struct process *process, struct parcel *parcel);
void sent_free(struct sent_all *all, struct sent *sent);
/* The process sends nothing more. What it has sent counts in its share until its buffers end. */
void purse_leave(struct process *process);
/* The engine has it from this step on, until its buffer ends. */
void sent_keep(struct sent_all *all, struct sent *sent, uint64_t step);
/* In whose share a step's parcel is; NULL where its buffer doesn't live. */
struct account *sent_payer(const struct sent_all *all, uint64_t step);
/* The parcel of a step is read: what is to be put right of it, which is the caller's to free. */
struct fixups sent_unwrap(struct sent_all *all, uint64_t step);
/* Lets go of those, and of their descriptors, whose buffers have ended by the latest step. */
void sent_see_ended(struct engine *engine);
/* Whether the thread may be owed one thing more, in the share of its process; and once it is owed nothing. */
bool owed_take(struct thread *thread);
void owed_end(struct thread *thread);

/* --- windows.c: memory that only the daemon writes, as a process's window, which the client maps. --- */

struct window {
    uint8_t *at; /* NULL: not mapped yet */
    uint64_t size;
    uint64_t base; /* where the client sees it */
    int fd;        /* until it has gone to the client, else -1 */
};

bool window_make(struct window *window, uint64_t size, uint64_t base);
void window_free(struct window *window);

/* --- ring.c: the latest steps, for whoever looks. --- */

struct ring {
    struct ring_heading *heading; /* NULL: there is none */
    struct window memory;
    uint32_t own_process;         /* that the daemon's own seat has opened or attached to last */
};

/* Where a call or reply goes. */
struct target {
    struct process *process;     /* NULL: that isn't known */
    hullpippin_object_id object; /* of a call */
};

/* What a step was asked with. */
struct step {
    enum ring_kind kind;
    uint32_t seat;
    uint32_t pid;             /* of an open or attach */
    uint32_t euid, window;    /* of an open */
    uint32_t on;              /* of a set_spam: 0 or 1 */
    uint32_t limit;           /* of a read, in bytes */
    const void *command;
    const uint8_t *data;      /* of a command's parcel */
    size_t data_size;
    const struct target *target; /* of a call or reply */
};

struct engine;

bool ring_make(struct ring *ring, const char *device, uint32_t seats);
/* Tells those who look that the device makes no more steps. */
void ring_conclude(struct ring *ring);
void ring_free(struct ring *ring);
/* So many seats are lent from now on. */
void ring_count_lent(struct ring *ring, uint32_t lent);
/* Puts a step that the engine has made into its ring, which has to be there. */
void ring_put(struct engine *engine, const struct step *step, uint64_t time);
/* Puts there what is counted of turns. */
void ring_put_turns(struct engine *engine);

/* --- engine.c: the engine of one device name. --- */

struct daemon;

/* How clients come to an engine's thread. */
struct inbox {
    pthread_mutex_t lock;
    struct watch bell;
    struct list processes;
    bool is_closed, is_to_stop;
};

#define LATEST_PLACES 64

struct engine {
    struct daemon *daemon;
    char device[DEVICE_NAME_ROOM];
    hullpippin_live live;
    struct journal journal;
    struct ring ring;
    hullpippin_answer answer; /* of the latest step */
    uint8_t returns[PAGE_RETURNS]; /* that it has read, if it is a read */
    uint32_t returns_size;
    struct loop loop;
    pthread_t thread;
    bool has_thread;
    struct inbox inbox;
    hullpippin_tickets tickets;
    struct sent_all sent;
    struct workbench *bench;  /* objects.h */
    void *reserve;            /* NULL: it is in use, or there is none */
    bool uses_reserve;
    bool is_over;             /* it makes no step any more: it can't go on without memory */

    bool is_left;             /* the bridge may have somebody to look at */
    uint64_t rests;           /* how often nothing had come for a second .. */
    uint64_t left_idle;       /* .. and how many there were to be looked at then: none, as far as that is right */
    struct list woken;        /* threads whose reads are answered once the doorbells of their process are right */
    struct list touched;      /* .. to which another's read has brought something */
    struct list clearing;     /* processes for which death notifications were taken back */
    uint64_t steps, looks;
    uint64_t before; /* steps that earlier engines of the device have made */
    uint64_t copied, trimmed; /* bytes of parcels: all, and those after which memory was last given back */

    uint32_t seats;           /* seat 0 is the daemon's own, by which processes begin and end */
    struct thread **lent;     /* by seat: whose it is, or NULL */
    uint32_t lent_count;
    uint32_t *free_seats;     /* a stack */
    uint32_t free_count;
    uint32_t *lost_seats;     /* a stack: no memory was there to end the engine's thread with that seat */
    uint32_t lost_count;
    struct list seatless;     /* threads whose request waits for a seat */

    struct process *manager; /* NULL: there is no context manager */
    hullpippin_object_id manager_object;
    uid_t manager_euid;            /* of the latest .. */
    bool has_had_manager;          /* .. once there was one */
    bool manager_takes_descriptors;

    struct list processes;
    struct list by_pid[256];  /* processes by the pid that they have in the engine */
    uint32_t last_pid;        /* of those that are given where a process's own is taken */
    struct process *by_place[LATEST_PLACES]; /* some, by the place of the step that has opened them (targets.c) */
};

/* Where nobody has the device open, and no journal is kept of it, it begins anew: no history, and no memory, is left of who has gone. */
void engine_begin_anew(struct engine *engine);
/* A device's engine, with its journal. */
struct engine *engine_new(struct daemon *daemon, struct device *device);
void engine_free(struct engine *engine);
/* The last of its thread: puts the journal right, and tells what was done. */
void engine_conclude(struct engine *engine);

/* --- handover.c: an engine's thread. --- */

bool engine_start(struct engine *engine);
/* Ends its clients and its thread, if it has one. */
void engine_stop(struct engine *engine);
/* The process is that thread's from now on; false where the device is over. */
bool engine_hand_over(struct engine *engine, struct process *process);

/* --- reserve.c: memory that is set aside for ends. --- */

/* False where there is none. */
bool reserve_take(struct engine *engine);
/* Lets go of it, for the daemon's own steps; from then on nobody gets more in its share, until it is there again. */
void reserve_use(struct engine *engine);
void reserve_regain(struct engine *engine);
void reserve_free(struct engine *engine);

/* --- engine.c --- */

/* The device can't go on: it ends with all its clients, and the others go on. */
void engine_end(struct engine *engine, const char *why);

/* Each makes a step, and answers 0 where the engine has run it; engine->answer has what came of it. Else an errno. */
int engine_open(struct engine *engine, uint32_t seat, uint32_t pid, uint32_t euid, uint32_t window);
int engine_attach(struct engine *engine, uint32_t seat, uint32_t pid);
int engine_set_manager(struct engine *engine, uint32_t seat);
int engine_set_spam(struct engine *engine, uint32_t seat, bool on);
int engine_exit_thread(struct engine *engine, uint32_t seat);
int engine_exit_process(struct engine *engine, uint32_t seat);
int engine_read(struct engine *engine, uint32_t seat, uint32_t limit);
int engine_command(struct engine *engine, uint32_t seat, const void *command, size_t size);
/* Has the bridge look at one of those who wait. Where it has made a read for it, that is the step. */
int engine_look(struct engine *engine, hullpippin_signal *signal);
/* No step, for a command of which it is known that it changes nothing: the answer is one that says so. */
int engine_pass(struct engine *engine);
/* A transaction or reply, with its parcel, and where it goes. */
int engine_call(struct engine *engine, uint32_t seat, const struct target *target, const void *command, size_t size, const uint8_t *data,
                size_t data_size, const uint8_t *offsets, size_t offsets_size);

/* --- seats.c --- */

/* Sees to it that the thread has a seat. False where all are busy, or the engine refuses. */
bool seat_lend(struct thread *thread);
/* The thread's request waits until a seat is idle. */
void seat_await(struct thread *thread);
/* Looks again at the requests that wait. Follows each event. */
void seats_retry(struct engine *engine);
/* Both follow a second in which nothing has happened. Threads whose end has failed for want of memory are ended, and their seats
   lent again; requests that wait are refused, since those who have the seats may wait for them. */
void seats_regain(struct engine *engine);
void seats_refuse(struct engine *engine);
/* Ends the thread in the engine, and takes its seat back. */
void seat_return(struct thread *thread);
/* The same, where the thread's process has ended. */
void seat_forget(struct thread *thread);

/* --- descriptors.c: closing (packets.h has `descriptors_close`). --- */

/* Begins the thread that closes them; signals have to be blocked by now. */
bool descriptors_begin(void);
/* Whose descriptors this thread closes from now on, NULL for nobody's; and whose it closed before. */
struct account *descriptors_close_for(struct account *account);
/* Closes a descriptor of the daemon's own. */
void descriptor_close(int *fd);
/* Closes a descriptor whose other end a client has, without waiting for what the client has put into it. */
void descriptor_end(int *fd);

/* --- flight.c: descriptors that a client hasn't taken yet. --- */

/* Whether nothing lies in a socket that the other end hasn't taken. */
bool flight_is_taken(int socket);
/* Sends descriptors over a thread's link, with how many there are, and counts them in its process's share until it has taken them. False
   where there is no share for them, or those of before lie there yet. */
bool flight_send(struct thread *thread, const int *fds, uint32_t count);
/* Looks whether the thread has taken them. */
void flight_look(struct thread *thread);
/* They go with the link, or didn't go there. */
void flight_end(struct thread *thread);

/* --- callers.c: whose call it is. --- */

/* So many pid namespaces, one in the other, are told apart. */
#define NAMESPACES_MAX 8

/* Uids, or gids, of a process. */
struct ids {
    uint32_t real, effective, saved;
};

/* The main thread of a client's process, as the kernel tells of it. */
struct caller {
    const struct watch *end;       /* what is heard when the process ends; NULL: nothing is */
    int folder;                    /* a descriptor of the process's folder in /proc */
    struct ids users, groups;      /* when one of its effective ones was last seen to be another */
    bool may_be_anybody, may_be_of_any_group;
    uint32_t depth;                /* how many pid namespaces it is below the daemon's */
    pid_t pids[NAMESPACES_MAX];    /* its pid in the daemon's, and in each on the way to its own */
    ino_t spaces[NAMESPACES_MAX];  /* these namespaces; 0: the daemon's, or one that isn't known */
};

/* What the process is that has connected; false where that can't be told. */
bool caller_begin(struct caller *caller, int socket, const struct ucred *peer);
/* Its effective uid at this moment. False where it has gone, or is another program by now that has more rights. */
bool caller_euid(struct caller *caller, uid_t *euid);
void caller_end(struct caller *caller);
/* The pid that a caller has for another one: 0 where it has none in that one's namespace. */
pid_t caller_pid_for(const struct caller *caller, const struct caller *other);

/* --- owned.c: objects that a process has made. --- */

struct owned_object {
    uint64_t place; /* of the step that made it .. */
    uint32_t index; /* .. and which of that step's it is */
    bool is_gone;
    bool takes_descriptors;
};

struct owned {
    struct owned_object *all;
    uint32_t count, gone, room;
    uint32_t next; /* to be looked at */
};

struct parcel;

/* Takes room for all that a parcel may make, before the engine gets it: how many these are. False where they are over the share. */
bool owned_take(struct process *process, const struct parcel *parcel, uint32_t *taken);
/* Notes those that the engine's latest step has made, and gives back what of so many wasn't needed. */
void owned_note(struct process *process, const struct parcel *parcel, uint32_t taken, bool is_accepted);
/* Whether descriptors may be sent to an object; one that isn't known takes them. */
bool owned_takes_descriptors(const struct process *owner, uint64_t place, uint32_t index);
void owned_free(struct process *process);

/* --- kept.c: handles and death notifications that a process keeps. --- */

struct kept {
    uint64_t *handles; /* a bit for each that counts */
    uint32_t words, next_word;
    uint64_t *deaths;  /* the places of the steps that asked for them */
    uint32_t death_count, death_room, next_death;
};

/* Before a reference is asked for: false where the handle is over the share. Behind it: whether there is one. */
bool kept_take_handle(struct process *process, uint32_t handle, bool *is_new);
void kept_note_handle(struct process *process, uint32_t handle, bool is_new, bool is_taken);
/* A reference was let go of, and perhaps the handle with it. */
void kept_release_handle(struct process *process, uint32_t handle);
/* The same for a death notification. */
bool kept_take_death(struct process *process);
void kept_note_death(struct process *process, uint64_t step, bool is_taken);
void kept_free(struct process *process);

/* --- processes.c: an open file is a process. --- */

/* A place in the history, as the library has it. */
typedef __typeof__(((hullpippin_answer *)0)->from) place_number;

/* A death notification that a step took back. */
struct cleared_notification {
    binder_uintptr_t cookie;
    place_number place; /* of that step */
};

/* Those of which whoever of the process reads next in the loop is told, oldest first. */
struct cleared {
    struct cleared_notification *all;
    uint32_t count, room;
};

/* How far a process that ends has given back what it has (ends.c). */
struct giving {
    bool is_begun, is_done;
    place_number process; /* that has opened it */
    place_number from;    /* of the next buffer at the earliest */
    uint32_t handle;      /* that is next */
    uint32_t misses;      /* how many before it have named nothing */
};

struct process {
    struct watch control;
    bool has_sent;         /* descriptors with its latest answer, which it may not have taken */
    struct watch end;      /* a pidfd, which tells that the client's process has ended */
    struct engine *engine; /* NULL: its device isn't known yet */
    struct daemon *daemon;
    struct loop *loop;
    struct client *client;
    struct account *account;
    uint64_t whose;       /* with whose it is counted (account.c) */
    uint64_t came;        /* nanoseconds: when it connected */
    bool is_refused;      /* its user or process has its share of descriptors already, and it is told so */
    struct list in_engine, in_bucket;
    struct list threads;
    struct list idle;          /* threads of which one is ready where another is, those first that read (waiting.c) .. */
    struct thread *herald;     /* .. and the one of them that the bridge knows: the first */
    bool rings;                /* .. whose doorbell would ring: that there is something for these */
    uint32_t pollers;          /* threads that have doorbells */
    hullpippin_sendings sendings; /* what its threads have sent (sendings.c) */
    struct list in_clearing;
    bool is_ending;           /* it has no place in the engine any more, and its threads are let go of */
    uint32_t objects_let_go;  /* how often it has let go of what may have carried objects */
    pid_t pid;
    uid_t euid;           /* the effective uid that the client had when it connected */
    gid_t egid;
    struct caller caller;
    uint32_t engine_pid;  /* 0: it has no window, and so isn't in the engine yet */
    uint64_t opened;      /* else by the step at this place */
    struct window window;
    uint32_t thread_count;
    hullpippin_loopers loopers; /* for BR_SPAWN_LOOPER */
    struct cleared cleared;
    bool detects_spam;    /* it is told of its own one-way flooding; before its mmap: will be */
    struct giving giving;
    uint32_t handed_count; /* buffers that the client has */
    uint64_t *handed;     /* two bits for each 8 bytes of the window: a buffer that the client has begins there; it has objects */
    uint8_t *secret;      /* one bit for each: they are part of such a buffer, and are to be cleared with it */
    struct owned owned;
    struct kept kept;
    struct purse *purse;  /* sent.c; NULL: it has sent nothing yet */
};

void process_accept(struct daemon *daemon, int fd);
/* It has come to its device's thread, where it is told that the device is open. */
void process_arrive(struct process *process);
/* Ends the first that has opened nothing, once it had some seconds for it. */
enum strangers { NO_STRANGERS, STRANGERS_WAIT, STRANGERS_END };
enum strangers process_end_stranger(struct daemon *daemon);
/* Ends it in the engine, and lets go of its threads and of itself, as much as a turn has time for; else it goes on with the next. */
void process_end(struct process *process);
/* Whether it is to be ended, once it is its turn. */
bool process_has_gone(const struct process *process);
/* The process that has this pid in the engine, or NULL. */
struct process *process_of(const struct engine *engine, uint32_t engine_pid);
/* The client has a buffer that begins there, from now on or no longer. */
enum { NOT_HANDED = 0, HANDED = 1, HANDED_WITH_OBJECTS = 3 };
void process_note_handed(struct process *process, uint64_t place, unsigned handed);
unsigned process_handed(const struct process *process, uint64_t place);
/* So many bytes from there are a buffer whose sender wants it cleared once it is given back, and that clears it. */
void process_note_secret(struct process *process, uint64_t place, uint64_t size);
void process_clear_secret(struct process *process, uint64_t place);

/* The daemon's own seat has a thread of the process from the one to the other: 0 or an errno. */
int process_enter(struct process *process);
int process_leave(struct process *process);

/* --- ends.c: what a process has goes before it. --- */

/* Gives back some of what a process that ends has, as much as a turn has time for. Whether its exit may come now. */
bool ends_give_some(struct process *process);

/* --- state.c: what a device's processes and threads are at, and what they have. --- */

/* Fills a page with what a device's processes and threads have. It goes on where the page before ended: `from` and `within` are what
   that page has told, or 0 for the first. */
void state_tell(struct engine *engine, uint64_t from, uint64_t within, struct state_page *page);

/* --- threads.c: a thread of a client. --- */

/* So much of a page's area is mapped by the daemon, which small parcels come from without a call of the kernel's. */
#define AREA_MAPPED (UINT64_C(4) << 12)
#define PAGE_MAPPED (offsetof(struct page, area) + AREA_MAPPED)

/* Descriptors of the latest parcel that the thread has read, and where their numbers go in the window. */
struct landing {
    bool is_on_way;  /* they haven't gone to the client yet */
    uint64_t step;   /* that has sent the parcel */
    uint64_t parcel; /* where the client sees it */
    uint32_t count;
    uint64_t places[DESCRIPTORS_MAX];
    bool is_wide[DESCRIPTORS_MAX]; /* the number fills 8 bytes: an FD object's, not an FDA object's */
};

/* The descriptors that came with a request, of which parcels take the first ones. */
struct hand {
    uint32_t count, taken;
    int fds[DESCRIPTORS_MAX];
};

/* A write that takes more than one turn. */
struct writing {
    struct page_request request;
    struct hand hand;
    uint8_t stream[PAGE_STREAM];
};

/* A call that a thread serves. */
struct served {
    uint32_t caller;        /* the pid in the engine of the process that waits for the answer; 0: it isn't known */
    bool takes_descriptors; /* .. with the answer */
};

/* So many of them, one within the other, are known. */
#define SERVED_KNOWN 32

struct thread {
    struct watch link, bell;
    uint32_t in_flight;        /* descriptors in the link that it may not have taken */
    struct process *process;
    struct list in_process, in_idle, in_woken, in_touched, in_seatless;
    struct page *page;         /* PAGE_MAPPED bytes of it are mapped .. */
    int memory;                /* .. and the rest is read from here */
    uint32_t freed;            /* how many of the page's frees were seen to */
    uint64_t told_tid;
    uint32_t seat;
    struct name name;          /* while it has a seat: how it was called when that was lent to it */

    bool is_looper;            /* it is in the loop, and reads what comes to the process */
    bool has_looped;           /* .. or was there before */
    hullpippin_reader reader;  /* what its calls have left to be read and told; until a refusal is told, nothing that it writes is run */
    struct served served[SERVED_KNOWN]; /* the first of the calls that it has to answer */
    struct writing *writing;   /* a write that takes more than one turn; NULL: none */
    uint32_t owed;             /* of all that the reader has so many count in its process's share */

    hullpippin_waits waits;    /* whether it waits in a read, and what the bridge knows of that (waiting.c) */
    uint32_t room;             /* how many bytes of returns its read has room for */
    struct page_answer answer; /* what its request has come to so far */

    int doorbell, doorbell_end; /* ours and the client's; -1: it has none */
    bool is_rung;

    /* Returns that were read from the engine and not handed over yet. Where they are the completion of a call and no
       more, they wait for what is to come (the kernel's deferred completion). */
    uint8_t pending[PAGE_RETURNS + HULLPIPPIN_READ_LEAST];
    uint32_t pending_size;
    struct landing *landing; /* NULL: no parcel had descriptors yet */
    bool has_sent_objects; /* and not read yet that all was taken that it has sent */
};

/* Makes a thread of the process, which has told its tid. Tells its end of the link, its page and its bell, of which the first two are the
   caller's. */
int thread_join(struct process *process, uint64_t tid, int fds[3]);
/* Ends the thread, also in the engine. */
void thread_end(struct thread *thread);
/* Lets go of a thread whose process has ended in the engine. */
void thread_free(struct thread *thread);
/* The landing, empty. NULL where there is no memory. */
struct landing *thread_landing(struct thread *thread);

/* --- page.c: requests in pages, and their answers. --- */

/* Does what its client asks for, as much as a turn has time for; else it goes on with the next. */
void page_rung(struct thread *thread);
/* Lets go of a write that isn't done. */
void page_forget(struct thread *thread);
/* Puts returns into the thread's page, at most PAGE_RETURNS bytes in all .. */
void page_put(struct thread *thread, uint32_t at, const void *returns, uint32_t size);
/* .. and answers its request with so many of them. */
void page_answer(struct thread *thread, uint32_t size);
/* Answers a request with an errno. */
void page_interrupt(struct thread *thread, int error);
/* The same where it waits for a seat: the descriptors that came with it are closed. Who has asked for nothing, and only
   gives buffers back, isn't answered: that is tried again with its next ring. */
void page_refuse(struct thread *thread, int error);
/* Copies from a page, once: what the compiler makes of the copy doesn't look at the page again. */
void page_copy(void *to, const void *from, size_t size);

/* --- commands.c: the write of a BINDER_WRITE_READ. --- */

/* Runs the commands, and tells in the thread's answer how far that came. The descriptors stay the caller's, but for those that a parcel has
   taken. */
int commands_run(struct thread *thread, const uint8_t *stream, uint32_t size, struct hand *hand);
/* BC_FREE_BUFFER with a client's pointer. */
int command_free(struct thread *thread, uint64_t pointer);

/* --- parcels.c, landings.c: PTR, FD and FDA objects, of which the engine knows nothing. --- */

/* A transaction's or reply's parcel, as the engine gets it. */
struct parcel {
    bool is_lost; /* it couldn't be had */
    const uint8_t *data, *offsets;
    uint64_t data_size, offsets_size;
    uid_t euid;      /* the caller's; it is the first to be set */
    bool tells_euid; /* .. which isn't what the engine tells */
    uint32_t offered; /* descriptors that came and may go with it */
    bool is_wrapped; /* it has a trailer */
    uint64_t step;   /* .. and this step sends it */
    struct fixups fixups;
    bool is_on_way;  /* its descriptors are (tickets.c) */
    uint32_t fd_count;
    int fds[DESCRIPTORS_MAX];
};

/* An empty one, of nobody. */
void parcel_begin(struct parcel *parcel);
/* Fetches a parcel from the page; descriptors that it has are taken from the hand. */
void parcel_fetch(struct parcel *parcel, struct thread *thread, const struct binder_transaction_data_sg *record, struct hand *hand);
/* The engine gets nothing of it, for which it refuses the command. */
void parcel_lose(struct parcel *parcel);
/* Closes the descriptors of one that the engine has refused. */
void parcel_refuse(struct parcel *parcel, struct process *process);
/* Brings the parcel that the engine's latest read got into the window, and its record to how the client sees it. */
void parcel_deliver(struct thread *thread, struct binder_transaction_data *record);
/* Writes the numbers that the landing's descriptors have for the client. */
void parcel_place(struct thread *thread, uint32_t count);

/* --- returns.c: the read of a BINDER_WRITE_READ. --- */

/* Whether the thread has something to be handed over .. */
bool returns_are_there(const struct thread *thread);
/* .. and, of its own, all of it that is to be handed over together. */
bool returns_are_whole(const struct thread *thread);
/* What is so of the thread's read, as the library has it. */
hullpippin_facts returns_facts(const struct thread *thread);
/* Reads once from the engine: 0 or an errno. */
int returns_fetch(struct thread *thread);
/* Takes what the engine's latest read has got, which was for the thread: 0, or EAGAIN where that was nothing. */
int returns_take(struct thread *thread);
/* Reads the next of what a two-way call has left, up to its completion, which waits for the reply; EAGAIN where that was read. */
int returns_fetch_deferred(struct thread *thread);
/* Reads all of that, up to the latest's completion. */
int returns_fetch_sent(struct thread *thread);
/* Answers the thread's read with what is there. */
void returns_deliver(struct thread *thread);
/* The process is to be told of one death notification more, for which there is room; who waits there is told as it is settled. */
void returns_clear(struct process *process, struct cleared_notification notification);

/* --- targets.c: who gets a call or a reply. --- */

/* The process has ended in the engine. */
void target_forget(const struct process *process);
/* Where the thread's next call or reply goes. */
struct target target_of(const struct thread *thread, bool is_reply, uint32_t handle);
/* The size of the window that it goes to: the largest where that isn't known. */
uint64_t target_window(const struct target *target, bool is_reply, uint32_t handle);
/* Whether who gets the thread's next call or reply takes descriptors with it, as far as that is known. */
bool target_takes_descriptors(const struct thread *thread, bool is_reply, uint32_t handle);
/* The thread serves one call more, of these flags; its caller is a process, or isn't known. */
void target_note_served(struct thread *thread, const struct process *caller, uint32_t flags);

/* --- sendings.c: who of a process is told of an object that it sends. --- */

/* The thread's call or reply was taken, with the parcel that the engine has got. */
void sendings_note(struct thread *thread, const struct parcel *parcel, const struct process *receiver);
/* Has what others have sent in vain so far, since the thread is told of it, read before what it reads itself. */
void sendings_gather(struct thread *thread);
/* Hands what the thread has read of objects over to whom it is for, and puts the rest in the driver's order. */
void sendings_sort(struct thread *thread);
/* The thread has read that all was taken that it has sent, or sends nothing more. */
void sendings_end(struct thread *thread);

/* --- waiting.c: tells the bridge who waits. --- */

/* Has the bridge know how the thread waits; follows each change of that. 0, or ENOMEM: then it doesn't. */
int waiting_note(struct thread *thread);
/* Its read is answered, or is about to be. */
void waiting_stop(struct thread *thread);
/* The bridge has woken it: to that it waits in a read no more. */
void waiting_woken(struct thread *thread);
/* It is about to have no seat any more. */
void waiting_forget(struct thread *thread);
/* The first of the process's idle threads, or NULL: if that waits in a read, it reads next what comes to the process. */
struct thread *waiting_first(const struct process *process);
/* Puts the thread's doorbell right by what the bridge has told .. */
void waiting_ring(struct thread *thread);
/* .. and those of all threads that get what comes to the process. */
void waiting_ring_all(struct process *process, bool rings);
/* The bridge has told that the thread's bell rings, or is silent .. */
void waiting_hear(struct thread *thread, bool rings);
/* .. which is to be told again, as if it had been silent. */
void waiting_hear_anew(struct thread *thread);

/* --- waking.c: does what the bridge tells. --- */

/* Another thread's read has brought the thread something. */
void settle_touch(struct thread *thread);
/* Who gets what comes to the process is to be told of death notifications that were taken back. */
void settle_clear(struct process *process);
/* Answers reads, and puts doorbells right, as far as there is time for. Follows each request that makes steps. Whether somebody is left. */
bool settle_some(struct engine *engine);

/* --- doorbells.c --- */

/* Gives the thread a doorbell; its client's end is doorbell_end. */
bool doorbell_make(struct thread *thread);
void doorbell_set(struct thread *thread, bool rings);
void doorbell_free(struct thread *thread);

/* --- listener.c --- */

struct listener {
    struct watch watch;
    struct watch rest; /* a timer: until it ends no client is taken */
    int lock;  /* held as long as a daemon has this address; -1: it was given to us with its socket */
    int spare; /* a descriptor to let go of, so that a client can be sent away where no more are left */
    struct sockaddr_un address;
    mode_t mode; /* of the socket; NO_MODE: what the umask says */
    gid_t group; /* of the socket; NO_GROUP: the daemon's own */
};

#define NO_MODE ((mode_t)-1)
#define NO_GROUP ((gid_t)-1)

enum { LISTENER_OK, LISTENER_BUSY, LISTENER_FAILED };
/* What --mode and --group say; false where that is none. */
bool listener_set_mode(struct listener *listener, const char *word);
bool listener_set_group(struct listener *listener, const char *word);
/* Tells on standard output or error whether a daemon can be reached, as programs reach it: a status. */
int listener_look(const char *path);
/* Takes the lock of an address, or the socket that whoever has started this daemon listens with. */
int listener_lock(struct daemon *daemon, const char *path);
/* Begins to take clients that connect. */
bool listener_begin(struct daemon *daemon);
void listener_end(struct daemon *daemon);

/* --- asking.c: what a daemon that runs tells of a device. Each prints that, or why it can't be had: a status. --- */

/* So many seconds all pages of a state may take; tests have it otherwise. */
extern uint32_t asking_most;
int ask_stats(const char *path, const char *device);
int ask_state(const char *path, const char *device);

/* --- devices.c --- */

#define DEVICES_MAX 16

struct device {
    char name[DEVICE_NAME_ROOM];
    const char *journal; /* the file of its journal; NULL: none is written */
    int files[TRACKS];   /* until its journal has them; with their locks, by which no other daemon writes them; -1: none */
    struct engine *engine; /* NULL: nobody has opened it yet */
};

/* A list of names with commas between them. */
bool devices_add(struct daemon *daemon, const char *names);
/* [NAME=]FILE; without a name it is the first device's. */
bool devices_set_journal(struct daemon *daemon, const char *word);
/* Whether there is a device of that name. */
bool device_is_there(struct daemon *daemon, const char *name);
/* The engine of a name; NULL and an errno where there is none. */
struct engine *device_engine(struct daemon *daemon, const char *name);
bool devices_begin(struct daemon *daemon);
void devices_end(struct daemon *daemon);
/* Ends who has opened no device, one at a time; false where there is no more. */
bool strangers_end_some(void *daemon);

/* --- main.c --- */

struct daemon {
    struct loop loop;
    struct listener listener;
    struct watch signals;
    struct watch patience; /* a timer: strangers are to be looked at */
    bool strangers_are_timed;
    uint32_t refused_count; /* connections that are there only to be told so */
    struct device devices[DEVICES_MAX];
    uint32_t device_count;
    uint32_t seats;
    bool has_chosen_manager; /* of all but root and the daemon's own user .. */
    uid_t manager;           /* .. this one alone may be the context manager of a device */
    struct list strangers; /* processes whose device isn't known yet */
    _Atomic bool has_failed; /* a device makes no more steps, which the daemon's status tells in the end */
};

#endif
