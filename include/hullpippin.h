/* SPDX-License-Identifier: Apache-2.0 OR MIT */
/*
 * hullpippin.h: the transaction engine of Android's Binder driver, as a library that the threads of a program share.
 *
 * Link with libhullpippin.a (docs/LIBRARY.md, "Building"), which asks malloc, realloc and free for memory. It needs nothing
 * else: the library starts no thread, takes no lock, waits for nobody and opens no file.
 *
 * A driver has 1 to 31 seats. A seat stands for one calling thread: it opens a process or attaches to one, writes
 * commands (BC_..) and reads returns (BR_..), in the bytes of <linux/android/binder.h>, 64-bit form, protocol 8. A proof
 * shows that the answers are those of docs/RULES.md. docs/FORMATS.md has the codes and records.
 *
 *     hullpippin_driver driver = HULLPIPPIN_NO_DRIVER;
 *     hullpippin_seat seat = HULLPIPPIN_NO_SEAT;
 *     hullpippin_answer answer;
 *     if (hullpippin_new(2, &driver) || hullpippin_take_seat(&driver, &seat)) ..
 *     if (hullpippin_open(&seat, 100, 1000, 4096, &answer) == HULLPIPPIN_DONE && answer.kind == HULLPIPPIN_OPENED) ..
 *
 * A driver keeps its history, which grows with each step. If you can't have that, or want more seats, make a live engine
 * (hullpippin_live_new): it keeps what its history has come to, and hands each step's entry out.
 *
 * If a handle isn't what a call is for, the call does nothing and answers HULLPIPPIN_MISUSE. So it does with an empty
 * handle, such as one that you let go of, or whose seat went back; with one that has something, where the call would fill it;
 * with a driver that has ended, where the call needs one that hasn't, and the other way round; and with a seat that you give
 * back to another driver than its own. A call that answers a bool answers false then, one that answers a number 0, and one
 * that answers nothing does nothing. Letting go of an empty handle is no misuse.
 *
 * The library can't see the following, which is yours to keep. If you don't, nothing is promised:
 *
 *  - Each handle is empty when you make it: HULLPIPPIN_NO_DRIVER, HULLPIPPIN_NO_SEAT, HULLPIPPIN_NO_LIVE, HULLPIPPIN_NO_TICKETS,
 *    HULLPIPPIN_NO_RINGS, HULLPIPPIN_NO_SENDINGS, or all zeros, as a static one is. From then on it has what a function of this
 *    header left there. You don't copy it, and neither read nor change its pointer.
 *  - No pointer is wild: each leads to what it says, of the size that you tell. NULL is wild, but for (NULL, 0), which are no
 *    bytes or no numbers: so no handle is at NULL, nor an answer or a size that a call fills.
 *  - You make at most one call at a time with a handle. A handle may go to another thread, by whatever orders the
 *    threads: a start, a join, a mutex. Different threads may use different handles at the same time, those of
 *    one driver too, which is what they are for.
 *  - No two pointers of one call lead to memory that overlaps, if the call writes through one of them.
 *  - A program has one copy of this library: it may take a seat of another copy's driver for one of its own.
 *  - You make no call in a signal handler, or in the forked child of a process with threads. malloc aligns to 16.
 *
 * Bytes that you pass to a call stay yours, and may go once the call is back: the library copies them. Bytes that a call
 * answers stay with the seat until its next call, and hullpippin_answer_bytes fetches them. With a live engine they stay
 * until its next step, and hullpippin_live_bytes fetches them.
 */
#ifndef HULLPIPPIN_H
#define HULLPIPPIN_H

#include <stdbool.h>
#include <stddef.h>
#include <stdint.h>

#ifdef __cplusplus
extern "C" {
#endif

/* A driver, or the history of one that has ended. */
typedef struct {
    void *at;
} hullpippin_driver;

/* A seat of a driver. */
typedef struct {
    void *at;
} hullpippin_seat;

/* An engine that keeps no history. */
typedef struct {
    void *at;
} hullpippin_live;

/* Descriptors that are on their way beside an engine. */
typedef struct {
    void *at;
} hullpippin_tickets;

/* Rings beside an engine, which say whose turn it is. */
typedef struct {
    void *at;
} hullpippin_rings;

/* What the threads of a process have sent, which says whom of it is told of that. */
typedef struct {
    void *at;
} hullpippin_sendings;

/* Handles that have nothing, to begin with or to assign. A static handle without another value begins as one. */
#ifdef __cplusplus
#define HULLPIPPIN_NO_DRIVER hullpippin_driver{ NULL }
#define HULLPIPPIN_NO_SEAT hullpippin_seat{ NULL }
#define HULLPIPPIN_NO_LIVE hullpippin_live{ NULL }
#define HULLPIPPIN_NO_TICKETS hullpippin_tickets{ NULL }
#define HULLPIPPIN_NO_RINGS hullpippin_rings{ NULL }
#define HULLPIPPIN_NO_SENDINGS hullpippin_sendings{ NULL }
#else
#define HULLPIPPIN_NO_DRIVER ((hullpippin_driver){ NULL })
#define HULLPIPPIN_NO_SEAT ((hullpippin_seat){ NULL })
#define HULLPIPPIN_NO_LIVE ((hullpippin_live){ NULL })
#define HULLPIPPIN_NO_TICKETS ((hullpippin_tickets){ NULL })
#define HULLPIPPIN_NO_RINGS ((hullpippin_rings){ NULL })
#define HULLPIPPIN_NO_SENDINGS ((hullpippin_sendings){ NULL })
#endif

/* Where a buffer of no bytes may be, one of no numbers, and one of no places; NULL does as well. */
#define HULLPIPPIN_NOWHERE ((uint8_t *)1)
#define HULLPIPPIN_NO_NUMBERS ((uint32_t *)4)
#define HULLPIPPIN_NO_PLACES ((uint64_t *)8)

/* The version of this header, a byte for each of its numbers: 2.0.0. */
#define HULLPIPPIN_VERSION 0x020000

/* Whether the library made a call. With every number but 0 it did nothing, and wrote nothing to what the call fills. */
enum {
    HULLPIPPIN_DONE = 0,            /* it was made */
    HULLPIPPIN_NO_MEMORY = 1,       /* malloc gave none for the call's own copies; it may be made again */
    HULLPIPPIN_WAITING = 2,         /* a request of this seat is handed over: collect or withdraw it first; live_open, live_attach:
                                       the seat waits (hullpippin_bridge_wait); tickets_put: a parcel of that step is on its way */
    HULLPIPPIN_NOT_WAITING = 3,     /* no request of this seat is handed over */
    HULLPIPPIN_TAKEN = 4,           /* serve: another seat has the engine */
    HULLPIPPIN_NO_SUCH_REQUEST = 5, /* post: there is no such kind of request; post, set_spam, live_set_spam: `on` is
                                       neither 0 nor 1; bridge_wait: nor is `defers` one of its numbers; again: none came back */
    HULLPIPPIN_SEAT_COUNT = 6,      /* new: the number of seats isn't 1 to 31; live_new: 1 to 65536 */
    HULLPIPPIN_NO_SEAT_LEFT = 7,    /* take_seat: all seats are taken */
    HULLPIPPIN_SEATS_AWAY = 8,      /* finish: a seat isn't back */
    HULLPIPPIN_NO_JOURNAL = 9,      /* verdict, chain, call_of_reply, turns: the bytes are no journal; journal,
                                       live_entry: no journal spells it */
    HULLPIPPIN_NO_SUCH_SEAT = 10,   /* live: the engine has no seat of that number */
    HULLPIPPIN_HISTORY_FULL = 11,   /* live: the history can take no more (F13) */
    HULLPIPPIN_NO_COMMAND = 12,     /* live_command: the bytes aren't exactly one command */
    HULLPIPPIN_MISUSE = 13,         /* a handle isn't what the call is for: it is empty, or isn't where it has to be, or
                                       its driver has ended, or hasn't, or is another one */
    HULLPIPPIN_UNLAWFUL = 14,       /* chain, call_of_reply, turns: the journal's entries aren't a history */
};

/* What a request came to: the kind of an answer. */
enum {
    HULLPIPPIN_HANDED = 0,  /* collect, withdraw: it is still handed over */
    HULLPIPPIN_OPENED = 1,  /* open, attach: the seat has a thread of the process */
    HULLPIPPIN_SET = 2,     /* manager, set_spam: that is so from now on */
    HULLPIPPIN_EXITED = 3,  /* exit_thread, exit_process: the thread or the process has ended */
    HULLPIPPIN_WROTE = 4,   /* write: commands were run */
    HULLPIPPIN_GOT = 5,     /* read: there are bytes to be fetched */
    HULLPIPPIN_REFUSED = 6, /* it was refused, and changed nothing: `number` is its fault, F1 to F16 */
    HULLPIPPIN_BACK = 7,    /* it wasn't run: `why` */
};

/* Why a write stopped before the end of its stream. */
enum {
    HULLPIPPIN_AT_END = 0,   /* it didn't */
    HULLPIPPIN_AT_FAULT = 1, /* the next command can't be read or run: `number` is the fault, F1 to F16 */
    HULLPIPPIN_AT_CAUSE = 2, /* the last command that was run was refused: `number` is the cause, X1 to X16 */
};

/* Why a request comes back. */
enum {
    HULLPIPPIN_BACK_TAKEN = 1,        /* another seat has the engine: hullpippin_again, or post */
    HULLPIPPIN_BACK_NO_MEMORY = 2,    /* the engine found no memory */
    HULLPIPPIN_BACK_HISTORY_FULL = 3, /* the history can take no more */
    HULLPIPPIN_BACK_WITHDRAWN = 4,    /* withdraw: nobody had picked it */
};

/* Parts of what a read got. */
enum {
    HULLPIPPIN_STREAM = 0,  /* the returns */
    HULLPIPPIN_DATA = 1,    /* the data of the transaction or reply among them */
    HULLPIPPIN_OFFSETS = 2, /* the offsets of its objects */
};

/* Kinds of requests to post. */
enum {
    HULLPIPPIN_OPEN = 1,
    HULLPIPPIN_ATTACH = 2,
    HULLPIPPIN_MANAGER = 3,
    HULLPIPPIN_WRITE = 4,
    HULLPIPPIN_READ = 5,
    HULLPIPPIN_EXIT_THREAD = 6,
    HULLPIPPIN_EXIT_PROCESS = 7,
    HULLPIPPIN_SET_SPAM = 8,
};

/* Faults: why a request was refused, or a stream stopped before a command. */
enum {
    HULLPIPPIN_FAULT_SHORT_COMMAND = 1,    /* F1: the command is cut short */
    HULLPIPPIN_FAULT_UNKNOWN_COMMAND = 2,  /* F2: no such command */
    HULLPIPPIN_FAULT_REFUSED_COMMAND = 3,  /* F3: the command is not supported */
    HULLPIPPIN_FAULT_NO_PROCESS = 4,       /* F4: the seat has no process */
    HULLPIPPIN_FAULT_HAS_PROCESS = 5,      /* F5: the seat has a process */
    HULLPIPPIN_FAULT_PID_TAKEN = 6,        /* F6: a live process has this pid */
    HULLPIPPIN_FAULT_PID_RANGE = 7,        /* F7: the pid is out of range */
    HULLPIPPIN_FAULT_WINDOW_SIZE = 8,      /* F8: the size of the window is out of range */
    HULLPIPPIN_FAULT_NO_SUCH_PID = 9,      /* F9: no live process has this pid */
    HULLPIPPIN_FAULT_MANAGER_BUSY = 10,    /* F10: there is a manager */
    HULLPIPPIN_FAULT_READ_TOO_SMALL = 11,  /* F11: the limit of the read is too small */
    HULLPIPPIN_FAULT_AGAIN = 12,           /* F12: there is nothing to read */
    HULLPIPPIN_FAULT_HISTORY_FULL = 13,    /* F13: the history is full */
    HULLPIPPIN_FAULT_NO_MEMORY = 14,       /* F14: out of memory */
    HULLPIPPIN_FAULT_STREAM_TOO_LONG = 15, /* F15: the stream is too long */
    HULLPIPPIN_FAULT_SEAT_COUNT = 16,      /* F16: the number of seats is out of range */
};

/* Causes: why a transaction or a reply was refused. */
enum {
    HULLPIPPIN_CAUSE_NOT_STRONGLY_NAMED = 1,  /* X1: the handle is not strongly named */
    HULLPIPPIN_CAUSE_NO_MANAGER = 2,          /* X2: there is no manager */
    HULLPIPPIN_CAUSE_OWN_MANAGER = 3,         /* X3: the manager calls itself */
    HULLPIPPIN_CAUSE_DEAD_OWNER = 4,          /* X4: the owner has ended */
    HULLPIPPIN_CAUSE_NOT_SERVING = 5,         /* X5: the thread does not serve its innermost call */
    HULLPIPPIN_CAUSE_UNREAD = 6,              /* X6: the thread has a call or a reply to read */
    HULLPIPPIN_CAUSE_OUTSIDE_AREA = 7,        /* X7: the parcel is outside the area */
    HULLPIPPIN_CAUSE_OFFSETS_SIZE = 8,        /* X8: the offsets are no whole numbers */
    HULLPIPPIN_CAUSE_BAD_OBJECT = 9,          /* X9: an offset or an object is bad */
    HULLPIPPIN_CAUSE_UNSUPPORTED_OBJECT = 10, /* X10: an object is not supported */
    HULLPIPPIN_CAUSE_OTHER_COOKIE = 11,       /* X11: the cookie differs */
    HULLPIPPIN_CAUSE_NOT_HELD = 12,           /* X12: a sent handle is not held */
    HULLPIPPIN_CAUSE_NO_ROOM = 13,            /* X13: the window has no room */
    HULLPIPPIN_CAUSE_OVER_BUDGET = 14,        /* X14: the one-way buffers take over half of the window */
    HULLPIPPIN_CAUSE_NO_CALL = 15,            /* X15: there is no call to reply to */
    HULLPIPPIN_CAUSE_CALLER_GONE = 16,        /* X16: the caller has ended */
};

/* Notes: why a command changed nothing. */
enum {
    HULLPIPPIN_NOTE_NO_SUCH_NUMBER = 1, /* N1: no such handle */
    HULLPIPPIN_NOTE_NOTHING_ASKED = 2,  /* N2: nothing was asked for */
    HULLPIPPIN_NOTE_NOT_STRONG = 3,     /* N3: there is no strong reference to share */
    HULLPIPPIN_NOTE_OWN_MANAGER = 4,    /* N4: the manager is the caller's own */
    HULLPIPPIN_NOTE_NO_SUCH_BUFFER = 5, /* N5: no such buffer */
    HULLPIPPIN_NOTE_NOT_HANDED_OUT = 6, /* N6: the buffer is not yet handed out */
    HULLPIPPIN_NOTE_NO_SUCH_OBJECT = 7, /* N7: no such object */
    HULLPIPPIN_NOTE_NO_HANDSHAKE = 8,   /* N8: nothing is to be acknowledged */
    HULLPIPPIN_NOTE_ALREADY_ASKED = 9,  /* N9: a death notification stands already */
    HULLPIPPIN_NOTE_NONE_ASKED = 10,    /* N10: no death notification with that cookie */
    HULLPIPPIN_NOTE_NONE_TOLD = 11,     /* N11: no death was told with that cookie */
};

/* Kinds of numbers that have a text. */
enum {
    HULLPIPPIN_TEXT_STATUS = 1,  /* HULLPIPPIN_DONE .. HULLPIPPIN_UNLAWFUL */
    HULLPIPPIN_TEXT_FAULT = 2,   /* HULLPIPPIN_FAULT_SHORT_COMMAND .. */
    HULLPIPPIN_TEXT_CAUSE = 3,   /* HULLPIPPIN_CAUSE_NOT_STRONGLY_NAMED .. */
    HULLPIPPIN_TEXT_NOTE = 4,    /* HULLPIPPIN_NOTE_NO_SUCH_NUMBER .. */
    HULLPIPPIN_TEXT_COMMAND = 5, /* the code of a command, whose text is its name, as BC_TRANSACTION */
    HULLPIPPIN_TEXT_RETURN = 6,  /* the code of a return, whose text is its name, as BR_TRANSACTION */
};

/* What a request came to. What a field doesn't apply to has 0 there. */
typedef struct {
    uint32_t kind;     /* HULLPIPPIN_HANDED .. HULLPIPPIN_BACK */
    uint64_t from;     /* the place of its first step in the history; a driver's are below 4294967295 */
    uint64_t to;       /* the place behind its last */
    uint32_t consumed; /* wrote: write_consumed, how many bytes of the stream were run */
    size_t notes;      /* wrote: how many of the commands changed nothing, each with a note */
    uint32_t stop;     /* wrote: HULLPIPPIN_AT_END .. HULLPIPPIN_AT_CAUSE */
    uint32_t number;   /* wrote, refused: HULLPIPPIN_FAULT_.. or HULLPIPPIN_CAUSE_..; live_command: also HULLPIPPIN_NOTE_.. */
    uint32_t why;      /* back: HULLPIPPIN_BACK_TAKEN .. */
    size_t stream;     /* got: how many bytes of returns */
    size_t data;       /* got: how many bytes of data */
    size_t offsets;    /* got: how many bytes of offsets, 8 for each object */
} hullpippin_answer;

/* A command of a write that changed nothing. */
typedef struct {
    uint32_t command; /* which command of the stream, from 0 */
    uint32_t number;  /* why: HULLPIPPIN_NOTE_.. */
} hullpippin_note;

/* The page: how far the driver is. */
typedef struct {
    uint32_t stamp; /* how many steps the history has */
    uint32_t ready; /* bit i: seat i has something to read */
    bool taken;     /* a seat has the engine */
} hullpippin_page;

/* A request to post. The library ignores a field that its kind has no use for. */
typedef struct {
    uint32_t kind;   /* HULLPIPPIN_OPEN .. HULLPIPPIN_SET_SPAM */
    uint32_t pid;    /* open, attach */
    uint32_t euid;   /* open */
    uint32_t window; /* open */
    uint32_t limit;  /* read */
    uint32_t on;     /* set_spam: 1, or 0 for no longer */
} hullpippin_request;

/* The verdict on a journal. */
typedef struct {
    bool lawful;    /* whether each of its entries follows from those before: up to 4294967295 of them are a history then */
    size_t entries; /* how many do, from the first on: all of them where it is lawful */
} hullpippin_verdict_on;

/* No place of a step: none has so many before it. */
#define HULLPIPPIN_NO_PLACE UINT32_C(0xffffffff)

/* A one-way call on an object, by places of steps. */
typedef struct {
    uint32_t made;   /* its BC_TRANSACTION */
    uint32_t handed; /* the read that got its BR_TRANSACTION, or HULLPIPPIN_NO_PLACE */
    uint32_t ended;  /* the step with which its buffer ended, or HULLPIPPIN_NO_PLACE */
} hullpippin_turn;

/*
 * Functions without a handle: call them from any thread at any time. They take no memory, and read nothing that changes.
 */

/* The version of the library that you link, as HULLPIPPIN_VERSION has the header's. */
uint32_t hullpippin_version(void);

/* Copies the text of a number of this kind (HULLPIPPIN_TEXT_STATUS ..), which is ASCII and has no NUL behind it, to `out`
   if all of it fits in `room` bytes, and else nothing. Answers how many bytes it has, at most 63; 0 where there is none. */
size_t hullpippin_text_bytes(uint32_t kind, uint32_t number, uint8_t *out, size_t room);

/*
 * Drivers. One thread at a time makes these calls, as with any handle. Each that answers a status may also answer MISUSE,
 * and so may those of seats and of live engines; but not verdict, which has no handle.
 */

/* Makes a driver with so many seats, numbered from 0. `driver` is empty, and stays so unless the answer is DONE. Also
   NO_MEMORY, SEAT_COUNT. */
uint32_t hullpippin_new(uint32_t seats, hullpippin_driver *driver);

/* Takes a seat off the driver: the first that is there, so of a new driver seat 0, then seat 1. `seat` is empty, and
   stays so unless the answer is DONE. Also NO_MEMORY, NO_SEAT_LEFT. */
uint32_t hullpippin_take_seat(hullpippin_driver *driver, hullpippin_seat *seat);

/* Gives a seat back to its own driver, behind those that are there, and empties `seat`. What its latest call answered
   is gone. With another driver it is MISUSE, and the seat stays. Takes no memory; NO_MEMORY never comes. */
uint32_t hullpippin_return_seat(hullpippin_driver *driver, hullpippin_seat *seat);

/* Ends a driver whose seats are all back. The handle has its history from then on, which is for journal and free_driver
   alone. Takes no memory. Also SEATS_AWAY. */
uint32_t hullpippin_finish(hullpippin_driver *driver);

/* Tells in `size` how many bytes the journal of an ended driver has, and copies them to `out` if all of them fit in
   `room` bytes; else `out` stays as it was, and a later call with more room has them. Also NO_MEMORY, NO_JOURNAL. */
uint32_t hullpippin_journal(hullpippin_driver *driver, uint8_t *out, size_t room, size_t *size);

/* Judges the bytes of a journal, by playing its entries again. Needs no driver. Also NO_MEMORY, NO_JOURNAL. */
uint32_t hullpippin_verdict(const uint8_t *journal, size_t size, hullpippin_verdict_on *verdict);

/*
 * Certificates: what is so of the history whose journal the bytes are. Each reads and judges the journal first. Also NO_JOURNAL,
 * UNLAWFUL, NO_MEMORY. If `room` is too little for all of them, `out` stays as it was, and `count` tells how many there are.
 */

/* How what a handle names in the end came to the live process with this pid: the places of the gifts, rising. The first is by the
   object's owner, or asks for the context manager's by 0; each later one is by who received it before; the last is to this process.
   None where there is no such process or it has no such handle, and nowhere else. */
uint32_t hullpippin_chain(const uint8_t *journal, size_t size, uint32_t pid, uint32_t handle, uint32_t *out, size_t room,
                          size_t *count);

/* Which call the reply answers that the read at a place got, by the place of its BC_TRANSACTION: HULLPIPPIN_NO_PLACE where
   that read got no reply, and nowhere else. */
uint32_t hullpippin_call_of_reply(const uint8_t *journal, size_t size, uint32_t place, uint32_t *call);

/* The one-way calls on an object, in the order of their making. The object is the one that the step at `place` made, or
   of several the one of this index, from 0. */
uint32_t hullpippin_turns(const uint8_t *journal, size_t size, uint32_t place, uint32_t index, hullpippin_turn *out, size_t room,
                          size_t *count);

/* Lets go of a driver, or of an ended one's history, and empties the handle. Seats that are away stay usable. Does
   nothing where it is empty. */
void hullpippin_free_driver(hullpippin_driver *driver);

/* Lets go of a seat for good, and empties the handle. Nothing can finish its driver then. Does nothing where it is
   empty. */
void hullpippin_free_seat(hullpippin_seat *seat);

/*
 * Requests of a seat. Each makes one call of the driver, tries to take the engine once, and never waits. If another
 * seat has it, the answer is BACK with BACK_TAKEN, and nothing ran. DONE fills `answer`. Also WAITING.
 */

/* Opens a process with one thread, the seat's: `pid` 1 to 2147483647, `window` a multiple of 4096 up to 4194304. */
uint32_t hullpippin_open(hullpippin_seat *seat, uint32_t pid, uint32_t euid, uint32_t window, hullpippin_answer *answer);

/* Makes the seat a further thread of a live process. */
uint32_t hullpippin_attach(hullpippin_seat *seat, uint32_t pid, hullpippin_answer *answer);

/* Makes the seat's process the context manager (BINDER_SET_CONTEXT_MGR). */
uint32_t hullpippin_manager(hullpippin_seat *seat, hullpippin_answer *answer);

/* Has the seat's process told of its own flooding with one-way calls where `on` is 1, and no longer where it is 0
   (BINDER_ENABLE_ONEWAY_SPAM_DETECTION). While `on` is 1, an accepted one-way transaction reads
   BR_ONEWAY_SPAM_SUSPECT in place of BR_TRANSACTION_COMPLETE, if the process's one-way buffers that live in the
   receiver's window take more than a quarter of it. At first it is 0. Also NO_SUCH_REQUEST, where `on` is neither 0
   nor 1, and nowhere else. */
uint32_t hullpippin_set_spam(hullpippin_seat *seat, uint32_t on, hullpippin_answer *answer);

/* Runs the commands of a stream of at most 4096 bytes (the write half of BINDER_WRITE_READ). In their transaction
   records `buffer` and `offsets` are places in the area. Also NO_MEMORY. */
uint32_t hullpippin_write(hullpippin_seat *seat, const uint8_t *stream, size_t stream_size, const uint8_t *area,
                          size_t area_size, hullpippin_answer *answer);

/* Reads returns of at most `limit` bytes, which is at least 72 (the read half of BINDER_WRITE_READ). Where it is GOT,
   the answer has the sizes, and the bytes stay with the seat. If there is nothing to read, it is REFUSED, with F12. */
uint32_t hullpippin_read(hullpippin_seat *seat, uint32_t limit, hullpippin_answer *answer);

/* Ends the seat's thread (BINDER_THREAD_EXIT). The seat may open or attach again. */
uint32_t hullpippin_exit_thread(hullpippin_seat *seat, hullpippin_answer *answer);

/* Ends the seat's process with all its threads. */
uint32_t hullpippin_exit_process(hullpippin_seat *seat, hullpippin_answer *answer);

/* Makes the request again that came back with the seat's latest answer, of these calls, hullpippin_collect or
   hullpippin_withdraw. It needs no bytes of yours any more, and copies none anew. Also NO_SUCH_REQUEST, where that
   answer wasn't BACK, or there was none, and nowhere else. */
uint32_t hullpippin_again(hullpippin_seat *seat, hullpippin_answer *answer);

/*
 * What the latest answer has besides its numbers. It stays until the seat's next answer, and you can fetch it again.
 */

/* Copies a part of what a read got to `out`, if all of it fits in `room` bytes, and else nothing. Answers how many
   bytes it has, 0 where the latest answer isn't GOT. Takes no memory. */
size_t hullpippin_answer_bytes(hullpippin_seat *seat, uint32_t part, uint8_t *out, size_t room);

/* Tells the note at an index below the answer's `notes`; false where there is none. Takes no memory. */
bool hullpippin_answer_note(hullpippin_seat *seat, size_t index, hullpippin_note *note);

/*
 * The page: one load, whatever other seats do. Takes no memory.
 */

/* The page. */
void hullpippin_look(hullpippin_seat *seat, hullpippin_page *page);

/* Its ready seats alone, bit i for seat i. */
uint32_t hullpippin_ready(hullpippin_seat *seat);

/*
 * Handing over: a seat posts a request, whoever serves runs it, and the seat collects the answer. Until it has the answer or
 * has withdrawn the request, the seat's requests above answer WAITING.
 */

/* Posts a request; the stream and the area are those of a write. Also WAITING, NO_MEMORY; and NO_SUCH_REQUEST, where
   its kind is none of these, or is HULLPIPPIN_SET_SPAM and its `on` neither 0 nor 1, and nowhere else. */
uint32_t hullpippin_post(hullpippin_seat *seat, const hullpippin_request *request, const uint8_t *stream,
                         size_t stream_size, const uint8_t *area, size_t area_size);

/* Runs what all seats have posted, once each, and tells in `picked` how many requests. Also TAKEN. */
uint32_t hullpippin_serve(hullpippin_seat *seat, uint32_t *picked);

/* Fetches the answer to what the seat posted; HANDED while there is none. Also NOT_WAITING. */
uint32_t hullpippin_collect(hullpippin_seat *seat, hullpippin_answer *answer);

/* Takes back what the seat posted, if nobody has picked it: BACK with BACK_WITHDRAWN, or HANDED. Also NOT_WAITING. */
uint32_t hullpippin_withdraw(hullpippin_seat *seat, hullpippin_answer *answer);

/*
 * Live engines. One keeps no history, so it takes as much memory as there are processes, objects, calls and buffers,
 * however many steps it has made. One handle is for all seats, which the calls name by their numbers, from 0. One
 * thread at a time uses it, as any handle. A step makes one entry of the history, and the engine has only the latest:
 * fetch its bytes with hullpippin_live_entry and append them to a file, and that file is a journal. There are at most
 * 18446744073709551615 steps, so places of them have 64 bits, and a device doesn't see their end.
 *
 * Each step answers as the seat's request of that name does, and DONE fills `answer`: one step, so `to` is `from` and 1.
 * Also NO_SUCH_SEAT, HISTORY_FULL, NO_MEMORY.
 */

/* Makes a live engine with 1 to 65536 seats. `live` is empty, and stays so unless the answer is DONE. Also NO_MEMORY,
   SEAT_COUNT. */
uint32_t hullpippin_live_new(uint32_t seats, hullpippin_live *live);

/* As hullpippin_open. */
uint32_t hullpippin_live_open(hullpippin_live *live, uint32_t seat, uint32_t pid, uint32_t euid, uint32_t window,
                              hullpippin_answer *answer);

/* As hullpippin_attach. */
uint32_t hullpippin_live_attach(hullpippin_live *live, uint32_t seat, uint32_t pid, hullpippin_answer *answer);

/* As hullpippin_manager. */
uint32_t hullpippin_live_manager(hullpippin_live *live, uint32_t seat, hullpippin_answer *answer);

/* As hullpippin_set_spam. Also NO_SUCH_REQUEST, as there, whatever `seat` is. */
uint32_t hullpippin_live_set_spam(hullpippin_live *live, uint32_t seat, uint32_t on, hullpippin_answer *answer);

/* Runs one command, whose bytes are `command`, as the command of a write of that one alone. With a transaction or reply
   pass its parcel: the data and the offsets of its objects, of the sizes that its record says; else the engine refuses it
   with X7. It doesn't look at the record's pointers, nor, with other commands, at a parcel. WROTE: `notes` is 1 where the
   command changed nothing, `stop` is AT_CAUSE where the engine refused it, and `number` is the note's or the cause's;
   `consumed` is 0. REFUSED with F4 where the seat has no thread. Also NO_COMMAND: then the bytes are no command, at which a
   write would stop with a fault, and the call makes no step. */
uint32_t hullpippin_live_command(hullpippin_live *live, uint32_t seat, const uint8_t *command, size_t command_size,
                                 const uint8_t *data, size_t data_size, const uint8_t *offsets, size_t offsets_size,
                                 hullpippin_answer *answer);

/* As hullpippin_read; the bytes stay with the engine until its next step. */
uint32_t hullpippin_live_read(hullpippin_live *live, uint32_t seat, uint32_t limit, hullpippin_answer *answer);

/* As hullpippin_exit_thread. */
uint32_t hullpippin_live_exit_thread(hullpippin_live *live, uint32_t seat, hullpippin_answer *answer);

/* As hullpippin_exit_process. */
uint32_t hullpippin_live_exit_process(hullpippin_live *live, uint32_t seat, hullpippin_answer *answer);

/* Whether the seat has something to read; false where there is no such seat. Takes no memory. */
bool hullpippin_live_ready(hullpippin_live *live, uint32_t seat);

/* How many steps it has made. Takes no memory. */
uint64_t hullpippin_live_len(hullpippin_live *live);

/* Copies to `out` the places of the buffers that ended by the latest step, each that of the step that made it, oldest
   first, if all of them fit in `room` places, and else nothing. Answers how many there are, 0 before the first step; they
   stay until the next step that is DONE. A buffer has ended if one of that place lived before the step and none does after
   it, so a bridge may take back its memory. Only a BC_FREE_BUFFER and the exits end buffers, and only they take time for
   it: a BC_FREE_BUFFER looks for one, an exit looks through those of its own process. Takes no memory. */
size_t hullpippin_live_ended(hullpippin_live *live, uint64_t *out, size_t room);

/* Looks whether each of `count` seats has something to read, and notes it. Tells in `changed` how many of them differ from
   what this function noted when it last looked at the seat; at first no seat has anything to read. Fetch them by
   hullpippin_live_changed. It leaves the notes of other seats as they were: you hear of those when you name them next. It
   passes over numbers that are no seat's. It costs a look at each seat that you name, as hullpippin_live_ready does: name
   those that somebody waits for, or all. A step costs nothing for it. Also NO_MEMORY: then all notes stay as they were. */
uint32_t hullpippin_live_poll(hullpippin_live *live, const uint32_t *seats, size_t count, size_t *changed);

/* Copies the seats that the latest hullpippin_live_poll found changed to `out`, if all of them fit in `room` numbers,
   and else nothing. Answers how many there are; they stay until its next call that is DONE. Each was noted ready and
   isn't now, or the other way round. It takes no memory. */
size_t hullpippin_live_changed(hullpippin_live *live, uint32_t *out, size_t room);

/* A list of what is to be read: that of a thread, which it alone reads, or that of a process. */
typedef struct {
    uint32_t kind;   /* HULLPIPPIN_LIST_OF_THREAD .. */
    uint64_t number; /* of a thread: its seat; of a process: the place of its open; any list: 0 */
} hullpippin_todo_list;

/* A list: its kind. */
enum {
    HULLPIPPIN_LIST_OF_THREAD = 0,  /* that of a seat's thread */
    HULLPIPPIN_LIST_OF_PROCESS = 1, /* that of a process, which any of its threads reads that is in the loop */
    HULLPIPPIN_ANY_LIST = 2,        /* any list at all: the engine doesn't know which ones */
};

/* Asks which lists have filled or emptied since this function was last DONE: something was on them then and nothing is now, or the
   other way round. Tells in `count` how many they are; hullpippin_live_reached tells each. Called after a step, it tells whom to
   look at: besides the step's own seat only those can have come to be ready or unready whose list it names, or whose process's
   list, or whose thread has ended. It doesn't name a list that got more, or from which a read left something: so who wakes one
   reader of a process looks again once it has read. If the engine doesn't know the lists, it tells one of the kind
   HULLPIPPIN_ANY_LIST, and may mean every seat: the first time, where more than 64 lists got or lost something, and after a step
   that took back what was to be read. It takes memory if it has too little room for the lists; a step takes none for it. Also
   NO_MEMORY: then the next ask tells all of them. */
uint32_t hullpippin_live_ask_reached(hullpippin_live *live, size_t *count);

/* Tells the list of an index, from 0, among those that the latest hullpippin_live_ask_reached found; false where there are no more.
   They stay until its next call that is DONE. Takes no memory. */
bool hullpippin_live_reached(hullpippin_live *live, size_t index, hullpippin_todo_list *list);

/*
 * Bridges: a live engine that also knows who waits for something to read, and tells whom to wake. Whoever stands between an engine and
 * threads, in whatever way these wait, tells it three things: that a thread begins to wait, that it has stopped, and each step, by the calls
 * above, which are made with a bridge as with any live engine. It asks after each of them whom to wake:
 *
 *     hullpippin_bridge_wait(&live, seat, room, HULLPIPPIN_READS_AHEAD);
 *     do {
 *         hullpippin_bridge_settle(&live, 64, &signal);
 *         .. wake signal.seat, where the signal is HULLPIPPIN_SIGNAL_READ and `wakes`, with what was read for it ..
 *     } while (signal.is_left);
 *
 * It is proved that nobody is forgotten: whoever waits in a read has nothing to read, or settle has still to look there. If settle says
 * that nobody is left, then nobody who waits has anything to read, but for a completion alone (HULLPIPPIN_LEAVES). Nobody is woken
 * twice, or for nothing. A bridge itself asks the engine whom its steps have reached, so hullpippin_live_ask_reached has nothing to tell.
 *
 * A thread that waits makes no open or attach: that is WAITING. Whoever ends it has it stop waiting too.
 */

/* As hullpippin_live_new, but that of each seat it is kept how it waits: at first none does. */
uint32_t hullpippin_bridge_new(uint32_t seats, hullpippin_live *live);

/* What a thread that waits in a read need not be told before the reply to a call of its own: BR_TRANSACTION_COMPLETE, BR_INCREFS and
   BR_ACQUIRE. That it is in a call, and serves none inside of that, is asked of the engine. */
enum {
    HULLPIPPIN_TELLS_ALL = 0,   /* it is told of all */
    HULLPIPPIN_READS_AHEAD = 1, /* such may be read for it meanwhile, and it waits on */
    HULLPIPPIN_LEAVES = 2,      /* the same; and a completion alone is left, to be read along with what comes behind it */
};

/* The seat's thread waits in a read from now on, with room for `room` bytes, which is at least 72; where it waits in one already, this one
   takes its place. `defers` is one of the numbers above. Also NO_SUCH_SEAT, where the engine is no bridge too; NO_MEMORY: then it waits as
   before; and NO_SUCH_REQUEST, where `defers` is none of them. */
uint32_t hullpippin_bridge_wait(hullpippin_live *live, uint32_t seat, uint32_t room, uint32_t defers);

/* The seat's thread has a doorbell from now on, which is silent: it is told each time that it comes to have something to read,
   or nothing any more. It may wait in a read as well. Also NO_SUCH_SEAT, and NO_MEMORY: then it waits as before. */
uint32_t hullpippin_bridge_give_doorbell(hullpippin_live *live, uint32_t seat);

/* The seat's thread waits no more in a read, as where that was interrupted. Its doorbell stays. Does nothing where it doesn't wait. Takes no
   memory. Also NO_SUCH_SEAT. */
uint32_t hullpippin_bridge_stop_reading(hullpippin_live *live, uint32_t seat);

/* The same of its doorbell too. */
uint32_t hullpippin_bridge_stop_waiting(hullpippin_live *live, uint32_t seat);

/* A signal: its kind. */
enum {
    HULLPIPPIN_SIGNAL_NONE = 0, /* nobody who was looked at is to be told anything */
    HULLPIPPIN_SIGNAL_READ = 1, /* this was read for a thread that waits in a read */
    HULLPIPPIN_SIGNAL_BELL = 2, /* a thread's doorbell is to ring, or to be silent */
};

/* What a thread that waits is told. What a field doesn't apply to has 0 there. */
typedef struct {
    uint32_t kind;            /* HULLPIPPIN_SIGNAL_NONE .. */
    uint32_t seat;            /* the thread's */
    bool wakes;               /* read: it is woken, and waits in a read no more: its read is answered with this, and with whatever was read for it
                                 since it was woken last; else it waits on */
    bool rings;               /* bell: it rings from now on, and else is silent */
    bool is_left;             /* somebody is still to be looked at */
    uint32_t status;          /* read: what hullpippin_live_read would answer: DONE, NO_MEMORY, HISTORY_FULL */
    hullpippin_answer answer; /* read, where that is DONE: as of hullpippin_live_read. It is the latest step */
} hullpippin_signal;

/* Looks at `looks` threads at most of those who wait and whom something has reached, who was named first at first, until one of them
   is to be told something, and tells that. Each look at one that waits in a read, and has something to read, makes a step: its read.
   Always DONE. It asks for no memory but for that step's. */
uint32_t hullpippin_bridge_settle(hullpippin_live *live, uint32_t looks, hullpippin_signal *signal);

/* How many threads are still to be looked at, some perhaps twice. Takes no memory. */
size_t hullpippin_bridge_suspects(hullpippin_live *live);

/* As hullpippin_answer_bytes, of the latest step; 0 where that isn't a read, or didn't get anything. */
size_t hullpippin_live_bytes(hullpippin_live *live, uint32_t part, uint8_t *out, size_t room);

/* Tells in `size` how many bytes the latest step's entry has in a journal, 0 before the first step, and copies them to `out` if all
   of them fit in `room` bytes; else `out` stays as it was, and a later call with more room has them, until the next step. Also
   NO_MEMORY, NO_JOURNAL: you may make the call again, the entry stays. */
uint32_t hullpippin_live_entry(hullpippin_live *live, uint8_t *out, size_t room, size_t *size);

/* The same for what a journal of `count` entries begins with, 16 bytes, or 20 where there are more than 31 seats. Where
   the entries are still to come, begin the file with the heading of 4294967295 entries, of UINT64_MAX where there are
   more than 31 seats, and write the right one over it at the end, or `count` alone from byte 12 on, little-endian, into
   four bytes, or eight where there are more than 31 seats. Until then no reader takes it for a journal. NO_JOURNAL:
   there are 31 seats or fewer and more than 4294967295 entries, which no journal of so few seats counts. */
uint32_t hullpippin_live_heading(hullpippin_live *live, uint64_t count, uint8_t *out, size_t room, size_t *size);

/* Lets go of a live engine, and empties the handle. Does nothing where it is empty. */
void hullpippin_free_live(hullpippin_live *live);

/*
 * Looks at what a live engine's history has come to: its space (docs/RULES.md). Each answers whether there is such a thing, and tells it;
 * if there is none, what it would fill stays as it was. The place of the step that made it names a process, a buffer, a call and a death
 * notification; that and an index name an object. No look takes memory, or changes anything. It costs a few searches, unless it says more.
 */

/* An object's identity. */
typedef struct {
    uint64_t place; /* the place of the step that made it */
    uint32_t index; /* which of that step's objects it is, from 0 */
} hullpippin_object_id;

/* A live process. */
typedef struct {
    uint64_t made;       /* the place of its open, which is its name */
    uint32_t pid;        /* its pid */
    uint32_t euid;       /* its effective user id */
    uint32_t window;     /* the size of its window in bytes */
    bool spam_detection; /* it hears of its own one-way flooding */
} hullpippin_process;

/* The live thread of a seat. */
typedef struct {
    uint64_t made;    /* the place of its open or attach */
    uint64_t process; /* its process */
    bool looping;     /* it has entered the loop */
} hullpippin_thread;

/* An object. */
typedef struct {
    uint64_t owner;   /* the process that owns it, live or not */
    uint64_t ptr;     /* by which its owner knows it */
    uint64_t cookie;  /* what its owner gave with it */
    bool told_weak;   /* its owner has heard of a reference to it */
    bool told_strong; /* its owner has heard of a strong reference to it */
} hullpippin_object;

/* A live buffer. */
typedef struct {
    uint64_t receiver; /* the process whose window it lies in */
    uint64_t sender;   /* the process that sent it, live or not */
    uint32_t start;    /* where it begins in the window */
    uint32_t size;     /* how much of the window it takes */
    uint32_t code;     /* as written */
    uint32_t flags;    /* as written */
    uint32_t euid;     /* the sender's */
    bool one_way;      /* it is a one-way call's */
    bool handed;       /* it was handed out */
    bool is_call;      /* it is a transaction's, and no reply's */
    hullpippin_object_id target; /* the object that a transaction goes to */
    size_t data;       /* how many bytes of data */
    size_t offsets;    /* how many bytes of offsets */
} hullpippin_buffer;

/* The innermost open call that a thread is in. */
typedef struct {
    uint64_t made; /* the place of its transaction */
    bool serves;   /* the thread serves it, and else made it */
} hullpippin_frame;

/* A death notification. */
typedef struct {
    uint64_t process;            /* the process that asked for it */
    hullpippin_object_id object; /* the object whose owner's death it is about */
    uint64_t cookie;             /* what the process gave with it */
    uint32_t phase;              /* HULLPIPPIN_ARMED .. */
    bool cleared;                /* its process cleared it after the owner's end */
} hullpippin_death;

/* How far a death notification is. */
enum {
    HULLPIPPIN_ARMED = 0,        /* the owner lives */
    HULLPIPPIN_QUEUED = 1,       /* the owner has ended, and its process is still to read that */
    HULLPIPPIN_TOLD = 2,         /* its process has read it */
    HULLPIPPIN_ACKNOWLEDGED = 3, /* and acknowledged */
};

/* What is still to be read. */
typedef struct {
    uint64_t place; /* the place of the step that made it */
    uint64_t index; /* which of that step's it is, from 0 */
    uint32_t kind;  /* HULLPIPPIN_NOTICE .. */
    hullpippin_object_id object; /* notice: whose references have changed */
    bool spam;       /* completion: it is read as BR_ONEWAY_SPAM_SUSPECT */
    uint32_t code;   /* refusal, verdict: the code of the return */
    uint64_t made;   /* call, reply: the buffer; death: the notification */
    uint64_t cookie; /* cleared: the notification's */
} hullpippin_work;

/* What is still to be read: its kind. */
enum {
    HULLPIPPIN_NOTICE = 1,     /* BR_INCREFS, BR_ACQUIRE, BR_RELEASE, BR_DECREFS */
    HULLPIPPIN_COMPLETION = 2, /* BR_TRANSACTION_COMPLETE, BR_ONEWAY_SPAM_SUSPECT */
    HULLPIPPIN_REFUSAL = 3,    /* what was written was refused */
    HULLPIPPIN_CALL = 4,       /* BR_TRANSACTION */
    HULLPIPPIN_REPLY = 5,      /* BR_REPLY */
    HULLPIPPIN_VERDICT = 6,    /* an accepted call has failed */
    HULLPIPPIN_DEATH = 7,      /* BR_DEAD_BINDER */
    HULLPIPPIN_CLEARED = 8,    /* BR_CLEAR_DEATH_NOTIFICATION_DONE */
};

/* The live process whose open is at this place. */
bool hullpippin_live_process(hullpippin_live *live, uint64_t made, hullpippin_process *process);

/* The live process with this pid: the place of its open. */
bool hullpippin_live_process_of_pid(hullpippin_live *live, uint32_t pid, uint64_t *made);

/* The live thread of a seat. */
bool hullpippin_live_thread(hullpippin_live *live, uint32_t seat, hullpippin_thread *thread);

/* The context manager's object. */
bool hullpippin_live_manager_object(hullpippin_live *live, hullpippin_object_id *object);

/* An object, by its identity. */
bool hullpippin_live_object(hullpippin_live *live, uint64_t place, uint32_t index, hullpippin_object *object);

/* The object that a handle names for the live process with this pid. */
bool hullpippin_live_named(hullpippin_live *live, uint32_t pid, uint32_t handle, hullpippin_object_id *object);

/* The live buffer of this place. */
bool hullpippin_live_buffer(hullpippin_live *live, uint64_t made, hullpippin_buffer *buffer);

/* The object of an index, from 0, among those that the live buffer made at this place carries: one for each object of its parcel, in
   their order. It goes along them from the first. */
bool hullpippin_live_carried(hullpippin_live *live, uint64_t made, size_t index, hullpippin_object_id *object);

/* The item of an index, from 0, on the list of a seat's thread: what it is to read, oldest first. It goes along them from the first. */
bool hullpippin_live_unread_of_thread(hullpippin_live *live, uint32_t seat, size_t index, hullpippin_work *work);

/* The same on the list of a process, which any of its threads reads that is in the loop. */
bool hullpippin_live_unread_of_process(hullpippin_live *live, uint64_t process, size_t index, hullpippin_work *work);

/* The innermost open call that a seat's thread is in. */
bool hullpippin_live_innermost(hullpippin_live *live, uint32_t seat, hullpippin_frame *frame);

/* The death notification whose request is at this place. */
bool hullpippin_live_death(hullpippin_live *live, uint64_t made, hullpippin_death *death);

/* The first live process whose open is at the place `from` or behind it: the place of its open. To visit all, begin with 0, and go on
   with one more than you were told; so do the two looks that follow. */
bool hullpippin_live_next_process(hullpippin_live *live, uint64_t from, uint64_t *place);

/* The least handle, `from` or above it, that names something for the live process with this pid. The engine looks
   at each handle from `from` up to that one. */
bool hullpippin_live_next_handle(hullpippin_live *live, uint32_t pid, uint32_t from, uint32_t *handle);

/* The first live buffer of a process, whose name is the place of its open, at the place `from` or behind it: its place. */
bool hullpippin_live_next_buffer(hullpippin_live *live, uint64_t process, uint64_t from, uint64_t *made);

/*
 * Commands, returns and parcels as bytes (docs/FORMATS.md), read and spelled exactly as the engine does it. These functions
 * have no handle and take no memory, and any thread may call them at any time.
 */

/* The code of a command. */
#define HULLPIPPIN_BC_TRANSACTION UINT32_C(0x40406300)
#define HULLPIPPIN_BC_REPLY UINT32_C(0x40406301)
#define HULLPIPPIN_BC_FREE_BUFFER UINT32_C(0x40086303)
#define HULLPIPPIN_BC_INCREFS UINT32_C(0x40046304)
#define HULLPIPPIN_BC_ACQUIRE UINT32_C(0x40046305)
#define HULLPIPPIN_BC_RELEASE UINT32_C(0x40046306)
#define HULLPIPPIN_BC_DECREFS UINT32_C(0x40046307)
#define HULLPIPPIN_BC_INCREFS_DONE UINT32_C(0x40106308)
#define HULLPIPPIN_BC_ACQUIRE_DONE UINT32_C(0x40106309)
#define HULLPIPPIN_BC_ENTER_LOOPER UINT32_C(0x0000630c)
#define HULLPIPPIN_BC_EXIT_LOOPER UINT32_C(0x0000630d)
#define HULLPIPPIN_BC_REQUEST_DEATH_NOTIFICATION UINT32_C(0x400c630e)
#define HULLPIPPIN_BC_CLEAR_DEATH_NOTIFICATION UINT32_C(0x400c630f)
#define HULLPIPPIN_BC_DEAD_BINDER_DONE UINT32_C(0x40086310)

/* The code of a return. */
#define HULLPIPPIN_BR_TRANSACTION UINT32_C(0x80407202)
#define HULLPIPPIN_BR_REPLY UINT32_C(0x80407203)
#define HULLPIPPIN_BR_DEAD_REPLY UINT32_C(0x00007205)
#define HULLPIPPIN_BR_TRANSACTION_COMPLETE UINT32_C(0x00007206)
#define HULLPIPPIN_BR_INCREFS UINT32_C(0x80107207)
#define HULLPIPPIN_BR_ACQUIRE UINT32_C(0x80107208)
#define HULLPIPPIN_BR_RELEASE UINT32_C(0x80107209)
#define HULLPIPPIN_BR_DECREFS UINT32_C(0x8010720a)
#define HULLPIPPIN_BR_NOOP UINT32_C(0x0000720c)
#define HULLPIPPIN_BR_DEAD_BINDER UINT32_C(0x8008720f)
#define HULLPIPPIN_BR_CLEAR_DEATH_NOTIFICATION_DONE UINT32_C(0x80087210)
#define HULLPIPPIN_BR_FAILED_REPLY UINT32_C(0x00007211)
#define HULLPIPPIN_BR_ONEWAY_SPAM_SUSPECT UINT32_C(0x00007213)

/* The type of an object in a parcel. The engine refuses the last three by name. */
#define HULLPIPPIN_TYPE_BINDER UINT32_C(0x73622a85)
#define HULLPIPPIN_TYPE_WEAK_BINDER UINT32_C(0x77622a85)
#define HULLPIPPIN_TYPE_HANDLE UINT32_C(0x73682a85)
#define HULLPIPPIN_TYPE_WEAK_HANDLE UINT32_C(0x77682a85)
#define HULLPIPPIN_TYPE_FD UINT32_C(0x66642a85)
#define HULLPIPPIN_TYPE_FDA UINT32_C(0x66646185)
#define HULLPIPPIN_TYPE_PTR UINT32_C(0x70742a85)

/* TF_ONE_WAY, a flag of a transaction: nobody waits for a reply. The engine acts on this flag alone, and hands on all 32 bits. */
#define HULLPIPPIN_TF_ONE_WAY UINT32_C(0x01)
/* TF_ROOT_OBJECT, handed on: the parcel is a root object. */
#define HULLPIPPIN_TF_ROOT_OBJECT UINT32_C(0x04)
/* TF_STATUS_CODE, handed on: the data is a status. */
#define HULLPIPPIN_TF_STATUS_CODE UINT32_C(0x08)
/* TF_ACCEPT_FDS, handed on: the reply may bring descriptors. */
#define HULLPIPPIN_TF_ACCEPT_FDS UINT32_C(0x10)
/* TF_CLEAR_BUF, handed on: the receiver's driver clears the buffer at its end. */
#define HULLPIPPIN_TF_CLEAR_BUF UINT32_C(0x20)
/* TF_UPDATE_TXN, handed on: the call replaces an older one that nobody has read. */
#define HULLPIPPIN_TF_UPDATE_TXN UINT32_C(0x40)

/* A transaction record: struct binder_transaction_data. */
typedef struct {
    uint64_t target;       /* a handle in the low 32 bits, or the ptr of the receiver's object */
    uint64_t cookie;       /* of the receiver's object */
    uint32_t code;         /* what the caller asks for */
    uint32_t flags;        /* HULLPIPPIN_TF_ONE_WAY and others: all 32 bits */
    int32_t sender_pid;    /* the caller's, in what is read */
    uint32_t sender_euid;  /* the sender's, in what is read */
    uint64_t data_size;    /* how many bytes of data */
    uint64_t offsets_size; /* how many bytes of offsets, 8 for each object */
    uint64_t buffer;       /* where the data begins: in what a driver's seat writes, a place in the area */
    uint64_t offsets;      /* where the offsets begin, in the same way */
} hullpippin_transaction;

/* A command: its code, and the fields of a command of this code. Spelling ignores a field that it has no use for, and reading fills it
   with 0. */
typedef struct {
    uint32_t code;     /* HULLPIPPIN_BC_TRANSACTION .. */
    uint32_t handle;   /* increfs, acquire, release, decrefs, request and clear death notification */
    uint64_t pointer;  /* free_buffer: the buffer's; increfs_done, acquire_done: the object's ptr */
    uint64_t cookie;   /* increfs_done, acquire_done, request and clear death notification, dead_binder_done */
    hullpippin_transaction transaction; /* transaction, reply */
    size_t size;       /* reading: how many bytes it takes; spelling ignores it */
} hullpippin_command;

/* A return, in the same way. */
typedef struct {
    uint32_t code;     /* HULLPIPPIN_BR_TRANSACTION .. */
    uint64_t pointer;  /* increfs, acquire, release, decrefs: the object's ptr */
    uint64_t cookie;   /* the same, dead_binder, clear_death_notification_done */
    hullpippin_transaction transaction; /* transaction, reply */
    size_t size;       /* reading: how many bytes it takes; spelling ignores it */
} hullpippin_return;

/* An object in a parcel: struct flat_binder_object, and where it stands. */
typedef struct {
    uint32_t kind;   /* HULLPIPPIN_TYPE_BINDER .. */
    uint32_t flags;  /* handed on as they are */
    uint64_t binder; /* the ptr of an object of the sender's, or a handle in the low 32 bits */
    uint64_t cookie; /* of an object of the sender's */
    size_t start;    /* where it begins in the data, in bytes; it ends 24 bytes on */
} hullpippin_flat_object;

/* How far a walk over a parcel's objects is. It begins with 0 in each field. */
typedef struct {
    size_t index;   /* which offset is next, from 0 */
    size_t end;     /* where the object before it ends */
    uint32_t cause; /* why there was no next object: X8, X9 or X10, whose offset is the one at `index`; 0 at the end */
} hullpippin_walk;

/* Reads the command at the head of a stream. Answers 0, or the number of the fault by which none is there, F1 to F3, and then
   `command` stays as it was. It doesn't look at what comes behind the command. */
uint32_t hullpippin_next_command(const uint8_t *stream, size_t stream_size, hullpippin_command *command);

/* Reads the return at the head of a stream. Answers 0, or the number of the fault by which none is there, F1 or F2, and then
   `returned` stays as it was. It doesn't look at what comes behind the return: the next one begins `size` bytes on. */
uint32_t hullpippin_next_return(const uint8_t *stream, size_t stream_size, hullpippin_return *returned);

/* Copies the bytes of a command to `out`, if all of them fit in `room` bytes, and else nothing. Answers how many it has, at most
   68, and 0 where no command has this code. */
size_t hullpippin_spell_command(const hullpippin_command *command, uint8_t *out, size_t room);

/* The same of a return. */
size_t hullpippin_spell_return(const hullpippin_return *returned, uint8_t *out, size_t room);

/* Tells the next object of a parcel, and takes the walk behind it. It is false where there is none: at the end, where the walk's
   `cause` is 0; and where the engine would refuse a transaction with this parcel. Then `cause` is the number of the cause: X8 if the
   offsets are no whole numbers of 8 bytes; X9 if the next one is no multiple of 4, lies before the end of the object before it, lacks
   some of its 24 bytes, or leads to no known type; X10 if it leads to the type of what the engine doesn't support. `object` stays as it
   was then, and a later call finds the same. */
bool hullpippin_next_object(const uint8_t *data, size_t data_size, const uint8_t *offsets, size_t offsets_size,
                            hullpippin_walk *walk, hullpippin_flat_object *object);

/* Writes an object over the 24 bytes from its `start` on. Answers 0, or the number of the cause by which a walk would refuse it
   there, X9 or X10, and then the data stays as it was. */
uint32_t hullpippin_put_object(const hullpippin_flat_object *object, uint8_t *data, size_t data_size);

/*
 * Parcels with PTR, FD and FDA objects, which the engine knows nothing of: a bridge has them laid out as Linux's driver does, gives the
 * engine what goes on, with the objects that it knows, and writes the fix-ups into what the receiver sees. Any thread may call these.
 */

/* What came of a parcel, and how much there is of it. Where it is refused all else is 0. */
typedef struct {
    bool is_refused; /* Linux's driver would refuse it for a PTR, FD or FDA object, or for where an object lies */
    size_t size;     /* bytes that go on: the data, the offsets and the buffers, each up to a multiple of 8, with zeros */
    size_t known;    /* objects of other types */
    size_t fixups;   /* what is to be written once the parcel has its place */
    size_t taken;    /* descriptors that go on, in the order of their objects: the first ones */
} hullpippin_layout;

/* What is to be written into a parcel. */
typedef struct {
    uint32_t kind; /* HULLPIPPIN_FIXUP_POINTER .. */
    uint64_t at;   /* where it lies in the parcel */
    uint64_t to;   /* pointer: where it leads in the parcel; descriptors: how many they are; else 0 */
} hullpippin_fixup;

/* What is to be written: its kind. */
enum {
    HULLPIPPIN_FIXUP_POINTER = 1,     /* the address of a buffer, 8 bytes */
    HULLPIPPIN_FIXUP_DESCRIPTOR = 2,  /* the number of an FD object's descriptor, 8 bytes */
    HULLPIPPIN_FIXUP_DESCRIPTORS = 3, /* those of an FDA object's, 4 bytes each */
};

/* Lays out the parcel of a transaction or reply: its data, its offsets, the buffers as their sender has put them one behind the other, each
   up to a multiple of 8, and how many descriptors came with it. Tells in `layout` how much there is of what goes on, of the places of known
   objects, and of fix-ups; each of these is copied if all of it fits, and else none of it. A PTR object's word of where its buffer lies,
   and the numbers of descriptors, aren't looked at. Also NO_MEMORY, and NO_SUCH_REQUEST, where the buffers or descriptors are 4294967296
   or more. */
uint32_t hullpippin_lay_out(const uint8_t *data, size_t data_size, const uint8_t *offsets, size_t offsets_size, const uint8_t *buffers,
                            size_t buffers_size, size_t descriptors, uint8_t *out, size_t room, uint64_t *known, size_t known_room,
                            hullpippin_fixup *fixups, size_t fixups_room, hullpippin_layout *layout);

/* Writes a fix-up into a parcel of `size` bytes, as it comes from the engine, whose receiver sees its first byte at `base`: an address, or -1
   for each descriptor. False where it is none, or doesn't lie within the parcel, and then nothing is written. */
bool hullpippin_put_fixup(const hullpippin_fixup *fixup, uint8_t *parcel, size_t size, uint64_t base);

/*
 * A parcel that was laid out goes through the engine as more data than its client sent: data, offsets and buffers, and a trailer, which says how
 * much of each there is, and whose call it is. Whoever stands between an engine and its processes has a parcel's parts copied, asks which
 * way it goes, and puts a trailer behind it; and behind the read that gets it asks for the trailer.
 *
 *     if (!hullpippin_parcel_parts(&asked, area, objects, &parts)) .. the parcel isn't to be had ..
 *     .. copy each part from the client's area to one place, and look at the copy alone ..
 *     if (hullpippin_parcel_way(data, data_size, offsets, offsets_size, most, 0) == HULLPIPPIN_WAY_WRAPPED)
 *         .. hullpippin_lay_out(..), and then hullpippin_put_trailer(out, room, layout.size, &trailer) ..
 *     .. hullpippin_live_command(..), and at the other end hullpippin_live_read(..) ..
 *     if (hullpippin_find_trailer(data, data_size, offsets, offsets_size, &trailer)) .. it was wrapped ..
 *
 * Proved is that a trailer is found as it was put, whatever the engine has done to the objects before it; that none is made or taken away by
 * that; that a client's own parcel which looks as if it had one is wrapped as well; and that what is copied lies within the area.
 */

/* Where a client says that the parts of its parcel lie in its area, and how many bytes each has. The room for buffers follows the offsets,
   from a multiple of 8 on. */
typedef struct {
    uint64_t data;
    uint64_t data_size;
    uint64_t offsets;
    uint64_t offsets_size;
    uint64_t buffers_size;
} hullpippin_asked;

/* A part of a parcel: so many bytes are copied from one place to another. */
typedef struct {
    uint64_t from;
    uint64_t to;
    uint64_t size;
} hullpippin_part;

/* All parts of a parcel. Each goes behind the one before, to a multiple of 8. */
typedef struct {
    hullpippin_part data;
    hullpippin_part offsets;
    hullpippin_part buffers;
} hullpippin_parts;

/* What a parcel was before it was wrapped, and how it goes. */
typedef struct {
    uint64_t data;    /* how many bytes of data its client sent, .. */
    uint64_t offsets; /* .. of offsets, .. */
    uint64_t buffers; /* .. and of buffers */
    uint64_t step;    /* the place of the step that sends it */
    uint32_t descriptors;
    uint32_t euid;    /* of who sends it */
} hullpippin_trailer;

/* How many bytes a trailer has. */
#define HULLPIPPIN_TRAILER_SIZE UINT32_C(48)

/* Which way a parcel goes. */
enum {
    HULLPIPPIN_WAY_PLAIN = 0,   /* as it was sent */
    HULLPIPPIN_WAY_WRAPPED = 1, /* wrapped: it has PTR, FD or FDA objects, or its uid is told, or it looks as if it were */
    HULLPIPPIN_WAY_LOST = 2,    /* not at all: it has too many objects that the engine knows */
};

/* Tells what is to be copied of a client's area of so many bytes, which takes as many bytes at most, for a parcel of so many objects at most.
   False where it isn't all inside of the area, or has more objects, or a room for buffers that is no multiple of 8; then `parts` stays. */
bool hullpippin_parcel_parts(const hullpippin_asked *asked, uint32_t area, uint32_t objects, hullpippin_parts *parts);

/* Tells which way a parcel goes, of which the engine may know `most` objects. `tells` isn't 0 where it is sent under another effective uid
   than the engine tells of its process. */
uint32_t hullpippin_parcel_way(const uint8_t *data, size_t data_size, const uint8_t *offsets, size_t offsets_size, size_t most,
                               uint32_t tells);

/* Puts zeros behind the first `laid` bytes, as far as the parcel's room for buffers goes, and the trailer behind these. How much there is then.
   0 where `room` is too small, or the trailer tells of less than was laid out, or of 4294967296 bytes; and nothing is written. */
size_t hullpippin_put_trailer(uint8_t *out, size_t room, size_t laid, const hullpippin_trailer *trailer);

/* Tells the trailer of data, as the engine has them, with the offsets of the objects that it knows. False where they have none, and then
   `trailer` stays. */
bool hullpippin_find_trailer(const uint8_t *data, size_t data_size, const uint8_t *offsets, size_t offsets_size, hullpippin_trailer *trailer);

/*
 * Tickets: the descriptors that go with parcels beside an engine, which knows of none. Whoever stands between an engine and processes has
 * them on their way here, each by a number of its own, as that of the descriptor itself. They are named by the place of the step that sends
 * their parcel: how many steps there were before it (hullpippin_live_len), which is `from` of its answer, what a look tells of a buffer, and
 * what hullpippin_live_ended tells as that ends.
 *
 *     uint64_t step = hullpippin_live_len(&live);
 *     if (hullpippin_tickets_put(&tickets, step, numbers, count)) .. the parcel isn't sent, and all are still the caller's ..
 *     if (hullpippin_live_command(&live, ..) || answer.stop)
 *         .. hullpippin_tickets_take(&tickets, step, ..), and they are closed ..
 *
 * Proved is that none is lost, and none handed out twice: each number is on its way so often as it was put and wasn't taken; and that
 * a parcel's are those that it was put with, whatever else comes and goes. What is handed out the caller sends on or closes.
 */

/* Makes tickets: none is on its way. `tickets` is empty, and stays so unless the answer is DONE. Also NO_MEMORY, MISUSE. */
uint32_t hullpippin_tickets_new(hullpippin_tickets *tickets);

/* A parcel with these numbers goes on its way, by the step at a place. Also MISUSE; WAITING, where one of that step is on its way; and
   NO_MEMORY: in each case none of them is on its way by that, and all others are as before. */
uint32_t hullpippin_tickets_put(hullpippin_tickets *tickets, uint64_t step, const uint32_t *numbers, size_t count);

/* Tells in `count` how many go with the parcel of a step, and hands them out to `out` if all of them fit in `room` numbers: they are on their
   way no more then. Else they stay, and `out` stays as it was. False where no parcel of that step is on its way. Takes no memory. */
bool hullpippin_tickets_take(hullpippin_tickets *tickets, uint64_t step, uint32_t *out, size_t room, size_t *count);

/* Tells the place of a step whose parcel is on its way, of all of them any one: to take all, as at an end, take each until there is none.
   False where none is on its way. Takes no memory, and some time where few are. */
bool hullpippin_tickets_some_step(hullpippin_tickets *tickets, uint64_t *step);

/* How many of the descriptors that came with a request are its own: all of them, as many as it says, or none; the others are closed then.
   `is_whole` isn't 0 where they came in one piece, and `is_run` where it is run. Needs no tickets. */
uint32_t hullpippin_descriptors_kept(uint32_t wanted, uint32_t came, uint32_t is_whole, uint32_t is_run);

/* Lets go of tickets, and empties the handle: whatever is still on its way is nobody's then. Does nothing where it is empty. */
void hullpippin_free_tickets(hullpippin_tickets *tickets);

/*
 * Readers: what a thread's calls have left, and what of that it has read and was told. Whoever stands between an engine and threads reads for them
 * before it tells them, since the completion of a call waits for what comes with the reply, and since a thread may have little room. A reader
 * is the caller's own memory, and begins with 0 in each field; the caller tells what happens, and asks what is so.
 *
 *     hullpippin_reader_sent(&reader, HULLPIPPIN_SENT_CALL, answer.stop, answer.number);    .. a command was run ..
 *     hullpippin_reader_read(&reader, returns, size);                                       .. returns were read, which are pending then ..
 *     hullpippin_reader_facts(&reader, &pending, &facts);
 *     if (facts.is_whole) {
 *         hullpippin_reader_told(&reader, returns, size, room, &told);                      .. the thread is told the first of these ..
 *         hullpippin_reader_delivered(&reader, told.size < size, 0);                        .. and its read is answered ..
 *     }
 *
 * Proved is that who has read what can't wait has something to be answered with, whatever it reads after that; that what was refused of a
 * thread stays so until the thread is told that; and that what is told has room.
 */

/* A thread that reads, and what it has yet to read. */
typedef struct {
    uint32_t serving;     /* calls that it has to answer */
    uint32_t calling;     /* calls whose end it hasn't read */
    uint32_t refusals;    /* refusals that it hasn't read */
    uint32_t completions; /* two-way calls of which it hasn't read that they were taken */
    uint32_t clearings;   /* death notifications of which it hasn't read that they were taken back, at most */
    uint32_t untold;      /* calls and replies of which it wasn't told that they were taken .. */
    uint32_t completed;   /* .. and of how many of these it has read that */
    uint32_t refusal;     /* what was refused and isn't told: HULLPIPPIN_REFUSAL_NONE .. */
    uint32_t is_prompt;   /* not 0: it has read, or will, more than what can wait for a reply */
    uint32_t is_behind;   /* not 0: others have handed over some of it, and what the engine has comes with that */
    uint32_t is_full;     /* not 0: its read has no room for a return that is there */
} hullpippin_reader;

/* What was refused of a thread and isn't told to it. */
enum {
    HULLPIPPIN_REFUSAL_NONE = 0,
    HULLPIPPIN_REFUSAL_CALL = 1,  /* a call, or a reply to nobody: BR_FAILED_REPLY or BR_DEAD_REPLY tells it */
    HULLPIPPIN_REFUSAL_REPLY = 2, /* any other reply: the last BR_TRANSACTION_COMPLETE tells it */
};

/* What a thread sends. */
enum {
    HULLPIPPIN_SENT_CALL = 0,
    HULLPIPPIN_SENT_ONE_WAY = 1,
    HULLPIPPIN_SENT_REPLY = 2,
};

/* What a thread has read and wasn't told, and its read. */
typedef struct {
    uint32_t size;       /* how many bytes of returns */
    uint32_t room;       /* so many bytes its read has room for */
    uint32_t is_looping; /* not 0: it is in the loop */
} hullpippin_pending;

/* What is so of a thread that reads. */
typedef struct {
    bool is_there; /* its read has something to be answered with .. */
    bool is_whole; /* .. and all of its own that is told together */
    bool is_left;  /* the engine has some of what its calls and replies have left */
    bool defers;   /* it is in a call of its own, and what it has can wait for the reply */
    bool fetches;  /* it has made such a call, and hasn't read that this was taken */
    bool is_idle;  /* it is in the loop, and in no call: it gets what comes to its process */
    bool has_room; /* its read has room for a return, or may not come back without one */
    uint32_t limit; /* of the engine's read for it */
} hullpippin_facts;

/* What a thread is told of its returns. */
typedef struct {
    size_t size;   /* how many bytes of them */
    bool has_call; /* there is a BR_TRANSACTION or BR_REPLY among these */
    bool is_all;   /* by these it is told of all that it has sent */
} hullpippin_returns_told;

/* The least limit of an engine's read: BR_NOOP, and the longest return. */
#define HULLPIPPIN_READ_LEAST UINT32_C(72)
/* While so many bytes are left, a thread is told one return more, as in the kernel: there is a longer one there, BR_TRANSACTION_SEC_CTX. */
#define HULLPIPPIN_RETURN_ROOM UINT32_C(76)

/* A command of the thread was run, HULLPIPPIN_SENT_CALL .., with `stop` and `number` of its answer. */
void hullpippin_reader_sent(hullpippin_reader *reader, uint32_t kind, uint32_t stop, uint32_t number);

/* The thread has read these returns, as an engine's read gives them: the last of them is BR_TRANSACTION or BR_REPLY, if one is. Tells where that one
   begins, or else where they end. */
size_t hullpippin_reader_read(hullpippin_reader *reader, const uint8_t *returns, size_t size);

/* The thread is told so many of its returns as a read with so much room has room for: one more while 76 bytes are left. */
void hullpippin_reader_told(hullpippin_reader *reader, const uint8_t *returns, size_t size, uint32_t room, hullpippin_returns_told *told);

/* A read of the thread is answered. `is_left` isn't 0 where it has read more than it is told, `is_ready` where the engine has more for it. */
void hullpippin_reader_delivered(hullpippin_reader *reader, uint32_t is_left, uint32_t is_ready);

/* Tells what is so of the thread. */
void hullpippin_reader_facts(const hullpippin_reader *reader, const hullpippin_pending *pending, hullpippin_facts *facts);

/* One of these alone: `is_there`; `is_whole`; and `limit`, or 0 where its read has no room. */
bool hullpippin_reader_is_there(const hullpippin_reader *reader, const hullpippin_pending *pending);
bool hullpippin_reader_is_whole(const hullpippin_reader *reader, const hullpippin_pending *pending);
uint32_t hullpippin_reader_limit(const hullpippin_reader *reader, const hullpippin_pending *pending);

/*
 * Waiting threads: which threads a bridge knows, and when each read is answered with what. A program that sits between a bridge and its clients'
 * threads keeps one hullpippin_waits for each thread, zeroed at first. For each process it also keeps a list of idle threads: those in the loop that
 * serve nothing and are in no call. Whatever arrives for one of them arrives for the process, so the bridge has to know only the first one on the
 * list. Whenever a thread begins to wait differently, or another one becomes the first, the program asks where the thread stands now, and which
 * calls of the bridge to make:
 *
 *     place = hullpippin_waits_note(&waits, &facts, reader.calling, has_own, is_alone, is_ending);
 *     .. the thread leaves the list, and comes into it at that place ..
 *     if (waits.calls.stops_waiting) hullpippin_bridge_stop_waiting(&live, seat); ..      .. and so on, in the order of the calls' fields ..
 *
 * The thread that was first hands over, and the new first one takes over; then both have calls of their own to be made. After each call you note it in
 * `told`, and clear it in `calls`.
 *
 * Proved: the bridge knows each thread that waits in a read, or one of its process that stands before it. Of all threads on a list whose first one
 * waits in a read it knows exactly one. Once the calls are made it knows what it should. A read that may not wait comes back, and a read that has
 * an answer gets it. No process is asked for more threads than it allows.
 */

/* What a bridge is to be told of a thread by: which calls of it, in this order. Of the first two there is one at most. */
typedef struct {
    bool stops_waiting; /* hullpippin_bridge_stop_waiting */
    bool stops_reading; /* hullpippin_bridge_stop_reading */
    bool gives_bell;    /* hullpippin_bridge_give_doorbell */
    bool reads;         /* hullpippin_bridge_wait, with .. */
    uint32_t limit;     /* .. this room .. */
    uint32_t defers;    /* .. and HULLPIPPIN_TELLS_ALL or HULLPIPPIN_LEAVES */
} hullpippin_calls;

/* What a bridge was told of a thread. */
typedef struct {
    bool has_bell;   /* it has a doorbell */
    bool reads;      /* it waits in a read, with .. */
    uint32_t limit;  /* .. this room .. */
    uint32_t defers; /* .. and that much it need not be told */
} hullpippin_told;

/* How a thread waits. */
typedef struct {
    bool has_seat;          /* it has a seat */
    bool polls;             /* it has a doorbell */
    bool is_reading;        /* it waits in a read .. */
    bool is_woken;          /* .. and is about to be answered */
    bool is_idle;           /* it stands on the list of its process .. */
    bool is_herald;         /* .. and is the one there that the bridge is told of */
    bool rings;             /* its doorbell rings, as the bridge has told */
    hullpippin_told told;   /* what the bridge was told */
    hullpippin_calls calls; /* what it is to be told */
} hullpippin_waits;

/* Where a thread stands on the list of its process. */
enum {
    HULLPIPPIN_PLACE_NOWHERE = 0,
    HULLPIPPIN_PLACE_FIRST = 1,
    HULLPIPPIN_PLACE_LAST = 2,
};

/* What is done about a thread. */
enum {
    HULLPIPPIN_DO_NOTHING = 0,
    HULLPIPPIN_DO_NOTE = 1,   /* it waits otherwise than before: hullpippin_waits_note */
    HULLPIPPIN_DO_FETCH = 2,  /* what is left of its calls and replies is read too, and it is asked again */
    HULLPIPPIN_DO_ANSWER = 3, /* its read is answered */
    HULLPIPPIN_DO_QUEUE = 4,  /* its read is answered once the doorbells of its process are right; until then it is woken */
    HULLPIPPIN_DO_FAIL = 5,   /* its read is answered with what has failed */
};

/* What a read of the engine's has got. */
enum {
    HULLPIPPIN_TOOK_SOMETHING = 0,
    HULLPIPPIN_TOOK_NOTHING = 1,
    HULLPIPPIN_TOOK_FAILED = 2, /* it couldn't be made, or taken */
};

/* What is done where the bridge has told of a thread's doorbell. */
enum {
    HULLPIPPIN_HEARD_RINGS = 0,   /* it rings, or is silent */
    HULLPIPPIN_HEARD_FETCHES = 1, /* the next of what a call has left is read: where there was some, hullpippin_waits_tell_anew; else it rings */
    HULLPIPPIN_HEARD_FULL = 2,    /* its read has no room for what is there: it is answered, and it is asked again */
};

/* The thread waits differently from now on. Take it off its process's list first. The answer says where it goes on that list now, and `calls` has
   what to tell the bridge. `has_own` isn't 0 if the thread has something of its own to read (hullpippin_live_unread_of_thread); ask that only of a
   thread with a doorbell. `is_alone` isn't 0 if nobody else is on the list, `is_ending` if the process ends. */
uint32_t hullpippin_waits_note(hullpippin_waits *waits, const hullpippin_facts *facts, uint32_t calling, uint32_t has_own, uint32_t is_alone,
                               uint32_t is_ending);

/* Whether the first thread on a process's list becomes the one that the bridge knows. `is_same` isn't 0 if it already is. */
bool hullpippin_waits_herald_changes(uint32_t is_same, uint32_t is_ending);

/* The thread is the one that the bridge knows from now on. */
void hullpippin_waits_take_over(hullpippin_waits *waits, const hullpippin_facts *facts, uint32_t calling, uint32_t has_own);

/* Another thread is the one from now on. If this one has something of its own, it leaves the list, and the bridge goes on knowing it: `is_idle` is false. */
void hullpippin_waits_hand_over(hullpippin_waits *waits, uint32_t has_own);

/* The bridge is told of the thread anew, as if it knew nothing of it. */
void hullpippin_waits_tell_anew(hullpippin_waits *waits, const hullpippin_facts *facts, uint32_t calling, uint32_t has_own);

/* Whether the thread's doorbell should ring. `all_ring` isn't 0 if the bell of its process's first idle thread rings, `is_there` if the thread's read
   has an answer. */
bool hullpippin_waits_ring(const hullpippin_waits *waits, uint32_t all_ring, uint32_t is_there);

/* What to do with a thread for which the engine was read (HULLPIPPIN_TOOK_SOMETHING and its like). The others aren't 0 if: the bridge has woken the thread
   (`wakes`), its reader's `is_behind` is set, it has nothing to be told (`is_empty`), a thread of its process polls (`somebody_polls`). */
uint32_t hullpippin_waits_taken(uint32_t outcome, uint32_t wakes, uint32_t is_behind, uint32_t is_empty, uint32_t somebody_polls);

/* What to do with a thread to which another thread's read has brought something. `is_whole` is that of its facts. */
uint32_t hullpippin_waits_touched(const hullpippin_waits *waits, uint32_t is_whole, uint32_t somebody_polls);

/* What to do when the bridge says that a thread's doorbell rings, or is silent: HULLPIPPIN_HEARD_RINGS and its like. */
uint32_t hullpippin_waits_heard(const hullpippin_waits *waits, const hullpippin_facts *facts, uint32_t rings, uint32_t is_there);

/* Whether the thread's read, which may have an answer by now, is answered. */
bool hullpippin_waits_answered(const hullpippin_waits *waits, uint32_t is_there);

/* How a read begins. */
enum {
    HULLPIPPIN_READ_WAITS = 0,
    HULLPIPPIN_READ_LOOKS = 1,      /* it fetches if the engine has something for it (hullpippin_live_ready), and else waits */
    HULLPIPPIN_READ_COMES_BACK = 2, /* it is answered with what there is: it reads until facts.is_whole, or the engine has nothing more */
    HULLPIPPIN_READ_FETCHES = 3,    /* the engine has something for it: it reads once, and then on like that */
};

/* How a thread's read begins. `size` is how many bytes of returns it has read and wasn't told. `is_there` isn't 0 if these, or what its process has taken
   back, answer the read; `may_wait` if the read may wait; `is_to_return` if it has to come back at once. */
uint32_t hullpippin_read_begins(const hullpippin_reader *reader, uint32_t size, uint32_t is_there, uint32_t may_wait, uint32_t is_to_return);

/* What has become of a request once its commands have run and its read has begun. */
typedef struct {
    bool is_put_off;   /* it goes on later */
    bool reads;        /* it has begun a read .. */
    bool is_reading;   /* .. that isn't answered yet */
    bool has_failed;   /* its read couldn't be made, or the bridge couldn't be told */
    bool is_at_once;   /* its read didn't begin with waiting */
    bool may_wait;     /* as when it began .. */
    bool is_to_return; /* .. and as it is now */
    bool is_there;     /* it has something to be answered with; looked at where it is at once */
} hullpippin_ending;

/* How a request ends. */
enum {
    HULLPIPPIN_REQUEST_RESTS = 0,       /* it isn't answered now */
    HULLPIPPIN_REQUEST_GOES_ON = 1,     /* it goes on later */
    HULLPIPPIN_REQUEST_TELLS = 2,       /* it is answered with what its commands have come to */
    HULLPIPPIN_REQUEST_FAILS = 3,       /* it is answered with why its read failed */
    HULLPIPPIN_REQUEST_ANSWERS = 4,     /* its read is answered with what there is */
    HULLPIPPIN_REQUEST_WOULD_BLOCK = 5, /* .. with EAGAIN */
    HULLPIPPIN_REQUEST_WAITS = 6,       /* it waits from now on; where the bridge can't be told, it is answered with ENOMEM */
};

/* How a request ends: HULLPIPPIN_REQUEST_RESTS and its like. */
uint32_t hullpippin_request_ends(const hullpippin_ending *ending);

/* What to do with a request that waits, in its read or before it begins, when its thread wants the answer now. */
enum {
    HULLPIPPIN_CANCEL_RESTS = 0,
    HULLPIPPIN_CANCEL_COMES_BACK = 1, /* what the engine has is read, and the read answered with what there is */
    HULLPIPPIN_CANCEL_INTERRUPTS = 2, /* its read is answered with EINTR */
    HULLPIPPIN_CANCEL_REFUSES = 3,    /* it isn't begun, and answered with EINTR */
};

/* The same. `why` is 1 if a signal has come, 2 if the read has to come back; any other number does nothing. */
uint32_t hullpippin_request_cancels(uint32_t is_reading, uint32_t why);

/* A death notification that a process has taken back, and what else its thread has to read. */
typedef struct {
    uint64_t place;  /* of the step that took it back */
    uint64_t oldest; /* of the oldest that is unread of the process .. */
    bool has_oldest; /* .. if there is anything */
    bool has_own;    /* the thread has something of its own to read */
} hullpippin_cleared;

/* Whether the thread is told of that notification next. */
bool hullpippin_cleared_next(const hullpippin_cleared *cleared, const hullpippin_facts *facts);

/* Whether the thread's read has an answer, be it that notification. */
bool hullpippin_cleared_there(const hullpippin_cleared *cleared, const hullpippin_facts *facts);

/* Whether a thread that takes a notification back itself is told of that at once, and not with a reply. */
enum {
    HULLPIPPIN_CLEARED_IS_NOT_TOLD = 0,
    HULLPIPPIN_CLEARED_IS_TOLD = 1,
    HULLPIPPIN_CLEARED_LOOKS_ON = 2, /* the next item of its list tells */
};

/* The same, by one item of the thread's list. Ask for each `index` from 0; `is_item` isn't 0 if there is such an item, and `kind` is its kind. */
uint32_t hullpippin_cleared_unread(uint32_t is_item, uint32_t kind, size_t index);

/* How many threads a process may be asked for. */
typedef struct {
    uint32_t max;       /* so many .. */
    uint32_t requested; /* .. of which so many are still to come .. */
    uint32_t started;   /* .. and so many have */
} hullpippin_loopers;

/* The first code of a read's answer: BR_NOOP or BR_SPAWN_LOOPER, or 0 if `room` is too small for either. `is_looper` isn't 0 if the thread is in the loop,
   `somebody_waits` if another thread of its process waits in a read for what comes to the process. */
uint32_t hullpippin_loopers_answer(hullpippin_loopers *loopers, uint32_t room, uint32_t is_looper, uint32_t somebody_waits);

/* A thread has run the command with this code: BC_REGISTER_LOOPER, BC_ENTER_LOOPER or BC_EXIT_LOOPER. */
void hullpippin_loopers_attach(hullpippin_loopers *loopers, uint32_t code);

/* Whether a thread that runs such a command is in the loop afterwards. */
bool hullpippin_loopers_enter(uint32_t code);

/*
 * Rings: whose turn it is, among those that share something. Each is known by a number, which is of a ring too: of those below it. So
 * processes stand in the ring of their user, and users in that of all.
 *
 *     if (hullpippin_rings_new(&rings) || hullpippin_rings_add(&rings, &all) || hullpippin_rings_add(&rings, &one)) ..
 *     hullpippin_rings_enter(&rings, all, one);                                 .. the one wants a turn in the ring of all ..
 *     while (hullpippin_rings_first(&rings, all, &next) && .. the next has had too much ..)
 *         hullpippin_rings_pass(&rings, all);
 *     if (hullpippin_rings_take(&rings, all, &next)) .. it has its turn, and comes again if it wants another ..
 *
 * Proved is that each stands in one ring at most, and there once; and that, from when one comes into a ring until it has its turn there, each
 * other has one at most, and one more for each time that the one was passed over, whoever comes and goes meanwhile. Only add takes memory.
 */

/* Makes rings: no number is anybody's. `rings` is empty, and stays so unless the answer is DONE. Also NO_MEMORY, MISUSE. */
uint32_t hullpippin_rings_new(hullpippin_rings *rings);

/* Tells a number that nobody has, which is the caller's from then on: nobody stands in its ring, and it stands in none. They are counted from 0,
   and what was given back comes first. Also NO_MEMORY, where there is no such number either, and MISUSE; then `number` stays as it was. */
uint32_t hullpippin_rings_add(hullpippin_rings *rings, uint32_t *number);

/* Gives a number back, which leaves its ring. False where it is nobody's, or anybody stands in its own ring; then all is as before. */
bool hullpippin_rings_remove(hullpippin_rings *rings, uint32_t number);

/* One wants a turn in a ring, behind all others there. False where it stands in a ring already, or one of the two numbers is nobody's; then all
   is as before. */
bool hullpippin_rings_enter(hullpippin_rings *rings, uint32_t ring, uint32_t one);

/* One wants no turn any more. Does nothing where it stands in no ring. */
void hullpippin_rings_leave(hullpippin_rings *rings, uint32_t one);

/* Tells whose turn it is in a ring. False where nobody stands there, and then `one` stays as it was. */
bool hullpippin_rings_first(hullpippin_rings *rings, uint32_t ring, uint32_t *one);

/* The same; and that one has it, and stands there no more. */
bool hullpippin_rings_take(hullpippin_rings *rings, uint32_t ring, uint32_t *one);

/* Whose turn it would be in a ring is passed over, and goes behind all others. False where nobody stands there. */
bool hullpippin_rings_pass(hullpippin_rings *rings, uint32_t ring);

/* Lets go of rings, and empties the handle. Does nothing where it is empty. */
void hullpippin_free_rings(hullpippin_rings *rings);

/*
 * Sendings: whom of a process is told of an object that its threads send, and in which order. By the rules whatever sends an object that its
 * owner isn't told of has its thread told, and a parcel's objects are told in the order in which they come first. With Linux's driver a
 * receiver's first strong reference does this, and puts what is to be told behind all that the thread has; where the receiver has one already
 * by what another thread has sent, that one is told. Sendings say so of what the process's threads have sent without having read yet that it was
 * taken. Threads and receivers are numbers of the caller's.
 *
 *     .. a thread's call or reply was taken ..     hullpippin_sendings_note(&sendings, &sending, data, data_size, offsets, offsets_size);
 *     .. before the thread reads ..                for (i = 0; i < hullpippin_sendings_count(&sendings); i++)
 *                                                      if (hullpippin_sendings_sender(&sendings, thread, i, &sender))
 *                                                          .. what the engine has for that sender is read first ..
 *     .. the engine tells it of an object ..       hullpippin_sendings_told(&sendings, thread, ptr) is told that
 *     .. and of another behind that ..             where hullpippin_sendings_before(&sendings, thread, another, object), it goes before
 *     .. it has read that all was taken ..         hullpippin_sendings_end(&sendings, thread);
 *
 * So many objects are known: 32 of a thread, 512 of all, and none of a parcel with more than 32. What isn't known is told by the rules. Proved is
 * that each call answers by its definition (bd_sendings, specs/Sendings); that who is told in another's place has sent the object itself; and that
 * who hasn't sent an object is told what the engine tells it. Only new takes memory.
 */

/* A call or reply that was taken. */
typedef struct {
    uint64_t step;     /* its place among the engine's steps */
    uint32_t sender;   /* the thread that sends it */
    uint32_t receiver; /* the process that it goes to; 0: it isn't known */
    uint32_t let_go;   /* how often that one has let go of what may have carried objects */
} hullpippin_sending;

/* Makes sendings: nothing is known to be sent. `sendings` is empty, and stays so unless the answer is DONE. Also NO_MEMORY, MISUSE. */
uint32_t hullpippin_sendings_new(hullpippin_sendings *sendings);

/* The objects of a parcel are sent, in the order of their offsets, by the bytes that the engine got. */
void hullpippin_sendings_note(hullpippin_sendings *sendings, const hullpippin_sending *sending, const uint8_t *data, size_t data_size,
                              const uint8_t *offsets, size_t offsets_size);

/* A thread has read that all was taken that it has sent, or sends nothing more: nothing of that is known from then on. Tells whether nothing
   of anybody's is. */
bool hullpippin_sendings_end(hullpippin_sendings *sendings, uint32_t thread);

/* Who is told what the engine tells a thread of the object with a ptr: another thread, or this one. */
uint32_t hullpippin_sendings_told(hullpippin_sendings *sendings, uint32_t thread, uint64_t ptr);

/* How many objects are known to be sent. */
size_t hullpippin_sendings_count(hullpippin_sendings *sendings);

/* Tells who has sent the object at an index below that, where another thread has, and this one is told of it. False where it isn't so, and then
   `sender` stays as it was. */
bool hullpippin_sendings_sender(hullpippin_sendings *sendings, uint32_t thread, size_t index, uint32_t *sender);

/* Whether what a thread is told of the object with a ptr goes before what it is told of another: it has sent both, and that one later. */
bool hullpippin_sendings_before(hullpippin_sendings *sendings, uint32_t thread, uint64_t ptr, uint64_t other);

/* Lets go of sendings, and empties the handle. Does nothing where it is empty. */
void hullpippin_free_sendings(hullpippin_sendings *sendings);

/* Room for every text, and the NUL behind it. */
#define HULLPIPPIN_TEXT_ROOM 64

/* Writes the text of a number, as a C string, into `room`, which has HULLPIPPIN_TEXT_ROOM bytes. NULL where there is none. */
static inline const char *hullpippin_text_in(uint32_t kind, uint32_t number, char *room)
{
    size_t size = hullpippin_text_bytes(kind, number, (uint8_t *)room, HULLPIPPIN_TEXT_ROOM - 1);
    if (size == 0 || size >= HULLPIPPIN_TEXT_ROOM)
        return NULL;
    room[size] = '\0';
    return room;
}

#ifdef __cplusplus
}

/* Room that lasts as long as the expression around it. */
struct hullpippin_text_room {
    char at[HULLPIPPIN_TEXT_ROOM];
};
#endif

/* The text of a number of this kind, as a C string, NULL where there is none. It stays until the end of the block around the call;
   in C++ until that of the expression. */
#ifdef __cplusplus
#define hullpippin_text(kind, number) hullpippin_text_in(kind, number, hullpippin_text_room().at)
#else
#define hullpippin_text(kind, number) hullpippin_text_in(kind, number, (char[HULLPIPPIN_TEXT_ROOM]){ 0 })
#endif

#endif
