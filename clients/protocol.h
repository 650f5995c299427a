/* SPDX-License-Identifier: Apache-2.0 OR MIT */
/*
 * protocol.h: what the preloaded library and the daemon say to each other.
 *
 * An open binder file is a control socket (SOCK_SEQPACKET): one packet asks, one answers, in turn. A thread that
 * makes its first ioctl gets, over that socket, three descriptors of its own: a link (a socket for descriptors, whose
 * end is the thread's end), a page of shared memory, and a bell (an eventfd). It writes a request into its page,
 * rings the bell, and waits for the page's state by a futex. Where that takes long it waits by its link instead, and says
 * so in its page: then a packet without descriptors tells of the answer, and nobody's end is missed. Both sides are built
 * from one tree and run on one machine: numbers are as C has them.
 *
 * The daemon trusts nothing of a page: it copies what it needs, once, before it looks at it. So a field may change at
 * any time, and is read through a copy.
 */
#ifndef HULLPIPPIN_PROTOCOL_H
#define HULLPIPPIN_PROTOCOL_H

#include <stdatomic.h>
#include <stdint.h>

/* Goes up with each change of this file: a library of another build is refused. */
#define PROTOCOL_VERSION 9u

/* The largest window, as the kernel's is. */
#define WINDOW_MAX (4u << 20)

/* A device's name with its end: /dev/binder. */
#define DEVICE_NAME_ROOM 64

/* Descriptors of one parcel: what one SCM_RIGHTS message takes (SCM_MAX_FD). */
#define DESCRIPTORS_MAX 253

/* Bytes of commands and of returns in one exchange, and of parcels: more than any window takes. */
#define PAGE_STREAM 4096u
#define PAGE_RETURNS 4096u
#define PAGE_AREA (WINDOW_MAX + 65536u)

/* Requests over the control socket. */
enum control_op {
    CONTROL_OPEN = 1,    /* the first of each: `device` */
    CONTROL_MAP,         /* mmap: `size`, `base`; answers the window's size and its memory */
    CONTROL_MAX_THREADS, /* BINDER_SET_MAX_THREADS: `size` */
    CONTROL_THREAD,      /* `size`: the thread's tid; answers the three descriptors of a thread: link, page, bell */
    CONTROL_LOOK,        /* whether `device` is there, for who doesn't open it */
    CONTROL_SPAM,        /* BINDER_ENABLE_ONEWAY_SPAM_DETECTION: `size`, 0 for off */
    CONTROL_RING,        /* the latest steps of `device` (ring.h), for the daemon's own user: answers the memory's size, and the memory */
    CONTROL_STATE,       /* what goes on on the device that was opened, for the same: a page from `size` and `base` on; a state_page */
};

struct control_request {
    uint32_t version; /* PROTOCOL_VERSION */
    uint32_t op;
    uint64_t size;
    uint64_t base; /* where the client sees its window */
    char device[DEVICE_NAME_ROOM];
};

struct control_answer {
    int32_t error; /* 0, or an errno */
    uint32_t descriptors;
    uint64_t size;
};

/* What a record of a page of CONTROL_STATE tells of. */
enum state_kind { STATE_PROCESS = 1, STATE_THREAD, STATE_HANDLE, STATE_BUFFER, STATE_SHARE };

/* Flags of a process, of a thread, and of a buffer. */
#define STATE_MANAGER 1u
#define STATE_DETECTS_SPAM 2u
#define STATE_LOOPS 4u
#define STATE_WAITS 8u /* in a read */
#define STATE_ONE_WAY 16u
#define STATE_HANDED 32u /* it was read */
#define STATE_CALL 64u /* and no reply */
/* Of a share: it is all of a user's within an account, or all of an account's; else a process's. */
#define STATE_OF_USER 128u
#define STATE_OF_ACCOUNT 256u

/* What a share is of, by its `code`. */
#define STATE_SHARES "descriptors", "threads", "windows", "calls", "owed", "objects", "handles", "deaths"

/* So many things that are to be read are counted, and not what is beyond. */
#define STATE_UNREAD 16u

/* What a field doesn't apply to has 0 there. */
struct state_record {
    uint64_t innermost; /* the place in the history of the innermost call that a thread is in; UINT64_MAX: there is none; how often a share
                           was refused */
    uint64_t object_place; /* the object that a handle names, or that a buffer's call is on, by this and `object_index`; a share's account */
    uint64_t made;      /* the place in the history of the step that made a buffer; how much of a share is taken */
    uint32_t kind;      /* enum state_kind */
    uint32_t process;   /* its pid in the history: the process, or that of the thread, or which has the handle or the buffer */
    uint32_t pid;       /* as the daemon's /proc has it */
    uint32_t tid;       /* of a thread; 0: it isn't known */
    uint32_t seat;
    uint32_t euid;      /* of the opening; a share's user */
    uint32_t flags;
    uint32_t window;    /* its bytes */
    uint32_t threads;   /* that have made an ioctl */
    uint32_t max_threads, requested, started; /* by BR_SPAWN_LOOPER */
    uint32_t serving, calling; /* calls that a thread has to answer, and waits for */
    uint32_t unread;    /* what stands on its list to be read, STATE_UNREAD at most */
    uint32_t handle;
    uint32_t object_index;
    uint32_t party;     /* the pid in the history of the object's owner, or of the buffer's sender; 0: that has ended */
    uint32_t start, size; /* where that lies in the window, and how much of it it takes */
    uint32_t code;      /* of what is in it; what a share is of */
    uint32_t nothing;
    char comm[16];      /* how its main thread is called, or the thread was when it got its seat; 0 behind it */
};

/* So many records are in a page; a page that isn't the last may have fewer, and none. */
#define STATE_ROOM 16u

struct state_page {
    int32_t error;      /* 0, or an errno */
    uint32_t count;
    uint64_t place;     /* how many steps the history has */
    uint64_t next;      /* where the next page begins; 0: this is the last .. */
    uint64_t within;    /* .. and where within that, for `base` */
    struct state_record records[STATE_ROOM];
};

/* Requests in a page. */
enum page_op {
    PAGE_WRITE_READ = 1, /* runs the stream, then reads if there is room */
    PAGE_SET_MANAGER,
    PAGE_EXIT_THREAD,
    PAGE_DOORBELL, /* the link brings a descriptor that is readable while a read would find something */
    PAGE_PLACE,    /* the numbers that the descriptors of the latest parcel got here */
};

/* The page's state, on which the client's thread waits. */
enum page_state {
    PAGE_IDLE = 0,
    PAGE_ASKED,    /* by the client */
    PAGE_ANSWERED, /* by the daemon */
};

/* Why a request that waits is to be answered at once. */
enum page_cancel {
    CANCEL_NOT = 0,
    CANCEL_INTERRUPTED, /* a signal came: EINTR */
    CANCEL_RETURN,      /* a read is to come back, with BR_NOOP if there is nothing else */
};

/* Flags of PAGE_WRITE_READ. */
#define PAGE_NONBLOCK 1u /* the file is O_NONBLOCK */
/* Flags of PAGE_SET_MANAGER. */
#define PAGE_TAKES_DESCRIPTORS 1u /* the manager's object does */

struct page_request {
    uint32_t op;
    uint32_t stream_size; /* bytes of commands, PLACE: how many numbers */
    uint32_t room;        /* bytes for returns, 0 for no read */
    uint32_t flags;
    uint32_t descriptors; /* how many stand in the link's next packet: of the one parcel that has any */
};

struct page_answer {
    int32_t error;         /* 0, or an errno */
    uint32_t consumed;     /* bytes of the stream that were run */
    uint32_t refused;      /* a command was refused, which ended its write, and the thread has to read that before it writes again */
    uint32_t returns_size; /* bytes of returns */
    uint32_t descriptors;  /* how many stand in the link's next packet */
};

/*
 * In the stream a transaction or reply has, in `data.ptr.buffer` and `data.ptr.offsets`, places in the area. Behind
 * the offsets, at the next multiple of 8, are the buffers of PTR objects, one behind the other in the order of these, each up
 * to a multiple of 8. The descriptors of FD and FDA objects are in the packet, in the same order; only one parcel of a request has any. A
 * parcel that doesn't fit into the area, or of which something can't be had, has PAGE_NOWHERE for its places.
 */
#define PAGE_NOWHERE UINT64_MAX

/* Buffers that a thread gives back without waiting: a queue that the daemon empties whenever the bell rings, before
   it looks at the request. */
#define PAGE_FREES 64u

struct page {
    _Atomic uint32_t state;
    _Atomic uint32_t cancel; /* why the client's thread wants its answer now: enum page_cancel */
    _Atomic uint32_t ended;   /* by the daemon: nobody answers here any more */
    _Atomic uint32_t is_long; /* by the client: it waits by its link */
    _Atomic uint32_t freed;   /* by the client: how many buffers it has given back so far; wraps */
    _Atomic uint32_t taken;   /* by the daemon: how many of these it has seen to */
    uint64_t frees[PAGE_FREES];
    struct page_request request;
    struct page_answer answer;
    uint8_t returns[PAGE_RETURNS];
    uint8_t stream[PAGE_STREAM];
    int32_t numbers[DESCRIPTORS_MAX];
    uint64_t parcel; /* by the daemon: where the client sees the parcel that an answer's descriptors came with .. */
    uint8_t is_of_array[DESCRIPTORS_MAX]; /* .. and which of these are an FDA object's */
    _Alignas(4096) uint8_t area[PAGE_AREA]; /* whole pages: a large parcel's can be given back */
};

/* Sizes are rounded up to multiples of 8 in parcels. */
static inline uint64_t round8(uint64_t size)
{
    return (size + 7) & ~UINT64_C(7);
}

#endif
