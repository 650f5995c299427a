/* SPDX-License-Identifier: Apache-2.0 OR MIT */
/*
 * ring.h: the latest steps of a device, in memory that the daemon shares with its own user. This header stands alone, for whoever reads
 * the ring; numbers are as C has them on this machine, and all places are told in bytes.
 *
 * It is there from the device's beginning on and costs nobody a wait: the device's thread writes a slot for each step, whether anybody
 * looks or not, and over the oldest one. Who reads copies a slot, and looks at its sequence before and after: if that was the one
 * that the step has, both times, the copy is whole.
 *
 * To get it, connect to the daemon's socket (SOCK_SEQPACKET) and send a struct control_request (protocol.h) with CONTROL_RING and the
 * device's name. The answer brings a descriptor of the memory, which is read-only and never changes its size, and tells that. Only the
 * daemon's own user and root get it, others are told EPERM; where there is no such device it is ENOENT. The connection isn't needed
 * any more then.
 */
#ifndef HULLPIPPIN_RING_H
#define HULLPIPPIN_RING_H

#include <stdint.h>

/* The first eight bytes, no 0 behind them. Another layout has another one. */
#define RING_MAGIC "HPRING02"

/* Where the slots begin, how long each is, and how many there are. Who reads takes these numbers from the heading. */
#define RING_HEADING 4096u
#define RING_SLOT 384u
#define RING_SLOTS 8192u

#define RING_DEVICE 64
#define RING_COMM 16
#define RING_DATA 232u

/* No step, no object: no place is as large. */
#define RING_NONE UINT64_MAX

/* What was done, as the first byte of a step in a journal has it (docs/FORMATS.md, "The journal"). */
enum ring_kind {
    RING_OPEN = 0,
    RING_ATTACH = 1,
    RING_SET_MANAGER = 2,
    RING_COMMAND = 3,
    RING_READ = 4,
    RING_EXIT_THREAD = 5,
    RING_EXIT_PROCESS = 6,
    RING_SET_SPAM = 7,
};

/* What came of it, as the first byte of an answer there. */
enum ring_answer {
    RING_OPENED = 0,
    RING_SET = 1,
    RING_EXITED = 2,
    RING_ACCEPTED = 3,
    RING_NOTED = 4,   /* `number` is the note's */
    RING_STOPPED = 5, /* `number` is the cause's */
    RING_GOT = 6,
    RING_REFUSED = 7, /* `number` is the fault's */
};

/*
 * What the daemon has counted since the device began. Each number is whole by itself; together they may be of two moments.
 * A command or return is counted by the number in its code (_IOC_NR: BC_TRANSACTION is 0, BR_NOOP 12).
 */
struct ring_counts {
    uint64_t commands[32]; /*    0: that were run, those that were refused or noted too */
    uint64_t returns[32];  /*  256: that were read */
    uint64_t answers[8];   /*  512: by enum ring_answer */
    uint64_t notes[32];    /*  576: by number; so are the next two */
    uint64_t causes[32];   /*  832 */
    uint64_t faults[32];   /* 1088 */
    uint64_t turns;        /* 1344: that clients had */
    uint64_t longest_turn; /* 1352: in steps */
    uint64_t longest_wait; /* 1360: turns of others that one client has waited for */
    uint64_t looks;        /* 1368: at threads that may have something to read */
    uint64_t copied;       /* 1376: bytes of parcels */
    uint64_t processes;    /* 1384: open files with a window, now */
    uint64_t seats_lent;   /* 1392: threads with a seat, now .. */
    uint64_t most_lent;    /* 1400: .. and most at one time */
    uint64_t longest_time; /* 1408: nanoseconds of the processor's time that the longest turn took, at most .. */
    uint64_t longest_open; /* 1416: .. and the longest of those by which clients come, of all devices */
    uint64_t costly_time;  /* 1424: nanoseconds that all turns of over 50,000 of them took .. */
    uint64_t put_off;      /* 1432: .. and parcels that had to wait since their client's account had had such a one */
    uint64_t longest_end;  /* 1440: nanoseconds of the longest turn of those in which ends were seen to */
};

struct ring_heading {
    char magic[8];           /*   0: RING_MAGIC */
    uint32_t heading_size;   /*   8: RING_HEADING */
    uint32_t slot_size;      /*  12: RING_SLOT */
    uint32_t slot_count;     /*  16: RING_SLOTS */
    uint32_t seats;          /*  20: of the device, its own seat 0 among them */
    uint64_t realtime;       /*  24: nanoseconds: CLOCK_REALTIME less CLOCK_MONOTONIC, when the device began; modulo 2^64 */
    uint32_t daemon;         /*  32: its pid */
    uint32_t is_over;        /*  36: 1 from when the device makes no more steps */
    char device[RING_DEVICE]; /* 40: its name, with a 0 behind it */
    uint8_t nothing[24];     /* 104 */
    uint64_t count;          /* 128: steps that are in slots, or were: step N is in slot N % slot_count until N + slot_count is */
    uint64_t rests;          /* 136: how often nothing had come for a second .. */
    uint64_t left_idle;      /* 144: .. and how many threads were still to be looked at then, in all: none */
    uint8_t nothing_else[40]; /* 152 */
    struct ring_counts counts; /* 192 */
};

/*
 * A slot. The step N, from 0, has the sequence 2 N + 2; while it is being written that is odd, and 0 before anything ever was. A field
 * that doesn't apply is 0, or RING_NONE where that is said.
 */
struct ring_slot {
    uint64_t sequence;     /*   0 */
    uint64_t time;         /*   8: nanoseconds of CLOCK_MONOTONIC, just after the step */
    uint64_t place;        /*  16: of the step in the history, as a journal counts its entries */
    uint32_t seat;         /*  24: 0 is the daemon's own, by which processes begin and end */
    uint32_t pid;          /*  28: of the client, as the daemon's /proc has it; of seat 0: the daemon's */
    uint32_t tid;          /*  32: of its thread; 0 where that isn't known, and of seat 0 */
    uint32_t process;      /*  36: the client's pid in the history; of seat 0: that of the process which it opens or attaches to, or has last */
    uint8_t kind;          /*  40: enum ring_kind */
    uint8_t answer;        /*  41: enum ring_answer */
    uint8_t number;        /*  42: of the note, cause or fault */
    uint8_t kept;          /*  43: how many bytes of the data are here: of a parcel that is sent, but for one with TF_CLEAR_BUF */
    uint32_t command;      /*  44: a command: its code, BC_ ..; a read: the code of the last return that it got, which a parcel's is, or 0 */
    uint32_t handle;       /*  48: that a call goes to, or that another command names */
    uint32_t code;         /*  52: of a call, as its sender or receiver has it; of an Open: the window's size */
    uint32_t flags;        /*  56: of a call or reply; of a SetSpam: what was set */
    uint32_t other;        /*  60: the pid in the history of who gets the call or reply that was taken, or has sent the one that is read */
    uint64_t call;         /*  64: the place of the step that has sent the two-way call that is read, or RING_NONE */
    uint64_t object_place; /*  72: the object that a call that was taken goes to, by the step that made it .. ; or RING_NONE */
    uint32_t object_index; /*  80: .. and an index; 0 where there is none */
    uint32_t euid;         /*  84: of the sender that a read tells; of an Open: the process's */
    uint32_t limit;        /*  88: of a read */
    uint32_t returns;      /*  92: how many bytes of returns a read got */
    uint64_t data_size;    /*  96: of a call or reply that is sent or read: so long is its data, as the history has it, .. */
    uint64_t offsets_size; /* 104: .. and so long are its offsets */
    uint64_t buffer;       /* 112: where the call or reply that is read lies, or the buffer that is given back, in the history's numbers */
    uint64_t pointer;      /* 120: the `ptr` of an object: the target of a call that is read, or what a command or the last return names */
    uint64_t cookie;       /* 128: .. and its cookie; or a death notification's */
    char comm[RING_COMM];  /* 136: the thread's name as its seat was lent to it, 0 behind it; of seat 0: the daemon's */
    uint8_t data[RING_DATA]; /* 152: the first bytes of the data. What is behind them is of another step */
};

/* Copies the step N. 1: that is it; 0: it isn't there yet; -1: it isn't any more. */
static inline int ring_copy(const struct ring_heading *heading, uint64_t n, struct ring_slot *copy)
{
    const uint8_t *slots = (const uint8_t *)heading + heading->heading_size;
    const struct ring_slot *slot = (const struct ring_slot *)(slots + n % heading->slot_count * heading->slot_size);
    uint64_t wanted = 2 * n + 2, before = __atomic_load_n(&slot->sequence, __ATOMIC_ACQUIRE);
    if (before < wanted)
        return 0;
    __builtin_memcpy(copy, slot, sizeof *copy);
    __atomic_thread_fence(__ATOMIC_ACQUIRE);
    return before == wanted && __atomic_load_n(&slot->sequence, __ATOMIC_RELAXED) == wanted ? 1 : -1;
}

_Static_assert(sizeof(struct ring_counts) == 1448 && sizeof(struct ring_heading) == 1640 && sizeof(struct ring_slot) == RING_SLOT,
               "the layout is what its version says");

#endif
