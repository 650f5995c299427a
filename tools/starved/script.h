/* SPDX-License-Identifier: Apache-2.0 OR MIT */
/* The requests of a script (docs/FORMATS.md), which is taken to be a good one. Lines that have none, looks and what is handed over, are
   left out. */
#ifndef HULLPIPPIN_STARVED_SCRIPT_H
#define HULLPIPPIN_STARVED_SCRIPT_H

#include "hullpippin.h"

enum { MOST_LINES = 256, MOST_PIDS = 64, MOST_BYTES = 1 << 17 };

/* Bytes that lie somewhere else. */
struct bytes {
    const uint8_t *at;
    size_t size;
};

/* A line with its request. */
struct line {
    unsigned number;
    uint32_t seat;
    hullpippin_request request;
    struct bytes stream, area;
};

struct script {
    uint32_t seats;
    size_t count, pid_count, used;
    struct line lines[MOST_LINES];
    /* The pids that are opened. */
    uint32_t pids[MOST_PIDS];
    /* The streams and areas of all lines. */
    uint8_t bytes[MOST_BYTES];
};

/* Reads the script of a file. Else prints why it can't be read, and answers false. */
bool read_script(const char *path, struct script *script);

#endif
