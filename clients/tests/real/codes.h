/* SPDX-License-Identifier: Apache-2.0 OR MIT */
/* codes.h: what the test service answers to, and how the programs here say that something is wrong. */
#ifndef HULLPIPPIN_TESTS_CODES_H
#define HULLPIPPIN_TESTS_CODES_H

#include <gbinder.h>
#include <glib.h>
#include <stdio.h>
#include <stdlib.h>

#define INTERFACE "hullpippin.test@1.0"
#define CALLBACK_INTERFACE "hullpippin.callback@1.0"

enum code {
    ECHO = GBINDER_FIRST_CALL_TRANSACTION, /* a string, there and back */
    COUNT,      /* one-way: counts */
    TELL_COUNT, /* tells the count */
    CALL_BACK,  /* calls the object that it is given with 41, and tells the answer */
    KEEP,       /* keeps the object that it is given, and hears of its death */
    BYTES,      /* bytes, there and back */
    DESCRIPTOR, /* reads through a descriptor, and gives one back */
    OPEN_FILES, /* how many descriptors the service has open */
    MIXED,      /* one of each kind of value, there and back */
};

/* Ends the program where a condition doesn't hold. */
#define NEED(condition, ...) ((condition) ? (void)0 : (fprintf(stderr, __VA_ARGS__), fputc('\n', stderr), exit(1)))

#endif
