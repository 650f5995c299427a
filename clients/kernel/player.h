/* SPDX-License-Identifier: Apache-2.0 OR MIT */
/*
 * player.h: plays scripts on a real device, each process of a script as a process, each seat as a thread of it.
 *
 * All is settled before a line is answered, without a clock: on one processor the threads of seats have a higher priority of real time
 * than the main thread of their process, and that one a higher one than the player. So whoever is woken by a line has run until it waits
 * again, or has its answer, before the player goes on. Where the environment has PLAYER_PATIENCE, so many microseconds after what is not
 * waited for take the place of priorities, and there are no waiting reads: so on a machine that others use too.
 */
#ifndef HULLPIPPIN_KERNEL_PLAYER_H
#define HULLPIPPIN_KERNEL_PLAYER_H

#include <stdbool.h>
#include <stddef.h>
#include <stdint.h>
#include <stdnoreturn.h>

#define SEATS 32u
/* The longest stream, area and read. */
#define ROOM ((size_t)1 << 20)

enum priority { PLAYER = 0, OF_PROCESS = 5, OF_SEAT = 10 };

/* Ends this process where a condition doesn't hold. */
#define NEED(condition, what) ((condition) ? (void)0 : give_up(what))
noreturn void give_up(const char *what);

bool player_is_patient(void);

/* A text that grows. */
struct text {
    char *at;
    size_t size, room;
};
void say(struct text *text, const char *format, ...) __attribute__((format(printf, 2, 3)));
void say_hex(struct text *text, const uint8_t *bytes, size_t size);

/* Messages between the player and a process; what is taken is to be freed, NULL once the other side is gone. */
bool message_put(int socket, const char *text);
char *message_take(int socket);

/* The main of a script's process: does as it is told until the player is gone. */
noreturn void process_main(int socket, uint32_t euid, size_t window);

/* The device's file, in a script's process. */
extern int device;

/* What a seat of this process asks for: `text` gets the answer. */
void do_read(struct text *text, uint32_t seat, size_t limit);
void do_write(struct text *text, const char *stream, const char *area);

#endif
