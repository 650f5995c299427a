/* SPDX-License-Identifier: Apache-2.0 OR MIT */
/*
 * raw.h: what the raw clients have in common. Each is a program that starts its own other side as a process, over a
 * device that has no context manager yet; it prints one line and ends with 0, or says where it failed and ends with
 * 1.
 */
#ifndef HULLPIPPIN_TESTS_RAW_H
#define HULLPIPPIN_TESTS_RAW_H

#include "../../managers/looper.h"
#include "../../managers/parcel.h"

#include <stdatomic.h>
#include <stdnoreturn.h>
#include <sys/types.h>

#define WINDOW ((size_t)1 << 20)

/* Ends the program where a condition doesn't hold, with errno where that may be why. */
#define CHECK(condition, ...) ((condition) ? (void)0 : raw_fail(__FILE__, __LINE__, __VA_ARGS__))
noreturn void raw_fail(const char *file, int line, const char *format, ...) __attribute__((format(printf, 3, 4)));

/* The device that is tested: /dev/binder, or what the environment says in RAW_DEVICE. */
const char *raw_device(void);

/* What has to come is waited for so long, in milliseconds, and a program for so many times as long as it should take: a machine that
   does much else takes its time. */
#define RAW_PATIENCE 20000
#define RAW_BUSY 4u

/* Called first: the program ends, whatever happens, after that many times so many seconds. */
void raw_begin(unsigned seconds);

/* An open device with one looper. What it doesn't serve it answers with an empty reply. */
typedef void serve_function(struct looper *looper, const struct binder_transaction_data *call);
struct client {
    struct binder binder;
    struct looper looper;
};
void raw_open(struct client *client, size_t window, serve_function *serve);
/* A further thread's looper over the same open device. */
void raw_looper(struct looper *looper, struct client *client, serve_function *serve);

/* Answers with some bytes. */
void raw_answer(struct looper *looper, const void *bytes, size_t size);

/* The data of a call or reply. */
const void *raw_data(const struct binder_transaction_data *record);
/* The same, which has to be one number. */
uint32_t raw_number(const struct binder_transaction_data *record);

/* Calls with some bytes; what it tells is looper_call's. */
struct call {
    uint32_t handle, code, flags;
    const void *bytes;
    size_t size;
};
uint32_t raw_call(struct looper *looper, struct call call, struct binder_transaction_data *reply);
/* Calls with a parcel that has objects, and frees it. */
uint32_t raw_call_with(struct looper *looper, struct call call, struct writer *writer, struct binder_transaction_data *reply);
/* Gives the context manager an object by a call with this code, which has to be answered. */
void raw_give(struct client *client, uint32_t code);
/* A call whose reply has to be one number. */
uint32_t raw_ask(struct looper *looper, struct call call);

/* Starts a process that runs the body; it dies with this one. What `raw_ready` tells there is awaited here. */
pid_t raw_start(void (*body)(void *with), void *with);
void raw_ready(void);
/* Makes the process the context manager, of an object that takes descriptors, as others' don't; false with errno. */
bool raw_become_taking_manager(struct binder *binder);
/* Starts one that is the context manager and serves. */
pid_t raw_start_manager(serve_function *serve);
/* Starts one that keeps the object that it is given, and hands it over: nobody can call a manager of its own process. */
enum { RAW_KEEP = 1, RAW_HAND, RAW_QUIT };
pid_t raw_start_keeper(void);
/* The handle of the object that it keeps. */
uint32_t raw_fetch(struct client *client);
/* A gate that this process shares with those that are started later. Who comes to it waits while it is shut, as it is at first: not for
   ever, which it tells by false. So a server takes as long as its client needs, whatever the machine does. */
struct gate {
    atomic_bool is_open;
};
struct gate *raw_new_gate(void);
bool raw_pass(const struct gate *gate);
/* Ends a process that raw_start started, by SIGKILL, and waits until it is gone. */
void raw_kill(pid_t pid);
/* Waits for one that ends by itself, which has to be with 0. */
void raw_join(pid_t pid);

/* Takes the handle of the object at an offset of the data, and keeps it beyond the buffer. */
uint32_t raw_keep(struct looper *looper, const struct binder_transaction_data *record);

/* How many descriptors a process has open. */
size_t raw_descriptors(pid_t pid);
/* The daemon, where the environment names it in RAW_DAEMON; else 0. */
pid_t raw_daemon(void);
/* Microseconds of the processor's time that it has used. */
double raw_daemon_time(void);
/* Waits until it has used hardly any for a while. */
void raw_daemon_rests(void);

/* Stops all of the daemon's threads, so that it finds at once what comes until it goes on; there has to be one. */
void raw_stop_daemon(void);
void raw_continue_daemon(void);

/* Microseconds, on a clock that only goes forward. */
double raw_now(void);

/* What so many measurements say; they are sorted. */
struct spread {
    double median, tenth, last; /* the 50th, 10th and 99th of 100 */
};
struct spread raw_spread(double *all, size_t count);

#endif
