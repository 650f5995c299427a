/* SPDX-License-Identifier: Apache-2.0 OR MIT */
/*
 * cancelled: a thread that is to be cancelled ends at its next cancellation point, and what it does with a binder file has none where
 * Linux's driver has none: an ioctl or a mapping is done as ever, and leaves nothing locked or open. A wait by poll is one.
 */
#include "raw.h"

#include <errno.h>
#include <poll.h>
#include <pthread.h>
#include <stdatomic.h>
#include <stdio.h>
#include <sys/ioctl.h>
#include <sys/mman.h>
#include <unistd.h>

static struct client client;
static atomic_int done;
static int copied = -1;

/* Whether what is done with the file was done whole. */
struct act {
    bool (*is_done)(void);
    const char *name;
};

/* From here on this thread is to be cancelled. */
static void is_cancelled(void)
{
    CHECK(!pthread_cancel(pthread_self()), "can't be cancelled");
}

static bool sets_threads(void)
{
    uint32_t threads = 3;
    return !ioctl(client.binder.fd, BINDER_SET_MAX_THREADS, &threads);
}

static bool writes(void)
{
    uint32_t code = BC_ENTER_LOOPER;
    struct binder_write_read both = {.write_size = sizeof code, .write_buffer = (uintptr_t)&code};
    return !ioctl(client.binder.fd, BINDER_WRITE_READ, &both);
}

static bool maps(void)
{
    return mmap(NULL, WINDOW, PROT_READ, MAP_PRIVATE, client.binder.fd, 0) == MAP_FAILED && errno == EBUSY;
}

static bool copies(void)
{
    copied = dup(client.binder.fd);
    return copied >= 0;
}

/* What is done here is the thread's first, for which it gets a page. What is cancelled has no variables of its own, whose traces
   AddressSanitizer would find on the stack. */
static void *do_cancelled(void *with)
{
    const struct act *act = with;
    is_cancelled();
    done += act->is_done();
    pthread_testcancel();
    return NULL;
}

/* Waits, and is cancelled in that. */
static void *wait_long(void *unused)
{
    struct pollfd files[100];
    (void)unused;
    for (int i = 0; i < 100; i++)
        files[i] = (struct pollfd){.fd = client.binder.fd, .events = POLLIN};
    done++;
    poll(files, 100, -1);
    done++;
    return NULL;
}

static void ends_cancelled(pthread_t thread, const char *what)
{
    void *result;
    CHECK(!pthread_join(thread, &result) && result == PTHREAD_CANCELED, "%s isn't cancelled", what);
}

/* Each is done whole, often enough that what one left behind would be seen by the next. */
static void are_done(void)
{
    static struct act all[] = {
        {sets_threads, "an ioctl for the process"}, {writes, "a thread's first ioctl"}, {maps, "a mapping"}, {copies, "a copy"}};
    for (size_t i = 0; i < 4 * sizeof all / sizeof *all; i++) {
        pthread_t thread;
        done = 0;
        CHECK(!pthread_create(&thread, NULL, do_cancelled, &all[i / 4]), "no thread");
        ends_cancelled(thread, all[i / 4].name);
        CHECK(done == 1, "%s isn't done whole where its thread is to be cancelled", all[i / 4].name);
        if (copied >= 0)
            close(copied);
        copied = -1;
    }
}

/* AddressSanitizer would find the traces of what is cancelled inside of poll, where it has variables. */
static void is_cancelled_while_it_waits(void)
{
#ifndef __SANITIZE_ADDRESS__
    pthread_t thread;
    done = 0;
    CHECK(!pthread_create(&thread, NULL, wait_long, NULL), "no thread");
    while (!done)
        usleep(1000);
    usleep(20000);
    pthread_cancel(thread);
    ends_cancelled(thread, "a wait by poll");
#else
    (void)wait_long;
#endif
}

int main(void)
{
    struct binder_transaction_data reply;
    raw_begin(20);
    pid_t manager = raw_start_manager(NULL);
    raw_open(&client, WINDOW, NULL);
    CHECK(raw_call(&client.looper, (struct call){0}, &reply) == BR_REPLY, "no reply");
    looper_free(&client.looper, &reply);
    size_t before = raw_descriptors(getpid());
    are_done();
    is_cancelled_while_it_waits();
    CHECK(raw_descriptors(getpid()) == before, "%zu descriptors are open after %zu", raw_descriptors(getpid()), before);
    CHECK(raw_call(&client.looper, (struct call){0}, &reply) == BR_REPLY, "no reply any more");
    printf("cancelled between ioctls, and in a wait by poll\n");
    raw_kill(manager);
    return 0;
}
