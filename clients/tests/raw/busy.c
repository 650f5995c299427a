/* SPDX-License-Identifier: Apache-2.0 OR MIT */
/*
 * busy serve|call|hold [SECONDS [PAUSE]]: a part of a soak, to be killed at any time. `serve` becomes the context manager,
 * however often another has to go first; `call` calls in turn one-way and two-way, with parcels of all sizes, buffers,
 * descriptors alone and in arrays, and weak objects, and is handed objects of others, which it calls, hands back and lets go of again,
 * and whose deaths it asks to be told; `hold` gives its object to the server, which calls it, one-way and two-way. The latter, and most
 * of those who call, have a second thread in the loop, which waits or polls, answers others, and hears of deaths there.
 *
 * Both pause for so many microseconds behind each call. What others' deaths do to them is no failure, so they end with 0; a wrong
 * answer is one, and so is a call that isn't answered in time, or a death that isn't told. Prints how many calls were answered.
 */
#include "raw.h"

#include <errno.h>
#include <fcntl.h>
#include <poll.h>
#include <pthread.h>
#include <signal.h>
#include <stdatomic.h>
#include <stdio.h>
#include <stdlib.h>
#include <string.h>
#include <sys/ioctl.h>
#include <unistd.h>

enum { ECHO = 1, KEEP, GLANCE, TEXT, COUNT_ON, HAND, BACK, WHO };

#define LARGEST 200000

/* What takes longer than so many microseconds counts as hanging. */
#define HANGS 5e6

#define OWN 0x9000

static double until;
static useconds_t pause_us;
static unsigned long answered;

/* --- What may hang. --- */

static _Atomic double since; /* when the call began that is waited for; 0: none */

static void *watch(void *with)
{
    for (;;) {
        double began = atomic_load(&since);
        errno = 0;
        CHECK(!began || raw_now() - began < HANGS, "a call isn't answered");
        usleep(100000);
    }
    return with;
}

static uint32_t timed_call(struct looper *looper, struct call call, struct writer *writer, struct binder_transaction_data *reply)
{
    atomic_store(&since, raw_now());
    uint32_t ending = writer ? raw_call_with(looper, call, writer, reply) : raw_call(looper, call, reply);
    atomic_store(&since, 0);
    CHECK(ending, "the device failed");
    answered += ending == BR_REPLY;
    return ending;
}

/* A call of the server. Whether it was answered; where it wasn't, there is no server just now. */
static bool ask(struct client *client, uint32_t code, struct writer *writer, struct binder_transaction_data *reply)
{
    if (timed_call(&client->looper, (struct call){.code = code}, writer, reply) == BR_REPLY)
        return true;
    usleep(1000);
    return false;
}

/* --- Parcels: buffers that lead to one another, and descriptors that hold a number each. --- */

/* Nothing can be put into a buffer whose object stands at the very front, so a number does. */
struct text {
    binder_uintptr_t at;
    uint64_t size;
};

static void write_text(struct writer *writer, const struct text *text)
{
    write_number(writer, 1);
    int outer = write_buffer(writer, text, sizeof *text, -1, 0);
    write_buffer(writer, (const void *)(uintptr_t)text->at, text->size, outer, 0);
}

static struct text received_text(const struct binder_transaction_data *record)
{
    struct {
        uint32_t number;
        struct binder_buffer_object outer, inner;
    } __attribute__((packed)) parcel;
    struct text text;
    CHECK(record->data_size == sizeof parcel, "%llu bytes in place of a text", (unsigned long long)record->data_size);
    memcpy(&parcel, raw_data(record), sizeof parcel);
    memcpy(&text, (const void *)(uintptr_t)parcel.outer.buffer, sizeof text);
    CHECK(text.at == parcel.inner.buffer && text.size == parcel.inner.length, "a pointer doesn't lead to its buffer");
    return text;
}

#define HELD 3

/* Two in an array, and one alone; each can be read for its number. */
struct descriptors {
    uint32_t array[HELD - 1];
    int alone;
};

static int holding(uint32_t number)
{
    int ends[2];
    CHECK(!pipe2(ends, O_CLOEXEC) && write(ends[1], &number, sizeof number) == sizeof number, "no pipe");
    close(ends[1]);
    return ends[0];
}

static void write_holding(struct writer *writer, struct descriptors *all, uint32_t number)
{
    write_number(writer, HELD);
    all->array[0] = (uint32_t)holding(number), all->array[1] = (uint32_t)holding(number + 1), all->alone = holding(number + 2);
    int buffer = write_buffer(writer, all->array, sizeof all->array, -1, 0);
    write_descriptors(writer, HELD - 1, buffer, 0);
    write_descriptor(writer, all->alone);
}

static void close_all(const struct descriptors *all)
{
    close((int)all->array[0]);
    close((int)all->array[1]);
    close(all->alone);
}

static uint32_t number_in(int descriptor)
{
    uint32_t number;
    CHECK(descriptor > 2 && read(descriptor, &number, sizeof number) == sizeof number, "nothing in descriptor %d", descriptor);
    return number;
}

/* The number that the first holds; the others have to hold the next ones. Those of the array go with the buffer. */
static uint32_t received_number(const struct binder_transaction_data *record)
{
    struct {
        uint32_t count;
        struct binder_buffer_object buffer;
        struct binder_fd_array_object array;
        struct binder_fd_object alone;
    } __attribute__((packed)) parcel;
    uint32_t array[HELD - 1];
    CHECK(record->data_size == sizeof parcel, "%llu bytes in place of descriptors", (unsigned long long)record->data_size);
    memcpy(&parcel, raw_data(record), sizeof parcel);
    memcpy(array, (const void *)(uintptr_t)parcel.buffer.buffer, sizeof array);
    uint32_t number = number_in((int)array[0]), next = number_in((int)array[1]), last = number_in((int)parcel.alone.fd);
    CHECK(next == number + 1 && last == number + 2, "descriptors hold %u, %u and %u", number, next, last);
    close((int)parcel.alone.fd);
    return number;
}

static void write_weak(struct writer *writer, uint32_t type, uint64_t what)
{
    size_t at = writer->size;
    if (type == BINDER_TYPE_WEAK_BINDER)
        write_own_object(writer, what, what);
    else
        write_strong_handle(writer, (uint32_t)what);
    CHECK(!writer->failed, "no memory");
    memcpy(writer->data + at, &type, sizeof type);
}

/* --- The server. --- */

/* Which handles it holds, each since when: until it hears of a death. */
static uint32_t held[4096], serial, latest;

static void forget(struct looper *looper, binder_uintptr_t cookie)
{
    put_handle(&looper->commands, BC_RELEASE, (uint32_t)cookie);
    held[cookie] = 0;
    latest = latest == cookie ? 0 : latest;
}

/* The holder is called two-way, which comes to its thread that waits, and perhaps one-way, which comes to one in its loop. */
static void keep(struct looper *looper, const struct binder_transaction_data *call)
{
    struct binder_transaction_data reply;
    uint32_t handle = raw_keep(looper, call);
    if (timed_call(looper, (struct call){.handle = handle, .code = WHO}, NULL, &reply) == BR_REPLY)
        looper_free(looper, &reply);
    if (rand() % 4 == 0)
        timed_call(looper, (struct call){.handle = handle, .code = ECHO, .flags = TF_ONE_WAY}, NULL, &reply);
    if (handle >= sizeof held / sizeof *held || held[handle]) {
        put_handle(&looper->commands, BC_RELEASE, handle);
    } else {
        held[latest = handle] = ++serial;
        put_death(&looper->commands, BC_REQUEST_DEATH_NOTIFICATION, handle, handle);
    }
    raw_answer(looper, NULL, 0);
}

static struct flat_binder_object object_of(const struct binder_transaction_data *record)
{
    struct flat_binder_object object;
    CHECK(record->offsets_size == sizeof(binder_size_t), "%llu bytes of offsets", (unsigned long long)record->offsets_size);
    memcpy(&object, (const uint8_t *)raw_data(record) + *(const binder_size_t *)(uintptr_t)record->data.ptr.offsets, sizeof object);
    return object;
}

/* A weak object is asked for weakly, and let go of. */
static void glance(struct looper *looper, const struct binder_transaction_data *call)
{
    struct flat_binder_object object = object_of(call);
    CHECK(object.hdr.type == BINDER_TYPE_WEAK_HANDLE, "an object of type %x in place of a weak one", object.hdr.type);
    put_handle(&looper->commands, BC_INCREFS, object.handle);
    raw_answer(looper, NULL, 0);
    put_handle(&looper->commands, BC_DECREFS, object.handle);
}

static void answer_with(struct looper *looper, struct writer *writer)
{
    struct binder_transaction_data answer = record_of(writer);
    CHECK(!writer->failed && looper_answer(looper, &answer, writer->buffers), "can't answer");
    writer_free(writer);
}

static void count_on(struct looper *looper, const struct binder_transaction_data *call)
{
    struct writer writer = {0};
    struct descriptors all;
    write_holding(&writer, &all, received_number(call) + 1);
    answer_with(looper, &writer);
    close_all(&all);
}

/* What it hands over, and how it will know that again. */
struct handed {
    uint32_t server; /* its pid: another one knows nothing of it */
    uint32_t handle; /* of the server; 0: its own object */
    uint32_t since;
};

static void hand(struct looper *looper)
{
    struct writer writer = {0};
    write_number(&writer, (uint32_t)getpid());
    write_number(&writer, latest);
    write_number(&writer, latest ? held[latest] : 0);
    if (latest)
        write_strong_handle(&writer, latest);
    else
        write_own_object(&writer, OWN, OWN);
    answer_with(looper, &writer);
}

/* What comes back is what it was; where it was let go of meanwhile, its number may be another's. */
static void see_back(struct looper *looper, const struct binder_transaction_data *call)
{
    struct handed handed;
    memcpy(&handed, raw_data(call), sizeof handed);
    struct flat_binder_object object = object_of(call);
    bool is_own = object.hdr.type == BINDER_TYPE_BINDER || object.hdr.type == BINDER_TYPE_WEAK_BINDER;
    bool is_mine = handed.server == (uint32_t)getpid();
    bool is_held = is_mine && handed.handle && held[handed.handle] == handed.since;
    CHECK(is_own == (is_mine && !handed.handle) && (!is_own || object.binder == OWN), "object %u came back as another", handed.handle);
    CHECK(!is_held || object.handle == handed.handle, "handle %u came back as %u", handed.handle, object.handle);
    raw_answer(looper, NULL, 0);
}

static void serve(struct looper *looper, const struct binder_transaction_data *call)
{
    struct writer writer = {0};
    struct text text;
    uint32_t own_pid = (uint32_t)getpid();
    looper->died = forget;
    if (call->flags & TF_ONE_WAY)
        return;
    switch (call->code) {
    case KEEP:
        keep(looper, call);
        break;
    case GLANCE:
        glance(looper, call);
        break;
    case TEXT:
        text = received_text(call);
        write_text(&writer, &text);
        answer_with(looper, &writer);
        break;
    case COUNT_ON:
        count_on(looper, call);
        break;
    case HAND:
        hand(looper);
        break;
    case BACK:
        see_back(looper, call);
        break;
    case WHO:
        raw_answer(looper, &own_pid, sizeof own_pid);
        break;
    default:
        raw_answer(looper, raw_data(call), call->data_size);
    }
}

static void run_server(void)
{
    struct client client;
    raw_open(&client, WINDOW, serve);
    while (!raw_become_taking_manager(&client.binder) && errno == EBUSY && raw_now() < until)
        usleep(1000);
    looper_run(&client.looper);
}

/* --- What a process has met: objects of others, which it holds for a while. --- */

#define MET 16

static struct met {
    struct handed handed;
    uint32_t handle;                   /* 0: none */
    pid_t owner;                       /* 0: it hasn't told */
    double gone;                       /* when its owner was first seen to have ended; 0: not yet */
    _Atomic binder_uintptr_t awaited;  /* whose death is asked for by this cookie; 0: it isn't, or has been told */
} all_met[MET];

static _Atomic binder_uintptr_t last_cookie;
static bool has_listener;

/* In the thread that is in the loop. One that was taken back meanwhile may have been on its way. */
static void heard(struct looper *looper, binder_uintptr_t cookie)
{
    (void)looper;
    CHECK(cookie && cookie <= atomic_load(&last_cookie), "a death is told by a cookie that nobody has given, %llx",
          (unsigned long long)cookie);
    for (size_t i = 0; i < MET; i++) {
        binder_uintptr_t awaited = cookie;
        atomic_compare_exchange_strong(&all_met[i].awaited, &awaited, 0);
    }
}

/* A handle that it has met already it holds once more, and doesn't ask for its death again. */
static bool is_met(uint32_t handle)
{
    for (size_t i = 0; i < MET; i++)
        if (all_met[i].handle == handle)
            return true;
    return false;
}

/* Lets go of one; mostly it takes back first that it wants to be told of its death. */
static void part(struct looper *looper, struct met *met)
{
    binder_uintptr_t awaited = atomic_exchange(&met->awaited, 0);
    if (awaited && rand() % 4)
        put_death(&looper->commands, BC_CLEAR_DEATH_NOTIFICATION, met->handle, awaited);
    put_handle(&looper->commands, BC_RELEASE, met->handle);
    met->handle = 0;
    CHECK(looper_flush(looper), "can't let go of an object");
}

/* Calls it, and hands it back to the server, strongly or weakly. */
static void get_to_know(struct client *client, struct met *met)
{
    struct writer writer = {0};
    struct binder_transaction_data reply;
    if (timed_call(&client->looper, (struct call){.handle = met->handle, .code = WHO}, NULL, &reply) == BR_REPLY) {
        met->owner = (pid_t)raw_number(&reply);
        looper_free(&client->looper, &reply);
    }
    write_number(&writer, met->handed.server);
    write_number(&writer, met->handed.handle);
    write_number(&writer, met->handed.since);
    if (rand() % 2)
        write_strong_handle(&writer, met->handle);
    else
        write_weak(&writer, BINDER_TYPE_WEAK_HANDLE, met->handle);
    if (ask(client, BACK, &writer, &reply))
        looper_free(&client->looper, &reply);
}

static void meet(struct client *client)
{
    static size_t next;
    struct met *met = &all_met[next++ % MET];
    struct binder_transaction_data reply;
    if (met->handle)
        part(&client->looper, met);
    if (!ask(client, HAND, NULL, &reply))
        return;
    uint32_t handle = raw_keep(&client->looper, &reply);
    bool is_new = !is_met(handle);
    memcpy(&met->handed, raw_data(&reply), sizeof met->handed);
    met->handle = handle, met->owner = 0, met->gone = 0;
    looper_free(&client->looper, &reply);
    if (is_new) {
        binder_uintptr_t cookie = atomic_fetch_add(&last_cookie, 1) + 1;
        atomic_store(&met->awaited, cookie);
        put_death(&client->looper.commands, BC_REQUEST_DEATH_NOTIFICATION, handle, cookie);
    }
    get_to_know(client, met);
}

/* Of those that have ended it has heard, where somebody listens. */
static void see_deaths(void)
{
    for (size_t i = 0; i < MET && has_listener; i++) {
        struct met *met = &all_met[i];
        if (!atomic_load(&met->awaited) || !met->owner || (!kill(met->owner, 0) || errno != ESRCH))
            continue;
        met->gone = met->gone ? met->gone : raw_now();
        CHECK(raw_now() - met->gone < HANGS, "the end of %d isn't told", met->owner);
    }
}

/* --- A second thread, in the loop. --- */

static void answer_others(struct looper *looper, const struct binder_transaction_data *call)
{
    uint32_t own_pid = (uint32_t)getpid();
    if (!(call->flags & TF_ONE_WAY))
        raw_answer(looper, &own_pid, sizeof own_pid);
}

static void *listen_in(void *with)
{
    struct client *client = with;
    struct looper looper;
    struct turn turn;
    bool polls = rand() % 2;
    struct pollfd file = {.fd = client->binder.fd, .events = POLLIN};
    raw_looper(&looper, client, answer_others);
    looper.died = heard;
    put_code(&looper.commands, BC_ENTER_LOOPER);
    CHECK(looper_flush(&looper), "can't enter the loop");
    do {
        if (polls)
            CHECK(poll(&file, 1, -1) == 1, "can't poll");
    } while (looper_turn(&looper, &turn));
    raw_fail(__FILE__, __LINE__, "the device failed");
}

static void begin(struct client *client, bool listens)
{
    pthread_t thread;
    uint32_t wants_warnings = rand() % 2;
    raw_open(client, WINDOW, answer_others);
    CHECK(!ioctl(client->binder.fd, BINDER_ENABLE_ONEWAY_SPAM_DETECTION, &wants_warnings), "it can't be warned of flooding");
    has_listener = listens;
    if (listens)
        CHECK(!pthread_create(&thread, NULL, listen_in, client), "no thread");
}

/* --- Those who call. --- */

static uint8_t bytes[LARGEST];

static size_t any_size(void)
{
    return rand() % 50 ? (size_t)(rand() % 300) : (size_t)(rand() % LARGEST);
}

/* A parcel that begins with its size, and has more in it the larger it is. */
static void echo(struct client *client)
{
    struct binder_transaction_data reply;
    size_t size = any_size();
    uint32_t flags = (rand() % 4 ? 0 : TF_ONE_WAY) | (rand() % 4 ? 0 : TF_CLEAR_BUF);
    memset(bytes, (int)size, size);
    struct call call = {.code = ECHO, .flags = flags, .bytes = bytes, .size = size};
    if (timed_call(&client->looper, call, NULL, &reply) != BR_REPLY) {
        usleep(flags & TF_ONE_WAY ? 0 : 1000); /* there is no server just now */
        return;
    }
    CHECK(reply.data_size == size && !memcmp(raw_data(&reply), bytes, size), "%zu bytes came back otherwise", size);
    looper_free(&client->looper, &reply);
}

static void send_text(struct client *client)
{
    struct writer writer = {0};
    struct binder_transaction_data reply;
    const struct text text = {(uintptr_t)bytes, any_size() / 2 + 1};
    memset(bytes, (int)text.size, text.size);
    write_text(&writer, &text);
    if (!ask(client, TEXT, &writer, &reply))
        return;
    struct text back = received_text(&reply);
    CHECK(back.size == text.size && !memcmp((const void *)(uintptr_t)back.at, bytes, text.size), "another text came back");
    looper_free(&client->looper, &reply);
}

static void send_descriptors(struct client *client)
{
    struct writer writer = {0};
    struct descriptors all;
    struct binder_transaction_data reply;
    uint32_t number = (uint32_t)rand();
    write_holding(&writer, &all, number);
    bool is_answered = ask(client, COUNT_ON, &writer, &reply);
    close_all(&all);
    if (!is_answered)
        return;
    uint32_t back = received_number(&reply);
    CHECK(back == number + 1, "%u came back for %u", back, number);
    looper_free(&client->looper, &reply);
}

static void give(struct client *client, uint32_t code, uint64_t pointer)
{
    struct writer writer = {0};
    struct binder_transaction_data reply;
    if (code == GLANCE)
        write_weak(&writer, BINDER_TYPE_WEAK_BINDER, pointer);
    else
        write_own_object(&writer, pointer, pointer);
    if (ask(client, code, &writer, &reply))
        looper_free(&client->looper, &reply);
}

/* The thread ends, and the next call is another's. */
static void leave(struct client *client)
{
    CHECK(looper_flush(&client->looper) && !ioctl(client->binder.fd, BINDER_THREAD_EXIT, 0), "the thread can't leave");
}

static void run_caller(void)
{
    struct client client;
    for (begin(&client, rand() % 4); raw_now() < until; usleep(pause_us)) {
        int what = rand() % 100;
        if (what < 50)
            echo(&client);
        else if (what < 60)
            send_text(&client);
        else if (what < 70)
            send_descriptors(&client);
        else if (what < 80)
            give(&client, GLANCE, 0x1000);
        else if (what < 98)
            meet(&client);
        else
            leave(&client);
        see_deaths();
    }
}

/* Others may call its object, which somebody has to answer. */
static void run_holder(void)
{
    struct client client;
    begin(&client, true);
    for (uint64_t i = 0; raw_now() < until; i++, usleep(pause_us))
        give(&client, i % 8 == 7 ? GLANCE : KEEP, 0x1000 + 16 * (i % 8));
}

int main(int argc, char **argv)
{
    unsigned seconds = argc > 2 ? (unsigned)atoi(argv[2]) : 10;
    pthread_t watcher;
    CHECK(argc > 1, "usage: busy serve|call|hold [SECONDS [PAUSE]]");
    pause_us = argc > 3 ? (useconds_t)atoi(argv[3]) : 0;
    raw_begin(seconds + 2);
    srand((unsigned)getpid());
    until = raw_now() + seconds * 1e6;
    CHECK(!pthread_create(&watcher, NULL, watch, NULL), "no thread");
    if (!strcmp(argv[1], "serve"))
        run_server();
    else if (!strcmp(argv[1], "call"))
        run_caller();
    else
        run_holder();
    printf("%lu calls answered\n", answered);
    return 0;
}
