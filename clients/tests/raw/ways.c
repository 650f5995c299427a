/* SPDX-License-Identifier: Apache-2.0 OR MIT */
/*
 * ways: small ways of Linux's driver. A two-way call leaves nothing to be read or polled before its reply, also where it carries
 * an object, or a death notification was to be taken back before that wasn't there; a thread that never was in the loop isn't told that
 * a death notification was taken back, but another of its process is, which waits, or polls, or comes later: after what came to the
 * process before, and not in the read that tells of its own one-way call; the manager can't have a reference on itself. And a reply comes,
 * however much its call's write goes on with.
 *
 * Of the daemon alone: of two that wait who has room is told that a notification was taken back, though one without waits too.
 */
#include "raw.h"

#include <errno.h>
#include <fcntl.h>
#include <poll.h>
#include <pthread.h>
#include <semaphore.h>
#include <stdio.h>
#include <string.h>
#include <sys/ioctl.h>
#include <time.h>
#include <unistd.h>

enum { GIVE = 1, TAKE, TAKE_TIME, ASK_ITSELF, ANSWER, RING };

/* Commands that take some turns of the daemon. */
#define GOING_ON 480

/* So often a server ends meanwhile. */
#define ENDS 3

#define COOKIE 0x777000

/* A handle that nobody has. */
#define NOBODY 77

/* Too little for any return but BR_NOOP. */
#define TIGHT 72
#define ROOMY 256

/* A bare write of some bytes: the ioctl's errno, or 0. */
static int written(int fd, const struct commands *commands)
{
    struct binder_write_read both = {.write_size = commands->size, .write_buffer = (uintptr_t)commands->bytes};
    return ioctl(fd, BINDER_WRITE_READ, &both) ? errno : 0;
}

static uint32_t asks_itself(struct looper *looper)
{
    static const uint32_t codes[] = {BC_INCREFS, BC_ACQUIRE};
    for (size_t i = 0; i < sizeof codes / sizeof *codes; i++) {
        struct commands commands = {0};
        put_handle(&commands, codes[i], 0);
        int error = written(looper->binder->fd, &commands);
        if (error != EINVAL)
            return 1 + (uint32_t)error;
    }
    return 0;
}

/* Makes a one-way call on the object that came. */
static void ring(struct looper *looper, const struct binder_transaction_data *call)
{
    struct binder_transaction_data reply;
    uint32_t code = raw_call(looper, (struct call){.handle = raw_keep(looper, call), .flags = TF_ONE_WAY}, &reply);
    CHECK(code == BR_TRANSACTION_COMPLETE, "a one-way call came to %x", code);
}

static void serve(struct looper *looper, const struct binder_transaction_data *call)
{
    struct writer object = {0};
    if (call->code == RING)
        ring(looper, call);
    if (call->code == GIVE)
        write_own_object(&object, 0x1000, 0x1000);
    if (call->code == TAKE) {
        raw_keep(looper, call); /* what is let go of by then nobody is told of */
        usleep(200000);
    }
    if (call->code == TAKE_TIME)
        usleep(200000);
    if (call->code == ASK_ITSELF)
        write_number(&object, asks_itself(looper));
    struct binder_transaction_data answer = record_of(&object);
    CHECK(looper_answer(looper, &answer, 0), "can't answer");
    writer_free(&object);
}

/* Writes and reads, and tells the codes that came behind BR_NOOP; -1 with errno in place of a number. */
static ssize_t write_and_read_codes(int fd, const struct commands *commands, uint32_t codes[8])
{
    uint8_t room[256];
    struct binder_write_read both = {.write_size = commands->size, .write_buffer = (uintptr_t)commands->bytes,
                                     .read_size = sizeof room, .read_buffer = (uintptr_t)room};
    if (ioctl(fd, BINDER_WRITE_READ, &both))
        return -1;
    struct returns returns = {room + sizeof(uint32_t), room + both.read_consumed};
    const uint8_t *payload;
    size_t count = 0;
    while (count < 8 && next_return(&returns, &codes[count], &payload))
        count++;
    return (ssize_t)count;
}

static ssize_t read_codes(int fd, uint32_t codes[8])
{
    return write_and_read_codes(fd, &(struct commands){0}, codes);
}

/* Without the wait that would hide it. */
static void read_nothing(int fd)
{
    uint32_t codes[8];
    CHECK(!fcntl(fd, F_SETFL, O_NONBLOCK), "O_NONBLOCK");
    CHECK(read_codes(fd, codes) < 0 && errno == EAGAIN, "there is something to be read before the reply, %x", codes[0]);
    CHECK(!fcntl(fd, F_SETFL, 0), "no O_NONBLOCK");
}

/* The reply takes its time, and is the first that poll tells of. */
static void poll_for_reply(int fd)
{
    struct pollfd file = {.fd = fd, .events = POLLIN};
    CHECK(poll(&file, 1, 50) == 0, "poll tells of something before the reply");
    CHECK(poll(&file, 1, RAW_PATIENCE) == 1, "poll doesn't tell of the reply");
}

/* Without a function the read begins with the write, and waits before there is anything. */
static void defers(void (*before)(int fd))
{
    static const uint32_t wanted[] = {BR_INCREFS, BR_ACQUIRE, BR_TRANSACTION_COMPLETE, BR_REPLY};
    struct client client;
    struct writer object = {0};
    uint32_t codes[8];
    raw_open(&client, WINDOW, NULL);
    write_own_object(&object, 0x4000, 0x5000);
    struct binder_transaction_data call = record_of(&object);
    call.code = TAKE;
    put_record(&client.looper.commands, BC_TRANSACTION, &call);
    if (before) {
        CHECK(looper_flush(&client.looper), "can't write");
        before(client.binder.fd);
    }
    ssize_t count = write_and_read_codes(client.binder.fd, &client.looper.commands, codes);
    CHECK(count == 4 && !memcmp(codes, wanted, sizeof wanted), "%zd returns came with the reply, of which the first is %x", count, codes[0]);
    writer_free(&object);
    binder_close(&client.binder);
}

/* Nothing comes of taking a notification back that isn't there, so the call behind it leaves nothing either. */
static void defers_behind_clearing_in_vain(void)
{
    const struct binder_transaction_data call = {.code = TAKE_TIME};
    struct client client;
    raw_open(&client, WINDOW, NULL);
    put_code(&client.looper.commands, BC_ENTER_LOOPER);
    put_death(&client.looper.commands, BC_CLEAR_DEATH_NOTIFICATION, NOBODY, COOKIE);
    put_record(&client.looper.commands, BC_TRANSACTION, &call);
    CHECK(looper_flush(&client.looper), "can't write");
    read_nothing(client.binder.fd);
    binder_close(&client.binder);
}

/* A call, and so much behind it that others have their turns before the read begins: how many returns that got, and which. */
static ssize_t call_and_go_on(int fd, uint32_t codes[8])
{
    const struct binder_transaction_data call = {.code = ANSWER};
    struct commands commands = {0};
    put_record(&commands, BC_TRANSACTION, &call);
    for (int i = 0; i < GOING_ON; i++)
        put_code(&commands, BC_ENTER_LOOPER);
    return write_and_read_codes(fd, &commands, codes);
}

static void goes_on(void)
{
    struct client client;
    uint32_t codes[8];
    raw_open(&client, WINDOW, NULL);
    ssize_t count = call_and_go_on(client.binder.fd, codes);
    CHECK(count == 2 && codes[0] == BR_TRANSACTION_COMPLETE && codes[1] == BR_REPLY, "%zd returns came with the reply, %x", count, codes[0]);
    binder_close(&client.binder);
}

/* A thread that calls once it may, while the daemon is stopped. */
struct late {
    struct client client;
    sem_t may_call, is_there;
};

static void *call_late(void *with)
{
    struct late *late = with;
    struct commands enter = {0};
    uint32_t codes[8];
    put_code(&enter, BC_ENTER_LOOPER);
    CHECK(!written(late->client.binder.fd, &enter), "can't enter the loop");
    sem_post(&late->is_there);
    while (sem_wait(&late->may_call))
        ;
    ssize_t count = call_and_go_on(late->client.binder.fd, codes);
    CHECK(count >= 1 && codes[count - 1] == BR_DEAD_REPLY, "%zd returns came where the server has ended, %x", count, codes[0]);
    return with;
}

/* Has the daemon's latest turn be one for an end, so that who calls next comes before another end. */
static void end_another(void)
{
    struct client another;
    struct commands enter = {0};
    raw_open(&another, WINDOW, NULL);
    put_code(&enter, BC_ENTER_LOOPER); /* a short turn, after which this user owes nothing */
    CHECK(!written(another.binder.fd, &enter), "can't enter the loop");
    binder_close(&another.binder);
    usleep(100000);
}

/* The same where the answer is that the server has ended. The daemon finds that and the call at once, the call first: so it sees to
   the end between two of the turns that the write takes. */
static void goes_on_beside_end(pid_t server)
{
    struct late late;
    pthread_t thread;
    raw_open(&late.client, WINDOW, NULL);
    CHECK(!sem_init(&late.may_call, 0, 0) && !sem_init(&late.is_there, 0, 0), "no semaphore");
    CHECK(!pthread_create(&thread, NULL, call_late, &late), "no thread");
    while (sem_wait(&late.is_there))
        ;
    end_another();
    raw_stop_daemon();
    sem_post(&late.may_call);
    usleep(100000); /* it has called by now; were it later, it would be told that nobody is there */
    raw_kill(server);
    raw_continue_daemon();
    pthread_join(thread, NULL);
    binder_close(&late.client.binder);
}

/* Its threads: one that takes notifications back, and one in the loop. */
static struct client both;
static uint32_t handle;

static void begin_both(void)
{
    struct binder_transaction_data reply;
    raw_open(&both, WINDOW, NULL);
    CHECK(raw_call(&both.looper, (struct call){.code = GIVE}, &reply) == BR_REPLY, "no object came");
    handle = raw_keep(&both.looper, &reply);
    looper_free(&both.looper, &reply);
    CHECK(looper_flush(&both.looper), "can't write");
}

static void *take_back(void *with)
{
    struct looper looper;
    raw_looper(&looper, &both, NULL);
    put_death(&looper.commands, BC_REQUEST_DEATH_NOTIFICATION, handle, COOKIE);
    put_death(&looper.commands, BC_CLEAR_DEATH_NOTIFICATION, handle, COOKIE);
    CHECK(looper_flush(&looper), "can't take a death notification back");
    return with;
}

static void *take_back_later(void *with)
{
    usleep(100000); /* the other waits by then; were it later, it would be told the same */
    take_back(with);
    read_nothing(both.binder.fd);
    return with;
}

/* The next read gets this return alone. */
static void reads_one(uint32_t wanted, const char *who)
{
    uint32_t codes[8];
    ssize_t count = read_codes(both.binder.fd, codes);
    CHECK(count == 1 && codes[0] == wanted, "who %s read %zd returns, %x, wanted %x", who, count, codes[0], wanted);
}

static void is_told(const char *how)
{
    reads_one(BR_CLEAR_DEATH_NOTIFICATION_DONE, how);
}

static void polls(void)
{
    struct pollfd file = {.fd = both.binder.fd, .events = POLLIN};
    CHECK(poll(&file, 1, RAW_PATIENCE) == 1, "poll doesn't tell of all");
}

static void have_taken_back(void)
{
    pthread_t thread;
    CHECK(!pthread_create(&thread, NULL, take_back, NULL), "no thread");
    pthread_join(thread, NULL);
}

/* One that polls hears of a one-way call that it has written, and by another read of what another thread takes back before that. */
static void is_told_behind_call(void)
{
    const struct binder_transaction_data call = {.code = GIVE, .flags = TF_ONE_WAY};
    put_record(&both.looper.commands, BC_TRANSACTION, &call);
    CHECK(looper_flush(&both.looper), "can't write");
    have_taken_back();
    polls();
    reads_one(BR_TRANSACTION_COMPLETE, "polls behind a call");
    polls();
    is_told("polls again");
}

/* A call that came to the process before is read first. */
static void is_told_in_order(void)
{
    struct writer object = {0};
    struct binder_transaction_data reply;
    write_own_object(&object, 0x8000, 0x9000);
    CHECK(raw_call_with(&both.looper, (struct call){.code = RING}, &object, &reply) == BR_REPLY, "the object wasn't taken");
    looper_free(&both.looper, &reply);
    CHECK(looper_flush(&both.looper), "can't write");
    have_taken_back();
    reads_one(BR_TRANSACTION, "is called");
    is_told("was called before");
}

/* Two that wait: one without room for anything, which comes first to the process and last to wait; and one with room. */
static sem_t tight_may_wait, is_in_loop, is_heard;

static void enter_loop(struct looper *looper)
{
    raw_looper(looper, &both, NULL);
    put_code(&looper->commands, BC_ENTER_LOOPER);
    CHECK(looper_flush(looper), "can't enter the loop"); /* a thread's first ioctl reads nothing, so that it isn't the one that waits */
    sem_post(&is_in_loop);
}

static void *wait_without_room(void *with)
{
    struct looper looper;
    uint8_t room[TIGHT];
    enter_loop(&looper);
    while (sem_wait(&tight_may_wait))
        ;
    ssize_t size = binder_exchange(&both.binder, &looper.commands, room, sizeof room);
    CHECK(size == sizeof(uint32_t), "who has no room read %zd bytes", size);
    return with;
}

static void *wait_with_room(void *with)
{
    struct looper looper;
    uint32_t codes[8];
    enter_loop(&looper);
    ssize_t count = read_codes(both.binder.fd, codes);
    CHECK(count == 1 && codes[0] == BR_CLEAR_DEATH_NOTIFICATION_DONE, "who has room read %zd returns, %x", count, codes[0]);
    sem_post(&is_heard);
    return with;
}

static void start_in_loop(pthread_t *thread, void *(*body)(void *with))
{
    CHECK(!pthread_create(thread, NULL, body, NULL), "no thread");
    while (sem_wait(&is_in_loop))
        ;
    usleep(100000); /* it waits by then, if it may */
}

static void tells_who_has_room(void)
{
    struct timespec end;
    pthread_t tight, roomy;
    CHECK(!sem_init(&tight_may_wait, 0, 0) && !sem_init(&is_in_loop, 0, 0) && !sem_init(&is_heard, 0, 0), "no semaphore");
    begin_both();
    start_in_loop(&tight, wait_without_room);
    start_in_loop(&roomy, wait_with_room);
    sem_post(&tight_may_wait);
    usleep(100000);
    take_back(NULL);
    clock_gettime(CLOCK_REALTIME, &end);
    end.tv_sec += RAW_PATIENCE / 1000;
    CHECK(!sem_timedwait(&is_heard, &end), "who has room isn't told");
    pthread_join(tight, NULL);
    pthread_join(roomy, NULL);
    binder_close(&both.binder);
}

static void tells_another(void)
{
    pthread_t thread;
    begin_both();
    take_back(NULL);
    read_nothing(both.binder.fd);
    put_code(&both.looper.commands, BC_ENTER_LOOPER);
    CHECK(looper_flush(&both.looper), "can't enter the loop");
    is_told("comes later");
    CHECK(!pthread_create(&thread, NULL, take_back_later, NULL), "no thread");
    is_told("waits");
    pthread_join(thread, NULL);
    CHECK(!pthread_create(&thread, NULL, take_back_later, NULL), "no thread");
    polls();
    is_told("polls");
    pthread_join(thread, NULL);
    read_nothing(both.binder.fd);
    is_told_behind_call();
    is_told_in_order();
    binder_close(&both.binder);
}

static void call_one_way(void *with)
{
    const struct binder_transaction_data call = {.code = GIVE, .flags = TF_ONE_WAY};
    struct client client;
    (void)with;
    raw_open(&client, WINDOW, NULL);
    put_record(&client.looper.commands, BC_TRANSACTION, &call);
    CHECK(looper_flush(&client.looper), "can't call");
    raw_ready();
    pause();
}

/* What a thread writes that polls and reads nothing takes nothing away of what there is to be read. */
static void polls_on(void)
{
    struct client client;
    uint32_t codes[8];
    raw_open(&client, WINDOW, NULL);
    CHECK(binder_become_manager(&client.binder), "can't be the context manager");
    put_code(&client.looper.commands, BC_ENTER_LOOPER);
    CHECK(looper_flush(&client.looper), "can't enter the loop");
    struct pollfd file = {.fd = client.binder.fd, .events = POLLIN};
    CHECK(poll(&file, 1, 0) == 0, "poll tells of a call before it comes");
    pid_t caller = raw_start(call_one_way, NULL);
    for (int i = 0; i < 3; i++) {
        CHECK(poll(&file, 1, RAW_PATIENCE) == 1, "poll tells of a call %d times alone", i);
        put_code(&client.looper.commands, BC_ENTER_LOOPER);
        CHECK(looper_flush(&client.looper), "can't write");
    }
    CHECK(read_codes(client.binder.fd, codes) == 1 && codes[0] == BR_TRANSACTION, "no call came");
    CHECK(poll(&file, 1, 50) == 0, "poll tells of a call that was read");
    raw_kill(caller);
    binder_close(&client.binder);
}

int main(void)
{
    struct client client;
    raw_begin(30);
    polls_on();
    pid_t manager = raw_start_manager(serve);
    defers(read_nothing);
    defers(poll_for_reply);
    defers(NULL);
    defers_behind_clearing_in_vain();
    tells_another();
    if (raw_daemon())
        tells_who_has_room();
    goes_on();
    raw_open(&client, WINDOW, NULL);
    CHECK(raw_ask(&client.looper, (struct call){.code = ASK_ITSELF}) == 0, "the manager has a reference on itself");
    for (int i = 0; raw_daemon() && i < ENDS; i++, manager = raw_start_manager(serve))
        goes_on_beside_end(manager);
    raw_kill(manager);
    printf("nothing before a reply, told to another, none on itself\n");
    return 0;
}
