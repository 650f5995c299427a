/* SPDX-License-Identifier: Apache-2.0 OR MIT */
/*
 * processes.c: an open file is a process of its device's engine, from its mmap on: before that it has no window. The
 * end of its control socket is its exit, and so is the end of the process that has opened it: who has the socket then may be
 * the daemon itself, in a parcel that nobody reads any more.
 */
#include "daemon.h"

#include <errno.h>
#include <poll.h>
#include <stdlib.h>
#include <string.h>
#include <sys/epoll.h>
#include <sys/socket.h>
#include <sys/syscall.h>
#include <unistd.h>

#ifndef SO_PEERPIDFD
#define SO_PEERPIDFD 77
#endif

#define PAGE_BYTES 4096u

/* Pids for processes whose own is taken, as by another open file of the same process: above all that a kernel gives. */
#define FIRST_PID (1u << 30)
#define LAST_PID 2147483647u

/* The seat by which the daemon itself makes steps: processes begin and end by it. */
#define OWN_SEAT 0u

/* How long a connection may open nothing. */
#define PATIENCE_NANOSECONDS UINT64_C(5000000000)

/* So many connections at a time are there only to be told that they are too many. */
#define REFUSED_MOST 64u

/* So many threads end with their process in one step. */
#define THREADS_AT_ONCE 16u

/* How often a step that has to be made is tried where there is no memory. */
#define TRIES 100

static struct list *bucket_of(const struct engine *engine, uint32_t engine_pid)
{
    return (struct list *)&engine->by_pid[engine_pid % (sizeof engine->by_pid / sizeof *engine->by_pid)];
}

struct process *process_of(const struct engine *engine, uint32_t engine_pid)
{
    struct list *bucket = bucket_of(engine, engine_pid);
    for (struct list *entry = bucket->next; entry != bucket; entry = entry->next) {
        struct process *process = container_of(entry, struct process, in_bucket);
        if (process->engine_pid == engine_pid)
            return process;
    }
    return NULL;
}

/* A pid for a new process: its own, if no live process of the engine has that. */
static uint32_t free_pid(struct engine *engine, pid_t pid)
{
    if (pid > 0 && !process_of(engine, (uint32_t)pid))
        return (uint32_t)pid;
    do
        engine->last_pid = engine->last_pid < FIRST_PID || engine->last_pid >= LAST_PID ? FIRST_PID : engine->last_pid + 1;
    while (process_of(engine, engine->last_pid));
    return engine->last_pid;
}

/* How many places, of 8 bytes each, a word of `handed` tells of: it has two bits for each. */
#define PLACES_OF_WORD 32

void process_note_handed(struct process *process, uint64_t place, unsigned handed)
{
    if (place >= process->window.size)
        return;
    uint64_t *word = &process->handed[place / 8 / PLACES_OF_WORD];
    uint64_t shift = 2 * (place / 8 % PLACES_OF_WORD), before = *word >> shift & 3;
    process->handed_count += (handed != NOT_HANDED) - (before != NOT_HANDED);
    *word ^= (before ^ handed) << shift;
}

unsigned process_handed(const struct process *process, uint64_t place)
{
    if (place % 8 || place >= process->window.size)
        return NOT_HANDED;
    return process->handed[place / 8 / PLACES_OF_WORD] >> 2 * (place / 8 % PLACES_OF_WORD) & 3;
}

static bool is_secret(const struct process *process, uint64_t place)
{
    return place < process->window.size && process->secret[place / 64] >> place / 8 % 8 & 1;
}

void process_note_secret(struct process *process, uint64_t place, uint64_t size)
{
    for (uint64_t end = place + size; place < end && place < process->window.size; place += 8)
        process->secret[place / 64] |= (uint8_t)(1u << place / 8 % 8);
}

/* It goes as far as the next buffer, should there be another one of that kind right behind. */
void process_clear_secret(struct process *process, uint64_t place)
{
    uint64_t end = place;
    for (; is_secret(process, end) && (end == place || process_handed(process, end) == NOT_HANDED); end += 8)
        process->secret[end / 64] &= (uint8_t)~(1u << end / 8 % 8);
    if (end > place)
        memset(process->window.at + place, 0, end - place);
}

/* What is no errno: the process is no longer here, but its device's, whose thread answers; or nobody can tell who it is. */
enum { HANDED_OVER = -1, UNKNOWN = -2 };

static void leave_strangers(struct process *process)
{
    loop_leave(process->loop, &process->control);
    if (process->end.client)
        loop_leave(process->loop, &process->end);
    client_release(process->client);
    process->client = NULL;
    process->control.client = process->end.client = NULL;
    list_remove(&process->in_engine);
}

static bool join_loop(struct process *process, struct loop *loop)
{
    process->loop = loop;
    process->client = client_hold(&loop->turns, process->whose, process->euid, process->pid);
    return process->client && loop_add_client(loop, &process->control, process->client, EPOLLIN | EPOLLRDHUP)
           && (process->end.fd < 0 || loop_add_client(loop, &process->end, process->client, EPOLLIN));
}

static void end_ready(struct watch *watch)
{
    struct process *process = container_of(watch, struct process, end);
    log_event("process %d has ended, and its file hasn't", process->pid);
    turns_want_end(&process->loop->turns, &process->control);
}

/* Kernels before 6.5 know the process by its number alone, and those before 5.3 don't tell of ends. */
static int open_pidfd(int socket, pid_t pid)
{
    int fd = -1;
    socklen_t size = sizeof fd;
    if (getsockopt(socket, SOL_SOCKET, SO_PEERPIDFD, &fd, &size) == 0)
        return fd;
    return errno == ENOPROTOOPT && pid > 0 ? (int)syscall(SYS_pidfd_open, pid, 0) : -1;
}

/* For the end of the process that has connected. False where it has come already, or can't be waited for. */
static bool open_end(struct process *process)
{
    errno = 0;
    process->end = (struct watch){.fd = open_pidfd(process->control.fd, process->pid), .ready = end_ready};
    if (process->end.fd >= 0)
        return true;
    log_event("the end of process %d can't be seen: %s", process->pid, strerror(errno));
    return errno != ESRCH && errno != EMFILE && errno != ENFILE;
}

/* The process is counted with others than its user alone tells: what it has already counts there. False where that would be too much. */
static bool count_with(struct process *process, uint64_t whose)
{
    struct account *account = whose == process->whose ? NULL : account_hold(whose, process->euid, process->pid);
    if (whose == process->whose)
        return true;
    bool is_taken = account && account_take(account, SHARED_DESCRIPTORS, CONNECTION_DESCRIPTORS);
    if (!is_taken) {
        if (account)
            account_release(account);
        return false;
    }
    account_give(process->account, SHARED_DESCRIPTORS, CONNECTION_DESCRIPTORS);
    account_release(process->account);
    process->account = account;
    descriptors_close_for(account);
    process->whose = whose;
    return true;
}

static void trust_ids(struct ids *ids, uint32_t effective)
{
    if (ids->saved != ids->real)
        ids->saved = effective;
    ids->effective = effective;
}

/* It may have become another program since it connected, which has more rights by an exec: only the real ids, and the effective ones that
   it had then, can't have come by that. */
static void trust_little(struct caller *caller, uid_t euid, gid_t egid)
{
    bool was_root = !caller->users.real || !euid;
    trust_ids(&caller->users, euid);
    trust_ids(&caller->groups, egid);
    caller->may_be_anybody = caller->may_be_anybody && was_root;
    caller->may_be_of_any_group = caller->may_be_of_any_group && was_root;
}

/* Who it is that opens a device. That takes longer than all else of a connection, so it is asked only here, in the turn of who wants it. */
static bool know_caller(struct process *process)
{
    const struct ucred peer = {process->pid, process->euid, process->egid};
    if (!caller_begin(&process->caller, process->control.fd, &peer) || !open_end(process))
        return false;
    process->caller.end = &process->end;
    trust_little(&process->caller, process->euid, process->egid);
    return count_with(process, account_in(process->euid, process->egid, process->caller.folder));
}

static int open_device(struct process *process, const struct control_request *request)
{
    if (process->engine || !memchr(request->device, 0, sizeof request->device))
        return EINVAL;
    if (process->is_refused)
        return EMFILE;
    struct engine *engine = device_engine(process->daemon, request->device);
    if (!engine)
        return errno;
    if (!know_caller(process))
        return UNKNOWN;
    leave_strangers(process);
    process->engine = engine;
    if (engine_hand_over(engine, process))
        return HANDED_OVER;
    process->engine = NULL;
    list_append(&process->daemon->strangers, &process->in_engine);
    if (join_loop(process, &process->daemon->loop))
        return ENODEV;
    process_end(process);
    return HANDED_OVER;
}

void process_arrive(struct process *process)
{
    struct engine *engine = process->engine;
    const struct control_answer answer = {0};
    list_append(&engine->processes, &process->in_engine);
    log_event("process %d (euid %u) opens %s", process->pid, process->euid, engine->device);
    if (!join_loop(process, &engine->loop) || !packet_send(process->control.fd, &answer, sizeof answer, NULL, 0, MSG_DONTWAIT))
        process_end(process);
}

/* Without the daemon's own seat a device can't go on. What is set aside is more than its steps take. */
static void give_up(struct engine *engine)
{
    engine_end(engine, "there is no memory for processes to come or go");
}

/* The daemon's own seat leaves the process that it has opened. */
static bool leave(struct engine *engine)
{
    for (int i = 0; i < TRIES; i++) {
        if (engine_exit_thread(engine, OWN_SEAT) == 0)
            return true;
        reserve_use(engine);
    }
    give_up(engine);
    return false;
}

/* Ends a process by the daemon's own seat, which may have a thread of it already. */
static bool exit_by_own_seat(struct engine *engine, uint32_t engine_pid)
{
    for (int i = 0; i < TRIES; i++) {
        if (engine_exit_process(engine, OWN_SEAT) == 0 && engine->answer.kind == HULLPIPPIN_EXITED)
            return true;
        reserve_use(engine);
        engine_attach(engine, OWN_SEAT, engine_pid);
    }
    give_up(engine);
    return false;
}

int process_enter(struct process *process)
{
    struct engine *engine = process->engine;
    int error = engine_attach(engine, OWN_SEAT, process->engine_pid);
    return error ? error : engine->answer.kind == HULLPIPPIN_OPENED ? 0 : ENOMEM;
}

int process_leave(struct process *process)
{
    return leave(process->engine) ? 0 : ENODEV;
}

/* Opens the process in the engine, where it lives on without the thread that has opened it. */
static int open_in_engine(struct process *process)
{
    struct engine *engine = process->engine;
    uint32_t pid = free_pid(engine, process->pid);
    int error = engine_open(engine, OWN_SEAT, pid, process->euid, (uint32_t)process->window.size);
    if (error || engine->answer.kind != HULLPIPPIN_OPENED)
        return error ? error : ENOMEM;
    process->opened = engine->answer.from;
    if (process->detects_spam)
        error = engine_set_spam(engine, OWN_SEAT, true);
    if (error) {
        exit_by_own_seat(engine, pid);
        return error;
    }
    if (!leave(engine))
        return ENOMEM;
    process->engine_pid = pid;
    list_append(bucket_of(engine, pid), &process->in_bucket);
    return 0;
}

/* As the kernel does, a mapping has whole pages, and a longer one a window of the largest size at its beginning. */
static int map_window(struct process *process, const struct control_request *request)
{
    uint64_t size = request->size > WINDOW_MAX ? WINDOW_MAX : (request->size + PAGE_BYTES - 1) & ~(uint64_t)(PAGE_BYTES - 1);
    if (!process->engine || !size)
        return EINVAL;
    if (process->window.at)
        return EBUSY;
    if (!account_take(process->account, SHARED_WINDOWS, size))
        return ENOMEM;
    process->handed = calloc(size / 8 / PLACES_OF_WORD, sizeof *process->handed);
    process->secret = calloc(size / 64, 1);
    bool is_made = process->handed && process->secret && window_make(&process->window, size, request->base);
    int error = is_made ? open_in_engine(process) : ENOMEM;
    if (error) {
        free(process->handed);
        free(process->secret);
        process->handed = NULL;
        process->secret = NULL;
        window_free(&process->window);
        account_give(process->account, SHARED_WINDOWS, size);
        return error;
    }
    log_event("process %d is %u of %s, with a window of %llu", process->pid, process->engine_pid, process->engine->device,
              (unsigned long long)size);
    return 0;
}

/* Before its mmap a process isn't in the engine yet: then it is marked as it is opened there. */
static int set_spam(struct process *process, bool on)
{
    struct engine *engine = process->engine;
    int error = 0;
    if (process->engine_pid && process->detects_spam != on) {
        error = process_enter(process);
        if (error)
            return error;
        error = engine_set_spam(engine, OWN_SEAT, on);
        process_leave(process);
    }
    if (!error)
        process->detects_spam = on;
    return error;
}

/* The latest steps of a device are for who may know all that its clients say. The device is looked for by the thread of who has opened
   none yet. */
static int open_ring(struct process *process, const struct control_request *request, struct control_answer *answer, int *fd)
{
    if (!user_is_own(process->euid))
        return EPERM;
    if (process->engine || !memchr(request->device, 0, sizeof request->device))
        return EINVAL;
    struct engine *engine = device_engine(process->daemon, request->device);
    if (!engine || !engine->ring.heading)
        return engine ? ENOMEM : errno;
    answer->size = engine->ring.memory.size;
    *fd = engine->ring.memory.fd;
    return 0;
}

/* What came of a packet: there is nothing to be said to such a client; it was answered; or another thread has it. */
enum answered { UNANSWERED, ANSWERED, GONE };

static bool answer_state(struct process *process, const struct control_request *request)
{
    struct state_page page = {0};
    page.error = !user_is_own(process->euid) ? EPERM : !process->engine ? EINVAL : 0;
    if (!page.error)
        state_tell(process->engine, request->size, request->base, &page);
    return packet_send(process->control.fd, &page, sizeof page, NULL, 0, MSG_DONTWAIT);
}

/* A window and its end of a thread's link, which are the first, the client has alone; a thread's page and bell stay, and so does a ring. */
static void let_go_of_sent(struct process *process, uint32_t op, int *fds, uint32_t count)
{
    if (op == CONTROL_MAP)
        process->window.fd = -1;
    for (uint32_t i = 0; i < count && i < 1 && op != CONTROL_RING; i++)
        descriptor_close(&fds[i]);
}

/* Does what a packet asks for; descriptors that go with the answer may go. */
static enum answered do_control(struct process *process, const struct control_request *request, struct control_answer *answer, int fds[3])
{
    switch (request->op) {
    case CONTROL_OPEN:
        answer->error = open_device(process, request);
        return answer->error == UNKNOWN ? UNANSWERED : answer->error == HANDED_OVER ? GONE : ANSWERED;
    case CONTROL_LOOK:
        answer->error = !memchr(request->device, 0, sizeof request->device) || !device_is_there(process->daemon, request->device) ? ENOENT : 0;
        return ANSWERED;
    case CONTROL_MAP:
        answer->error = map_window(process, request);
        answer->size = process->window.size;
        fds[0] = process->window.fd;
        return ANSWERED;
    case CONTROL_MAX_THREADS:
        process->loopers.max = request->size > UINT32_MAX ? UINT32_MAX : (uint32_t)request->size;
        return ANSWERED;
    case CONTROL_SPAM:
        answer->error = set_spam(process, request->size != 0);
        return ANSWERED;
    case CONTROL_THREAD:
        answer->error = thread_join(process, request->size, fds);
        return ANSWERED;
    case CONTROL_RING:
        answer->error = open_ring(process, request, answer, fds);
        return ANSWERED;
    default:
        return UNANSWERED;
    }
}

/* How many descriptors go with the answer to a request that is done. */
static uint32_t descriptors_with(uint32_t op)
{
    return op == CONTROL_THREAD ? 3 : op == CONTROL_MAP || op == CONTROL_RING;
}

/* Who hasn't taken the descriptors of its latest answer gets none. */
static enum answered answer_control(struct process *process, const struct control_request *request)
{
    struct control_answer answer = {.descriptors = descriptors_with(request->op)};
    int fds[3] = {-1, -1, -1};
    if (request->version != PROTOCOL_VERSION)
        return UNANSWERED;
    if (request->op == CONTROL_STATE)
        return answer_state(process, request) ? ANSWERED : UNANSWERED;
    if (answer.descriptors && process->has_sent && !flight_is_taken(process->control.fd)) {
        answer = (struct control_answer){.error = EMFILE};
    } else {
        enum answered answered = do_control(process, request, &answer, fds);
        if (answered != ANSWERED)
            return answered;
    }
    if (answer.error)
        answer.descriptors = 0;
    process->has_sent = process->has_sent || answer.descriptors;
    bool is_sent = packet_send(process->control.fd, &answer, sizeof answer, fds, answer.descriptors, MSG_DONTWAIT);
    let_go_of_sent(process, request->op, fds, answer.descriptors);
    return is_sent ? ANSWERED : UNANSWERED;
}

/* One packet a turn. Where there was one, there may be more. */
static void control_ready(struct watch *watch)
{
    struct process *process = container_of(watch, struct process, control);
    struct control_request request;
    uint32_t count;
    struct turns *turns = &process->loop->turns;
    descriptors_close_for(process->account);
    if (turns_are_ending(turns, watch)) {
        process_end(process);
        return;
    }
    loop_listen(process->loop, watch);
    int received = packet_receive(watch->fd, &request, sizeof request, NULL, 0, &count, MSG_DONTWAIT);
    enum answered answered = received < 0 ? UNANSWERED : received ? answer_control(process, &request) : GONE;
    if (answered == UNANSWERED)
        turns_want_end(turns, watch);
    else if (answered == ANSWERED)
        turns_want(turns, watch);
}

/* Who is over the share is taken all the same, a few at a time, to be told so. */
static bool take_descriptors(struct daemon *daemon, struct process *process, const struct ucred *peer)
{
    process->daemon = daemon;
    process->whose = account_of(peer->uid, peer->gid);
    process->account = account_hold(process->whose, peer->uid, peer->pid);
    if (!process->account)
        return false;
    process->is_refused = !account_take(process->account, SHARED_DESCRIPTORS, CONNECTION_DESCRIPTORS);
    if (!process->is_refused)
        return true;
    log_event("process %d of user %u has its share of descriptors", peer->pid, peer->uid);
    if (daemon->refused_count < REFUSED_MOST) {
        daemon->refused_count++;
        return true;
    }
    account_release(process->account);
    return false;
}

static void give_share(struct process *process)
{
    caller_end(&process->caller);
    if (process->window.size)
        account_give(process->account, SHARED_WINDOWS, process->window.size);
    if (process->is_refused)
        process->daemon->refused_count--;
    else
        account_give(process->account, SHARED_DESCRIPTORS, CONNECTION_DESCRIPTORS);
    account_release(process->account);
}

bool process_has_gone(const struct process *process)
{
    struct pollfd ends[] = {{.fd = process->control.fd, .events = POLLRDHUP}, {.fd = process->end.fd, .events = POLLIN}};
    return poll(ends, 2, 0) > 0;
}

/* Whether who has connected is gone already, having said nothing. */
static bool has_hung_up(int fd)
{
    char byte;
    return recv(fd, &byte, sizeof byte, MSG_PEEK | MSG_DONTWAIT) == 0;
}

void process_accept(struct daemon *daemon, int fd)
{
    struct ucred peer;
    socklen_t size = sizeof peer;
    struct process *process = has_hung_up(fd) ? NULL : calloc(1, sizeof *process);
    if (!process || getsockopt(fd, SOL_SOCKET, SO_PEERCRED, &peer, &size) || !take_descriptors(daemon, process, &peer)) {
        free(process);
        descriptor_end(&fd);
        return;
    }
    process->control = (struct watch){.fd = fd, .ready = control_ready};
    process->came = nanoseconds();
    process->pid = peer.pid;
    process->euid = peer.uid;
    process->egid = peer.gid;
    process->window.fd = process->end.fd = process->caller.folder = -1;
    list_append(&daemon->strangers, &process->in_engine);
    list_begin(&process->in_bucket);
    list_begin(&process->threads);
    list_begin(&process->idle);
    list_begin(&process->in_clearing);
    if (join_loop(process, &daemon->loop))
        return;
    if (process->client)
        client_release(process->client);
    list_remove(&process->in_engine);
    give_share(process);
    descriptor_end(&fd);
    free(process);
}

enum strangers process_end_stranger(struct daemon *daemon)
{
    if (list_is_empty(&daemon->strangers))
        return NO_STRANGERS;
    struct process *first = container_of(daemon->strangers.next, struct process, in_engine);
    if (nanoseconds() - first->came < PATIENCE_NANOSECONDS)
        return STRANGERS_WAIT;
    log_event("process %d has opened nothing", first->pid);
    process_end(first);
    return STRANGERS_END;
}

/* Ends the process in the engine. Its seats are free there from then on. */
static void exit_in_engine(struct process *process)
{
    struct engine *engine = process->engine;
    if (!engine->is_over) {
        engine_attach(engine, OWN_SEAT, process->engine_pid);
        if (exit_by_own_seat(engine, process->engine_pid))
            log_event("process %d, %u of %s, has ended", process->pid, process->engine_pid, engine->device);
    }
    if (engine->manager == process)
        engine->manager = NULL;
    target_forget(process);
    list_remove(&process->in_bucket);
}

static void let_go(struct process *process)
{
    owned_free(process);
    kept_free(process);
    purse_leave(process);
    list_remove(&process->in_engine);
    loop_drop(process->loop, &process->control);
    loop_drop(process->loop, &process->end);
    if (process->client)
        client_release(process->client);
    give_share(process);
    window_free(&process->window);
    free(process->handed);
    free(process->secret);
    free(process->cleared.all);
    free(process);
}

/* Whether all threads are let go of: of many threads some have to wait for another turn. */
static bool free_threads(struct process *process)
{
    while (!list_is_empty(&process->threads)) {
        thread_free(container_of(process->threads.next, struct thread, in_process));
        if (turns_is_over(&process->loop->turns))
            break;
    }
    return list_is_empty(&process->threads);
}

/* The engine ends a process in one step, which takes as long as it has threads in calls. Whether only few of them are left. */
static bool end_most_threads(struct process *process)
{
    while (process->thread_count > THREADS_AT_ONCE) {
        thread_end(container_of(process->threads.next, struct thread, in_process));
        if (turns_is_over(&process->loop->turns))
            break;
    }
    return process->thread_count <= THREADS_AT_ONCE;
}

void process_end(struct process *process)
{
    struct engine *engine = process->engine;
    descriptors_close_for(process->account);
    bool was_open = process->engine_pid && !process->is_ending;
    if (was_open && (!end_most_threads(process) || !ends_give_some(process))) {
        turns_want_end(&process->loop->turns, &process->control);
        settle_some(engine);
        seats_retry(engine);
        return;
    }
    if (was_open)
        exit_in_engine(process);
    process->is_ending = true;
    list_remove(&process->in_clearing);
    if (free_threads(process)) {
        let_go(process);
        descriptors_close_for(NULL);
    } else {
        turns_want_end(&process->loop->turns, &process->control);
    }
    if (was_open)
        reserve_regain(engine);
    if (was_open)
        settle_some(engine);
    if (engine)
        seats_retry(engine);
}
