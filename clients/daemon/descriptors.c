/* SPDX-License-Identifier: Apache-2.0 OR MIT */
/*
 * descriptors.c: how descriptors are closed: one's end may take its time, and nobody waits for that but who has sent such ones.
 */
#include "daemon.h"

#include <fcntl.h>
#include <pthread.h>
#include <signal.h>
#include <stdlib.h>
#include <sys/mman.h>
#include <sys/socket.h>
#include <sys/stat.h>
#include <time.h>
#include <unistd.h>

/*
 * A client's descriptor may be one whose end takes its time, as a socket's that lingers, or a file's behind a
 * network; or a local socket in which such a one lies unread; or one that listens, with all that it hasn't accepted; or memory of which
 * there is much. Pipes, little memory and other sockets are closed at once. The rest is closed by threads of its own, a user's one after
 * the other and users in turn. What lies unread in one of the daemon's own sockets is taken out before that is closed.
 *
 * One such thread is enough for honest clients. While others wait, a close that takes too long is interrupted: that ends a linger, whose
 * bytes the kernel sends all the same. For what a signal doesn't end there are more threads, up to a bound, of which a user has two at most.
 */
#define PATIENCE_MILLISECONDS 100
#define CLOSERS_MOST 64
#define CLOSERS_OF_USER 2u
#define INTERRUPTION SIGUSR1

/* A closer needs no more. */
#define STACK_BYTES ((size_t)64 << 10)

/* So much memory is let go of at once. */
#define SWIFT_BYTES (8u << 20)

struct waiting {
    struct waiting *next;
    struct account *account; /* NULL: it is nobody's */
    int fd;
};

/* Whose descriptors wait, or are being closed. */
struct user_of_these {
    struct list in_all, in_ready; /* in the latter while a closer may take one */
    const struct account *whose;
    struct waiting *first;
    uint32_t closers; /* that close one of them */
};

struct closer {
    pthread_t thread;
    uint64_t since; /* milliseconds; 0: it closes nothing */
};

static struct {
    pthread_mutex_t lock;
    pthread_cond_t has_more; /* closers wait for it .. */
    pthread_cond_t is_asked; /* .. and who oversees them */
    struct list users, ready;
    size_t count; /* of descriptors that wait */
    struct closer closers[CLOSERS_MOST];
    uint32_t closer_count;
    bool has_told;
} closing = {.lock = PTHREAD_MUTEX_INITIALIZER, .has_more = PTHREAD_COND_INITIALIZER, .is_asked = PTHREAD_COND_INITIALIZER};

/* Whose descriptors this thread closes. */
static __thread struct account *closes_for;

struct account *descriptors_close_for(struct account *account)
{
    struct account *before = closes_for;
    closes_for = account;
    return before;
}

/* The device that memory files are on: that of all that memfd_create makes. */
static uint32_t memory_major, memory_minor;

/* What the kernel knows of a file, without asking whoever serves it. */
static bool look_at(int fd, struct statx *stat)
{
    return statx(fd, "", AT_EMPTY_PATH | AT_STATX_DONT_SYNC, STATX_TYPE | STATX_BLOCKS, stat) == 0;
}

static bool is_swift_socket(int fd)
{
    struct linger linger = {0};
    int domain = AF_UNIX, listens = 1;
    socklen_t size = sizeof linger, domain_size = sizeof domain, listens_size = sizeof listens;
    return getsockopt(fd, SOL_SOCKET, SO_LINGER, &linger, &size) == 0 && !linger.l_onoff
           && getsockopt(fd, SOL_SOCKET, SO_DOMAIN, &domain, &domain_size) == 0 && domain != AF_UNIX
           && getsockopt(fd, SOL_SOCKET, SO_ACCEPTCONN, &listens, &listens_size) == 0 && !listens;
}

static bool closes_at_once(int fd)
{
    struct statx stat;
    if (!look_at(fd, &stat))
        return false;
    if (S_ISSOCK(stat.stx_mode))
        return is_swift_socket(fd);
    return S_ISFIFO(stat.stx_mode)
           || (S_ISREG(stat.stx_mode) && stat.stx_dev_major == memory_major && stat.stx_dev_minor == memory_minor
               && stat.stx_blocks <= SWIFT_BYTES / 512);
}

static uint64_t now(void)
{
    struct timespec time;
    clock_gettime(CLOCK_MONOTONIC, &time);
    return (uint64_t)time.tv_sec * 1000 + (uint64_t)time.tv_nsec / 1000000;
}

/* With the lock, as all that follow: a user is ready while it has something that waits and no more than its closers; it goes once it
   has nothing. */
static void put_right(struct user_of_these *user)
{
    list_remove(&user->in_ready);
    if (user->first && user->closers < CLOSERS_OF_USER) {
        list_append(&closing.ready, &user->in_ready);
        pthread_cond_signal(&closing.has_more);
    } else if (!user->first && !user->closers) {
        list_remove(&user->in_all);
        free(user);
    }
}

/* Takes a descriptor of the user who is ready for the longest time. */
static struct waiting *take(struct user_of_these **user)
{
    *user = container_of(closing.ready.next, struct user_of_these, in_ready);
    struct waiting *waiting = (*user)->first;
    (*user)->first = waiting->next;
    (*user)->closers++;
    closing.count--;
    put_right(*user);
    return waiting;
}

static _Noreturn void *close_all(void *with)
{
    struct closer *closer = with;
    struct user_of_these *user;
    sigset_t set;
    sigemptyset(&set);
    sigaddset(&set, INTERRUPTION);
    pthread_sigmask(SIG_UNBLOCK, &set, NULL);
    pthread_mutex_lock(&closing.lock);
    for (;;) {
        while (list_is_empty(&closing.ready))
            pthread_cond_wait(&closing.has_more, &closing.lock);
        struct waiting *waiting = take(&user);
        closer->since = now();
        pthread_mutex_unlock(&closing.lock);
        close(waiting->fd);
        if (waiting->account)
            account_give(waiting->account, SHARED_DESCRIPTORS, 1);
        free(waiting);
        pthread_mutex_lock(&closing.lock);
        closer->since = 0;
        user->closers--;
        put_right(user);
    }
}

static bool add_closer(void)
{
    struct closer *closer = &closing.closers[closing.closer_count];
    pthread_attr_t attributes;
    pthread_attr_init(&attributes);
    pthread_attr_setstacksize(&attributes, STACK_BYTES);
    bool is_there = pthread_create(&closer->thread, &attributes, close_all, closer) == 0;
    pthread_attr_destroy(&attributes);
    closing.closer_count += is_there;
    return is_there && pthread_detach(closer->thread) == 0;
}

/* Interrupts those that have closed one descriptor for too long, and tells whether that is all of them. */
static bool interrupt_slow(void)
{
    bool are_all = true;
    for (uint32_t i = 0; i < closing.closer_count; i++) {
        const struct closer *closer = &closing.closers[i];
        bool is_slow = closer->since && now() - closer->since >= PATIENCE_MILLISECONDS;
        if (is_slow)
            pthread_kill(closer->thread, INTERRUPTION);
        are_all = are_all && is_slow;
    }
    return are_all;
}

/* Looks after the closers while descriptors wait for them. */
static _Noreturn void *oversee(void *unused)
{
    (void)unused;
    pthread_mutex_lock(&closing.lock);
    for (;;) {
        while (!closing.count)
            pthread_cond_wait(&closing.is_asked, &closing.lock);
        pthread_mutex_unlock(&closing.lock);
        usleep(1000 * PATIENCE_MILLISECONDS);
        pthread_mutex_lock(&closing.lock);
        if (!closing.count || !interrupt_slow() || list_is_empty(&closing.ready))
            continue;
        if (closing.closer_count < CLOSERS_MOST && add_closer())
            log_line("closing takes long: %u threads do it", closing.closer_count);
        else if (!closing.has_told)
            log_line("closing takes long: %zu descriptors wait for %u threads", closing.count, closing.closer_count);
        closing.has_told = closing.has_told || closing.closer_count == CLOSERS_MOST;
    }
}

/* The user whose descriptors this thread closes, among those of whom some wait; NULL where there is no memory. */
static struct user_of_these *find_user(void)
{
    const struct account *whose = closes_for ? account_whole(closes_for) : NULL;
    for (struct list *entry = closing.users.next; entry != &closing.users; entry = entry->next) {
        struct user_of_these *user = container_of(entry, struct user_of_these, in_all);
        if (user->whose == whose)
            return user;
    }
    struct user_of_these *user = calloc(1, sizeof *user);
    if (user) {
        user->whose = whose;
        list_append(&closing.users, &user->in_all);
        list_begin(&user->in_ready);
    }
    return user;
}

/* Leaves a descriptor to these threads, and counts it in its sender's share until it is closed. False where there is no memory for that. */
static bool leave(int fd)
{
    struct waiting *waiting = malloc(sizeof *waiting);
    pthread_mutex_lock(&closing.lock);
    struct user_of_these *user = waiting ? find_user() : NULL;
    if (user) {
        if (closes_for)
            account_force(closes_for, SHARED_DESCRIPTORS, 1);
        *waiting = (struct waiting){.next = user->first, .fd = fd, .account = closes_for};
        user->first = waiting;
        closing.count++;
        if (list_is_empty(&user->in_ready))
            put_right(user);
    } else {
        free(waiting);
    }
    pthread_mutex_unlock(&closing.lock);
    pthread_cond_signal(&closing.is_asked);
    return user;
}

static bool find_memory_device(void)
{
    struct statx stat;
    int fd = memfd_create("hullpippin-memory", MFD_CLOEXEC);
    bool is_found = fd >= 0 && look_at(fd, &stat);
    descriptor_close(&fd);
    if (is_found) {
        memory_major = stat.stx_dev_major;
        memory_minor = stat.stx_dev_minor;
    }
    return is_found;
}

static void ignore(int number)
{
    (void)number;
}

/* The signal is for closers alone, which take it. */
static bool ignore_interruptions(void)
{
    const struct sigaction action = {.sa_handler = ignore};
    sigset_t set;
    sigemptyset(&set);
    sigaddset(&set, INTERRUPTION);
    return sigaction(INTERRUPTION, &action, NULL) == 0 && pthread_sigmask(SIG_BLOCK, &set, NULL) == 0;
}

bool descriptors_begin(void)
{
    pthread_t thread;
    list_begin(&closing.users);
    list_begin(&closing.ready);
    return find_memory_device() && ignore_interruptions() && add_closer() && pthread_create(&thread, NULL, oversee, NULL) == 0
           && pthread_detach(thread) == 0;
}

void descriptors_close(int *fds, uint32_t count)
{
    for (uint32_t i = 0; i < count; i++) {
        if (fds[i] >= 0 && (closes_at_once(fds[i]) || !leave(fds[i])))
            close(fds[i]);
        fds[i] = -1;
    }
}

/* Takes out what lies unread in a socket that gets no more. With its sender's credentials, an empty packet isn't the end. */
static void empty(int socket)
{
    char bytes[4096];
    _Alignas(struct cmsghdr) char control[CMSG_SPACE(sizeof(struct ucred)) + CMSG_SPACE(sizeof(int) * DESCRIPTORS_MAX)];
    struct iovec vector = {bytes, sizeof bytes};
    struct msghdr message;
    int on = 1, type = SOCK_STREAM;
    socklen_t size = sizeof type;
    uint32_t none = 0;
    ssize_t received;
    getsockopt(socket, SOL_SOCKET, SO_TYPE, &type, &size);
    setsockopt(socket, SOL_SOCKET, SO_PASSCRED, &on, sizeof on);
    do {
        message = (struct msghdr){.msg_iov = &vector, .msg_iovlen = 1, .msg_control = control, .msg_controllen = sizeof control};
        received = recvmsg(socket, &message, MSG_DONTWAIT | MSG_CMSG_CLOEXEC);
        if (received >= 0)
            packet_take(&message, NULL, 0, &none);
    } while (received > 0 || (received == 0 && type == SOCK_SEQPACKET && message.msg_controllen));
}

void descriptor_end(int *fd)
{
    if (*fd >= 0 && shutdown(*fd, SHUT_RDWR) == 0)
        empty(*fd);
    descriptor_close(fd);
}

void descriptor_close(int *fd)
{
    if (*fd >= 0)
        close(*fd);
    *fd = -1;
}
