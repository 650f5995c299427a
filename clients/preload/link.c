/* SPDX-License-Identifier: Apache-2.0 OR MIT */
/*
 * link.c: a thread's way to the daemon: its page, its bell and its socket. It ends with the thread, or once its
 * device is closed.
 */
#include "preload.h"

#include <linux/futex.h>
#include <stdlib.h>
#include <string.h>
#include <sys/syscall.h>
#include <time.h>

/* How long a thread waits by the futex, which takes the least time. From then on it waits by its link, where it sees the daemon's
   end too, and nothing else wakes it. */
#define SHORT_NANOSECONDS 20000000

/* How long it keeps the memory of large parcels while it waits. */
#define KEEP_MILLISECONDS 1000

static __thread struct link *links __attribute__((tls_model("initial-exec")));
static pthread_key_t ends;

/* A further one of a thread is made in a signal's handler, so not by malloc, which the signal may have interrupted. */
static struct link *room_for_link(bool is_first)
{
    if (is_first)
        return calloc(1, sizeof(struct link));
    struct link *link = real()->mmap(NULL, sizeof *link, PROT_READ | PROT_WRITE, MAP_PRIVATE | MAP_ANONYMOUS, -1, 0);
    return link == MAP_FAILED ? NULL : link;
}

static void free_link_room(struct link *link, bool is_first)
{
    if (is_first)
        free(link);
    else if (link)
        real()->munmap(link, sizeof *link);
}

static void link_free(struct link *link)
{
    struct device *device = link->device;
    pthread_mutex_lock(&devices_lock);
    struct link **at = &device->links;
    while (*at && *at != link)
        at = &(*at)->next_of_device;
    if (*at)
        *at = link->next_of_device;
    if (link->doorbell >= 0)
        epolls_forget(device, link->doorbell);
    pthread_mutex_unlock(&devices_lock);
    real()->munmap(link->page, sizeof *link->page);
    real()->close(link->socket);
    real()->close(link->bell);
    if (link->doorbell >= 0)
        real()->close(link->doorbell);
    free_link_room(link, link->is_first);
    device_release(device);
}

/* Lets go of all links of a thread that ends. */
static void thread_ends(void *unused)
{
    (void)unused;
    devices_notice_fork();
    while (links) {
        struct link *link = links;
        links = link->next_of_thread;
        link_free(link);
    }
}

static void before_fork(void)
{
    pthread_mutex_lock(&devices_lock);
}

static void in_parent(void)
{
    pthread_mutex_unlock(&devices_lock);
}

void links_forked(void)
{
    links = NULL;
}

__attribute__((constructor)) static void begin(void)
{
    if (pthread_key_create(&ends, thread_ends) || pthread_atfork(before_fork, in_parent, devices_forked)) {
        complain("there is no memory to begin");
        abort();
    }
}

void link_forked(struct link *link)
{
    real()->close(link->socket);
    real()->close(link->bell);
    if (link->doorbell >= 0)
        real()->close(link->doorbell);
}

/* The thread's link to the device that nobody uses, after those to closed devices were let go of; whether there is one in use. */
static struct link *find(const struct device *device, bool *has_other)
{
    struct link **at = &links;
    while (*at) {
        struct link *link = *at;
        if (link->device == device && !link->is_busy)
            return link;
        *has_other = *has_other || link->device == device;
        if (link->device->is_closed && !link->is_busy) {
            *at = link->next_of_thread;
            link_free(link);
        } else {
            at = &link->next_of_thread;
        }
    }
    return NULL;
}

static struct link *new_link(struct device *device, const int fds[3], bool is_first)
{
    struct link *link = room_for_link(is_first);
    struct page *page = real()->mmap(NULL, sizeof *page, PROT_READ | PROT_WRITE, MAP_SHARED, fds[1], 0);
    real()->close(fds[1]);
    if (!link || page == MAP_FAILED || pthread_setspecific(ends, &links)) {
        free_link_room(link, is_first);
        if (page != MAP_FAILED)
            real()->munmap(page, sizeof *page);
        real()->close(fds[0]);
        real()->close(fds[2]);
        return errno = ENOMEM, NULL;
    }
    *link = (struct link){.device = device, .page = page, .socket = fds[0], .bell = fds[2], .doorbell = -1,
                          .is_first = is_first, .is_to_return = is_first}; /* a thread's first read does */
    struct link **at = &links;
    while (*at) /* the first that it has is the thread's own: that is found first */
        at = &(*at)->next_of_thread;
    *at = link;
    pthread_mutex_lock(&devices_lock);
    device->references++;
    link->next_of_device = device->links;
    device->links = link;
    pthread_mutex_unlock(&devices_lock);
    return link;
}

/* A further link, also of a thread that has one in use. No handler that wants one may come while a lock is held for this. */
static struct link *make_link(struct device *device, bool is_first)
{
    struct control_request request = {.op = CONTROL_THREAD, .size = (uint64_t)gettid()};
    struct control_answer answer;
    sigset_t all, before;
    int fds[3];
    sigfillset(&all);
    pthread_sigmask(SIG_SETMASK, &all, &before);
    int error = device_ask(device, &request, &answer, fds, 3);
    struct link *link = error ? NULL : new_link(device, fds, is_first);
    error = link ? 0 : error ? error : errno;
    pthread_sigmask(SIG_SETMASK, &before, NULL);
    return errno = error, link;
}

/* A signal that interrupts an ioctl finds the thread's link in use: what its handler asks for goes by another one. */
struct link *link_of(struct device *device)
{
    bool has_other = false;
    int error = errno;
    struct link *link = find(device, &has_other);
    if (!link)
        link = make_link(device, !has_other);
    if (!link)
        return NULL;
    link->is_busy = 1;
    atomic_signal_fence(memory_order_seq_cst);
    return errno = error, link;
}

void link_done(struct link *link)
{
    atomic_signal_fence(memory_order_seq_cst);
    link->is_busy = 0;
}

static void ring(struct link *link)
{
    uint64_t one = 1;
    while (write(link->bell, &one, sizeof one) < 0 && errno == EINTR)
        ;
}

/* An area smaller than this isn't worth giving back. */
#define LARGE_AREA (256u << 10)

static time_t seconds(void)
{
    struct timespec now;
    clock_gettime(CLOCK_MONOTONIC_COARSE, &now);
    return now.tv_sec;
}

static void give_area_back(struct link *link)
{
    if (link->kept_area && !link->used_area)
        madvise(link->page->area, link->kept_area, MADV_REMOVE);
    if (!link->used_area)
        link->kept_area = 0;
}

void link_use_area(struct link *link, uint64_t size)
{
    link->used_area = size;
}

void link_keep_area(struct link *link, uint64_t size)
{
    link->used_area = 0;
    if (size > LARGE_AREA) {
        link->kept_area = size > link->kept_area ? size : link->kept_area;
        link->kept_since = seconds();
    } else if (link->kept_area && seconds() - link->kept_since > 1) {
        give_area_back(link);
    }
}

/* What has ended a wait: it may be the answer; a signal; it takes long; the answer is about to come; nobody is there to give
   one. */
enum woken { WOKEN, INTERRUPTED, LATE, SOON, GONE };

static enum woken wait_shortly(struct page *page)
{
    static const struct timespec patience = {.tv_nsec = SHORT_NANOSECONDS};
    if (syscall(SYS_futex, &page->state, FUTEX_WAIT, PAGE_ASKED, &patience, NULL, 0) == 0)
        return WOKEN;
    return errno == EINTR ? INTERRUPTED : errno == ETIMEDOUT ? LATE : WOKEN;
}

/* Takes the packet that tells of an answer. One with descriptors comes right before an answer that they are of, and stays. */
static bool take_tiding(const struct link *link)
{
    uint32_t told = 0;
    bool is_one = recv(link->socket, &told, sizeof told, MSG_PEEK | MSG_DONTWAIT) == sizeof told && !told;
    return is_one && recv(link->socket, &told, sizeof told, MSG_DONTWAIT) == sizeof told;
}

static enum woken wait_long(struct link *link)
{
    struct pollfd file = {.fd = link->socket, .events = POLLIN};
    int count = real()->poll(&file, 1, link->kept_area ? KEEP_MILLISECONDS : -1);
    if (count < 0)
        return errno == EINTR ? INTERRUPTED : WOKEN;
    if (count == 0)
        give_area_back(link);
    else if (!take_tiding(link))
        return file.revents & (POLLHUP | POLLERR | POLLNVAL) ? GONE : SOON;
    return WOKEN;
}

/* Waits for the answer to what was asked. A signal ends a read that waits, as in the kernel: the daemon is asked for
   its answer, and has one at once. */
static int await(struct link *link, struct page_answer *answer)
{
    struct page *page = link->page;
    enum woken woken = WOKEN;
    bool is_long = false;
    while (atomic_load(&page->state) == PAGE_ASKED) {
        if (woken == GONE || atomic_load(&page->ended)) {
            *answer = (struct page_answer){.error = ENODEV};
            return ENODEV;
        }
        woken = is_long ? wait_long(link) : wait_shortly(page);
        if (woken == LATE || woken == SOON) {
            is_long = woken == LATE;
            atomic_store(&page->is_long, is_long); /* before it is looked for the answer */
        } else if (woken == INTERRUPTED) {
            atomic_store(&page->cancel, CANCEL_INTERRUPTED);
            ring(link);
        }
    }
    if (is_long)
        atomic_store_explicit(&page->is_long, 0, memory_order_relaxed); /* nothing is asked, which comes before it is again */
    *answer = page->answer;
    atomic_store_explicit(&page->state, PAGE_IDLE, memory_order_relaxed);
    return answer->error;
}

int link_ask(struct link *link, const struct page_request *request, struct page_answer *answer)
{
    struct page *page = link->page;
    page->request = *request;
    atomic_store_explicit(&page->cancel, CANCEL_NOT, memory_order_relaxed);
    atomic_store(&page->state, PAGE_ASKED); /* before it is looked whether this is the end, or whether a read is to return */
    if (request->room && atomic_load(&link->is_to_return))
        atomic_store(&page->cancel, CANCEL_RETURN);
    ring(link);
    return await(link, answer);
}

/* It is first said and then looked whether the thread has asked; there it's the other way round, so that one of the two sees the other. */
void link_return(struct link *link)
{
    struct page *page = link->page;
    atomic_store(&link->is_to_return, true);
    if (atomic_load(&page->state) != PAGE_ASKED)
        return;
    atomic_store(&page->cancel, CANCEL_RETURN);
    ring(link);
}

bool link_free_buffers(struct link *link, const uint64_t *buffers, uint32_t count)
{
    struct page *page = link->page;
    uint32_t freed = atomic_load_explicit(&page->freed, memory_order_relaxed);
    uint32_t there = freed - atomic_load_explicit(&page->taken, memory_order_acquire);
    if (there > PAGE_FREES || count > PAGE_FREES - there)
        return false;
    for (uint32_t i = 0; i < count; i++)
        page->frees[(freed + i) % PAGE_FREES] = buffers[i];
    atomic_store_explicit(&page->freed, freed + count, memory_order_release);
    ring(link);
    return true;
}

/* Tidings of answers that were seen without them may come before. */
int link_receive(struct link *link, int *fds, uint32_t room, uint32_t *count)
{
    uint32_t told;
    do
        if (packet_receive(link->socket, &told, sizeof told, fds, room, count, 0) != 1)
            return errno;
    while (!told);
    return 0;
}

int link_doorbell(struct link *link)
{
    const struct page_request request = {.op = PAGE_DOORBELL};
    struct page_answer answer;
    uint32_t count = 0;
    if (link->doorbell >= 0)
        return link->doorbell;
    int error = link_ask(link, &request, &answer);
    if (!error)
        error = link_receive(link, &link->doorbell, 1, &count);
    if (!error && count != 1)
        error = ENODEV;
    if (error)
        return errno = error, -1;
    return link->doorbell;
}
