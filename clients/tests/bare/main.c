/* SPDX-License-Identifier: Apache-2.0 OR MIT */
/* bare SOCKET: a bare relay (bare.h) that listens at a path until it is killed. */
#include "bare.h"

#include <fcntl.h>
#include <signal.h>
#include <stdio.h>
#include <stdlib.h>
#include <string.h>
#include <sys/epoll.h>
#include <sys/eventfd.h>
#include <sys/mman.h>
#include <sys/un.h>
#include <unistd.h>

static int poll_fd;

static void watch_for(struct watch *watch, uint32_t events)
{
    struct epoll_event event = {.events = events, .data.ptr = watch};
    CHECK(!epoll_ctl(poll_fd, EPOLL_CTL_ADD, watch->fd, &event), "epoll");
}

void packet_send(int fd, const void *bytes, size_t size, const int *fds, uint32_t count)
{
    _Alignas(struct cmsghdr) char control[CMSG_SPACE(3 * sizeof(int))] = {0};
    struct iovec vector = {.iov_base = (void *)(uintptr_t)bytes, .iov_len = size};
    struct msghdr message = {.msg_iov = &vector, .msg_iovlen = 1};
    if (count) {
        message.msg_control = control;
        message.msg_controllen = CMSG_SPACE(count * sizeof(int));
        struct cmsghdr *header = CMSG_FIRSTHDR(&message);
        *header = (struct cmsghdr){.cmsg_len = CMSG_LEN(count * sizeof(int)), .cmsg_level = SOL_SOCKET, .cmsg_type = SCM_RIGHTS};
        memcpy(CMSG_DATA(header), fds, count * sizeof(int));
    }
    CHECK(sendmsg(fd, &message, MSG_NOSIGNAL) == (ssize_t)size, "a client doesn't take its answer");
}

static int new_memory(size_t size, void **at)
{
    int fd = memfd_create("bare", MFD_CLOEXEC);
    CHECK(fd >= 0 && !ftruncate(fd, (off_t)size), "no memory");
    *at = mmap(NULL, size, PROT_READ | PROT_WRITE, MAP_SHARED, fd, 0);
    CHECK(*at != MAP_FAILED, "no memory");
    return fd;
}

static int map_window(struct process *process, const struct control_request *request)
{
    void *at;
    process->size = request->size > WINDOW_MAX ? WINDOW_MAX : request->size & ~(uint64_t)(SLOT_SIZE - 1);
    process->base = request->base;
    int fd = new_memory(process->size, &at);
    process->window = at;
    for (uint64_t slot = process->size / SLOT_SIZE; slot > 0; slot--)
        process->free_slots[process->free_count++] = (uint16_t)(slot - 1);
    return fd;
}

static void bell_ready(struct watch *watch, uint32_t events)
{
    (void)events;
    page_rung((struct thread *)watch);
}

/* Tells what its client gets: the other end of its link, its page, its bell. */
static void new_thread(struct process *process, int fds[3])
{
    struct thread *thread = calloc(1, sizeof *thread);
    int link[2];
    void *page;
    CHECK(thread && !socketpair(AF_UNIX, SOCK_SEQPACKET | SOCK_CLOEXEC, 0, link), "no thread");
    fds[0] = link[1];
    fds[1] = new_memory(sizeof(struct page), &page);
    fds[2] = eventfd(0, EFD_CLOEXEC | EFD_NONBLOCK);
    thread->bell = (struct watch){fds[2], bell_ready};
    thread->process = process;
    thread->page = page;
    thread->link = link[0];
    thread->doorbell[0] = thread->doorbell[1] = -1;
    thread->next = process->threads;
    process->threads = thread;
    watch_for(&thread->bell, EPOLLIN | EPOLLET);
}

static void answer_control(struct process *process, const struct control_request *request)
{
    struct control_answer answer = {0};
    int fds[3];
    CHECK(request->version == PROTOCOL_VERSION, "a library of another build");
    if (request->op == CONTROL_MAP) {
        fds[0] = map_window(process, request);
        answer.size = process->size;
        answer.descriptors = 1;
    } else if (request->op == CONTROL_THREAD) {
        new_thread(process, fds);
        answer.descriptors = 3;
    }
    packet_send(process->control.fd, &answer, sizeof answer, fds, answer.descriptors);
    for (uint32_t i = 0; i < answer.descriptors && i < 2; i++)
        close(fds[i]); /* the third is the bell, which is ours too */
}

/* The process and its threads stay in memory, since others may still name them. */
static void process_end(struct process *process)
{
    for (struct thread *thread = process->threads; thread; thread = thread->next) {
        munmap(thread->page, sizeof *thread->page);
        thread->page = NULL;
        thread->room = 0;
        epoll_ctl(poll_fd, EPOLL_CTL_DEL, thread->bell.fd, NULL);
        close(thread->bell.fd);
        close(thread->link);
        for (int i = 0; i < 2 && thread->doorbell[i] >= 0; i++)
            close(thread->doorbell[i]);
    }
    process->threads = NULL;
    if (process->window)
        munmap(process->window, process->size);
    process->window = NULL;
    close(process->control.fd);
}

static void control_ready(struct watch *watch, uint32_t events)
{
    struct process *process = (struct process *)watch;
    struct control_request request;
    (void)events;
    if (recv(watch->fd, &request, sizeof request, MSG_DONTWAIT) == sizeof request)
        answer_control(process, &request);
    else
        process_end(process);
}

static void listener_ready(struct watch *watch, uint32_t events)
{
    struct process *process = calloc(1, sizeof *process);
    socklen_t size = sizeof process->peer;
    int fd = accept4(watch->fd, NULL, NULL, SOCK_CLOEXEC);
    (void)events;
    CHECK(process && fd >= 0 && !getsockopt(fd, SOL_SOCKET, SO_PEERCRED, &process->peer, &size), "no process");
    process->control = (struct watch){fd, control_ready};
    process->handle_count = 1; /* the context manager's */
    watch_for(&process->control, EPOLLIN | EPOLLRDHUP);
}

int main(int argc, char **argv)
{
    struct sockaddr_un address = {.sun_family = AF_UNIX};
    struct watch listener = {socket(AF_UNIX, SOCK_SEQPACKET | SOCK_CLOEXEC, 0), listener_ready};
    CHECK(argc == 2 && strlen(argv[1]) < sizeof address.sun_path, "usage: bare SOCKET");
    strcpy(address.sun_path, argv[1]);
    poll_fd = epoll_create1(EPOLL_CLOEXEC);
    CHECK(!bind(listener.fd, (struct sockaddr *)&address, sizeof address) && !listen(listener.fd, 16), "%s", argv[1]);
    watch_for(&listener, EPOLLIN);
    for (struct epoll_event event; epoll_wait(poll_fd, &event, 1, -1) == 1;) {
        struct watch *watch = event.data.ptr;
        watch->ready(watch, event.events);
    }
    return 1;
}
