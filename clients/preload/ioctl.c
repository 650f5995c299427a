/* SPDX-License-Identifier: Apache-2.0 OR MIT */
/* ioctl.c: the ioctls of a binder file. */
#include "preload.h"

/* Puts a request that has no bytes to the daemon: 0 or an errno. */
static int ask(struct link *link, enum page_op op)
{
    const struct page_request request = {.op = op};
    struct page_answer answer;
    return link_ask(link, &request, &answer);
}

/* One request that is for the whole process, and may come before its mmap. */
static int ask_control(struct device *device, enum control_op op, const uint32_t *size)
{
    struct control_request request = {.op = op, .size = *size};
    struct control_answer answer;
    return device_ask(device, &request, &answer, NULL, 0);
}

/* There are no security contexts, and the manager's object is known by no pointer: a program that wants either has to be told. */
static int become_manager(struct link *link, const struct flat_binder_object *object)
{
    bool takes_descriptors = object->flags & FLAT_BINDER_FLAG_ACCEPTS_FDS;
    const struct page_request request = {.op = PAGE_SET_MANAGER, .flags = takes_descriptors ? PAGE_TAKES_DESCRIPTORS : 0};
    struct page_answer answer;
    bool is_plain = !(object->flags & FLAT_BINDER_FLAG_TXN_SECURITY_CTX) && !object->binder && !object->cookie;
    return is_plain ? link_ask(link, &request, &answer) : EINVAL;
}

/* Whether the argument is there that a request has: its number says how large it is, and who reads or writes it. Of what has none,
   and what is no request, nothing is looked at. */
static bool has_argument(unsigned long request, const void *argument)
{
    bool has_none = request == BINDER_SET_CONTEXT_MGR || request == BINDER_THREAD_EXIT || _IOC_TYPE(request) != 'b';
    uint64_t size = _IOC_SIZE(request);
    return has_none || (_IOC_DIR(request) & _IOC_READ ? memory_can_be_written(argument, size) : memory_can_be_read(argument, size));
}

/* What the kernel says of an argument that isn't there, which differs from one to another. */
static int no_argument(unsigned long request)
{
    bool is_invalid = request == BINDER_VERSION || request == BINDER_SET_MAX_THREADS || request == BINDER_SET_CONTEXT_MGR_EXT;
    return is_invalid ? EINVAL : EFAULT;
}

/* 0, or an errno. What the kernel has besides these is told to be unknown, as an older kernel would. */
static int do_ioctl(struct device *device, struct link *link, unsigned long request, void *argument)
{
    if (!has_argument(request, argument))
        return no_argument(request);
    switch (request) {
    case BINDER_WRITE_READ:
        return write_read(link, argument);
    case BINDER_THREAD_EXIT:
        link->is_refused = false;
        return ask(link, PAGE_EXIT_THREAD);
    case BINDER_SET_CONTEXT_MGR:
        return become_manager(link, &(struct flat_binder_object){0});
    case BINDER_SET_CONTEXT_MGR_EXT:
        return become_manager(link, argument);
    case BINDER_SET_MAX_THREADS:
        return ask_control(device, CONTROL_MAX_THREADS, argument);
    case BINDER_VERSION:
        ((struct binder_version *)argument)->protocol_version = BINDER_CURRENT_PROTOCOL_VERSION;
        return 0;
    case BINDER_ENABLE_ONEWAY_SPAM_DETECTION:
        return ask_control(device, CONTROL_SPAM, argument);
    default:
        say("there is no ioctl %08lx", request);
        return EINVAL;
    }
}

/* The request's number is what its low 32 bits say: a program may have it as an int. After BINDER_THREAD_EXIT
   the next one is a new thread's, whose first read comes back at once. */
int device_ioctl(int fd, unsigned long request, void *argument)
{
    struct device *device = device_hold(fd);
    if (!device)
        return -1;
    struct link *link = link_of(device);
    int error = link ? do_ioctl(device, link, (uint32_t)request, argument) : errno;
    if (link) {
        atomic_store(&link->is_to_return, (uint32_t)request == BINDER_THREAD_EXIT);
        link_done(link);
    }
    device_release(device);
    if (!error)
        return 0;
    errno = error;
    return -1;
}
