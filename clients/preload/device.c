/* SPDX-License-Identifier: Apache-2.0 OR MIT */
/*
 * device.c: open binder files: a table from descriptors to devices. A device ends with the last of its descriptors and of its window:
 * as with the kernel's, a mapping is as good as a descriptor.
 */
#include "preload.h"

#include "../address.h"

#define FILES 65536

pthread_mutex_t devices_lock = PTHREAD_MUTEX_INITIALIZER;

static _Atomic(struct device *) files[FILES];

/* The devices that have a window: a list, whose first is this one. */
static struct device *_Atomic mapped;

/* What stands for the devices of a forked child's parent. */
static struct device forked = {.is_closed = true};

/* The process that the table is of: the child of a vfork has the memory, and may close descriptors, but they are its
   own. */
static _Atomic pid_t owner;

/* A page that the kernel empties in each child that has a copy of the memory: not 0 in the process that has opened the devices. */
static _Atomic uint32_t *mark;
static pthread_once_t mark_once = PTHREAD_ONCE_INIT;

static void make_mark(void)
{
    _Atomic uint32_t *page = real()->mmap(NULL, 4096, PROT_READ | PROT_WRITE, MAP_PRIVATE | MAP_ANONYMOUS, -1, 0);
    if (page == MAP_FAILED || madvise((void *)page, 4096, MADV_WIPEONFORK))
        return;
    atomic_store(page, 1);
    mark = page;
}

bool device_is(int fd)
{
    if (fd < 0 || fd >= FILES || !atomic_load_explicit(&files[fd], memory_order_acquire))
        return false;
    devices_notice_fork();
    return true;
}

/* A socket to the daemon, or -1 and errno. */
static int dial(void)
{
    struct sockaddr_un address = {0};
    int fd = daemon_dial(NULL, 0, &address);
    if (fd < 0)
        say("no daemon at %s: %s", address.sun_path, strerror(errno));
    return fd;
}

void descriptors_close(int *fds, uint32_t count)
{
    for (uint32_t i = 0; i < count; i++) {
        real()->close(fds[i]);
        fds[i] = -1;
    }
}

/* One request and its answer over a socket: 0, or an errno. */
static int ask(int socket, struct control_request *request, struct control_answer *answer, int *fds, uint32_t room)
{
    uint32_t count = 0;
    request->version = PROTOCOL_VERSION;
    bool is_sent = packet_send(socket, request, sizeof *request, NULL, 0, 0);
    bool done = is_sent && packet_receive(socket, answer, sizeof *answer, fds, room, &count, 0) == 1;
    int error = is_sent && !done ? errno : ENODEV;
    if (done && !answer->error && count == room)
        return 0;
    descriptors_close(fds, count);
    return done && answer->error ? answer->error : error;
}

int device_ask(struct device *device, struct control_request *request, struct control_answer *answer, int *fds, uint32_t room)
{
    pthread_mutex_lock(&device->control_lock);
    int error = ask(device->control, request, answer, fds, room);
    pthread_mutex_unlock(&device->control_lock);
    return error;
}

int device_look(const char *name)
{
    struct control_request request = {.op = CONTROL_LOOK};
    struct control_answer answer;
    int error = 0, socket = dial();
    if (socket < 0)
        return ENOENT;
    snprintf(request.device, sizeof request.device, "%s", name);
    error = ask(socket, &request, &answer, NULL, 0);
    real()->close(socket);
    return error ? ENOENT : 0;
}

static struct device *new_device(const char *name, int flags, int control)
{
    struct device *device = calloc(1, sizeof *device);
    if (!device)
        return NULL;
    device->references = device->descriptors = 1;
    device->is_nonblocking = flags & O_NONBLOCK;
    device->control = control;
    snprintf(device->name, sizeof device->name, "%s", name);
    pthread_mutex_init(&device->control_lock, NULL);
    pthread_mutex_init(&device->arrays.lock, NULL);
    for (int i = 0; i < EPOLLS_MAX; i++)
        device->epolls[i].epoll = device->epolls[i].doorbell = -1;
    return device;
}

/* Opens the device for a descriptor that stands for it: 0, or an errno. */
static int open_for(int fd, const char *name, int flags)
{
    struct control_request request = {.op = CONTROL_OPEN};
    struct control_answer answer;
    int control = fd < FILES ? dial() : -1;
    if (control < 0)
        return fd < FILES ? ENOENT : EMFILE;
    struct device *device = new_device(name, flags, control);
    snprintf(request.device, sizeof request.device, "%s", name);
    int error = device ? ask(control, &request, &answer, NULL, 0) : ENOMEM;
    if (error) {
        free(device);
        real()->close(control);
        return error;
    }
    atomic_store(&owner, getpid());
    atomic_store_explicit(&files[fd], device, memory_order_release);
    return 0;
}

/* The descriptor is the least that is free, as of any open. */
int device_open(const char *name, int flags)
{
    pthread_once(&mark_once, make_mark);
    devices_notice_fork();
    if ((flags & (O_CREAT | O_EXCL)) == (O_CREAT | O_EXCL))
        return errno = EEXIST, -1;
    if (flags & O_DIRECTORY)
        return errno = ENOTDIR, -1;
    int fd = epoll_create1(EPOLL_CLOEXEC);
    if (fd < 0)
        return -1;
    int error = open_for(fd, name, flags);
    if (error) {
        real()->close(fd);
        return errno = error, -1;
    }
    say("%s is %d", name, fd);
    return fd;
}

struct device *device_hold(int fd)
{
    pthread_mutex_lock(&devices_lock);
    struct device *device = files[fd];
    bool is_forked = device == &forked;
    if (device && !is_forked)
        device->references++;
    pthread_mutex_unlock(&devices_lock);
    static atomic_flag is_told = ATOMIC_FLAG_INIT;
    if (is_forked && !atomic_flag_test_and_set(&is_told))
        complain("a binder file that was open before a fork can't be used in the child");
    if (device && !is_forked)
        return device;
    errno = is_forked ? ENODEV : EBADF;
    return NULL;
}

/* With the devices' lock; whether that was the last reference. */
static bool let_go(struct device *device)
{
    return --device->references == 0;
}

static void device_free(struct device *device)
{
    real()->close(device->control);
    pthread_mutex_destroy(&device->control_lock);
    pthread_mutex_destroy(&device->arrays.lock);
    free(device);
}

void device_release(struct device *device)
{
    pthread_mutex_lock(&devices_lock);
    bool is_last = let_go(device);
    pthread_mutex_unlock(&devices_lock);
    if (is_last)
        device_free(device);
}

/* With the devices' lock: without a descriptor and a window this is the process's end, be there a thread in a call or not. */
static void end_if_left(struct device *device)
{
    if (device->descriptors || device->window)
        return;
    device->is_closed = true;
    shutdown(device->control, SHUT_RDWR);
}

/* Also where it isn't the last descriptor, all reads that wait come back: the kernel tells the driver of each that is closed. */
void device_forget(int fd)
{
    if (atomic_load(&owner) != getpid())
        return;
    pthread_mutex_lock(&devices_lock);
    struct device *device = atomic_exchange(&files[fd], NULL);
    bool is_real = device && device != &forked, is_last = is_real && --device->descriptors == 0;
    if (is_last)
        epolls_forget(device, -1);
    for (struct link *link = is_real ? device->links : NULL; link; link = link->next_of_device)
        link_return(link);
    if (is_real)
        end_if_left(device);
    pthread_mutex_unlock(&devices_lock);
    if (is_last)
        arrays_end(device);
    if (is_real) {
        say("%d is closed", fd);
        device_release(device);
    }
}

void device_copied(int fd, int copy)
{
    if (copy < 0 || copy >= FILES || atomic_load(&owner) != getpid())
        return;
    pthread_mutex_lock(&devices_lock);
    struct device *device = files[fd];
    if (device && device != &forked) {
        device->references++;
        device->descriptors++;
    }
    atomic_store(&files[copy], device);
    pthread_mutex_unlock(&devices_lock);
}

/* A device's window is its mapping; what was the parent's isn't there in the child (MADV_DONTFORK). */
static void close_parents(struct device *device)
{
    for (struct link *link = device->links; link; link = link->next_of_device)
        link_forked(link);
    device->links = NULL;
    if (device->control >= 0)
        real()->close(device->control);
    device->control = -1;
}

/* Nothing here may take memory or a lock: another thread of the parent's may have been at it. */
void devices_forked(void)
{
    int null = real()->open("/dev/null", O_RDWR | O_CLOEXEC);
    for (struct device *device = mapped; device; device = device->next_mapped)
        close_parents(device);
    mapped = NULL;
    for (int fd = 0; fd < FILES; fd++) {
        struct device *device = files[fd];
        if (!device || device == &forked)
            continue;
        close_parents(device);
        files[fd] = &forked;
        if (null >= 0)
            real()->dup3(null, fd, O_CLOEXEC);
        else
            real()->close(fd);
    }
    if (null >= 0)
        real()->close(null);
    links_forked();
    pthread_mutex_init(&devices_lock, NULL);
    owner = getpid();
    if (mark)
        atomic_store(mark, 1);
}

void devices_notice_fork(void)
{
    if (mark && !atomic_load_explicit(mark, memory_order_relaxed))
        devices_forked();
}

bool devices_are_mapped(void)
{
    return mapped;
}

/* What of a window is left when a range is unmapped. A hole amid of it is as if it were still mapped. */
static void cut(struct device *device, const uint8_t *from, const uint8_t *to)
{
    if (from <= device->window && to >= device->window_end)
        device->window = device->window_end = NULL;
    else if (from <= device->window && to > device->window)
        device->window += to - device->window;
    else if (to >= device->window_end && from < device->window_end)
        device->window_end -= device->window_end - from;
}

void device_unmapped(const void *at, size_t size)
{
    const uint8_t *from = at, *to = from + ((size + 4095) & ~(size_t)4095);
    struct device *gone = NULL;
    pthread_mutex_lock(&devices_lock);
    for (struct device *device = mapped, *next, *before = NULL; device; device = next) {
        next = device->next_mapped;
        cut(device, from, to);
        if (device->window) {
            before = device;
            continue;
        }
        if (before)
            before->next_mapped = next;
        else
            mapped = next;
        end_if_left(device);
        if (let_go(device)) {
            device->next_mapped = gone;
            gone = device;
        }
    }
    pthread_mutex_unlock(&devices_lock);
    while (gone) {
        struct device *device = gone;
        gone = device->next_mapped;
        device_free(device);
    }
}

/* No child gets a window of its parent's, as with the kernel's driver. */
static void note_window(struct device *device, uint8_t *window, size_t size)
{
    madvise(window, size, MADV_DONTFORK);
    pthread_mutex_lock(&devices_lock);
    device->window = window;
    device->window_end = window + ((size + 4095) & ~(size_t)4095);
    device->references++;
    device->next_mapped = mapped;
    mapped = device;
    pthread_mutex_unlock(&devices_lock);
}

/* As the kernel: nothing may be written, there is one mapping, and of a longer one only the beginning is the window. */
void *device_map(int fd, void *at, size_t size, int protection, int flags)
{
    struct control_request request = {.op = CONTROL_MAP, .size = size};
    struct control_answer answer;
    struct device *device = device_hold(fd);
    int memory = -1, error = protection & PROT_WRITE ? EPERM : 0;
    if (!device)
        return MAP_FAILED;
    uint8_t *window = real()->mmap(at, size, PROT_READ, MAP_PRIVATE | MAP_ANONYMOUS | MAP_NORESERVE | (flags & MAP_FIXED), -1, 0);
    if (window == MAP_FAILED) {
        device_release(device);
        return MAP_FAILED;
    }
    request.base = (uintptr_t)window;
    if (!error)
        error = device_ask(device, &request, &answer, &memory, 1);
    if (!error && real()->mmap(window, answer.size, PROT_READ, MAP_SHARED | MAP_FIXED, memory, 0) == MAP_FAILED)
        error = ENOMEM;
    if (memory >= 0)
        real()->close(memory);
    if (error)
        real()->munmap(window, size);
    else
        note_window(device, window, size);
    device_release(device);
    if (!error)
        return window;
    errno = error;
    return MAP_FAILED;
}
