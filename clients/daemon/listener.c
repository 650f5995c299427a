/* SPDX-License-Identifier: Apache-2.0 OR MIT */
/* listener.c: where clients come from. One daemon has an address at a time: it holds a lock beside it, or was given the socket. */
#include "daemon.h"

#include "../address.h"

#include <errno.h>
#include <fcntl.h>
#include <grp.h>
#include <sys/epoll.h>
#include <sys/file.h>
#include <sys/stat.h>
#include <sys/timerfd.h>

/* So many wait to be taken; who comes then waits until one of them is. */
#define BACKLOG 8

/* So many are taken at once. */
#define TAKEN_MOST 8

#define REST_SECONDS 1

/* Whether the client that was to be taken has gone, or there was none. */
static bool has_gone(int error)
{
    return error == EAGAIN || error == EINTR || error == ECONNABORTED;
}

/* Where no descriptor is left, the spare one is let go of, so that the client can be taken and sent away. False where it can't. */
static bool send_away(struct listener *listener)
{
    close(listener->spare);
    int fd = accept4(listener->watch.fd, NULL, NULL, SOCK_CLOEXEC);
    bool is_away = fd >= 0 || has_gone(errno);
    if (fd >= 0)
        close(fd);
    listener->spare = open("/dev/null", O_RDONLY | O_CLOEXEC);
    log_event("no descriptor is left for another client");
    return is_away;
}

/* A client waits that the kernel has no memory for, and the loop would be told of it without an end. A busy daemon is never idle, so
   a timer says when it's tried again. */
static void rest(struct daemon *daemon, int error)
{
    const struct itimerspec time = {.it_value.tv_sec = REST_SECONDS};
    log_event("a client can't be taken yet: %s", strerror(error));
    if (timerfd_settime(daemon->listener.rest.fd, 0, &time, NULL) == 0)
        loop_change(&daemon->loop, &daemon->listener.watch, 0);
}

static void rest_ready(struct watch *watch)
{
    struct daemon *daemon = container_of(watch, struct daemon, listener.rest);
    uint64_t times;
    if (read(watch->fd, &times, sizeof times) == sizeof times)
        loop_change(&daemon->loop, &daemon->listener.watch, EPOLLIN);
}

static void listener_ready(struct watch *watch)
{
    struct daemon *daemon = container_of(watch, struct daemon, listener.watch);
    int fd = 0;
    for (int i = 0; i < TAKEN_MOST && fd >= 0; i++)
        if ((fd = accept4(watch->fd, NULL, NULL, SOCK_CLOEXEC)) >= 0)
            process_accept(daemon, fd);
    int error = errno;
    if (fd >= 0)
        return;
    bool is_away = has_gone(error) || ((error == EMFILE || error == ENFILE) && send_away(&daemon->listener));
    if (!is_away)
        rest(daemon, error);
}

/* Why a folder isn't the daemon's own alone, or NULL. Who could put a socket or a lock there would be taken for the daemon. */
static const char *why_not_own(const char *folder)
{
    struct stat stat;
    if (lstat(folder, &stat))
        return strerror(errno);
    if (S_ISLNK(stat.st_mode))
        return "it is a link";
    if (!S_ISDIR(stat.st_mode))
        return "it is no folder";
    if (stat.st_uid != geteuid())
        return "it is another user's";
    return stat.st_mode & (S_IRWXG | S_IRWXO) ? "others may come there" : NULL;
}

/* The address's folder is made where it isn't there. Where nobody has chosen it, it has to be ours alone. */
static bool make_folder(const char *path, bool is_chosen)
{
    char folder[sizeof((struct sockaddr_un *)0)->sun_path];
    snprintf(folder, sizeof folder, "%s", path);
    char *slash = strrchr(folder, '/');
    if (!slash || slash == folder)
        return true;
    *slash = 0;
    bool is_there = mkdir(folder, 0700) == 0 || errno == EEXIST;
    const char *why = !is_there ? strerror(errno) : is_chosen ? NULL : why_not_own(folder);
    if (why)
        log_line("%s: %s", folder, why);
    return !why;
}

/* Takes the lock of an address; where that is another user's, it says nothing about daemons. */
static int take_lock(const char *path)
{
    char name[sizeof((struct sockaddr_un *)0)->sun_path + sizeof ".lock"];
    struct stat stat;
    snprintf(name, sizeof name, "%s.lock", path);
    int fd = open(name, O_RDWR | O_CREAT | O_CLOEXEC | O_NOFOLLOW, 0600), error = errno;
    bool is_ours = fd >= 0 && fstat(fd, &stat) == 0 && stat.st_uid == geteuid();
    if (is_ours && flock(fd, LOCK_EX | LOCK_NB) == 0)
        return fd;
    if (fd >= 0)
        error = is_ours ? errno : EPERM;
    if (error != EWOULDBLOCK)
        log_line("%s: %s", name, is_ours || fd < 0 ? strerror(error) : "it is another user's");
    if (fd >= 0)
        close(fd);
    errno = error;
    return -1;
}

/* Removes a socket of ours, or of a daemon that was killed, since we have the lock. Any other file stays. */
static void remove_socket(const char *path)
{
    struct stat stat;
    if (lstat(path, &stat) == 0 && S_ISSOCK(stat.st_mode))
        unlink(path);
}

bool listener_set_mode(struct listener *listener, const char *word)
{
    char *end;
    unsigned long mode = strtoul(word, &end, 8);
    listener->mode = (mode_t)mode;
    return *word >= '0' && *word <= '7' && !*end && mode <= 0777;
}

bool listener_set_group(struct listener *listener, const char *word)
{
    char *end;
    const struct group *group = getgrnam(word);
    unsigned long number = strtoul(word, &end, 10);
    listener->group = group ? group->gr_gid : (gid_t)number;
    return group || (*word >= '0' && *word <= '9' && !*end && number < NO_GROUP);
}

/* As for the library: a daemon of its build answers, be it that it has no such device. */
int listener_look(const char *path)
{
    struct control_request request = {.version = PROTOCOL_VERSION, .op = CONTROL_LOOK, .device = "/dev/binder"};
    struct control_answer answer;
    struct sockaddr_un address = {0};
    uint32_t count;
    int fd = daemon_dial(path, ASKING_PATIENCE, &address);
    const char *why = fd < 0 ? strerror(errno) : NULL;
    if (fd >= 0) {
        bool is_one = packet_send(fd, &request, sizeof request, NULL, 0, 0)
                      && packet_receive(fd, &answer, sizeof answer, NULL, 0, &count, 0) == 1;
        why = is_one ? NULL : "it doesn't answer, or is of another build";
        close(fd);
    }
    fprintf(why ? stderr : stdout, "hullpippind: %s at %s%s%s\n", why ? "no daemon" : "a daemon listens", address.sun_path, why ? ": " : "",
            why ? why : "");
    return why ? 1 : 0;
}

/* The number that an environment variable has, or 0. */
static long number_in(const char *name)
{
    const char *word = getenv(name);
    return word ? strtol(word, NULL, 10) : 0;
}

/* Whether a descriptor listens as we would. */
static bool listens(int fd)
{
    int domain = 0, type = 0, accepts = 0;
    socklen_t size = sizeof domain;
    return getsockopt(fd, SOL_SOCKET, SO_DOMAIN, &domain, &size) == 0 && domain == AF_UNIX
           && getsockopt(fd, SOL_SOCKET, SO_TYPE, &type, &size) == 0 && type == SOCK_SEQPACKET
           && getsockopt(fd, SOL_SOCKET, SO_ACCEPTCONN, &accepts, &size) == 0 && accepts
           && fcntl(fd, F_SETFD, FD_CLOEXEC) == 0 && fcntl(fd, F_SETFL, O_NONBLOCK) == 0;
}

/* Takes the socket that this daemon was started with, as systemd gives it: descriptor 3, where LISTEN_PID is ours. */
static int take_given(struct listener *listener)
{
    enum { FIRST = 3 };
    socklen_t size = sizeof listener->address;
    bool is_good = number_in("LISTEN_FDS") == 1 && listens(FIRST);
    listener->watch.fd = is_good ? FIRST : -1;
    if (!is_good || getsockname(FIRST, (struct sockaddr *)&listener->address, &size)) {
        log_line("LISTEN_FDS: what is given isn't one socket that listens for packets (SOCK_SEQPACKET)");
        return LISTENER_FAILED;
    }
    listener->address.sun_path[sizeof listener->address.sun_path - 1] = 0;
    unsetenv("LISTEN_PID");
    unsetenv("LISTEN_FDS");
    unsetenv("LISTEN_FDNAMES");
    return listen(FIRST, BACKLOG) ? LISTENER_FAILED : LISTENER_OK; /* as many wait as at a socket of our own */
}

/* The path that is given, else the chosen one, else the first of the user's own. */
static bool find_address(const char *path, struct sockaddr_un *address)
{
    const char *chosen = path ? path : chosen_address();
    if (chosen)
        return address_at(chosen, address);
    return address_of(ADDRESS_OF_RUNTIME, address) || address_of(ADDRESS_OF_TMP, address);
}

int listener_lock(struct daemon *daemon, const char *path)
{
    struct listener *listener = &daemon->listener;
    if (number_in("LISTEN_PID") == getpid() && number_in("LISTEN_FDS"))
        return take_given(listener);
    if (!find_address(path, &listener->address)) {
        log_line("the socket's path is too long");
        return LISTENER_FAILED;
    }
    const char *at = listener->address.sun_path;
    listener->lock = make_folder(at, path || chosen_address()) ? take_lock(at) : -1;
    if (listener->lock < 0 && errno == EWOULDBLOCK) {
        log_event("a daemon listens at %s already", at);
        return LISTENER_BUSY;
    }
    return listener->lock < 0 ? LISTENER_FAILED : LISTENER_OK;
}

/* Until a socket listens its name is a hidden one beside its address, so that nobody is refused there. False where that is too long. */
static bool hidden_beside(const struct sockaddr_un *address, struct sockaddr_un *hidden)
{
    const char *slash = strrchr(address->sun_path, '/'), *name = slash ? slash + 1 : address->sun_path;
    *hidden = (struct sockaddr_un){.sun_family = AF_UNIX};
    int size = snprintf(hidden->sun_path, sizeof hidden->sun_path, "%.*s.%s", (int)(name - address->sun_path), address->sun_path, name);
    return size < (int)sizeof hidden->sun_path;
}

/* The mode is the socket's from the beginning: nobody comes before. */
static bool bind_at(const struct listener *listener, int fd, const struct sockaddr_un *address)
{
    mode_t before = listener->mode == NO_MODE ? 0 : umask(~listener->mode & 0777);
    bool is_bound = bind(fd, (const struct sockaddr *)address, sizeof *address) == 0;
    int error = errno;
    if (listener->mode != NO_MODE)
        umask(before);
    errno = error;
    return is_bound && (listener->group == NO_GROUP || lchown(address->sun_path, (uid_t)-1, listener->group) == 0);
}

/* Gives what listens our address. A daemon that was killed has left its socket there, since we have the lock, and that gives way. Any
   other file stays, and the address can't be had. */
static bool comes_to(const char *hidden, const char *path)
{
    struct stat stat;
    if (lstat(path, &stat) == 0 && !S_ISSOCK(stat.st_mode))
        return errno = EADDRINUSE, false;
    return rename(hidden, path) == 0;
}

/* Listens at our address, where we don't yet. */
static bool listens_at_last(struct listener *listener)
{
    struct watch *watch = &listener->watch;
    struct sockaddr_un hidden;
    watch->ready = listener_ready;
    if (watch->fd >= 0)
        return true;
    if (!hidden_beside(&listener->address, &hidden))
        return errno = ENAMETOOLONG, false;
    remove_socket(hidden.sun_path);
    watch->fd = socket(AF_UNIX, SOCK_SEQPACKET | SOCK_CLOEXEC | SOCK_NONBLOCK, 0);
    bool is_there = watch->fd >= 0 && bind_at(listener, watch->fd, &hidden) && listen(watch->fd, BACKLOG) == 0
                    && comes_to(hidden.sun_path, listener->address.sun_path);
    int error = errno;
    if (!is_there)
        remove_socket(hidden.sun_path);
    errno = error;
    return is_there;
}

bool listener_begin(struct daemon *daemon)
{
    struct listener *listener = &daemon->listener;
    listener->spare = open("/dev/null", O_RDONLY | O_CLOEXEC);
    listener->rest = (struct watch){.fd = timerfd_create(CLOCK_MONOTONIC, TFD_CLOEXEC | TFD_NONBLOCK), .ready = rest_ready};
    if (listener->rest.fd < 0 || !loop_add(&daemon->loop, &listener->rest, EPOLLIN) || !listens_at_last(listener)
        || !loop_add(&daemon->loop, &listener->watch, EPOLLIN)) {
        log_line("%s: %s", listener->address.sun_path, strerror(errno));
        return false;
    }
    log_event("listening at %s", listener->address.sun_path);
    return true;
}

void listener_end(struct daemon *daemon)
{
    struct listener *listener = &daemon->listener;
    if (listener->watch.fd >= 0 && listener->lock >= 0)
        remove_socket(listener->address.sun_path);
    loop_drop(&daemon->loop, &listener->watch);
    loop_drop(&daemon->loop, &listener->rest);
    descriptor_close(&listener->spare);
    descriptor_close(&listener->lock);
}
