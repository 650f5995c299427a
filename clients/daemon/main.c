/* SPDX-License-Identifier: Apache-2.0 OR MIT */
/* main.c: hullpippind, the daemon that has a binder driver's devices where a machine has none. */
#include "daemon.h"

#include <errno.h>
#include <fcntl.h>
#include <getopt.h>
#include <limits.h>
#include <malloc.h>
#include <pwd.h>
#include <signal.h>
#include <stdlib.h>
#include <string.h>
#include <sys/epoll.h>
#include <sys/resource.h>
#include <sys/signalfd.h>
#include <sys/timerfd.h>
#include <unistd.h>

#define DEFAULT_DEVICES "/dev/binder,/dev/hwbinder,/dev/vndbinder"
#define DEFAULT_SEATS 16384u
#define SEATS_MOST 65536u

/* What is kept of freed memory while there is no rest: the most that the C library takes here. */
#define KEPT_BYTES (32 << 20)
/* What is larger has a mapping of its own, which goes as a whole: among what lasts it would leave holes, which limits and overcommitment
   count on. libbinder has no parcel that is as large. */
#define MAPPED_BYTES (1 << 20)

/* Statuses besides 0. */
enum { STATUS_FAILED = 1, STATUS_USAGE = 2, STATUS_BUSY = 3 };

static const char usage[] =
    "usage: hullpippind [--socket PATH] [--mode MODE] [--group GROUP] [--devices NAME,..] [--journal [NAME=]FILE].. [--seats N]\n"
    "                   [--manager UID] [--log FILE] [-v] [--background] [--no-filter]\n"
    "       hullpippind --look | --stats NAME | --state NAME [--socket PATH]\n"
    "       hullpippind --help | --version\n";
static const char help[] =
    "\n"
    "Serves Binder programs on a machine without a Binder driver. hullpippin-run PROGRAM starts a daemon and runs a program over it.\n"
    "What stands in brackets holds without the option.\n"
    "\n"
    "  --socket PATH           listen here (at HULLPIPPIN_SOCKET, else $XDG_RUNTIME_DIR/hullpippin/socket, else\n"
    "                          /tmp/hullpippin-UID/socket). A socket from systemd, LISTEN_FDS, goes before this\n"
    "  --mode MODE             who may connect, in octal: 600 only you, 660 your group, 666 everybody (as the umask says)\n"
    "  --group GROUP           the socket's group, by its name or number (the daemon's own)\n"
    "  --devices NAME,..       the devices to serve (" DEFAULT_DEVICES ")\n"
    "  --journal [NAME=]FILE   record a device, or the first one, into a new FILE\n"
    "  --seats N               seats of a device, 2 to 65536 (16384): as many threads may use it at a time\n"
    "  --manager UID           the user, by number or name, who may be the context manager, besides root and the daemon's own user\n"
    "                          (whoever was it first)\n"
    "  --log FILE              log there (to standard error)\n"
    "  -v, --verbose           log all that happens\n"
    "  --background            return as soon as clients may connect\n"
    "  --no-filter             leave out the filter of system calls, on a kernel without seccomp\n"
    "  --look                  tell whether programs reach a daemon, and where: status 0 or 1\n"
    "  --stats NAME            tell what a daemon has counted on a device: commands, returns, refusals, turns\n"
    "  --state NAME            tell what the processes and threads of a device are at. The daemon tells its own user and root\n"
    "\n"
    "For example, this also records what programs do on /dev/binder:\n"
    "\n"
    "    hullpippind --background --journal calls.journal\n"
    "\n"
    "SIGTERM and SIGINT end the daemon in order. Status 3: a daemon listens there already.\n";

struct options {
    const char *socket, *log, *stats, *state;
    bool is_verbose, is_background, is_unfiltered, looks, helps, tells_version;
};

/* Seats are at least the daemon's own and one to lend. */
static bool read_seats(struct daemon *daemon, const char *word)
{
    char *end;
    errno = 0;
    unsigned long seats = strtoul(word, &end, 10);
    daemon->seats = (uint32_t)seats;
    return !errno && *word && !*end && seats >= 2 && seats <= SEATS_MOST;
}

static bool read_manager(struct daemon *daemon, const char *word)
{
    char *end;
    const struct passwd *user = getpwnam(word);
    unsigned long number = strtoul(word, &end, 10);
    daemon->manager = user ? user->pw_uid : (uid_t)number;
    daemon->has_chosen_manager = true;
    return user || (*word >= '0' && *word <= '9' && !*end && number < (uid_t)-1);
}

static const struct option names[] = {
    {"socket", required_argument, NULL, 's'},  {"devices", required_argument, NULL, 'd'},
    {"journal", required_argument, NULL, 'j'}, {"seats", required_argument, NULL, 'n'},
    {"log", required_argument, NULL, 'l'},     {"background", no_argument, NULL, 'b'},
    {"verbose", no_argument, NULL, 'v'},       {"mode", required_argument, NULL, 'm'},
    {"group", required_argument, NULL, 'g'},   {"look", no_argument, NULL, 'k'},
    {"help", no_argument, NULL, 'h'},          {"version", no_argument, NULL, 'V'},
    {"no-filter", no_argument, NULL, 'f'},     {"manager", required_argument, NULL, 'c'},
    {"stats", required_argument, NULL, 't'},   {"state", required_argument, NULL, 'p'},
    {NULL, 0, NULL, 0},
};

/* What --devices and --journal name, which is looked at once all is read. */
struct named {
    const char *devices, *journals[DEVICES_MAX];
    int journal_count;
};

/* Takes an option; false where its word makes no sense. */
static bool take_option(struct daemon *daemon, struct options *options, struct named *named, int option)
{
    switch (option) {
    case 's': options->socket = optarg; break;
    case 'd': named->devices = optarg; break;
    case 'j':
        if (named->journal_count == DEVICES_MAX)
            return false;
        named->journals[named->journal_count++] = optarg;
        break;
    case 'n': return read_seats(daemon, optarg);
    case 'l': options->log = optarg; break;
    case 'b': options->is_background = true; break;
    case 'v': options->is_verbose = true; break;
    case 'm': return listener_set_mode(&daemon->listener, optarg);
    case 'g': return listener_set_group(&daemon->listener, optarg);
    case 'c': return read_manager(daemon, optarg);
    case 'f': options->is_unfiltered = true; break;
    case 'k': options->looks = true; break;
    case 't': options->stats = optarg; break;
    case 'p': options->state = optarg; break;
    case 'h': options->helps = true; break;
    default: options->tells_version = true;
    }
    return true;
}

/* Of an option's word, or of one that stands alone. Always false. */
static bool tell_senseless(const char *option, const char *word)
{
    fprintf(stderr, "hullpippind: %s%s%s'%s' makes no sense\n", option ? "--" : "", option ? option : "", option ? " " : "", word);
    return false;
}

static bool read_options(struct daemon *daemon, struct options *options, int count, char **words)
{
    struct named named = {.devices = DEFAULT_DEVICES};
    int option, at = 0;
    while ((option = getopt_long(count, words, "v", names, &at)) != -1) {
        if (option == '?') /* (which has been told) */
            return false;
        if (!take_option(daemon, options, &named, option))
            return tell_senseless(names[at].name, optarg);
    }
    if (optind < count)
        return tell_senseless(NULL, words[optind]);
    if (!devices_add(daemon, named.devices))
        return tell_senseless("devices", named.devices);
    for (int i = 0; i < named.journal_count; i++)
        if (!devices_set_journal(daemon, named.journals[i]))
            return tell_senseless("journal", named.journals[i]);
    return options->looks + !!options->stats + !!options->state <= 1; /* each prints what it alone is asked for */
}

static void signal_ready(struct watch *watch)
{
    container_of(watch, struct daemon, signals)->loop.is_stopped = true;
}

/* The first thread has nothing to do then. */
static bool has_rested(void *daemon)
{
    (void)daemon;
    return false;
}

static bool watch_signals(struct daemon *daemon)
{
    sigset_t set;
    sigemptyset(&set);
    sigaddset(&set, SIGTERM);
    sigaddset(&set, SIGINT);
    signal(SIGPIPE, SIG_IGN);
    signal(SIGXFSZ, SIG_IGN); /* a journal that may grow no more breaks off */
    if (sigprocmask(SIG_BLOCK, &set, NULL))
        return false;
    daemon->signals = (struct watch){.fd = signalfd(-1, &set, SFD_CLOEXEC | SFD_NONBLOCK), .ready = signal_ready};
    return daemon->signals.fd >= 0 && loop_add(&daemon->loop, &daemon->signals, EPOLLIN);
}

static void patience_is_over(struct watch *watch)
{
    struct daemon *daemon = container_of(watch, struct daemon, patience);
    uint64_t times;
    if (read(watch->fd, &times, sizeof times) == sizeof times)
        daemon->strangers_are_timed = false;
}

/* The timer runs while somebody has opened nothing yet (devices.c). */
static bool watch_strangers(struct daemon *daemon)
{
    daemon->patience = (struct watch){.fd = timerfd_create(CLOCK_MONOTONIC, TFD_CLOEXEC | TFD_NONBLOCK), .ready = patience_is_over};
    return daemon->patience.fd >= 0 && loop_add(&daemon->loop, &daemon->patience, EPOLLIN);
}

/* A client's thread takes two descriptors to four. */
static void raise_limits(void)
{
    struct rlimit limit;
    if (getrlimit(RLIMIT_NOFILE, &limit) == 0) {
        limit.rlim_cur = limit.rlim_max;
        setrlimit(RLIMIT_NOFILE, &limit);
    }
}

/* Memory of parcels is used again, and goes back to the system after a second of rest (handover.c), unless who starts the daemon has
   said how the C library is to do that. What is at the end of an arena goes back of the first alone, so that is the only one. */
static void keep_memory(void)
{
    if (getenv("GLIBC_TUNABLES"))
        return;
    mallopt(M_ARENA_MAX, 1);
    mallopt(M_MMAP_THRESHOLD, MAPPED_BYTES);
    mallopt(M_TRIM_THRESHOLD, KEPT_BYTES);
}

/* Where the process that waits is told, and what takes the place of the standard files then; -1: nobody waits. */
struct background {
    int told, null;
};

/* The first process waits until the second tells that clients may come, and ends with its status. False where that can't be. */
static bool go_to_background(struct background *background)
{
    int ends[2];
    close_range(3, UINT_MAX, 0); /* else who waits for the end of what we were given would wait for ours */
    background->null = open("/dev/null", O_RDWR | O_CLOEXEC);
    if (background->null < 0 || pipe(ends))
        return false;
    pid_t child = fork();
    if (child > 0) {
        unsigned char status = STATUS_FAILED;
        close(ends[1]);
        if (read(ends[0], &status, 1) != 1)
            status = STATUS_FAILED;
        _exit(status);
    }
    close(ends[0]);
    background->told = ends[1];
    return child == 0 && setsid() >= 0;
}

/* Tells the status to the process that waits for it, and lets go of what that one's caller may read to its end. */
static void tell_status(struct background *background, unsigned char status)
{
    if (background->told < 0)
        return;
    if (write(background->told, &status, 1) != 1)
        log_line("nobody waits for the daemon's beginning");
    for (int fd = STDIN_FILENO; fd <= STDERR_FILENO; fd++)
        if (dup3(background->null, fd, 0) < 0)
            log_line("the standard files stay open");
    descriptor_close(&background->told);
    descriptor_close(&background->null);
}

/* Whatever is opened from here on has another number than a standard file: a line of the log goes to no client. */
static bool has_standard_files(void)
{
    int fd;
    do
        fd = open("/dev/null", O_RDWR);
    while (fd >= 0 && fd <= STDERR_FILENO);
    if (fd >= 0)
        close(fd);
    return fd >= 0;
}

/* A sanitizer calls the kernel as it likes. */
static bool is_filtered(const struct options *options)
{
#ifdef HULLPIPPIN_SANITIZED
    return options != NULL;
#else
    return options->is_unfiltered || filter_begin();
#endif
}

static int run(struct daemon *daemon, const struct options *options, struct background *background)
{
    int status = listener_lock(daemon, options->socket);
    if (status != LISTENER_OK) {
        status = status == LISTENER_BUSY ? STATUS_BUSY : STATUS_FAILED;
        tell_status(background, (unsigned char)status);
        return status;
    }
    /* Old journals are written anew once the address is ours. A client that comes before waits until the loop runs. */
    bool is_begun = watch_signals(daemon) && watch_strangers(daemon) && descriptors_begin() && listener_begin(daemon)
                    && devices_begin(daemon) && is_filtered(options);
    status = is_begun ? 0 : STATUS_FAILED;
    tell_status(background, (unsigned char)status);
    if (!status && !loop_run(&daemon->loop))
        status = STATUS_FAILED;
    devices_end(daemon);
    listener_end(daemon);
    loop_drop(&daemon->loop, &daemon->signals);
    loop_drop(&daemon->loop, &daemon->patience);
    return daemon->has_failed ? STATUS_FAILED : status;
}

int main(int count, char **words)
{
    static struct daemon daemon = {.seats = DEFAULT_SEATS, .signals.fd = -1, .patience.fd = -1,
                                   .listener = {.watch.fd = -1, .rest.fd = -1, .lock = -1, .spare = -1, .mode = NO_MODE, .group = NO_GROUP}};
    struct options options = {0};
    list_begin(&daemon.strangers);
    if (!has_standard_files())
        return STATUS_FAILED;
    if (!read_options(&daemon, &options, count, words))
        return fputs(usage, stderr), STATUS_USAGE;
    if (options.helps)
        return fputs(usage, stdout), fputs(help, stdout), 0;
    if (options.tells_version)
        return version_tell(stdout), 0;
    if (options.looks)
        return listener_look(options.socket);
    if (options.stats || options.state)
        return options.stats ? ask_stats(options.socket, options.stats) : ask_state(options.socket, options.state);
    struct background background = {-1, -1};
    if (options.is_background && !go_to_background(&background))
        return perror("hullpippind"), STATUS_FAILED;
    raise_limits();
    keep_memory();
    shares_begin(daemon.seats);
    accounts_begin();
    if (!log_open(options.log, options.is_verbose) || !loop_begin(&daemon.loop))
        return perror("hullpippind"), STATUS_FAILED;
    daemon.loop.between = strangers_end_some;
    daemon.loop.idle = has_rested;
    daemon.loop.context = &daemon;
    int status = run(&daemon, &options, &background);
    loop_end(&daemon.loop);
    accounts_end();
    log_close();
    return status;
}
