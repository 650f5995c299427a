/* SPDX-License-Identifier: Apache-2.0 OR MIT */
#include "manager.h"

#include <errno.h>
#include <stdio.h>
#include <stdlib.h>
#include <string.h>
#include <sys/prctl.h>

/* Where calls with the names of services arrive. */
#define WINDOW (1 << 20)

/* Names are told as they can be read: those in UTF-16 by every other byte. */
static void tell(const struct manager *manager, const char *what, const void *name, size_t size, uint32_t handle)
{
    const uint8_t *bytes = name;
    if (!manager->talks)
        return;
    printf("%s: %s ", manager->program, what);
    for (size_t i = 0; i < size; i++)
        if (bytes[i])
            putchar(bytes[i] >= ' ' && bytes[i] <= '~' ? bytes[i] : '?');
    printf(" (handle %u)\n", handle);
}

/* The last name of an object has gone. Its end is told by its cookie, which is its handle. */
static void let_go(struct looper *looper, uint32_t handle, bool lives)
{
    if (lives)
        put_death(&looper->commands, BC_CLEAR_DEATH_NOTIFICATION, handle, handle);
    put_handle(&looper->commands, BC_RELEASE, handle);
}

bool manager_add(struct looper *looper, const void *name, size_t size, uint32_t handle, uint32_t mark)
{
    struct manager *manager = looper->with;
    struct registry *registry = &manager->registry;
    const struct service *was = registry_find(registry, name, size);
    bool known = registry_has(registry, handle), replaces = was && was->handle != handle;
    uint32_t before = was ? was->handle : 0;
    if (!registry_put(registry, name, size, handle, mark))
        return false;
    if (!known) {
        put_handle(&looper->commands, BC_ACQUIRE, handle);
        put_death(&looper->commands, BC_REQUEST_DEATH_NOTIFICATION, handle, handle);
    }
    if (replaces && !registry_has(registry, before))
        let_go(looper, before, true);
    tell(manager, "added", name, size, handle);
    return true;
}

static void died(struct looper *looper, binder_uintptr_t cookie)
{
    struct manager *manager = looper->with;
    struct registry *registry = &manager->registry;
    pthread_mutex_lock(&manager->lock);
    for (size_t i = 0; i < registry->count; i++)
        if (registry->all[i].handle == cookie)
            tell(manager, "died", registry->all[i].name, registry->all[i].size, (uint32_t)cookie);
    if (registry_drop(registry, (uint32_t)cookie))
        let_go(looper, (uint32_t)cookie, false);
    pthread_mutex_unlock(&manager->lock);
}

void manager_answer(struct looper *looper, struct writer *writer)
{
    struct binder_transaction_data answer = record_of(writer);
    if (writer->failed)
        looper_answer_status(looper, STATUS_NO_MEMORY);
    else
        looper_answer(looper, &answer, writer->buffers);
    writer_free(writer);
}

static void *run_spawned(void *with)
{
    looper_run_spawned(with);
    free(with);
    return NULL;
}

/* The driver asks for a thread where all others are busy. Without memory for it they have to do. */
static void spawn(struct looper *looper)
{
    pthread_t thread;
    struct looper *spawned = calloc(1, sizeof *spawned);
    if (!spawned)
        return;
    *spawned = (struct looper){.binder = looper->binder, .serve = looper->serve, .died = looper->died, .spawn = spawn, .with = looper->with};
    if (pthread_create(&thread, NULL, run_spawned, spawned))
        free(spawned);
    else
        pthread_detach(thread);
}

static bool read_arguments(struct manager *manager, int argc, char **argv, const char **device)
{
    for (int i = 1; i < argc; i++) {
        if (!strcmp(argv[i], "-v"))
            manager->talks = true;
        else if (argv[i][0] != '-')
            *device = argv[i];
        else
            return false;
    }
    return true;
}

int manager_main(int argc, char **argv, const char *program, const char *device,
                 void (*serve)(struct looper *, const struct binder_transaction_data *), uint32_t threads)
{
    static struct manager manager = {.lock = PTHREAD_MUTEX_INITIALIZER};
    manager.program = program;
    manager.looper = (struct looper){.binder = &manager.binder, .serve = serve, .died = died, .spawn = spawn, .with = &manager};
    prctl(PR_SET_NAME, strchr(program, '-') + 1); /* the kernel keeps 15 letters, and all programs here begin alike */
    setvbuf(stdout, NULL, _IOLBF, 0); /* so that who waits for a line gets it */
    if (!read_arguments(&manager, argc, argv, &device)) {
        fprintf(stderr, "usage: %s [-v] [DEVICE]\n", program);
        return 2;
    }
    if (!binder_open(&manager.binder, device, WINDOW) || !binder_allow_threads(&manager.binder, threads)
        || !binder_become_manager(&manager.binder)) {
        fprintf(stderr, "%s: %s: %s\n", program, device, errno == EBUSY ? "there is a context manager" : strerror(errno));
        return 1;
    }
    printf("%s: ready on %s\n", program, device);
    looper_run(&manager.looper);
    fprintf(stderr, "%s: %s: %s\n", program, device, strerror(errno));
    return 1;
}
