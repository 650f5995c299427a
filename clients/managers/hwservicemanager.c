/* SPDX-License-Identifier: Apache-2.0 OR MIT */
/*
 * hullpippin-hwservicemanager [-v] [DEVICE]: a context manager for HIDL services,
 * android.hidl.manager@1.0::IServiceManager, on /dev/hwbinder where nothing else is said. It gets, adds and lists
 * services; one whose process ends is gone.
 *
 * A service is added by its instance's name alone. Its interfaces are asked for: while it waits for the answer, the
 * service itself is called. Its name in the registry is INTERFACE/INSTANCE, once for each interface but the base of
 * all.
 *
 * A service may take its time to answer, or never do. Only the thread that adds it waits for that, and there are more threads than may
 * wait. Who has as many services waiting as a process or a user may have is told that the next one isn't added.
 */
#include "manager.h"

#include <stdio.h>
#include <stdlib.h>
#include <string.h>

#define INTERFACE "android.hidl.manager@1.0::IServiceManager"
#define BASE "android.hidl.base@1.0::IBase"

#define NAME_BYTES 512
/* Interfaces of one service: each extends the one before it. */
#define INTERFACES 16

/* Threads besides the first; and how many may wait for services, all together, of one user and of one process. */
#define THREADS 32
#define WAITING 24
#define WAITING_OF_USER 8
#define WAITING_OF_PROCESS 4

enum call {
    GET = 1,
    ADD = 2,
    GET_TRANSPORT = 3,
    LIST = 4,
    LIST_BY_INTERFACE = 5,
};

/* How a service is reached (android.hidl.manager@1.0::IServiceManager.Transport). */
enum transport {
    NOWHERE = 0,
    BY_BINDER = 1,
};

/* As hidl_string and hidl_vec lie in memory. */
struct vector {
    uint64_t pointer;
    uint32_t size;
    uint8_t owns;
    uint8_t padding[3];
};

/* The PTR object of a parcel at an index among its objects, where it is one whose bytes lie in the window. */
static bool buffer_of(const struct binder *binder, const struct binder_transaction_data *record, size_t index,
                      struct binder_buffer_object *object)
{
    const binder_size_t *offsets = (const binder_size_t *)(uintptr_t)record->data.ptr.offsets;
    if (index >= record->offsets_size / sizeof *offsets || offsets[index] > record->data_size
        || record->data_size - offsets[index] < sizeof *object)
        return false;
    memcpy(object, (const uint8_t *)(uintptr_t)record->data.ptr.buffer + offsets[index], sizeof *object);
    return object->hdr.type == BINDER_TYPE_PTR && binder_has(binder, object->buffer, object->length);
}

/* A string where it lies in the window: how many characters it has, without the 0 behind them. */
struct text {
    const char *at;
    size_t size;
};

static bool text_at(const struct binder *binder, const void *where, struct text *text)
{
    struct vector string;
    memcpy(&string, where, sizeof string);
    *text = (struct text){(const char *)(uintptr_t)string.pointer, string.size};
    return binder_has(binder, string.pointer, string.size);
}

/* The argument of that number, where all before it are strings: each is two objects, the string and its characters. */
static bool argument(const struct binder *binder, const struct binder_transaction_data *call, size_t number, struct text *text)
{
    struct binder_buffer_object object;
    return buffer_of(binder, call, 2 * number, &object) && object.length >= sizeof(struct vector)
        && text_at(binder, (const void *)(uintptr_t)object.buffer, text);
}

/* Writes INTERFACE/INSTANCE; false where that is too long. */
static bool full_name(char name[NAME_BYTES], struct text interface, struct text instance)
{
    int size = snprintf(name, NAME_BYTES, "%.*s/%.*s", (int)interface.size, interface.at, (int)instance.size, instance.at);
    return interface.size < NAME_BYTES && instance.size < NAME_BYTES && size < NAME_BYTES;
}

static bool is(struct text text, const char *word)
{
    return text.size == strlen(word) && !memcmp(text.at, word, text.size);
}

/* Adds what the reply to interfaceChain names, which is a vector of strings. */
static bool add_chain(struct looper *looper, const struct binder_transaction_data *reply, struct text instance, uint32_t handle)
{
    struct manager *manager = looper->with;
    struct binder_buffer_object all;
    bool any = false;
    if (!buffer_of(&manager->binder, reply, 1, &all))
        return false;
    size_t count = all.length / sizeof(struct vector);
    for (size_t i = 0; i < count && i < INTERFACES; i++) {
        struct text interface;
        char name[NAME_BYTES];
        const void *where = (const void *)(uintptr_t)(all.buffer + i * sizeof(struct vector));
        if (!text_at(&manager->binder, where, &interface) || !full_name(name, interface, instance))
            return any;
        if (!is(interface, BASE) || count == 1)
            any = manager_add(looper, name, strlen(name), handle, 0) || any;
    }
    return any;
}

/* Asks the object for its interfaces, and adds it under each. */
static bool ask_and_add(struct looper *looper, struct text instance, uint32_t handle)
{
    struct manager *manager = looper->with;
    static const uint8_t token[(sizeof BASE + 3) / 4 * 4] = BASE;
    struct binder_transaction_data call = {
        .target.handle = handle,
        .code = HIDL_CHAIN,
        .flags = TF_ACCEPT_FDS,
        .data_size = sizeof token,
        .data.ptr.buffer = (uintptr_t)token,
    };
    struct binder_transaction_data reply;
    if (looper_call(looper, &call, 0, &reply) != BR_REPLY)
        return false;
    pthread_mutex_lock(&manager->lock);
    bool added = add_chain(looper, &reply, instance, handle);
    pthread_mutex_unlock(&manager->lock);
    looper_free(looper, &reply);
    return added;
}

/* The object that a call carries last. */
static bool last_object(const struct binder_transaction_data *call, uint32_t *handle)
{
    const binder_size_t *offsets = (const binder_size_t *)(uintptr_t)call->data.ptr.offsets;
    size_t count = call->offsets_size / sizeof *offsets;
    struct flat_binder_object object;
    if (!count || offsets[count - 1] > call->data_size || call->data_size - offsets[count - 1] < sizeof object)
        return false;
    memcpy(&object, (const uint8_t *)(uintptr_t)call->data.ptr.buffer + offsets[count - 1], sizeof object);
    *handle = object.handle;
    return object.hdr.type == BINDER_TYPE_HANDLE;
}

/* The callers that wait for a service to come, so that none of them and no user takes all threads with waiting. */
static struct {
    pthread_mutex_t lock;
    struct waiting {
        pid_t pid;
        uid_t user;
    } all[WAITING];
    size_t count;
} waits = {.lock = PTHREAD_MUTEX_INITIALIZER};

static bool begin_wait(const struct binder_transaction_data *call)
{
    size_t of_process = 0, of_user = 0;
    pthread_mutex_lock(&waits.lock);
    for (size_t i = 0; i < waits.count; i++) {
        of_process += waits.all[i].pid == call->sender_pid;
        of_user += waits.all[i].user == call->sender_euid;
    }
    bool may_wait = waits.count < WAITING && of_user < WAITING_OF_USER && of_process < WAITING_OF_PROCESS;
    if (may_wait)
        waits.all[waits.count++] = (struct waiting){call->sender_pid, call->sender_euid};
    pthread_mutex_unlock(&waits.lock);
    return may_wait;
}

static void end_wait(const struct binder_transaction_data *call)
{
    pthread_mutex_lock(&waits.lock);
    size_t i = 0;
    while (waits.all[i].pid != call->sender_pid || waits.all[i].user != call->sender_euid)
        i++;
    waits.all[i] = waits.all[--waits.count];
    pthread_mutex_unlock(&waits.lock);
}

static void add(struct looper *looper, const struct binder_transaction_data *call, struct writer *writer)
{
    struct manager *manager = looper->with;
    struct text instance;
    uint32_t handle;
    bool added = argument(&manager->binder, call, 0, &instance) && last_object(call, &handle) && begin_wait(call);
    if (added) {
        added = ask_and_add(looper, instance, handle);
        end_wait(call);
    }
    write_number(writer, added);
}

static const struct service *named(struct manager *manager, const struct binder_transaction_data *call)
{
    struct text interface, instance;
    char name[NAME_BYTES];
    if (!argument(&manager->binder, call, 0, &interface) || !argument(&manager->binder, call, 1, &instance)
        || !full_name(name, interface, instance))
        return NULL;
    return registry_find(&manager->registry, name, strlen(name));
}

static void get(struct manager *manager, const struct binder_transaction_data *call, struct writer *writer)
{
    const struct service *service = named(manager, call);
    if (service)
        write_strong_handle(writer, service->handle);
    else
        write_no_object(writer);
}

/* The part of a service's name that is to be listed: all of it, or the instance alone where the interface is given. */
static bool listed(const struct service *service, const struct text *interface, struct text *part)
{
    *part = (struct text){(const char *)service->name, service->size};
    if (!interface)
        return true;
    if (service->size <= interface->size || service->name[interface->size] != '/'
        || memcmp(service->name, interface->at, interface->size))
        return false;
    part->at += interface->size + 1;
    part->size -= interface->size + 1;
    return true;
}

/* A vector of strings; it has to stay until the answer is out. */
struct lists {
    struct vector all;
    struct vector *strings;
};

static void write_list(struct writer *writer, const struct lists *lists)
{
    int outer = write_buffer(writer, &lists->all, sizeof lists->all, -1, 0);
    int inner = write_buffer(writer, lists->strings, lists->all.size * sizeof *lists->strings, outer, 0);
    for (size_t i = 0; i < lists->all.size; i++) {
        const struct vector *string = &lists->strings[i];
        write_buffer(writer, (const void *)(uintptr_t)string->pointer, string->size + 1, inner, i * sizeof *string);
    }
}

/* The names of all services, or the instances of one interface. */
static int32_t list(struct manager *manager, const struct text *interface, struct writer *writer, struct lists *lists)
{
    lists->strings = calloc(manager->registry.count + 1, sizeof *lists->strings);
    if (!lists->strings)
        return STATUS_NO_MEMORY;
    for (size_t i = 0; i < manager->registry.count; i++) {
        struct text part;
        if (listed(&manager->registry.all[i], interface, &part))
            lists->strings[lists->all.size++] = (struct vector){.pointer = (uintptr_t)part.at, .size = (uint32_t)part.size};
    }
    lists->all.pointer = (uintptr_t)lists->strings;
    write_list(writer, lists);
    return 0;
}

static bool has_header(const struct binder_transaction_data *call)
{
    return call->data_size >= sizeof INTERFACE
        && !memcmp((const void *)(uintptr_t)call->data.ptr.buffer, INTERFACE, sizeof INTERFACE);
}

/* Writes the answer of a call, or tells a status to be answered with in its place. The lock is held. */
static int32_t write_answer(struct manager *manager, const struct binder_transaction_data *call, struct writer *writer,
                            struct lists *lists)
{
    struct text interface;
    if (call->code == HIDL_PING)
        return 0;
    if (!has_header(call))
        return STATUS_NOT_PERMITTED;
    switch (call->code) {
    case GET:
        get(manager, call, writer);
        return 0;
    case GET_TRANSPORT:
        write_number(writer, named(manager, call) ? BY_BINDER : NOWHERE);
        return 0;
    case LIST:
        return list(manager, NULL, writer, lists);
    case LIST_BY_INTERFACE:
        return argument(&manager->binder, call, 0, &interface) ? list(manager, &interface, writer, lists) : STATUS_BAD_VALUE;
    default:
        return STATUS_UNKNOWN_CALL;
    }
}

/* What is listed lies in the registry until the answer is out. */
static void serve_locked(struct looper *looper, const struct binder_transaction_data *call, struct writer *writer)
{
    struct manager *manager = looper->with;
    struct lists lists = {0};
    pthread_mutex_lock(&manager->lock);
    int32_t status = write_answer(manager, call, writer, &lists);
    if (status) {
        looper_answer_status(looper, status);
        writer_free(writer);
    } else {
        manager_answer(looper, writer);
    }
    pthread_mutex_unlock(&manager->lock);
    free(lists.strings);
}

/* Nothing that a manager does is asked for one-way. */
static void serve(struct looper *looper, const struct binder_transaction_data *call)
{
    struct writer writer = {0};
    if (call->flags & TF_ONE_WAY)
        return;
    write_number(&writer, 0); /* each answer begins with a status */
    if (call->code == ADD && has_header(call)) {
        add(looper, call, &writer);
        manager_answer(looper, &writer);
    } else {
        serve_locked(looper, call, &writer);
    }
}

int main(int argc, char **argv)
{
    return manager_main(argc, argv, "hullpippin-hwservicemanager", "/dev/hwbinder", serve, THREADS);
}
