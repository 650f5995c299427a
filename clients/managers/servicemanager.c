/* SPDX-License-Identifier: Apache-2.0 OR MIT */
/*
 * hullpippin-servicemanager [-v] [DEVICE]: a context manager for AIDL services, android.os.IServiceManager, on
 * /dev/binder where nothing else is said. It gets, checks, adds and lists services; one whose process ends is gone.
 *
 * Android's clients have written their requests in three ways in the course of time, by which answers differ as well.
 * A request tells its own way by its header.
 */
#include "manager.h"

#include <stdio.h>
#include <string.h>

#define INTERFACE "android.os.IServiceManager"
#define INTERFACE_LENGTH (sizeof INTERFACE - 1)
#define SYSTEM B_PACK_CHARS('S', 'Y', 'S', 'T')

/* As in Android: a longer name is refused. */
#define NAME_BYTES (2 * 127)

enum call {
    GET_SERVICE = 1,
    CHECK_SERVICE = 2,
    ADD_SERVICE = 3,
    LIST_SERVICES = 4,
};

/* How a request was written; libgbinder has the same names. */
enum form {
    AIDL,  /* a header of the strict mode and the interface's name; services are listed one by one */
    AIDL2, /* .. and the work source behind the strict mode */
    AIDL3, /* .. and a mark behind that; answers begin with a status, services are listed all at once, and behind each
              object stands how stable its interface is. libgbinder's aidl4 only has other such words */
};

/* The stability of a service whose owner said nothing of it: that of the system's own. */
#define SYSTEM_STABILITY 12

static bool is_interface(const uint8_t *name, size_t size)
{
    if (size != 2 * INTERFACE_LENGTH)
        return false;
    for (size_t i = 0; i < INTERFACE_LENGTH; i++)
        if (name[2 * i] != INTERFACE[i] || name[2 * i + 1])
            return false;
    return true;
}

/* The word that stands next, where one does; it isn't taken off. */
static uint32_t peek(struct reader reader)
{
    uint32_t word = 0;
    read_number(&reader, &word);
    return word;
}

static bool read_header(struct reader *reader, enum form *form)
{
    uint32_t word;
    const uint8_t *name;
    size_t size;
    *form = AIDL;
    if (!read_number(reader, &word))
        return false;
    if (peek(*reader) != INTERFACE_LENGTH) {
        *form = AIDL2;
        read_number(reader, &word);
    }
    if (peek(*reader) == SYSTEM) {
        *form = AIDL3;
        read_number(reader, &word);
    }
    return read_name(reader, &name, &size) && is_interface(name, size);
}

static void find(struct manager *manager, struct reader *reader, enum form form)
{
    const uint8_t *name;
    size_t size;
    struct writer writer = {0};
    if (!read_name(reader, &name, &size)) {
        looper_answer_status(&manager->looper, STATUS_BAD_VALUE);
        return;
    }
    const struct service *service = registry_find(&manager->registry, name, size);
    if (form == AIDL3)
        write_number(&writer, 0);
    if (service)
        write_strong_handle(&writer, service->handle);
    else if (form == AIDL3)
        write_no_object(&writer);
    if (form == AIDL3 || !service)
        write_number(&writer, service ? service->mark : 0);
    manager_answer(&manager->looper, &writer);
}

/* Reads what is to be added. An object of another process always comes as a handle. */
static bool read_service(struct reader *reader, const uint8_t **name, size_t *size, struct flat_binder_object *object)
{
    const uint8_t *bytes;
    if (!read_name(reader, name, size) || !*size || *size > NAME_BYTES || !read_bytes(reader, &bytes, sizeof *object))
        return false;
    memcpy(object, bytes, sizeof *object);
    return object->hdr.type == BINDER_TYPE_HANDLE;
}

/* Whether the parcel has an object: its type alone could have been written into the data by anybody. */
static bool carries_object(const struct binder_transaction_data *call)
{
    return call->offsets_size == sizeof(binder_size_t);
}

static void add(struct manager *manager, struct reader *reader, const struct binder_transaction_data *call, enum form form)
{
    uint32_t stability = SYSTEM_STABILITY;
    const uint8_t *name;
    size_t size;
    struct flat_binder_object object;
    struct writer writer = {0};
    if (!carries_object(call) || !read_service(reader, &name, &size, &object)) {
        looper_answer_status(&manager->looper, STATUS_BAD_VALUE);
        return;
    }
    if (form == AIDL3)
        read_number(reader, &stability);
    if (!manager_add(&manager->looper, name, size, object.handle, stability)) {
        looper_answer_status(&manager->looper, STATUS_NO_MEMORY);
        return;
    }
    write_number(&writer, 0);
    manager_answer(&manager->looper, &writer);
}

/* Before AIDL3 a client asks for one name after the other, until it is told that there are no more. */
static void list_one(struct manager *manager, struct reader *reader)
{
    uint32_t index;
    struct writer writer = {0};
    if (!read_number(reader, &index) || index >= manager->registry.count) {
        looper_answer_status(&manager->looper, STATUS_NOT_PERMITTED);
        return;
    }
    const struct service *service = &manager->registry.all[index];
    write_name(&writer, service->name, service->size);
    manager_answer(&manager->looper, &writer);
}

static void list_all(struct manager *manager)
{
    struct writer writer = {0};
    write_number(&writer, 0);
    write_number(&writer, manager->registry.count);
    for (size_t i = 0; i < manager->registry.count; i++)
        write_name(&writer, manager->registry.all[i].name, manager->registry.all[i].size);
    manager_answer(&manager->looper, &writer);
}

static void answer(struct manager *manager, const struct binder_transaction_data *call)
{
    struct reader reader = reader_of(call);
    struct writer nothing = {0};
    enum form form;
    if (call->code == AIDL_PING)
        manager_answer(&manager->looper, &nothing);
    else if (!read_header(&reader, &form))
        looper_answer_status(&manager->looper, STATUS_NOT_PERMITTED);
    else if (call->code == GET_SERVICE || call->code == CHECK_SERVICE)
        find(manager, &reader, form);
    else if (call->code == ADD_SERVICE)
        add(manager, &reader, call, form);
    else if (call->code == LIST_SERVICES && form != AIDL3)
        list_one(manager, &reader);
    else if (call->code == LIST_SERVICES)
        list_all(manager);
    else
        looper_answer_status(&manager->looper, STATUS_UNKNOWN_CALL);
}

/* Nothing that a manager does is asked for one-way. */
static void serve(struct looper *looper, const struct binder_transaction_data *call)
{
    if (!(call->flags & TF_ONE_WAY))
        answer(looper->with, call);
}

int main(int argc, char **argv)
{
    return manager_main(argc, argv, "hullpippin-servicemanager", "/dev/binder", serve, 0);
}
