/* SPDX-License-Identifier: Apache-2.0 OR MIT */
/*
 * manager.h: what the two context managers have in common: the device, the registry, and the objects they hold.
 *
 * A manager holds a strong reference on each object that has a name here, and has asked to be told of its death; with
 * the last name both go. Whoever can open the device may register and find services: there is no policy.
 */
#ifndef HULLPIPPIN_CLIENTS_MANAGER_H
#define HULLPIPPIN_CLIENTS_MANAGER_H

#include "looper.h"
#include "parcel.h"
#include "registry.h"

#include <pthread.h>

/* Codes that every interface of Android has. */
#define AIDL_PING B_PACK_CHARS('_', 'P', 'N', 'G')
#define HIDL_PING B_PACK_CHARS(0x0f, 'P', 'N', 'G')
#define HIDL_CHAIN B_PACK_CHARS(0x0f, 'C', 'H', 'N')

/* Statuses of Android's libraries. */
#define STATUS_UNKNOWN_CALL (-74)
#define STATUS_BAD_VALUE (-22)
#define STATUS_NO_MEMORY (-12)
#define STATUS_NOT_PERMITTED (-1)

struct manager {
    struct binder binder;
    struct looper looper; /* of the first thread. The `with` of each thread's is the manager */
    pthread_mutex_t lock; /* of the registry */
    struct registry registry;
    const char *program;
    bool talks; /* a line for each service that comes or goes */
};

/* Does all that a manager's main does: `serve` serves one call, in any of `threads` threads besides the first. The answer is an exit
   status. */
int manager_main(int argc, char **argv, const char *program, const char *device,
                 void (*serve)(struct looper *, const struct binder_transaction_data *), uint32_t threads);

/* Gives a name, with a mark, to an object that came with the call being served; false without memory. The lock is the caller's. */
bool manager_add(struct looper *looper, const void *name, size_t size, uint32_t handle, uint32_t mark);

/* Answers with a parcel, or with a lack of memory where it isn't whole, and frees it. */
void manager_answer(struct looper *looper, struct writer *writer);

#endif
