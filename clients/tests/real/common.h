/* SPDX-License-Identifier: Apache-2.0 OR MIT */
/* common.h: what clients and services share besides codes: pipes with a word in them, counts of open descriptors, replies. */
#ifndef HULLPIPPIN_TESTS_COMMON_H
#define HULLPIPPIN_TESTS_COMMON_H

#include <gbinder.h>

/* A descriptor from which the word can be read. */
int pipe_with(const char *word);

/* What can be read from a descriptor, which is closed then; the word has to be freed. */
char *word_from(int descriptor);

/* How many descriptors this process has open. */
int open_files(void);

/* What a service replies to a call, which this answers from the one to the other. */
typedef void answer_function(guint code, GBinderReader *reader, GBinderWriter *writer);
GBinderLocalReply *reply_of(answer_function *answer, GBinderLocalObject *object, GBinderRemoteRequest *request, guint code);

/* Makes an object of the service known by this name. */
void add_service(GBinderServiceManager *manager, const char *name, const char *interface, GBinderLocalTransactFunc serve);

#endif
