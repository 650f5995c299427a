/* SPDX-License-Identifier: Apache-2.0 OR MIT */
/* client.h: what the parts of the client share. */
#ifndef HULLPIPPIN_TESTS_CLIENT_H
#define HULLPIPPIN_TESTS_CLIENT_H

#include "codes.h"

/* The numbers behind the mode. */
extern long numbers[2];

/* A request of the service, empty. */
GBinderLocalRequest *request(void);
/* Calls with a request, which is let go of, and has to be answered. */
GBinderRemoteReply *answered(guint code, GBinderLocalRequest *with);
/* The same, where the call has to be refused. */
void refused(guint code, GBinderLocalRequest *with);
/* The same, where the answer has to be a number. */
gint32 asked(guint code, GBinderLocalRequest *with);
/* A string there and back. */
void echo(const char *word);

/* Modes of parcels.c. */
void play_big(void);
void play_past(void);
void play_descriptors(void);
void play_mixed(void);

#endif
