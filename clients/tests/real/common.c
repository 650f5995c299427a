/* SPDX-License-Identifier: Apache-2.0 OR MIT */
#include "common.h"
#include "codes.h"

#include <dirent.h>
#include <fcntl.h>
#include <string.h>
#include <unistd.h>

int pipe_with(const char *word)
{
    int ends[2];
    NEED(!pipe2(ends, O_CLOEXEC) && write(ends[1], word, strlen(word)) == (ssize_t)strlen(word), "no pipe");
    close(ends[1]);
    return ends[0];
}

char *word_from(int descriptor)
{
    char word[256] = "";
    NEED(descriptor > 2 && read(descriptor, word, sizeof word - 1) >= 0, "nothing in descriptor %d", descriptor);
    close(descriptor);
    return g_strdup(word);
}

int open_files(void)
{
    int count = 0;
    DIR *folder = opendir("/proc/self/fd");
    NEED(folder, "no /proc");
    while (readdir(folder))
        count++;
    closedir(folder);
    return count;
}

GBinderLocalReply *reply_of(answer_function *answer, GBinderLocalObject *object, GBinderRemoteRequest *request, guint code)
{
    GBinderReader reader;
    GBinderWriter writer;
    GBinderLocalReply *reply = gbinder_local_object_new_reply(object);
    gbinder_remote_request_init_reader(request, &reader);
    gbinder_local_reply_init_writer(reply, &writer);
    answer(code, &reader, &writer);
    return reply;
}

void add_service(GBinderServiceManager *manager, const char *name, const char *interface, GBinderLocalTransactFunc serve)
{
    GBinderLocalObject *object = gbinder_servicemanager_new_local_object(manager, interface, serve, NULL);
    int status = gbinder_servicemanager_add_service_sync(manager, name, object);
    NEED(status == GBINDER_STATUS_OK, "%s wasn't added: %d", name, status);
}
