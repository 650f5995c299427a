/* SPDX-License-Identifier: Apache-2.0 OR MIT */
/* Looks at the space of a live engine: a client sends the context manager two objects, calls it, gets a reply and a failure, floods it
   and ends; the manager hears of that, and ends while a guest waits for it. Each thing that docs/RULES.md says is there then is looked
   at, and what isn't there; each field is told in more than one way. Complains where something is told otherwise, or a look that finds
   nothing writes to what it would fill. Prints nothing else. */
#include "asking.h"

#include <stdio.h>

enum { MANAGER, CLIENT, GUEST, SEATS };

/* Where the steps stand: what is named by them. */
enum {
    OPENED_MANAGER,
    MADE_MANAGER,
    ENTERED,
    OPENED_CLIENT,
    SENT,
    SENT_READ,
    MANAGER_READ,
    ASKED,
    CALLED,
    CALL_READ,
    REPLIED,
    REPLIED_READ,
    REPLY_READ,
    CALLED_AGAIN,
    AGAIN_READ,
    REPLIED_BADLY,
    BADLY_READ,
    VERDICT_READ,
    NOT_NAMED,
    REFUSAL_READ,
    WARNED,
    FLOODED,
    CLIENT_ENDED,
    DEATH_READ,
    CLEARED,
    ASKED_AGAIN,
    DONE,
    CLEARED_READ,
    SECOND_DEATH_READ,
    SECOND_DONE,
    SECOND_CLEARED,
    CALLED_DEAD,
    OPENED_GUEST,
    GUEST_CALLED,
    MANAGER_ENDED,
};

#define MANAGER_PID 100u
#define CLIENT_PID 200u
#define GUEST_PID 300u
#define MANAGER_EUID 1000u
#define CLIENT_EUID 2000u
#define PTR 0x1000u
#define COOKIE 0x2000u
#define WEAK_PTR 0x3000u
#define WEAK_COOKIE 0x4000u
#define DEATH_COOKIE 0x77u
#define SECOND_COOKIE 0x88u

/* The handles by which the manager comes to know the two objects, and one that nobody has. */
enum { HANDLE = 1, WEAK_HANDLE, NO_HANDLE = 77 };

/* What no look fills. */
#define FILLER 0x5a

#define IS_FILLER(it) is_all_filler(&(it), sizeof(it))

static bool is_all_filler(const void *it, size_t size)
{
    const uint8_t *bytes = it;
    for (size_t i = 0; i < size; i++)
        if (bytes[i] != FILLER)
            return fails("a look that finds nothing writes something");
    return true;
}

/* A command that is refused for this cause. */
static bool is_refused(hullpippin_live *live, uint32_t seat, const hullpippin_command *command, uint32_t cause)
{
    hullpippin_answer answer;
    return is_done(step(live, seat, command, HULLPIPPIN_NOWHERE, &answer))
           && is(answer.kind == HULLPIPPIN_WROTE && answer.stop == HULLPIPPIN_AT_CAUSE && answer.number == cause, "another refusal");
}

static bool is_id(const hullpippin_object_id *id, uint64_t place, uint32_t index)
{
    return is(id->place == place && id->index == index, "another object");
}

/* ---- what is unread: each field that its kind has no use for is 0 */

static bool is_work(const hullpippin_work *work, const hullpippin_work *wanted)
{
    return is(work->place == wanted->place && work->index == wanted->index && work->kind == wanted->kind
                  && work->object.place == wanted->object.place && work->object.index == wanted->object.index
                  && work->spam == wanted->spam && work->code == wanted->code && work->made == wanted->made
                  && work->cookie == wanted->cookie,
              "another item is unread");
}

/* The list of a seat's thread has just these items. */
static bool are_of_thread(hullpippin_live *live, uint32_t seat, const hullpippin_work *wanted, size_t count)
{
    hullpippin_work work, filler;
    memset(&filler, FILLER, sizeof filler);
    for (size_t i = 0; i < count; i++)
        if (!is(hullpippin_live_unread_of_thread(live, seat, i, &work), "an item is missing") || !is_work(&work, &wanted[i]))
            return false;
    return is(!hullpippin_live_unread_of_thread(live, seat, count, &filler), "more is unread") && IS_FILLER(filler);
}

/* The list of a process has just this item. */
static bool is_of_process(hullpippin_live *live, uint64_t process, hullpippin_work wanted)
{
    hullpippin_work work, filler;
    memset(&filler, FILLER, sizeof filler);
    return is(hullpippin_live_unread_of_process(live, process, 0, &work), "an item is missing") && is_work(&work, &wanted)
           && is(!hullpippin_live_unread_of_process(live, process, 1, &filler), "more is unread") && IS_FILLER(filler);
}

/* Neither of the lists has anything. */
static bool is_nothing_unread(hullpippin_live *live, uint32_t seat, uint64_t process)
{
    hullpippin_work filler;
    memset(&filler, FILLER, sizeof filler);
    return is(!hullpippin_live_unread_of_process(live, process, 0, &filler), "more is unread") && are_of_thread(live, seat, NULL, 0)
           && IS_FILLER(filler);
}

/* ---- what opens */

static bool opens(hullpippin_live *live)
{
    static const hullpippin_command enter = {.code = HULLPIPPIN_BC_ENTER_LOOPER};
    hullpippin_answer answer;
    return is_made(hullpippin_live_open(live, MANAGER, MANAGER_PID, MANAGER_EUID, WINDOW, &answer), &answer, HULLPIPPIN_OPENED)
           && is_made(hullpippin_live_manager(live, MANAGER, &answer), &answer, HULLPIPPIN_SET)
           && runs(live, MANAGER, &enter, HULLPIPPIN_NOWHERE)
           && is_made(hullpippin_live_open(live, CLIENT, CLIENT_PID, CLIENT_EUID, 2 * WINDOW, &answer), &answer, HULLPIPPIN_OPENED);
}

static bool tells_client(hullpippin_live *live, bool spam_detection)
{
    hullpippin_process process;
    return is(hullpippin_live_process(live, OPENED_CLIENT, &process) && process.made == OPENED_CLIENT && process.pid == CLIENT_PID
                  && process.euid == CLIENT_EUID && process.window == 2 * WINDOW && process.spam_detection == spam_detection,
              "another process");
}

static bool tells_processes(hullpippin_live *live)
{
    hullpippin_process process, filler;
    uint64_t made = 0;
    memset(&filler, FILLER, sizeof filler);
    return tells_client(live, false)
           && is(hullpippin_live_process(live, OPENED_MANAGER, &process) && process.made == OPENED_MANAGER && process.pid == MANAGER_PID
                     && process.euid == MANAGER_EUID && process.window == WINDOW && !process.spam_detection,
                 "another process")
           && is(hullpippin_live_process_of_pid(live, CLIENT_PID, &made) && made == OPENED_CLIENT, "another place of an open")
           && is(hullpippin_live_process_of_pid(live, MANAGER_PID, &made) && made == OPENED_MANAGER, "another place of an open")
           && is(!hullpippin_live_process_of_pid(live, GUEST_PID, &made) && made == OPENED_MANAGER, "a process that isn't there")
           && is(!hullpippin_live_process(live, MADE_MANAGER, &filler), "a process that isn't there") && IS_FILLER(filler);
}

static bool tells_threads(hullpippin_live *live)
{
    hullpippin_thread thread, filler;
    memset(&filler, FILLER, sizeof filler);
    return is(hullpippin_live_thread(live, MANAGER, &thread) && thread.made == OPENED_MANAGER && thread.process == OPENED_MANAGER
                  && thread.looping,
              "another thread")
           && is(hullpippin_live_thread(live, CLIENT, &thread) && thread.made == OPENED_CLIENT && thread.process == OPENED_CLIENT
                     && !thread.looping,
                 "another thread")
           && is(!hullpippin_live_thread(live, GUEST, &filler) && !hullpippin_live_thread(live, SEATS, &filler), "a thread of no seat")
           && IS_FILLER(filler);
}

/* ---- two objects are sent, of which one is held only weakly */

static bool sends(hullpippin_live *live)
{
    uint8_t data[2 * OBJECT_SIZE];
    hullpippin_flat_object strong = {.kind = HULLPIPPIN_TYPE_BINDER, .binder = PTR, .cookie = COOKIE};
    hullpippin_flat_object weak = {
        .kind = HULLPIPPIN_TYPE_WEAK_BINDER, .binder = WEAK_PTR, .cookie = WEAK_COOKIE, .start = OBJECT_SIZE};
    hullpippin_command command = {
        .code = HULLPIPPIN_BC_TRANSACTION,
        .transaction = {.code = 7, .flags = HULLPIPPIN_TF_ONE_WAY, .data_size = sizeof data, .offsets_size = sizeof OFFSETS}};
    return is(!hullpippin_put_object(&strong, data, sizeof data) && !hullpippin_put_object(&weak, data, sizeof data), "no object")
           && runs(live, CLIENT, &command, data);
}

static bool is_object(hullpippin_live *live, uint32_t index, const hullpippin_object *wanted)
{
    hullpippin_object object;
    return is(hullpippin_live_object(live, SENT, index, &object) && object.owner == wanted->owner && object.ptr == wanted->ptr
                  && object.cookie == wanted->cookie && object.told_weak == wanted->told_weak
                  && object.told_strong == wanted->told_strong,
              "another object");
}

/* Once its owner has read, it was told of both that they are referred to, but only of the first that it is strongly. */
static bool tells_objects(hullpippin_live *live, bool told)
{
    hullpippin_object strong = {OPENED_CLIENT, PTR, COOKIE, told, told}, weak = {OPENED_CLIENT, WEAK_PTR, WEAK_COOKIE, told, false};
    hullpippin_object filler;
    memset(&filler, FILLER, sizeof filler);
    return is_object(live, 0, &strong) && is_object(live, 1, &weak)
           && is(!hullpippin_live_object(live, SENT, 2, &filler), "an object that isn't there") && IS_FILLER(filler);
}

static bool tells_names(hullpippin_live *live)
{
    hullpippin_object_id id, filler;
    memset(&filler, FILLER, sizeof filler);
    return is(hullpippin_live_manager_object(live, &id), "no manager") && is_id(&id, MADE_MANAGER, 0)
           && is(hullpippin_live_named(live, MANAGER_PID, HANDLE, &id), "no name") && is_id(&id, SENT, 0)
           && is(hullpippin_live_named(live, MANAGER_PID, WEAK_HANDLE, &id), "no name") && is_id(&id, SENT, 1)
           && is(!hullpippin_live_named(live, MANAGER_PID, WEAK_HANDLE + 1, &filler)
                     && !hullpippin_live_named(live, GUEST_PID, HANDLE, &filler),
                 "a name that isn't there")
           && IS_FILLER(filler);
}

static bool is_buffer(hullpippin_live *live, uint64_t made, const hullpippin_buffer *wanted)
{
    hullpippin_buffer buffer;
    return is(hullpippin_live_buffer(live, made, &buffer) && buffer.receiver == wanted->receiver && buffer.sender == wanted->sender
                  && buffer.start == wanted->start && buffer.size == wanted->size && buffer.code == wanted->code
                  && buffer.flags == wanted->flags && buffer.euid == wanted->euid && buffer.one_way == wanted->one_way
                  && buffer.handed == wanted->handed && buffer.is_call == wanted->is_call && buffer.data == wanted->data
                  && buffer.offsets == wanted->offsets,
              "another buffer")
           && is_id(&buffer.target, wanted->target.place, wanted->target.index);
}

static bool tells_buffer(hullpippin_live *live, bool handed)
{
    hullpippin_buffer wanted = {.receiver = OPENED_MANAGER, .sender = OPENED_CLIENT, .start = 0, .size = 64, .code = 7,
                                .flags = HULLPIPPIN_TF_ONE_WAY, .euid = CLIENT_EUID, .one_way = true, .handed = handed, .is_call = true,
                                .target = {MADE_MANAGER, 0}, .data = 48, .offsets = 16};
    hullpippin_buffer filler;
    memset(&filler, FILLER, sizeof filler);
    return is_buffer(live, SENT, &wanted) && is(!hullpippin_live_buffer(live, ENTERED, &filler), "a buffer that isn't there")
           && IS_FILLER(filler);
}

static bool tells_carried(hullpippin_live *live)
{
    hullpippin_object_id id, filler;
    memset(&filler, FILLER, sizeof filler);
    return is(hullpippin_live_carried(live, SENT, 0, &id), "nothing is carried") && is_id(&id, SENT, 0)
           && is(hullpippin_live_carried(live, SENT, 1, &id), "one is carried") && is_id(&id, SENT, 1)
           && is(!hullpippin_live_carried(live, SENT, 2, &filler) && !hullpippin_live_carried(live, SENT, SIZE_MAX, &filler),
                 "more is carried")
           && IS_FILLER(filler);
}

/* The client is to read two notices and a completion, the manager's process a call. */
static bool tells_sent(hullpippin_live *live)
{
    static const hullpippin_work client[] = {{.place = SENT, .kind = HULLPIPPIN_NOTICE, .object = {SENT, 0}},
                                             {.place = SENT, .index = 1, .kind = HULLPIPPIN_NOTICE, .object = {SENT, 1}},
                                             {.place = SENT, .index = 2, .kind = HULLPIPPIN_COMPLETION}};
    hullpippin_work call = {.place = SENT, .index = 3, .kind = HULLPIPPIN_CALL, .made = SENT}, filler;
    memset(&filler, FILLER, sizeof filler);
    return are_of_thread(live, CLIENT, client, 3) && are_of_thread(live, MANAGER, NULL, 0) && is_of_process(live, OPENED_MANAGER, call)
           && is(!hullpippin_live_unread_of_process(live, OPENED_CLIENT, 0, &filler), "more is unread") && IS_FILLER(filler);
}

static bool sending(hullpippin_live *live)
{
    return sends(live) && tells_objects(live, false) && tells_names(live) && tells_buffer(live, false) && tells_carried(live)
           && tells_sent(live) && reads(live, CLIENT) && tells_objects(live, true) && reads(live, MANAGER) && tells_buffer(live, true)
           && is_nothing_unread(live, MANAGER, OPENED_MANAGER);
}

/* ---- a death is asked for */

static bool asks(hullpippin_live *live, uint64_t cookie)
{
    hullpippin_command command = {.code = HULLPIPPIN_BC_REQUEST_DEATH_NOTIFICATION, .handle = HANDLE, .cookie = cookie};
    return runs(live, MANAGER, &command, HULLPIPPIN_NOWHERE);
}

static bool is_death(hullpippin_live *live, uint64_t made, uint64_t cookie, uint32_t phase, bool cleared)
{
    hullpippin_death death;
    return is(hullpippin_live_death(live, made, &death) && death.process == OPENED_MANAGER && death.cookie == cookie
                  && death.phase == phase && death.cleared == cleared,
              "another death notification")
           && is_id(&death.object, SENT, 0);
}

static bool is_no_death(hullpippin_live *live, uint64_t made)
{
    hullpippin_death filler;
    memset(&filler, FILLER, sizeof filler);
    return is(!hullpippin_live_death(live, made, &filler), "a death notification that isn't there") && IS_FILLER(filler);
}

static bool asking(hullpippin_live *live)
{
    return asks(live, DEATH_COOKIE) && is_death(live, ASKED, DEATH_COOKIE, HULLPIPPIN_ARMED, false) && is_no_death(live, SENT);
}

/* ---- a call, with a reply and with one that is refused */

static bool calls_manager(hullpippin_live *live, uint32_t seat)
{
    hullpippin_command command = {.code = HULLPIPPIN_BC_TRANSACTION, .transaction = {.code = 9}};
    return runs(live, seat, &command, HULLPIPPIN_NOWHERE);
}

static bool is_innermost(hullpippin_live *live, uint32_t seat, uint64_t made, bool serves)
{
    hullpippin_frame frame;
    return is(hullpippin_live_innermost(live, seat, &frame) && frame.made == made && frame.serves == serves, "another call");
}

static bool is_in_no_call(hullpippin_live *live, uint32_t seat)
{
    hullpippin_frame filler;
    memset(&filler, FILLER, sizeof filler);
    return is(!hullpippin_live_innermost(live, seat, &filler), "a call that isn't open") && IS_FILLER(filler);
}

/* The caller makes the call, and the manager serves it from when it reads. */
static bool calling(hullpippin_live *live, uint64_t made)
{
    return calls_manager(live, CLIENT) && is_innermost(live, CLIENT, made, false) && is_in_no_call(live, MANAGER) && reads(live, MANAGER)
           && is_innermost(live, MANAGER, made, true);
}

/* The reply's buffer: it is no call's, and goes to no object. */
static bool tells_reply(hullpippin_live *live, bool handed)
{
    hullpippin_buffer wanted = {.receiver = OPENED_CLIENT, .sender = OPENED_MANAGER, .start = 0, .size = 16, .code = 5, .flags = 0x10,
                                .euid = MANAGER_EUID, .one_way = false, .handed = handed, .is_call = false, .data = 9, .offsets = 0};
    return is_buffer(live, REPLIED, &wanted);
}

/* A call's buffer, the second in the manager's window. */
static bool tells_call(hullpippin_live *live)
{
    hullpippin_buffer wanted = {.receiver = OPENED_MANAGER, .sender = OPENED_CLIENT, .start = 64, .size = 8, .code = 9,
                                .euid = CLIENT_EUID, .handed = true, .is_call = true, .target = {MADE_MANAGER, 0}};
    return is_buffer(live, CALLED, &wanted);
}

static bool replying(hullpippin_live *live)
{
    static const uint8_t data[9];
    static const hullpippin_work client[] = {{.place = CALLED, .kind = HULLPIPPIN_COMPLETION},
                                             {.place = REPLIED, .index = 1, .kind = HULLPIPPIN_REPLY, .made = REPLIED}};
    hullpippin_command reply = {.code = HULLPIPPIN_BC_REPLY, .transaction = {.code = 5, .flags = 0x10, .data_size = sizeof data}};
    return calling(live, CALLED) && tells_call(live) && runs(live, MANAGER, &reply, data) && are_of_thread(live, CLIENT, client, 2)
           && is_in_no_call(live, CLIENT) && tells_reply(live, false) && reads(live, MANAGER) && reads(live, CLIENT)
           && tells_reply(live, true) && are_of_thread(live, CLIENT, NULL, 0);
}

/* The offsets of the reply are no whole numbers: its writer reads that it is complete, and the caller that its call has failed. */
static bool replying_badly(hullpippin_live *live)
{
    static const hullpippin_work manager = {.place = REPLIED_BADLY, .kind = HULLPIPPIN_REFUSAL, .code = HULLPIPPIN_BR_TRANSACTION_COMPLETE};
    static const hullpippin_work client[] = {
        {.place = CALLED_AGAIN, .kind = HULLPIPPIN_COMPLETION},
        {.place = REPLIED_BADLY, .index = 1, .kind = HULLPIPPIN_VERDICT, .code = HULLPIPPIN_BR_FAILED_REPLY}};
    hullpippin_command reply = {.code = HULLPIPPIN_BC_REPLY, .transaction = {.offsets_size = 7}};
    return calling(live, CALLED_AGAIN) && is_refused(live, MANAGER, &reply, HULLPIPPIN_CAUSE_OFFSETS_SIZE)
           && are_of_thread(live, MANAGER, &manager, 1) && are_of_thread(live, CLIENT, client, 2) && reads(live, MANAGER)
           && reads(live, CLIENT) && is_nothing_unread(live, MANAGER, OPENED_MANAGER);
}

/* ---- what is refused, and what is reported */

static bool calling_nobody(hullpippin_live *live)
{
    static const hullpippin_work refusal = {.place = NOT_NAMED, .kind = HULLPIPPIN_REFUSAL, .code = HULLPIPPIN_BR_FAILED_REPLY};
    hullpippin_command command = {.code = HULLPIPPIN_BC_TRANSACTION, .transaction = {.target = NO_HANDLE}};
    return is_refused(live, CLIENT, &command, HULLPIPPIN_CAUSE_NOT_STRONGLY_NAMED) && are_of_thread(live, CLIENT, &refusal, 1)
           && reads(live, CLIENT);
}

/* A quarter of the manager's window, with what the first call takes of it, is more than a quarter. */
static bool flooding(hullpippin_live *live)
{
    static const uint8_t data[WINDOW / 4];
    static const hullpippin_work report = {.place = FLOODED, .kind = HULLPIPPIN_COMPLETION, .spam = true};
    hullpippin_command command = {.code = HULLPIPPIN_BC_TRANSACTION, .transaction = {.flags = HULLPIPPIN_TF_ONE_WAY, .data_size = sizeof data}};
    hullpippin_answer answer;
    return is_made(hullpippin_live_set_spam(live, CLIENT, 1, &answer), &answer, HULLPIPPIN_SET) && tells_client(live, true)
           && runs(live, CLIENT, &command, data) && are_of_thread(live, CLIENT, &report, 1);
}

/* ---- the client ends, and the manager hears of it */

static bool ends(hullpippin_live *live)
{
    hullpippin_answer answer;
    hullpippin_work death = {.place = CLIENT_ENDED, .kind = HULLPIPPIN_DEATH, .made = ASKED};
    uint64_t made = FILLER;
    return is_made(hullpippin_live_exit_process(live, CLIENT, &answer), &answer, HULLPIPPIN_EXITED)
           && is(!hullpippin_live_process_of_pid(live, CLIENT_PID, &made) && made == FILLER, "a process that has ended")
           && is_death(live, ASKED, DEATH_COOKIE, HULLPIPPIN_QUEUED, false) && is_of_process(live, OPENED_MANAGER, death)
           && reads(live, MANAGER) && is_death(live, ASKED, DEATH_COOKIE, HULLPIPPIN_TOLD, false);
}

static bool clears(hullpippin_live *live, uint64_t cookie)
{
    hullpippin_command command = {.code = HULLPIPPIN_BC_CLEAR_DEATH_NOTIFICATION, .handle = HANDLE, .cookie = cookie};
    return runs(live, MANAGER, &command, HULLPIPPIN_NOWHERE);
}

static bool acknowledges(hullpippin_live *live, uint64_t cookie)
{
    hullpippin_command command = {.code = HULLPIPPIN_BC_DEAD_BINDER_DONE, .cookie = cookie};
    return runs(live, MANAGER, &command, HULLPIPPIN_NOWHERE);
}

/* What is cleared after it was told stays, beside another, until it is acknowledged. */
static bool clearing_what_was_told(hullpippin_live *live)
{
    static const hullpippin_work cleared = {.place = DONE, .kind = HULLPIPPIN_CLEARED, .cookie = DEATH_COOKIE};
    hullpippin_work death = {.place = ASKED_AGAIN, .kind = HULLPIPPIN_DEATH, .made = ASKED_AGAIN};
    return clears(live, DEATH_COOKIE) && is_death(live, ASKED, DEATH_COOKIE, HULLPIPPIN_TOLD, true)
           && are_of_thread(live, MANAGER, NULL, 0) && asks(live, SECOND_COOKIE) && is_of_process(live, OPENED_MANAGER, death)
           && is_death(live, ASKED_AGAIN, SECOND_COOKIE, HULLPIPPIN_QUEUED, false) && acknowledges(live, DEATH_COOKIE)
           && is_no_death(live, ASKED) && are_of_thread(live, MANAGER, &cleared, 1) && reads(live, MANAGER);
}

/* What is acknowledged stays until it is cleared. */
static bool clearing_what_is_done(hullpippin_live *live)
{
    static const hullpippin_work cleared = {.place = SECOND_CLEARED, .kind = HULLPIPPIN_CLEARED, .cookie = SECOND_COOKIE};
    return reads(live, MANAGER) && is_death(live, ASKED_AGAIN, SECOND_COOKIE, HULLPIPPIN_TOLD, false)
           && acknowledges(live, SECOND_COOKIE) && is_death(live, ASKED_AGAIN, SECOND_COOKIE, HULLPIPPIN_ACKNOWLEDGED, false)
           && clears(live, SECOND_COOKIE) && is_no_death(live, ASKED_AGAIN) && are_of_thread(live, MANAGER, &cleared, 1);
}

static bool calling_the_dead(hullpippin_live *live)
{
    static const hullpippin_work manager[] = {{.place = SECOND_CLEARED, .kind = HULLPIPPIN_CLEARED, .cookie = SECOND_COOKIE},
                                              {.place = CALLED_DEAD, .kind = HULLPIPPIN_REFUSAL, .code = HULLPIPPIN_BR_DEAD_REPLY}};
    hullpippin_command command = {.code = HULLPIPPIN_BC_TRANSACTION, .transaction = {.target = HANDLE}};
    return is_refused(live, MANAGER, &command, HULLPIPPIN_CAUSE_DEAD_OWNER) && are_of_thread(live, MANAGER, manager, 2);
}

/* ---- the manager ends while a call of the guest's is open */

static bool failing(hullpippin_live *live)
{
    static const hullpippin_work guest[] = {{.place = GUEST_CALLED, .kind = HULLPIPPIN_COMPLETION},
                                            {.place = MANAGER_ENDED, .kind = HULLPIPPIN_VERDICT, .code = HULLPIPPIN_BR_DEAD_REPLY}};
    hullpippin_answer answer;
    hullpippin_object_id filler;
    memset(&filler, FILLER, sizeof filler);
    return is_made(hullpippin_live_open(live, GUEST, GUEST_PID, 0, WINDOW, &answer), &answer, HULLPIPPIN_OPENED)
           && calls_manager(live, GUEST) && is_innermost(live, GUEST, GUEST_CALLED, false)
           && is_made(hullpippin_live_exit_process(live, MANAGER, &answer), &answer, HULLPIPPIN_EXITED)
           && are_of_thread(live, GUEST, guest, 2) && is_in_no_call(live, GUEST)
           && is(!hullpippin_live_manager_object(live, &filler), "a manager that has ended") && IS_FILLER(filler)
           && is(hullpippin_live_len(live) == MANAGER_ENDED + 1, "another number of steps");
}

static bool plays(hullpippin_live *live)
{
    return opens(live) && tells_processes(live) && tells_threads(live) && sending(live) && asking(live) && replying(live)
           && replying_badly(live) && calling_nobody(live) && flooding(live) && ends(live) && clearing_what_was_told(live)
           && clearing_what_is_done(live) && calling_the_dead(live) && failing(live);
}

int main(void)
{
    hullpippin_live live = HULLPIPPIN_NO_LIVE;
    bool done = is_done(hullpippin_live_new(SEATS, &live)) && plays(&live);
    hullpippin_free_live(&live);
    if (!done)
        fprintf(stderr, "looks: %s\n", complaint);
    return done ? 0 : 1;
}
