# SPDX-License-Identifier: Apache-2.0 OR MIT
"""What Linux's driver does otherwise than the rules, each under a name of its own, which is a switch of the model (tool/src/rules).

Lines are those of drivers/android in Linux 6.1, as Debian's linux-source-6.1 6.1.192-2 has it. `kinds/NAME.script` is a short script that
shows the difference.
"""
import re
from collections import namedtuple

Difference = namedtuple("Difference", "driver rules lines purpose noticed")

DIFFERENCES = {
    "room": Difference(
        "A read takes the next item only while 76 bytes are free, room for a call with a security context; else it ends, even with "
        "BR_NOOP alone. No limit is too small.",
        "68 bytes, the longest return of the profile; a limit below 72 is refused (F11).",
        "binder.c 4450", "on purpose: the profile has no security context; the daemon as the driver",
        "only with less than 80 bytes of room"),
    "looper": Difference(
        "A thread without a call reads its process's list whether it entered the loop or not, and BC_EXIT_LOOPER changes nothing.",
        "Only threads in the loop read it.",
        "binder.c 571, 4061", "on purpose", "a program that never enters the loop; libbinder and libgbinder do"),
    "waiter": Difference(
        "A call goes to the thread that began to wait last, and is its own from then on; whatever else comes to a process wakes that one.",
        "Reads don't wait; the call stands on the process's list until somebody reads it.",
        "binder.c 611, 2798, 4303", "outside of the rules; the daemon as the driver", "which thread serves, nothing else"),
    "deferred": Difference(
        "What a two-way call leaves on its thread's list (BR_TRANSACTION_COMPLETE, notices of what it sent) is no reason to end a read "
        "until something else comes there.",
        "A read ends with whatever there is.",
        "binder.c 457, 3628", "the daemon defers the completion as the driver does", "the completion comes with the reply"),
    "stuck": Difference(
        "Until a thread has read its refusal, its writes run nothing and consume nothing.",
        "A cause ends its own write alone.",
        "binder.c 3812", "not on purpose; the daemon as the driver", "a program that writes again before it reads"),
    "verdict": Difference(
        "A thread has room for one verdict; a second one that comes before it is read is lost.",
        "Each verdict is an item of its own.",
        "binder.c 1628", "on purpose: nothing is lost", "only without reading between two calls"),
    "unread": Difference(
        "A two-way call is refused only where a call or a reply stands first on the thread's list.",
        "Wherever a Call, Reply or Verdict stands there (X6).",
        "binder.c 3088", "on purpose: simpler to say", "only a program that calls before it has read its answers"),
    "own0": Difference(
        "BC_INCREFS and BC_ACQUIRE of 0 by the manager's process end the write with EINVAL.",
        "N4: the command changes nothing, and the next one runs.",
        "binder.c 3846", "not on purpose; the daemon as the driver", "a manager that acquires itself gets an error"),
    "counts": Difference(
        "One count for what a process asked for and what its buffers carry: BC_RELEASE takes either, and a freed buffer takes what its "
        "number means by then.",
        "They are counted apart (Asked, Carried).",
        "binder.c 1214, 2017", "on purpose: nobody loses what a buffer carries", "a program that releases more than it acquired"),
    "weak_acquire": Difference(
        "BC_ACQUIRE of a handle that is only weak never succeeds, whoever holds the object strongly; 0 for the manager does.",
        "It succeeds while anybody has a strong reference on the object.",
        "binder.c 1026, 1311", "on purpose", "a program that makes a weak handle strong"),
    "notices": Difference(
        "A notice is queued by an event and stays queued though nothing differs any more; only the first count of a name moves one to the "
        "sender.",
        "A Notice stands exactly while what the owner was told is wrong, and each sending of a BINDER makes it anew.",
        "binder.c 837, 848, 890",
        "on purpose: a rule that needs no events; the daemon has thread and order as the driver, where it knows who was sent what", "which thread reads a notice, and when"),
    "half": Difference(
        "A refused parcel was sent up to its faulty object and taken back, which may move a notice to the sender.",
        "A refused call leaves nothing but its Refusal.",
        "binder.c 3676", "on purpose", "which thread reads a notice"),
    "lost": Difference(
        "A notice on the list of a thread that ends is lost, until something changes on its object.",
        "It comes again on the list of the process.",
        "binder.c 4830", "on purpose", "an owner isn't told of a reference"),
    "kept": Difference(
        "A call or a reply that an ended thread hadn't read keeps its buffer, and what this holds, as long as the process lives.",
        "It ends with the thread.",
        "binder.c 1593", "on purpose: no room is lost", "a window fills up"),
    "cleared": Difference(
        "BR_CLEAR_DEATH_NOTIFICATION_DONE goes to the list of the process where the thread never entered the loop.",
        "It goes to the thread whose command made it.",
        "binder.c 4166, 4223", "not on purpose; the daemon as the driver", "another thread of the process may read it"),
    "told_order": Difference(
        "BC_DEAD_BINDER_DONE means the death with that cookie that was told first.",
        "The one that was asked for first.",
        "binder.c 4198", "not on purpose", "only with two notifications of one cookie"),
    "order": Difference(
        "At an exit deaths come in the order of the objects' ptrs.",
        "In the order in which they were asked for.",
        "binder.c 5870", "not on purpose", "the order of several deaths in one exit"),
    "ptr0": Difference(
        "A process that has sent an object with ptr 0 may become the manager, with that object.",
        "F10.",
        "binder.c 801, 5141", "on purpose", "only a program that sends ptr 0"),
    "fit": Difference(
        "A buffer goes into the smallest hole that fits.",
        "To the least place that fits.",
        "binder_alloc.c 426", "on purpose: no tree of holes", "which of several calls finds no room in a window cut up by others"),
    "spam": Difference(
        "Flooding is reported once, where less than a tenth of the window is left for one-way calls, from over 50 calls or a quarter of "
        "the window on; and only if it is asked for when it is read.",
        "Each call over a quarter is reported, if that was asked for when it was made.",
        "binder_alloc.c 326, 531, binder.c 4479", "on purpose: a rule of the space alone", "how often a client that asks for it is told"),
    "long": Difference(
        "A stream may have any length.",
        "At most 4096 bytes (F15).",
        "binder.c 3812", "on purpose: a bound for a step", "not through the library, which cuts streams"),
}

# .. what newer drivers alone do
NEWER = {
    "uncounted": Difference(
        "Where flooding is looked for, the call that is being made isn't counted yet as its sender's, but as that of who had sent the buffer in "
        "whose place it comes.",
        "It is counted.",
        "binder_alloc.c, where a buffer is taken", "not on purpose", "a client that floods is told a call later"),
}
# the first of Linux's versions on which they were seen; 6.1 doesn't have them
SEEN_SINCE = 7


def of_version(version):
    """The differences of a driver, by the words that tell which one it is."""
    number = re.search(r"Linux (\d+)", version)
    return DIFFERENCES | NEWER if number and int(number[1]) >= SEEN_SINCE else DIFFERENCES
