# SPDX-License-Identifier: Apache-2.0 OR MIT
"""Scripts in the player's language (docs/FORMATS.md), with one verb more: `wait LIMIT` is a read that waits until there is something.

A line becomes a seat and a request: a verb with what it has. Lines that only the engine's own player can play, as `look` and `post`,
become a request of one word.
"""
import re
import struct

from wire import OTHER_OBJECTS, REFUSED, Record, Unreadable, command, padded, read_command

WRITES = {"enter": "BC_ENTER_LOOPER", "exitloop": "BC_EXIT_LOOPER", "free": "BC_FREE_BUFFER", "increfs": "BC_INCREFS",
          "acquire": "BC_ACQUIRE", "release": "BC_RELEASE", "decrefs": "BC_DECREFS", "increfsdone": "BC_INCREFS_DONE",
          "acquiredone": "BC_ACQUIRE_DONE", "askdeath": "BC_REQUEST_DEATH_NOTIFICATION",
          "cleardeath": "BC_CLEAR_DEATH_NOTIFICATION", "deaddone": "BC_DEAD_BINDER_DONE"}
VERBS = {"manager": "set_manager", "spam": "set_spam", "exitthread": "exit_thread", "exitprocess": "exit_process"}
# refused by the rules, but not by the driver
DRIVERS_OWN = {struct.pack("<I", REFUSED[name]) for name in ("BC_REGISTER_LOOPER", "BC_TRANSACTION_SG", "BC_REPLY_SG")}
ENGINES_OWN = ("look", "await", "post", "serve", "collect", "withdraw")


def unhex(word):
    return b"" if word == "-" else bytes.fromhex(word)


def tohex(data):
    return data.hex() or "-"


def sent(verb, words):
    """The stream and the area of `tx` and `reply`."""
    target = int(words.pop(0)) if verb == "tx" else 0
    code, flags, data = int(words[0]), int(words[1]), unhex(words[2])
    offsets = [] if words[3] == "-" else [int(it) for it in words[3].split(",")]
    area = data + bytes(padded(len(data)) - len(data)) + b"".join(struct.pack("<Q", it) for it in offsets)
    record = Record(target, 0, code, flags, 0, 0, len(data), 8 * len(offsets), 0, padded(len(data)))
    return command("BC_TRANSACTION" if verb == "tx" else "BC_REPLY", *record), area


def request_of(words):
    verb, *rest = words
    if verb in ENGINES_OWN:
        return ("engine",)
    if verb in ("tx", "reply"):
        return "write", *sent(verb, rest)
    if verb in WRITES:
        return "write", command(WRITES[verb], *map(int, rest)), b""
    if verb == "write":
        return "write", unhex(rest[0]), unhex(rest[1])
    return VERBS.get(verb, verb), *map(int, rest)


def is_common(request):
    """Whether a request means to the driver what it does to the rules: what these leave out, it may well take."""
    if request[0] != "write":
        return request[0] != "engine"
    _, stream, area = request
    words = {area[at:at + 4] for at in range(0, len(area), 4)}
    if words & {struct.pack("<I", it) for it in OTHER_OBJECTS}:
        return False
    while stream[:4] not in DRIVERS_OWN:
        try:
            stream = stream[read_command(stream)[2]:]
        except Unreadable:
            return True
    return False


class Script:
    """Its number of seats, and its lines: their numbers, seats, what they ask for, and their words as they stand there."""

    def __init__(self, text):
        self.seats, self.lines = 0, []
        for number, line in enumerate(text.split("\n"), 1):
            words = line.split()
            if not words or line.startswith("#"):
                continue
            if words[0] == "seats":
                self.seats = int(words[1])
            elif words[1] != "look":  # which changes nothing
                self.lines.append((number, int(words[0]), " ".join(words[1:]), re.sub(" +", " ", line)))

    def waits(self):
        return any(line.startswith("wait ") for _, _, line, _ in self.lines)

    def is_playable(self):
        """Whether a real program can play it on Linux's driver."""
        return all(is_common(request_of(line.split())) for _, _, line, _ in self.lines)
