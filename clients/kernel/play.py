# SPDX-License-Identifier: Apache-2.0 OR MIT
"""A script's run by the rules: what each line answers, with threads that wait in a read, and how the driver's player is told of it.

Scripts name a parcel by who has read it, whatever its pointer is: by a key in the place of the pointer.
"""
import struct

import rules
from wire import RECORD, RETURNS

IS_KEY = 1 << 63
# what a real program can't ask for, as there is no process or it is no program of that pid
NOT_PLAYED = ("F4", "F5", "F6", "F7", "F8", "F9")
ERRORS = {"F1": " EFAULT", "F2": " EINVAL", "F3": " EINVAL", "EINVAL": " EINVAL"}


def told(answer):
    """An answer as the driver's player tells it, without pointers; None for what it doesn't play."""
    kind, *rest = answer.split(" ")
    if kind == "refused":
        return {"F12": "again", "F10": "manager EBUSY"}.get(rest[0], None if rest[0] in NOT_PLAYED else rest[0])
    if kind == "wrote":
        return f"wrote {rest[0]}{ERRORS.get(rest[-1], '')}"
    if kind == "got":
        return " ".join(["got", without_pointers(bytes.fromhex(rest[0])).hex(), rest[1], rest[2]])
    return kind


def without_pointers(stream, pid=None):
    """Returns whose parcels' pointers are told as distances, with pids changed."""
    found, at = bytearray(stream), 0
    sizes = {code: (name, layout.size) for name, (code, layout) in RETURNS.items()}
    while at < len(stream):
        name, size = sizes.get(struct.unpack_from("<I", stream, at)[0], (None, struct.unpack_from("<I", stream, at)[0] >> 16 & 0x3fff))
        if name in ("BR_TRANSACTION", "BR_REPLY"):
            fields = list(RECORD.unpack_from(stream, at + 4))
            fields[8], fields[9] = 0, fields[9] - fields[8]
            fields[4] = pid(fields[4]) if pid else fields[4]
            RECORD.pack_into(found, at + 4, *fields)
        at += 4 + size
    return bytes(found)


class Line:
    """A line's number and words, its answers by the seats that got them, and how the driver's player is told of it; None where it can't
    play it."""

    def __init__(self, number, words, answer):
        self.number, self.words = number, words
        self.answers = [(seat, told(text)) for seat, text in answer["said"]]
        self.lowered = answer["keyed"] if self.answers[0][1] is not None else None


class Played:
    """A script's run: its lines, what it comes to without reads that wait, and the switches on which something has depended."""

    def __init__(self, script, ways=()):
        answers = rules.answers(script.seats, [f"{seat} {line}" for _, seat, line, _ in script.lines], ways)
        self.lines = [Line(number, words, answer) for (number, _, _, words), answer in zip(script.lines, answers)]
        self.plain = [tuple(it) for answer in answers for it in answer["plain"]]
        self.asked = set(answers[-1]["asked"]) if answers else set()
        self.keyed = [answer["keyed"] for answer in answers]


def with_keys(script):
    """The same script with parcels called by their keys, as its pointers are meant by the rules."""
    keyed = Played(script).keyed
    script.lines = [(number, seat, line.split(" ", 1)[1], words) for (number, seat, _, words), line in zip(script.lines, keyed)]
    return script
