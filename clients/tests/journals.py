# SPDX-License-Identifier: Apache-2.0 OR MIT
"""Reads the journals of both versions that a daemon writes (docs/FORMATS.md, "The journal"), and what stands beside them ("Times and
names" there), by itself: not whether they are lawful, but that they are spelled as they should be, and what they say."""
import re
import struct
from collections import namedtuple

# by version: the mark, the numbers behind it, the seats, and the count of a journal that isn't ended
VERSIONS = {2: (b"BNDJ0002", struct.Struct("<II"), range(1, 32), 2**32 - 1), 3: (b"BNDJ0003", struct.Struct("<IQ"), range(32, 65537), 2**64 - 1)}
WORD = struct.Struct("<I")
# the first byte of a step: how many bytes follow that; a command's are of any number
STEPS = {0: 12, 1: 4, 2: 0, 3: None, 4: 4, 5: 0, 6: 0, 7: 1}
# the same of an answer; what was read is of any number
ANSWERS = {0: 0, 1: 0, 2: 0, 3: 0, 4: 1, 5: 1, 6: None, 7: 1}

# steps and answers by name
OPEN, ATTACH, OPENED = 0, 1, 0
# times of entries: what the file begins with
TIMES_MARK, LONG = b"HPTIMES1", struct.Struct("<Q")
# a line of who has a seat: a thread, or nobody
WHO = re.compile(r"(\d+) (\d+) (?:-|(\d+) (\d+) ((?:[ -\[\]-~]|\\x[0-9a-f]{2})*))")

Entry = namedtuple("Entry", "seat step answer")
Seated = namedtuple("Seated", "place seat pid tid comm")


def heading(version, seats, count):
    mark, numbers, _, _ = VERSIONS[version]
    return mark + numbers.pack(seats, count)


def block(data, at):
    """The bytes whose length stands there, and the place behind them; ValueError where they aren't all there."""
    if len(data) < at + WORD.size:
        raise ValueError("a length is cut off")
    begin = at + WORD.size
    end = begin + WORD.unpack_from(data, at)[0]
    if len(data) < end:
        raise ValueError("a block is cut off")
    return data[begin:end], end


def is_spelled(part, table):
    size = table.get(part[0], -1) if part else -1
    return size is None or len(part) == 1 + size


class Journal:
    """A journal that ended in order, or the beginning of one."""

    def __init__(self, data):
        self.version = next((it for it, (mark, *_) in VERSIONS.items() if data.startswith(mark)), None)
        self.entries, self.left, self.fault = [], len(data), "no heading"
        if not self.version:
            return
        mark, numbers, seats, self.growing = VERSIONS[self.version]
        if len(data) < len(mark) + numbers.size:
            return
        self.seats, self.count = numbers.unpack_from(data, len(mark))
        self.fault = None if self.seats in seats else f"{self.seats} seats"
        self.read(data, len(mark) + numbers.size)

    def read(self, data, at):
        while not self.fault and at < len(data):
            try:
                step, behind = block(data, at + WORD.size)
                answer, behind = block(data, behind)
            except ValueError:
                break
            entry = Entry(WORD.unpack_from(data, at)[0], step, answer)
            if entry.seat >= self.seats or not is_spelled(step, STEPS) or not is_spelled(answer, ANSWERS):
                self.fault = f"entry {len(self.entries)} is none: {entry}"
            else:
                self.entries.append(entry)
                at = behind
        self.left = len(data) - at

    def is_whole(self):
        """Whether it has ended in order."""
        return not self.fault and not self.left and self.count == len(self.entries)

    def is_cut(self):
        """Whether it may be what a daemon that was killed has left."""
        return not self.fault and self.count == self.growing

    def seats_used(self):
        return {it.seat for it in self.entries}

    def told(self):
        return self.fault or f"version {self.version}, {self.seats} seats, {len(self.entries)} entries of {self.count}, {self.left} bytes left"


class Times:
    """When the entries of a journal were made: nanoseconds of CLOCK_MONOTONIC, and what that is behind CLOCK_REALTIME."""

    def __init__(self, data):
        words = [it for it, in LONG.iter_unpack(data[len(TIMES_MARK):len(data) // LONG.size * LONG.size])]
        self.is_one = data.startswith(TIMES_MARK) and len(words) > 0
        self.offset, self.times = (words[0], words[1:]) if words else (None, [])
        self.left = len(data) % LONG.size


def unescaped(text):
    return re.sub(rb"\\x(..)", lambda found: bytes([int(found[1], 16)]), text.encode())


class Who:
    """Who had which seat: the device, and the whole lines; of those that aren't lines the first is the fault."""

    def __init__(self, data):
        first, *lines = data.decode("ascii").split("\n")
        self.device = first[len("HPWHO 1 "):] if first.startswith("HPWHO 1 ") and lines else None
        self.left = len(lines.pop()) if lines else len(first)
        found = [WHO.fullmatch(it) for it in lines]
        self.fault = next((line for line, it in zip(lines, found) if not it), None)
        self.lines = [Seated(int(it[1]), int(it[2]), *((int(it[3]), int(it[4]), unescaped(it[5])) if it[3] else (None, None, None)))
                      for it in found if it]


def attached(journal):
    """Places, seats and pids of the entries by which a thread gets a seat other than the daemon's own."""
    return [(place, it.seat, WORD.unpack_from(it.step, 1)[0]) for place, it in enumerate(journal.entries)
            if it.step[0] == ATTACH and it.seat and it.answer[0] == OPENED]
