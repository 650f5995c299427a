# SPDX-License-Identifier: Apache-2.0 OR MIT
"""Random scripts, each from a number alone, guided by what there is behind each line so that they reach far: that is what most lines name.

They hold only what a real program can ask of the driver: no descriptors, no scatter-gather commands, no BC_REGISTER_LOOPER, no object with
a security context; all those the rules leave out.
"""
import random
import struct
from types import SimpleNamespace

from differences import DIFFERENCES
from play import IS_KEY
from rules import Dialogue
from scripts import request_of, tohex
from wire import BINDER, FLAT, HANDLE, ONE_WAY, REFUSED, WEAK_BINDER, WEAK_HANDLE, Record, command, padded

WEAK, STRONG = 0, 1
FIRST_POINTER = 65536
PIDS = [100, 200, 300, 400, 500, 600]
PTRS = [4096, 4104, 4112, 4120, 0]
COOKIES = [77, 78, 2 ** 64 - 1]
LIMITS = [72, 79, 80, 96, 120, 1024]
MOST_WAITING = 2  # seats that have to be left to go on
# how much each kind of line is wanted, by the subject of a script
PLAIN = {"read": 30, "call": 14, "reply": 12, "free": 8, "references": 6, "acknowledge": 6, "deaths": 4, "loop": 3, "several": 3,
         "wrong": 2, "exit": 1, "manage": 1, "mark": 1}
SUBJECTS = {"plain": {}, "references": {"references": 16, "acknowledge": 10, "free": 12}, "deaths": {"deaths": 16, "exit": 4},
            "one-way": {"call": 24, "mark": 2, "free": 10}, "exits": {"exit": 8, "manage": 3}, "wrong": {"wrong": 10, "several": 10},
            "nested": {"call": 20, "reply": 14, "exit": 0.5}, "waiting": {"wait": 30, "read": 6}, "waits and ends": {"wait": 20, "exit": 4}}


class Seen:
    """What there is behind a line: threads by their seats, processes by their pids."""

    def __init__(self, state):
        self.manager = state["manager"]
        self.processes = {it["pid"]: self.process(**it) for it in state["processes"]}
        self.threads = {it["seat"]: SimpleNamespace(process=self.processes[it["pid"]], **it) for it in state["threads"]}

    @staticmethod
    def process(pid, parcels, objects, names, told):
        objects = {it["ptr"]: SimpleNamespace(**it) for it in objects}
        names = {it["number"]: SimpleNamespace(**it) for it in names}
        return SimpleNamespace(pid=pid, parcels=parcels, objects=objects, names=names, told=told)


class Maker:
    """A script that grows line by line, played as the driver plays it as it does."""

    def __init__(self, number, length):
        self.random = random.Random(f"script {number} {length}")
        names = sorted(SUBJECTS)
        self.subject = names[number % len(names)]
        self.weights = {**PLAIN, "wait": 0, **SUBJECTS[self.subject]}
        self.seats = self.random.choice([3, 4, 4, 5, 6])
        self.dialogue, self.seen, self.lines, self.is_over = None, None, [], False

    def text(self):
        return "".join(f"{it}\n" for it in self.lines)

    def pick(self, things):
        return self.random.choice(list(things))

    def chance(self, share):
        return self.random.random() < share

    def put(self, seat, words):
        self.lines.append(f"{seat} {words}")
        self.dialogue.ask(self.lines[-1])
        self.seen = Seen(self.dialogue.ask("state"))

    def made(self, length):
        """The whole script, of so many lines."""
        self.dialogue, self.lines = Dialogue(self.seats, DIFFERENCES), [f"seats {self.seats}"]
        self.begin()
        while len(self.lines) <= length and not self.is_over:
            self.line()
        self.dialogue.end()
        return self.text()

    def begin(self):
        for seat in range(min(self.seats, 3)):
            self.put(seat, f"open {PIDS[seat]} {10 * seat} 4096")
            if self.chance(0.7):
                self.put(seat, "enter")
            if seat == 0:
                self.put(seat, "manager")

    def is_free(self, seat):
        """Whether a seat can do something: its thread doesn't wait."""
        return seat not in self.seen.threads or not self.seen.threads[seat].waits

    def line(self):
        """One more line that there is a way to write."""
        seat = self.pick(it for it in range(self.seats) if self.is_free(it))
        thread = self.seen.threads.get(seat)
        words = None if thread else self.enter_space()
        while not words:
            kinds = list(self.weights)
            kind = self.random.choices(kinds, [self.weights[it] for it in kinds])[0]
            words = getattr(self, kind)(thread)
        self.put(seat, words)

    def enter_space(self):
        live = list(self.seen.processes)
        if live and (self.chance(0.5) or len(live) == len(PIDS)):
            return f"attach {self.pick(live)}"
        return f"open {self.pick(it for it in PIDS if it not in live)} {self.pick([0, 7, 1000])} {self.pick([4096, 4096, 8192])}"

    # ------------------------------------------------------------ kinds of lines: words, or None where there is nothing to name

    def read(self, thread):
        if not thread.ready and self.chance(0.7):
            return None
        return f"read {self.pick(LIMITS) if self.chance(0.15) else 256}"

    def wait(self, thread):
        going = [it for it in self.seen.threads.values() if it is not thread and not it.waits]
        return "wait 256" if len(going) >= MOST_WAITING else None

    def call(self, thread):
        return self.calling(thread, self.number(thread.process, 0.05))

    def calling(self, thread, number):
        flags = ONE_WAY * self.chance(0.5) | self.pick([0, 0, 0, 0x10, 0x20, 0x80000000])
        return f"tx {number} {self.random.randrange(9)} {flags} {self.parcel(thread.process)}"

    def reply(self, thread):
        if not thread.serves and self.chance(0.95):
            return None
        return f"reply {self.random.randrange(9)} {self.pick([0, 0, ONE_WAY])} {self.parcel(thread.process)}"

    def free(self, thread):
        read = thread.process.parcels
        if self.chance(0.05):
            return f"free {self.pick([0, FIRST_POINTER + 8, IS_KEY | 31 << 32])}"
        return f"free {self.pick(read)}" if read else None

    def references(self, thread):
        return f"{self.pick(['increfs', 'acquire', 'acquire', 'release', 'decrefs'])} {self.number(thread.process, 0.1)}"

    def acknowledge(self, thread):
        owed = [(verb, it) for it in thread.process.objects.values()
                for verb, strength in (("increfsdone", WEAK), ("acquiredone", STRONG)) if it.owed[strength]]
        if not owed or self.chance(0.05):
            return f"{self.pick(['increfsdone', 'acquiredone'])} {self.pick(PTRS)} 8192" if self.chance(0.2) else None
        verb, obj = self.pick(owed)
        return f"{verb} {obj.ptr} {obj.cookie}"

    def deaths(self, thread):
        told = thread.process.told
        if told and self.chance(0.5):
            return f"deaddone {self.pick(told)}"
        asked = [it for it in thread.process.names.values() if it.death is not None]
        if asked and self.chance(0.4):
            name = self.pick(asked)
            return f"cleardeath {name.number} {name.death if self.chance(0.9) else 5}"
        return f"askdeath {self.number(thread.process, 0.1)} {self.pick(COOKIES)}" if thread.process.names else None

    def loop(self, thread):
        return "exitloop" if thread.looping and self.chance(0.3) else "enter"

    def manage(self, _):
        return "manager"

    def mark(self, _):
        return f"spam {int(self.chance(0.8))}"

    def exit(self, thread):
        others = [it for it in self.seen.threads.values() if it.process is not thread.process]
        if not others:
            return None
        return "exitthread" if self.chance(0.6) else "exitprocess"

    def several(self, thread):
        """Commands in one write, the last of them perhaps cut short or no command."""
        stream, area = b"", b""
        for _ in range(self.random.randrange(2, 5)):
            words = self.pick([self.references, self.free, self.acknowledge, self.deaths, self.loop, self.call])(thread)
            if words and (not area or not words.startswith("tx")):
                _, more, its = request_of(words.split())
                stream, area = stream + more, area + its
        end = self.pick([b"", b"", b"\x05\x63", struct.pack("<I", 0x7777), struct.pack("<I", REFUSED["BC_ATTEMPT_ACQUIRE"]) + bytes(8)])
        return f"write {tohex(stream + end)} {tohex(area)}"

    def wrong(self, thread):
        """A call with something wrong about its record or its parcel."""
        area = bytes(range(32)) + struct.pack("<QQ", 0, 4)
        sizes = self.pick([(8, 12, 32), (64, 8, 32), (24, 16, 40), (24, 8, 32), (5000, 8, 0), (24, 4, 32)])
        record = Record(self.number(thread.process, 0.2), 0, 3, self.pick([0, ONE_WAY]), 0, 0, sizes[0], sizes[1], 0, sizes[2])
        return f"write {tohex(command(self.pick(['BC_TRANSACTION', 'BC_TRANSACTION', 'BC_REPLY']), *record))} {tohex(area)}"

    # ------------------------------------------------------------ what lines name

    def number(self, process, wrong):
        if self.chance(wrong):
            return self.pick([0, 1, 2, 9])
        return self.pick([*process.names, 0])

    def flat(self, process):
        """An object of a parcel: the process's own, or one that it has a name for."""
        flags = self.pick([0, 0x7f, 0x100])
        if self.chance(0.03):
            return FLAT.pack(self.pick([0x12345678, HANDLE]), flags, 9, 0)
        if process.names and self.chance(0.45):
            return FLAT.pack(self.pick([HANDLE, HANDLE, WEAK_HANDLE]), flags, self.pick(process.names), 0)
        ptr = self.pick(PTRS[:-1] if self.chance(0.97) else PTRS)
        known = process.objects.get(ptr)
        cookie = known.cookie if known and self.chance(0.97) else ptr + 4096 if ptr else 0
        return FLAT.pack(self.pick([BINDER, BINDER, BINDER, WEAK_BINDER]), flags, ptr, cookie)

    def parcel(self, process):
        """The data and the offsets of a call, as words."""
        size = self.pick([0, 0, 4, 8, 8, 20, 300, 900]) if self.chance(0.9) else self.pick([1500, 2048, 4088])
        data = bytes(self.random.randrange(256) for _ in range(min(size, 8))) + bytes(max(0, size - 8))
        data, offsets = data[:padded(size) if size % 4 else size], []
        data += bytes(-len(data) % 4)
        for _ in range(self.pick([0, 0, 1, 1, 2, 3])):
            offsets.append(len(data))
            data += self.flat(process)
        return f"{tohex(data)} {','.join(map(str, offsets)) or '-'}"


class PoolMaker(Maker):
    """A script in which the manager's process has three threads in the loop, two of which wait to begin with, and others call it."""

    def __init__(self, number, length):
        super().__init__(number, length)
        self.weights = {**PLAIN, "wait": 45, "read": 4, "call": 20, "deaths": 6}
        self.seats = 6

    def begin(self):
        for seat, words in ((0, "open 100 0 8192"), (0, "manager"), (1, "attach 100"), (2, "attach 100"), (3, "open 200 30 4096"),
                            (4, "attach 200"), (5, "open 300 50 4096")):
            self.put(seat, words)
        for seat in range(self.seats):
            self.put(seat, "enter")
        for seat in self.random.sample([0, 1, 2], 2):
            self.put(seat, "wait 256")


class PoliteMaker(Maker):
    """A script as programs behave that are written for Binder: in the loop, with room of 256 bytes, they read what there is for them
    before they write, acquire what they name strongly and release what they acquired, and their threads stay."""

    def line(self):
        for _ in range(1000):
            seat = self.pick(range(self.seats))
            thread = self.seen.threads.get(seat)
            words = self.enter_space() if not thread else self.polite(thread)
            if words:
                self.put(seat, words)
                return
        self.is_over = True  # all wait for one another

    def polite(self, thread):
        if not thread.looping:
            return "enter"
        if thread.ready:
            return "read 256"
        if thread.owed:
            return None  # its call hasn't been answered yet
        kind = self.pick(["call"] * 6 + ["reply"] * 6 + ["free"] * 4 + ["references"] * 3 + ["acknowledge"] * 6 + ["deaths"] * 2)
        words = "exitprocess" if self.chance(0.01) else getattr(self, kind)(thread)
        return words if words and self.is_polite(thread, words.split()) else None

    def is_polite(self, thread, words):
        verb, manager = words[0], self.seen.manager
        if verb in ("acquire", "increfs", "release", "decrefs", "askdeath", "tx"):
            name = thread.process.names.get(int(words[1]))
            is_own = manager is None or manager == thread.process.pid
            if int(words[1]) == 0 and verb in ("acquire", "increfs", "tx"):
                return not is_own
            return bool(name) and (verb not in ("acquire", "tx") or name.count[STRONG] > 0) and (
                verb not in ("release", "decrefs") or self.acquired(name, verb))
        return True

    @staticmethod
    def acquired(name, verb):
        """Whether what is released was asked for, apart from what buffers carry."""
        strength = int(verb == "release")
        return name.count[strength] > name.carried[strength]


def made(number, length, maker=Maker):
    """The script of a number, of so many lines."""
    return maker(number, length).made(length)
