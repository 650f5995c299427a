# SPDX-License-Identifier: Apache-2.0 OR MIT
"""What one can rely on of a device's ring (../ring.h): that its slots say what the steps were, whoever reads while they are written, and
that nobody else sees it."""
import contextlib
import fcntl
import itertools
import os
import re
import shutil
import socket
import struct
import subprocess
import tempfile
import threading
import time
from collections import Counter, namedtuple

from journals import Journal, Who
from raw_tests import DEVICE
from recordings import contents, neighbours
from stage import BUSY, Failed, Stage, comes, expect, listens, tail
from suite import figures, test

# what `--state` prints last, of an account, of a user or of a process
SHARES = re.compile(r"(account \d+|user \d+ of account \d+|process \d+ of user \d+) has (\w+ \d+(?: \(\d+ refused\))?(?:, \w+ \d+(?: \(\d+ refused\))?)*)")
# what `--state` prints of a process, of a thread, of a handle and of a buffer
PROCESS = re.compile(r"proc (\d+) (.*): euid \d+, window \d+, \d+ threads, of .*")
THREAD = re.compile(r"  thread (\d+) (.*): seat \d+(?:, .*)?")
HANDLE = re.compile(r"  handle (\d+): object (\d+\.\d+) of (?:a process that has ended|(\d+) .*)")
BUFFER = re.compile(r"  buffer at (\d+): (\d+) bytes, a (call|reply) with code (0|0x[\da-f]+)(?: on object (\d+\.\d+))? from (\d+|a) "
                    r".*, made by step \d+")

# as ring.h has them
SLOT = struct.Struct("=QQQIIIIBBBBIIIIIQQIIIIQQQQQ16s232s")
Slot = namedtuple("Slot", "sequence time place seat pid tid process kind answer number kept command handle code flags other call object_place "
                  "object_index euid limit returns data_size offsets_size buffer pointer cookie comm data")
HEADING = struct.Struct("=8sIIIIQII64s24xQ56x")
COUNTS = struct.Struct("=32Q32Q8Q32Q32Q32Q13Q")
NONE = 2**64 - 1
# steps that are looked at while they are made
STEPS = 40_000
COMMAND, READ, GOT, ACCEPTED = 3, 4, 6, 3
# codes of commands and returns with a parcel, by their numbers (_IOC_NR), and the flag of a call without a reply
BC_TRANSACTION, BC_REPLY, BR_TRANSACTION, BR_REPLY, ONE_WAY = 0, 1, 2, 3, 1
# the flag of a parcel that is to be cleared, of which nothing is kept
CLEAR_BUF = 0x20
WORD = struct.Struct("=I")
RECORD = struct.Struct("=QQIIiIQQQQ")
NOBODY, OTHER = 65534, 65533


def number(code):
    return code & 0xff


def returns_of(stream):
    """The codes of what a read got, and the last one's bytes."""
    codes, at, last = [], 0, b""
    while at < len(stream):
        code, = WORD.unpack_from(stream, at)
        end = at + WORD.size + (code >> 16 & 0x3fff)
        codes.append(code)
        last = stream[at + WORD.size:end]
        at = end
    return codes, last


def blocks(data):
    """The blocks that data are made of."""
    found, at = [], 0
    while at < len(data):
        size, = WORD.unpack_from(data, at)
        found.append(data[at + WORD.size:at + WORD.size + size])
        at += WORD.size + size
    return found


def said_by(entry):
    """What a slot has to say of a journal's entry, as far as that knows it."""
    said = {"seat": entry.seat, "kind": entry.step[0], "answer": entry.answer[0],
            "number": entry.answer[1] if entry.answer[0] in (4, 5, 7) else 0}
    if entry.step[0] == COMMAND:
        command = blocks(entry.step[1:5 + WORD.unpack_from(entry.step, 1)[0]])[0]
        said["command"], = WORD.unpack_from(command)
        if number(said["command"]) in (BC_TRANSACTION, BC_REPLY):
            target, _, said["code"], said["flags"], _, _, said["data_size"], said["offsets_size"], *_ = RECORD.unpack_from(command, WORD.size)
            said["handle"] = target & (2**32 - 1) if number(said["command"]) == BC_TRANSACTION else 0
            rest = entry.step[5 + len(command):]
            said["data"] = blocks(rest[1:])[0][:232] if rest[0] else b""
    elif entry.step[0] == READ:
        said["limit"], = WORD.unpack_from(entry.step, 1)
        stream = blocks(entry.answer[1:])[0] if entry.answer[0] == GOT else b""
        codes, last = returns_of(stream)
        said.update(returns=len(stream), command=codes[-1] if codes else 0)
        if codes and number(codes[-1]) in (BR_TRANSACTION, BR_REPLY):
            names = None, None, "code", "flags", "other", "euid", "data_size", "offsets_size", "buffer", None
            said.update((name, value) for name, value in zip(names, RECORD.unpack(last)) if name)
    return said


def read_ring(path):
    """The slots that raw/follow has found whole, what the heading says, and its counts."""
    data = contents(path)
    end = len(data) - HEADING.size - COUNTS.size
    slots = [Slot(*it) for it in SLOT.iter_unpack(data[:end])]
    return slots, HEADING.unpack_from(data, end), COUNTS.unpack_from(data, end + HEADING.size)


def compare(slots, journal, times):
    """Each slot says what the entry of its place does."""
    for slot in slots:
        said = said_by(journal.entries[slot.place])
        data = said.pop("data", b"")
        wrong = {name: (getattr(slot, name), value) for name, value in said.items() if getattr(slot, name) != value}
        expect(not wrong and slot.time == times.times[slot.place], f"step {slot.place} isn't what its slot says: {wrong}")
        kept = b"" if slot.flags & CLEAR_BUF else data
        expect(slot.sequence == 2 * slot.place + 2 and slot.data[:slot.kept] == kept, f"the data of step {slot.place} aren't what its slot says")
    return len(slots)


def compare_names(slots, who):
    """Each slot says whose its seat was."""
    at, has = 0, {}
    for slot in sorted(slots, key=lambda it: it.place):
        while at < len(who.lines) and who.lines[at].place <= slot.place:
            has[who.lines[at].seat] = who.lines[at]
            at += 1
        if slot.seat:
            line, found = has.get(slot.seat), (slot.pid, slot.tid, slot.comm.rstrip(b"\0"))
            expect(line and found == (line.pid, line.tid, line.comm), f"step {slot.place} is of {found}, and not of {line}")


def compare_calls(slots):
    """A two-way call that is read names the step that has sent it, whose slot names the same process and object."""
    by_place = {it.place: it for it in slots}
    sent = {it.place for it in slots if it.kind == COMMAND and number(it.command) == BC_TRANSACTION and it.answer == ACCEPTED}
    read = [it for it in slots if it.kind == READ and it.command and number(it.command) == BR_TRANSACTION]
    expect(all((it.call == NONE) == bool(it.flags & ONE_WAY) for it in read), "a one-way call that is read names a step, or another one none")
    known = [(it, by_place[it.call]) for it in read if it.call in by_place]
    for got, call in known:
        expect(call.place in sent and call.other == got.process and got.other == call.process and got.data_size == call.data_size,
               f"step {got.place} has read another call than {call.place}")
    objects = {(call.other, call.object_place, call.object_index): (got.pointer, got.cookie) for got, call in known}
    expect(all(objects[call.other, call.object_place, call.object_index] == (got.pointer, got.cookie) for got, call in known),
           "one object has two pointers")
    return len(known)


@test("raw ring")
def ring(build):
    """What is read of the latest steps while they are made is what the recording says of them, and no slot is torn."""
    with Stage(build, journal=DEVICE) as stage:
        folder, path = f"{stage.folder}/marks", f"{stage.folder}/slots"
        os.mkdir(folder)
        load = stage.start([build.raw("marked"), folder]).wait_for("ready", 30)
        told = stage.run([build.raw("follow"), DEVICE, path, str(STEPS)], client=False)
        load.kill()
        stage.end()
        slots, _, _ = read_ring(path)
        journal = Journal(contents(stage.journal))
        times, who = neighbours(stage.journal)
        count = compare(slots, journal, times)
        compare_names(slots, who)
        known = compare_calls(slots)
    found = figures(told)
    places = {it.place for it in slots}
    expect(count == found["whole"] and len(places) + found["lost"] + found["torn"] >= STEPS, f"of {STEPS} steps {len(places)}: {told}")
    expect(known > 1000, f"of {known} calls that were read the sending was seen")
    return f"{told.splitlines()[-1]}; {known} calls with the steps that sent them"


@test("raw ring counts")
def ring_counts(build):
    """The ring's heading counts what the recording has, by command, by return and by answer."""
    with Stage(build, journal=DEVICE) as stage:
        path = f"{stage.folder}/slots"
        stage.manage()
        stage.run([build.raw("services"), "20"])
        expect(comes(lambda: ", 1 processes," in asked(build, stage, ["--stats", DEVICE])), "others than the manager are there still")
        before = time.time_ns() - time.monotonic_ns()
        stage.run([build.raw("follow"), DEVICE, path, "0"], client=False)
        slots, heading, counts = read_ring(path)
        stage.end()
        journal = Journal(contents(stage.journal))
        _, who = neighbours(stage.journal)
    mark, heading_size, slot_size, slot_count, seats, realtime, daemon, is_over, device, count = heading
    there = (mark, heading_size, slot_size, slot_count, seats, daemon, is_over, device.rstrip(b"\0"))
    expect(there == (b"HPRING02", 4096, SLOT.size, 8192, 31, stage.daemon.pid, 0, DEVICE.encode()), f"the heading: {heading}")
    expect(abs(realtime - before) < 1e9, f"the clocks are {realtime} apart, and not {before}")
    places = {it.place for it in slots}
    expect(places == set(range(max(0, count - slot_count), count)), f"{len(places)} slots of {count} steps")
    found = Counter()
    for entry in journal.entries[:count]:
        said = said_by(entry)
        found[512 // 8 + said["answer"]] += 1
        if said["kind"] == COMMAND:
            found[number(said["command"])] += 1
        elif said["kind"] == READ and said["answer"] == GOT:
            found.update(32 + number(code) for code in returns_of(blocks(entry.answer[1:])[0])[0])
        if said["answer"] in (4, 5, 7):
            found[{4: 72, 5: 104, 7: 136}[said["answer"]] + said["number"]] += 1
    other = [(i, counts[i], found[i]) for i in range(168) if counts[i] != found[i]]
    expect(not other, f"counts that differ: {other}")
    turns, longest_turn, _, looks, copied, processes, lent, most_lent, *times = counts[168:]
    expect(0 < longest_turn <= 64 and turns and looks and copied, f"turns {turns}, longest {longest_turn}, looks {looks}, copied {copied}")
    expect(all(1000 < it < 10**9 for it in times[:2]), f"the longest turns took {times[:2]} ns")
    held = [0]
    for it in who.lines:
        if it.place <= count:
            held.append(held[-1] + (1 if it.pid else -1))
    expect((processes, lent, most_lent) == (1, held[-1], max(held)),
           f"{processes} processes, {lent} seats lent, most {most_lent}; recorded are {held[-1]} and {max(held)}")
    return f"{count} steps are counted as they were recorded"


# what goes on while the state is told: services, and threads of one more process that wait in a read or for a reply
SERVICES, THREADS = 40, 100
# the code of the calls that raw/asleep.c leaves without a reply
KEEP_WAITING = "0x3"
CALLS = (THREADS + 7) // 8
# open files of one process, so many that the daemon has three in some of its 256 lists: a page of 16 ends in the midst of one
OPENS = 600
# what the program of these threads is called, as none is that names itself: it would be lines of its own, and clear a terminal
ODD = "\\\n\x1b[2Jproc 1"


def asked(build, stage, words):
    """What a daemon tells the program that asks it."""
    environment = {**os.environ, **build.environment, "HULLPIPPIN_SOCKET": stage.socket}
    done = subprocess.run([build.daemon, *words], env=environment, capture_output=True, text=True, timeout=BUSY * 20)
    expect(done.returncode == 0, f"{words}: {tail(done.stderr)}")
    return done.stdout


def shares_in(told):
    """By whose they are, as `--state` has it, how much is taken of each share, and how often it was refused."""
    lines = [SHARES.fullmatch(it) for it in told.splitlines()]
    each = re.compile(r"(\w+) (\d+)(?: \((\d+) refused\))?")
    return {it[1]: {name: (int(taken), int(refused or 0)) for name, taken, refused in each.findall(it[2])} for it in lines if it}


def calls_in(lines):
    return sum(", calls 1, the innermost from step " in it for it in lines)


def threads_of(told):
    """By pid and by tid what `--state` tells of processes, and of threads with their processes'."""
    processes, threads, pid = {}, {}, None
    for line in told.splitlines()[1:]:
        found = PROCESS.fullmatch(line) or THREAD.fullmatch(line)
        expect(found or HANDLE.fullmatch(line) or BUFFER.fullmatch(line) or SHARES.fullmatch(line), f"a line of another kind: {line}")
        if found and found.re is PROCESS:
            pid = int(found[1])
            processes[pid] = found
        elif found:
            expect(int(found[1]) not in threads, f"thread {found[1]} is told twice")
            threads[int(found[1])] = pid, found
    return processes, threads


def things_of(told, kind):
    """What `--state` tells of one kind, HANDLE or BUFFER, each with the pid of whose it is."""
    things, pid = [], None
    for line in told.splitlines()[1:]:
        process, found = PROCESS.fullmatch(line), kind.fullmatch(line)
        pid = int(process[1]) if process else pid
        things += [(pid, found)] if found else []
    return things


def wait_for_calls(build, stage, program):
    """The lines of a program's threads once all its calls are on their way, or after some seconds; and all threads of the device."""
    end = time.monotonic() + BUSY * 10
    while True:
        _, threads = threads_of(asked(build, stage, ["--state", "/dev/vndbinder"]))
        lines = [it[0] for pid, it in threads.values() if pid == program.pid]
        if calls_in(lines) >= CALLS and len(lines) >= THREADS or time.monotonic() > end:
            return lines, threads
        time.sleep(0.1)


def comm_of(pid, tid):
    """A thread's name as it is told: what isn't printed, and the backslash, by their numbers."""
    name = contents(f"/proc/{pid}/task/{tid}/comm")[:-1]
    return "".join(chr(it) if 32 <= it <= 126 and it != ord("\\") else f"\\x{it:02x}" for it in name)


@test("raw state")
def state(build):
    """What is told of processes, of their threads, handles and buffers is what goes on, page after page; and of the counts those of the
    ring are told by name."""
    with Stage(build, journal=DEVICE, wide=True) as stage:
        manager = stage.manage()
        running = [stage.start([build.manager("hello"), f"hello{i}"]).wait_for("ready") for i in range(SERVICES)]
        other = {"RAW_DEVICE": "/dev/vndbinder"}
        odd = shutil.copy(build.raw("asleep"), f"{stage.folder}/{ODD}")
        waiting = stage.start([odd, str(THREADS)], environment=other).wait_for("ready", 30)
        comes(lambda: all("loops, waits" in it[0] for _, it in threads_of(asked(build, stage, ["--state", DEVICE]))[1].values()))
        told, counted = (asked(build, stage, words) for words in (["--state", DEVICE], ["--stats", DEVICE]))
        opener = stage.start([build.raw("opens"), str(OPENS)], environment={"RAW_DEVICE": "/dev/hwbinder"}).wait_for("ready", 30)
        opened = re.findall(rf"^proc {opener.pid} opens: .*?(?:, in the history (\d+))?$", asked(build, stage, ["--state", "/dev/hwbinder"]), re.M)
        processes, threads = threads_of(told)
        of_one, many_threads = wait_for_calls(build, stage, waiting)
        buffers = things_of(asked(build, stage, ["--state", "/dev/vndbinder"]), BUFFER)
        wrong = [(tid, pid, line[2]) for tid, (pid, line) in {**threads, **many_threads}.items() if line[2] != comm_of(pid, tid)]
        stage.end()
        journal = Journal(contents(stage.journal))
    expect(len(opened) == len(set(opened)) == OPENS, f"of {OPENS} open files {len(opened)} are told of, {len(set(opened))} of them once")
    expect(set(processes) == {manager.pid, *(it.pid for it in running)}, f"processes: {sorted(processes)}")
    expect({pid for pid, _ in threads.values()} == set(processes) and not wrong, f"threads of {threads}, wrong names: {wrong}")
    expect([pid for pid, it in processes.items() if "context manager" in it[0]] == [manager.pid], "another manager is told of")
    expect(all("loops, waits" in it[0] for _, it in threads.values()), f"{[it[0] for _, it in threads.values()]}")
    expect(len(of_one) >= THREADS and calls_in(of_one) == CALLS, f"{len(of_one)} threads, of which {calls_in(of_one)} call: {of_one[:3]}")
    named = [(pid, int(it[3] or 0)) for pid, it in things_of(told, HANDLE) if it[1] != "0"]
    expect(sorted(named) == sorted((manager.pid, it.pid) for it in running), f"the manager has a handle for each service: {named}")
    kept = [it[6] for _, it in buffers if (it[3], it[4]) == ("call", KEEP_WAITING)]
    expect(kept == [str(waiting.pid)] * CALLS, f"{CALLS} calls wait, and their buffers are {buffers}")
    sent = sum(it.step[0] == COMMAND and said_by(it)["command"] & 0xff == BC_TRANSACTION for it in journal.entries)
    expect(f"BC_TRANSACTION: {sent}\n" in counted and f"{SERVICES + 1} processes" in counted, counted)
    return f"{len(processes)} processes and {len(threads) + len(many_threads)} threads, by their names; {len(opened)} open files of one process"


# what a daemon answers (../protocol.h), and a page of `--state` with so many records
ANSWER, PAGE, RECORDS, RECORD_SIZE = struct.Struct("=iIQ"), struct.Struct("=iIQQQ"), 16, 128
LATEST = 4096 + 8192 * SLOT.size
PAGES_MAX = 1 << 18  # as asking.c has it
NO_DAEMON, TOO_SLOW = "no daemon of this build answers", "not all of it is told in time"


def memory_of(heading, size, seals=fcntl.F_SEAL_SHRINK):
    """Memory as a daemon gives it with its latest steps, or nearly."""
    memory = os.memfd_create("lie", os.MFD_ALLOW_SEALING)
    os.ftruncate(memory, size)
    os.pwrite(memory, heading[:size], 0)
    fcntl.fcntl(memory, fcntl.F_ADD_SEALS, seals)
    return memory


def page_of(count, after, within=0):
    return PAGE.pack(0, count, 0, after, within) + bytes(RECORDS * RECORD_SIZE)


def answer_all(listener, answers, memory):
    """Answers who comes first, packet by packet; the memory goes with the first."""
    client, _ = listener.accept()
    with client, contextlib.suppress(BrokenPipeError, ConnectionResetError):
        for answer in answers:
            if not client.recv(4096):
                break
            socket.send_fds(client, [answer], [memory] if memory is not None else [])
            memory = None


def told_by(build, folder, words, answers, memory=None, patience=20):
    """What the program says of one that listens, and isn't a daemon."""
    path = f"{folder}/lies"
    with socket.socket(socket.AF_UNIX, socket.SOCK_SEQPACKET) as listener:
        listener.bind(path)
        listener.listen()
        answering = threading.Thread(target=answer_all, args=(listener, answers, memory), daemon=True)
        answering.start()
        done = subprocess.run([build.daemon, *words, "--socket", path], env={**os.environ, **build.environment}, capture_output=True, text=True,
                              timeout=BUSY * patience)
        answering.join(20)
    os.unlink(path)
    if memory is not None:
        os.close(memory)
    return done.returncode, tail(done.stderr)


@test("raw ring lies")
def ring_lies(build):
    """Who asks what a daemon tells isn't led astray by what listens in its place; and asks for one thing."""
    def heading(magic=b"HPRING02", slots=8192, device=DEVICE):
        return HEADING.pack(magic, 4096, SLOT.size, slots, 31, 0, 1, 0, device.encode(), 0)
    ring = [ANSWER.pack(0, 1, LATEST)]
    lies = [(heading(), 0), (heading(), 4096), (heading(), LATEST, 0), (heading(b"HPRING00"), LATEST), (heading(slots=1 << 31), LATEST),
            (heading(device="/dev/other"), LATEST)]
    with tempfile.TemporaryDirectory(prefix="hullpippin-lies-") as folder:
        told = [told_by(build, folder, ["--stats", DEVICE], ring, memory_of(*lie)) for lie in lies]
        good = told_by(build, folder, ["--stats", DEVICE], ring, memory_of(heading(), LATEST))
        opened, last = ANSWER.pack(0, 0, 0), page_of(0, 0)
        pages = [opened, page_of(0, 7), page_of(0, 7, 1), page_of(0, 8), last]
        good_pages = told_by(build, folder, ["--state", DEVICE], pages)
        told += [told_by(build, folder, ["--state", DEVICE], [opened, page, last]) for page in (page_of(RECORDS + 1, 0), page_of(RECORDS + 1, 1))]
        endless = (page_of(0, after) for after in range(1, 2 * PAGES_MAX))
        on_and_on = told_by(build, folder, ["--state", DEVICE], itertools.chain([opened], endless, [last]), patience=120)
        for stays in (page_of(0, 7), page_of(0, 6, 9)):
            told.append(told_by(build, folder, ["--state", DEVICE], [opened, page_of(0, 7), stays, last]))
    expect(good[0] == 0 and good_pages[0] == 0, f"what a daemon tells is refused: {good}, {good_pages}")
    expect(all(status == 1 and NO_DAEMON in why for status, why in told), f"{told}")
    # on a busy machine so many pages take longer than all may
    expect(on_and_on[0] == 1 and (NO_DAEMON in on_and_on[1] or TOO_SLOW in on_and_on[1]), f"pages without end: {on_and_on}")
    for words in (["--stats", DEVICE, "--state", DEVICE], ["--look", "--stats", DEVICE], ["--look", "--state", DEVICE]):
        done = subprocess.run([build.daemon, *words], env={**os.environ, **build.environment}, capture_output=True, text=True, timeout=BUSY * 20)
        expect(done.returncode == 2 and "usage" in done.stderr, f"{words}: {done.returncode}, {tail(done.stderr)}")
    return f"{len(told) + 1} lies are seen through, and two questions at once are none"


# so many seconds whoever asks waits for a connection or an answer (../address.h), and for all pages (asking.c, and as short.c has it)
PATIENCE, WHOLE, SHORT_WHOLE = 5, 60, 3
# what a question may take beyond, on a busy machine
LEEWAY = 30
QUESTIONS = (["--look"], ["--stats", DEVICE], ["--state", DEVICE])


def listening(stack, path):
    """Somebody who listens there, and takes nobody."""
    listener = stack.enter_context(socket.socket(socket.AF_UNIX, socket.SOCK_SEQPACKET))
    listener.bind(path)
    listener.listen(0)
    return listener


def take_all_room(stack, path):
    """Connects until nobody else can, and who tries it would wait."""
    while True:
        client = stack.enter_context(socket.socket(socket.AF_UNIX, socket.SOCK_SEQPACKET))
        client.setblocking(False)
        if client.connect_ex(path):
            return


def slowly(pages):
    """The answers of a device that is opened, and then so many pages, none of them late."""
    yield ANSWER.pack(0, 0, 0)
    for after in range(1, pages):
        time.sleep(0.2)
        yield page_of(0, after)
    yield page_of(0, 0)


class Question:
    """A program that asks, and is waited for so many seconds at most."""

    def __init__(self, stack, build, program, words, path, seconds):
        self.words, self.until = f"{' '.join(words)} at {os.path.basename(path)}", time.monotonic() + seconds
        self.program = stack.enter_context(subprocess.Popen([program, *words, "--socket", path], env={**os.environ, **build.environment},
                                                            stdin=subprocess.DEVNULL, stdout=subprocess.DEVNULL, stderr=subprocess.PIPE, text=True))
        stack.callback(self.program.kill)

    def told(self):
        """What it has said in the end; it has failed."""
        try:
            said = self.program.communicate(timeout=max(0, self.until - time.monotonic()))[1]
        except subprocess.TimeoutExpired:
            raise Failed(f"{self.words} still waits") from None
        expect(self.program.returncode == 1, f"{self.words} ends with {self.program.returncode}: {tail(said)}")
        return tail(said)


@test("raw ring waits")
def ring_waits(build):
    """Who asks ends in time where nobody takes the connection, nobody answers, or what is told comes so slowly that it seems to have no end."""
    with tempfile.TemporaryDirectory(prefix="hullpippin-waits-") as folder, contextlib.ExitStack() as stack:
        full, mute, slow = (listening(stack, f"{folder}/{name}") for name in ("full", "mute", "slow"))
        take_all_room(stack, full.getsockname())
        mute.listen(len(QUESTIONS))
        waiting = [Question(stack, build, build.daemon, words, it.getsockname(), PATIENCE + LEEWAY) for it in (full, mute) for words in QUESTIONS]
        threading.Thread(target=answer_all, args=(slow, slowly(WHOLE * 5), None), daemon=True).start()
        short = Question(stack, build, build.short, ["--state", DEVICE], slow.getsockname(), SHORT_WHOLE + LEEWAY)
        told = [it.told() for it in waiting]
        late = short.told()
    expect(all("timed out" in it for it in told[:len(QUESTIONS)]), f"nobody took a connection: {told}")
    expect(TOO_SLOW in late, f"what was told slowly: {late}")
    return f"{len(told) + 1} questions without an answer ended in time"


def as_user(user):
    return {"user": user, "group": user, "extra_groups": []} if user else {}


def look(programs, path, user):
    """What a user is told who wants to look, by programs of copies that all may run."""
    daemon, follow = programs
    how = {"env": {**os.environ, "HULLPIPPIN_SOCKET": path}, "capture_output": True, "text": True, "timeout": BUSY * 20, **as_user(user)}
    done = subprocess.run([follow, DEVICE, "/dev/null", "0"], **how)
    asked = subprocess.run([daemon, "--state", DEVICE, "--socket", path], **how)
    may = (done.returncode, asked.returncode) == (0, 0)
    return "ready" if may else f"{done.stdout.strip()}, {tail(asked.stderr)}"


@test("raw ring users", plain_only=True)
def ring_users(build):
    """The latest steps are for the daemon's own user and for root alone, and for those also while nobody has opened the device."""
    if os.geteuid():
        return "nothing was seen: only root can become another user"
    told = {}
    for owner in (0, NOBODY):
        with tempfile.TemporaryDirectory(prefix="hullpippin-users-") as folder:
            os.chmod(folder, 0o755)
            programs = [shutil.copy(it, folder) for it in (build.daemon, build.raw("follow"))]
            os.makedirs(f"{folder}/own")
            os.chown(f"{folder}/own", owner, owner)
            os.chmod(f"{folder}/own", 0o755)
            path = f"{folder}/own/socket"
            words = [programs[0], "--socket", path, "--mode", "666"]
            with subprocess.Popen(words, stderr=subprocess.PIPE, **as_user(owner)) as daemon:
                try:
                    comes(lambda: listens(path))
                    told[owner] = [look(programs, path, user) for user in (0, NOBODY, OTHER)]
                finally:
                    daemon.terminate()
                    said = daemon.communicate(timeout=BUSY * 10)[1].decode()
            expect(daemon.returncode == 0, f"the daemon ended with {daemon.returncode}: {tail(said)}")
    no = f"no steps: EPERM, hullpippind: {DEVICE}: Operation not permitted"
    expect(told == {0: ["ready", no, no], NOBODY: ["ready", "ready", no]}, f"{told}")
    return "others are told EPERM"
