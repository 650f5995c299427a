# SPDX-License-Identifier: Apache-2.0 OR MIT
"""What one can rely on in a recording: when it is in its file, and what kills and slow or full disks do to it."""
import collections
import fcntl
import os
import random
import re
import resource
import shutil
import signal
import struct
import subprocess
import tempfile
import threading
import time
from contextlib import contextmanager

from crowds import let_others_in
from journals import Journal, Times, Who, attached
from raw_tests import DEVICE, refuses
from stage import BUSY, NARROW, Stage, comes, expect, tail
from suite import figures, test

# seconds after which a step is in the file, as the daemon promises, and so long before a kill was answered what surely is there
IN_TIME, SURELY = 1, 2
# seconds of load before a kill, and the longest that looking at what it leaves may take
LONGEST, PATIENCE = 5, 300
# a note of raw/marked: when it was answered, by the clock of time.monotonic, its number, and how often its mark is there then
NOTE = struct.Struct("=QII")
MARK = re.compile(rb"mark (\d\d) (\d{9})\.")
# a load of 150 MB of history: more than the daemon keeps for a disk that is slow
HEAVY = ["latency", "200", "262144"]
# the bytes of a file on the full disk, and those that a slow disk takes each time, and in which seconds
FULL, SLOW, EACH = 8 << 20, 1 << 20, 0.02
# the end of a daemon whose disk takes nothing, in seconds
STUCK_END = 20
# so many entries a journal of version two counts in a daemon of the tests (short/), and what is said where there are more
COUNTED, UNCOUNTED = 1000, "a journal of so few seats counts no more entries"
# microseconds that a call may take during which one of its steps has waited for room as long as it may
LONGEST_WAIT = 1_500_000


def entries(build, path):
    """How many entries the player finds in a journal that broke off, which has to be lawful."""
    done = subprocess.run([build.judge, "check", "--cut", path], capture_output=True, text=True, timeout=PATIENCE)
    found = re.match(r"lawful (\d+), then \d+ bytes of no entry", done.stdout)
    expect(done.returncode == 0 and found, f"what is there: {tail(done.stdout + done.stderr)}")
    return int(found[1])


def mended(build, path):
    """What is whole of it as a journal, which has to be lawful: its path, and how many entries it has."""
    whole, count = f"{path}.whole", entries(build, path)
    done = subprocess.run([build.judge, "mend", path, whole], capture_output=True, text=True, timeout=PATIENCE)
    expect(done.returncode == 0 and done.stdout.startswith(f"mended {count},"), f"mend: {tail(done.stdout + done.stderr)}")
    done = subprocess.run([build.judge, "check", whole], capture_output=True, text=True, timeout=PATIENCE)
    expect(done.returncode == 0 and done.stdout.split() == ["lawful", str(count)], f"mended: {tail(done.stdout + done.stderr)}")
    return whole, count


def sure_marks(folder, until):
    """The marks of all calls that were answered until then, each with how often it has to be there."""
    for name in os.listdir(folder):
        with open(f"{folder}/{name}", "rb") as file:
            notes = file.read()
        for nanoseconds, number, times in NOTE.iter_unpack(notes[:len(notes) // NOTE.size * NOTE.size]):
            if nanoseconds < until * 1e9:
                yield (name.encode(), b"%09d" % number), times


def contents(path):
    with open(path, "rb") as file:
        return file.read()


def neighbours(path):
    """The times and names beside a journal, which are well spelled."""
    times, who = Times(contents(f"{path}.times")), Who(contents(f"{path}.who"))
    expect(times.is_one and who.device == DEVICE and not who.fault, f"beside the journal: {times.offset}, {who.device}, {who.fault}")
    return times, who


def see_agreement(journal, path):
    """Each entry of a journal that may be cut off has its time, and each that gives a seat to a thread says whose it is then."""
    times, who = neighbours(path)
    expect(len(times.times) >= len(journal.entries), f"{len(journal.entries)} entries have {len(times.times)} times")
    seated = {(it.place, it.seat): it.pid for it in who.lines if it.pid}
    for place, seat, pid in attached(journal):
        expect(seated.get((place, seat)) == pid, f"{path}.who doesn't say that seat {seat} is of {pid} from {place} on")
    return times, who


def kill_once(build, seconds, wide):
    """A daemon is killed after so many seconds of load: how many entries there are, and how many calls were surely answered."""
    with Stage(build, journal=DEVICE, wide=wide) as stage:
        folder = f"{stage.folder}/marks"
        os.mkdir(folder)
        load = stage.start([build.raw("marked"), folder]).wait_for("ready", 30)
        time.sleep(seconds)
        expect(load.runs(), f"the load ended: {tail(load.printed())}")
        killed = time.monotonic()
        stage.daemon.kill()
        load.kill()
        whole, count = mended(build, stage.journal) if not wide or build.judges_wide() else (stage.journal, None)
        there = collections.Counter(MARK.findall(contents(whole)))
        journal = Journal(contents(stage.journal))
        expect(journal.is_cut() and count in (None, len(journal.entries)), f"{count} entries, and {journal.told()}")
        see_agreement(journal, stage.journal)
        sure = dict(sure_marks(folder, killed - SURELY))
        lost = [mark for mark, times in sure.items() if there[mark] < times]
        stage.clear()
    expect(build.untimed or not lost, f"of {len(sure)} calls answered {SURELY} s before the kill {len(lost)} aren't there: {lost[:3]}")
    expect(build.untimed or len(journal.entries) >= sum(sure.values()), f"{len(journal.entries)} entries for {len(sure)} calls")
    return len(journal.entries), len(sure)


@test("raw killed recordings")
def killed_recordings(build):
    """A daemon that is killed under load, at any moment, leaves a lawful recording, with all that was answered before, and times and
    names that agree with it; how long before that was, other work can spoil."""
    chance = random.Random(build.seed)
    found = [kill_once(build, chance.uniform(0, LONGEST), wide=i % 2 > 0) for i in range(build.kills)]
    counts, sure = zip(*found)
    expect(sum(sure) > 0, "no call was answered in time")
    of_them = "of" if build.untimed else "with all"
    return f"{build.kills} killed: {min(counts)} to {max(counts)} entries, lawful, {of_them} {sum(sure)} calls that had to be there"


def steps_of(stage):
    """How many steps of the device a daemon that has ended tells of."""
    return int(re.search(rf"{DEVICE}: (\d+) steps", stage.daemon.printed())[1])


def recorded(build, programs, least):
    """What programs print that run while a wide recording is made, in which so many threads have to have a seat at least."""
    with Stage(build, journal=DEVICE, wide=True) as stage:
        told = programs(stage)
        stage.end()
        seats = Journal(contents(stage.journal)).seats_used()
        expect(stage.entries == steps_of(stage), f"{stage.entries} entries of {steps_of(stage)} steps")
        expect(len(seats) > least, f"{len(seats)} seats are in the recording, of at least {least} threads and the daemon's own")
    judged = "lawful" if build.judges_wide() else "not judged"
    return f"{told}; {len(seats)} seats, {stage.entries} steps, {judged}"


# names of threads, with bytes that a line can't have, and each with how it is written
ODD_NAMES = {b"caller": "caller", b"two words": "two words", b"a\nb\x01": r"a\x0ab\x01", b"\\x41": r"\x5cx41",
             b"15 bytes \xc3\xa9 \xff": r"15 bytes \xc3\xa9 \xff"}


@test("raw times and names")
def times_and_names(build):
    """Beside a recording stands when each entry was made, and which thread had a seat from when to when."""
    begin = time.monotonic_ns()
    with Stage(build, journal=DEVICE) as stage:
        offset = time.time_ns() - time.monotonic_ns()
        told = stage.run([build.raw("named"), *ODD_NAMES])
        stage.end()
        end = time.monotonic_ns()
        journal = Journal(contents(stage.journal))
        times, who = see_agreement(journal, stage.journal)
        written = contents(f"{stage.journal}.who").decode("ascii")
        files = sorted(os.listdir(stage.folder))
    expect(abs(times.offset - offset) < 1e9, f"the clocks are {times.offset} apart, and not {offset}")
    expect(len(times.times) == len(journal.entries) and not times.left and not who.left, f"{len(times.times)} times, {journal.told()}")
    expect(all(a <= b for a, b in zip([begin, *times.times], [*times.times, end])), "times aren't in order, or of another time")
    threads = [tuple(map(int, line.split())) for line in re.findall(r"^\d+ \d+$", told, re.M)]
    names = dict(zip(threads, [b"named", *ODD_NAMES]))
    found = {(it.pid, it.tid): it.comm for it in who.lines if it.pid}
    expect(all(found.get(it) == name for it, name in names.items()), f"of {names} there are {found}")
    for text in ODD_NAMES.values():
        expect(f" {text}\n" in written, f"{text} isn't written: {written}")
    expect({"journal", "journal.times", "journal.who"} <= set(files), f"there are {files}")
    return f"{len(journal.entries)} entries with their times, {len(who.lines)} lines with {len(found)} threads"


@test("raw printed recording")
def printed_recording(build):
    """What goes to standard output has nothing beside it, be that a file."""
    with tempfile.TemporaryDirectory(prefix="hullpippin-printed-") as folder:
        path, socket = f"{folder}/link", f"{folder}/socket"
        os.symlink("/proc/self/fd/1", path)
        with open(f"{folder}/printed", "wb") as file:
            words = [build.daemon, "--socket", socket, "--journal", path]
            with subprocess.Popen(words, stdout=file, stderr=subprocess.PIPE, env={**os.environ, **build.environment}) as daemon:
                comes(lambda: os.path.exists(socket) or daemon.poll() is not None)
                daemon.terminate()
                said = daemon.communicate(timeout=BUSY * 10)[1].decode()
        journal = Journal(contents(f"{folder}/printed"))
        there = sorted(os.listdir(folder))
    expect(daemon.returncode == 0 and journal.is_whole() and not journal.entries, f"it printed {journal.told()}: {tail(said)}")
    expect(there == ["link", "printed", "socket.lock"], f"there are {there}")
    return "a journal, and nothing beside it"


@test("raw seats given back")
def seats_given_back(build):
    """A seat is nobody's from the step on by which it has ended, until another thread has it."""
    with Stage(build, journal=DEVICE) as stage:
        stage.run([build.raw("named"), *(f"thread {i}" for i in range(40))])
        stage.end()
        journal = Journal(contents(stage.journal))
        _, who = see_agreement(journal, stage.journal)
    has, places = {}, []
    for it in who.lines:
        expect((it.seat in has) == (it.pid is None), f"seat {it.seat} is given twice, or back: {it}")
        has.pop(it.seat) if it.pid is None else has.update({it.seat: it.pid})
        places.append(it.place)
    expect(places == sorted(places) and not has, f"lines aren't in order, or seats of the end aren't given back: {has}")
    ends = {(it.place - 1, it.seat) for it in who.lines if it.pid is None}
    left = {(place, it.seat) for place, it in enumerate(journal.entries) if it.step[0] in (5, 6) and it.seat}
    expect(left and left <= ends, f"of the ends {left - ends} nothing is told")
    return f"{len(left)} ends of threads are told of"


@test("raw recorded services")
def recorded_services(build):
    """Nobody is refused for being recorded: each service has a thread in the loop, and so has the manager."""
    told = []
    for count in (36, 300):
        def programs(stage, count=count):
            stage.manage()
            return stage.run([build.raw("services"), str(count)], 180)
        told.append(recorded(build, programs, count + 1))
    return "; ".join(told)


@test("raw recorded threads")
def recorded_threads(build):
    """200 threads of one process wait for a reply at once, with all that they do recorded."""
    return recorded(build, lambda stage: stage.run([build.raw("seats"), "200", "200"]), 201)


@test("raw recorded in time", timed=True)
def recorded_in_time(build):
    """What was done is in the file a second later, whether little follows or nothing."""
    with Stage(build, journal=DEVICE) as stage:
        begin = time.monotonic()
        while time.monotonic() < begin + IN_TIME + 0.5:
            stage.run([build.raw("nested")])
            time.sleep(0.05)
        meanwhile = f"{stage.folder}/meanwhile"
        shutil.copy(stage.journal, meanwhile)
        early = entries(build, meanwhile)
        expect(early > 0, "nothing is there while steps are made")
        time.sleep(IN_TIME)
        shutil.copy(stage.journal, meanwhile)
        found = entries(build, meanwhile)
        stage.end_daemon()
        expect(found == steps_of(stage), f"{found} of {steps_of(stage)} steps are there after {IN_TIME} s")
        expect(stage.entries == found, f"{stage.entries} entries in the end, {found} before")
    return f"{early} entries while steps were made, all {found} after {IN_TIME} s"


def wait_for_open(process):
    """A program's first wait is the one for who opens the other end of the pipe that it reads."""
    end = time.monotonic() + BUSY * 10
    words = []
    while words[:1] != ["S"]:
        expect(time.monotonic() < end, f"{process.args[0]} doesn't wait for its pipe")
        time.sleep(0.005)
        with open(f"/proc/{process.pid}/stat", encoding="ascii") as file:
            name, words = (part.strip() for part in file.read().split("(", 1)[1].rsplit(")", 1))
        words = words.split() if name == os.path.basename(process.args[0]) else []


@test("raw piped recording")
def piped_recording(build):
    """A pipe takes a recording if somebody reads it, and no more is needed of the reader; where that goes, it breaks off."""
    with tempfile.TemporaryDirectory(prefix="hullpippin-pipe-") as folder:
        path, read = f"{folder}/pipe", f"{folder}/read"
        words = ["--journal", f"{DEVICE}={path}", "--seats", str(NARROW)]
        os.mkfifo(path)
        refuses(build, ["--socket", f"{folder}/socket", *words], "nobody reads this pipe")
        for is_read_on in (True, False):
            with open(read, "wb") as file, subprocess.Popen(["cat", path], stdout=file) as reader:
                try:
                    wait_for_open(reader)
                    with Stage(build, words=words) as stage:
                        stage.run([build.raw("nested")])
                        if not is_read_on:
                            reader.kill()
                            stage.run([build.raw("nested")])
                            breaks_off(stage, "Broken pipe")
                        said = end_with(stage, 0 if is_read_on else 1, 10)
                        expect(not is_read_on or reader.wait(BUSY * 10) == 0, "cat reads on")
                        found = entries(build, read)
                        expect(not is_read_on or found == steps_of(stage), f"{found} of {steps_of(stage)} steps came: {tail(said)}")
                finally:
                    reader.kill()
        expect(not {"pipe.times", "pipe.who"} & set(os.listdir(folder)), f"beside the pipe there are {os.listdir(folder)}")
    return "all steps came out of it; without a reader no daemon begins, and where that goes the recording breaks off"


@contextmanager
def into_pipe(build):
    """A daemon that records into a pipe, which takes what is read: the stage, and the end to be read."""
    with tempfile.TemporaryDirectory(prefix="hullpippin-pipe-") as folder:
        path = f"{folder}/pipe"
        os.mkfifo(path)
        end = os.open(path, os.O_RDONLY | os.O_NONBLOCK)
        os.set_blocking(end, True)
        fcntl.fcntl(end, fcntl.F_SETPIPE_SZ, SLOW)  # else each 64 KiB wait for both sides to have a processor
        try:
            with Stage(build, words=["--journal", f"{DEVICE}={path}", "--seats", str(NARROW)]) as stage:
                yield stage, end
        finally:
            os.close(end)


class Reader(threading.Thread):
    """Reads a pipe to its end, into a file, and takes its time."""

    def __init__(self, end, path, pause):
        super().__init__(daemon=True)
        self.end, self.path, self.pause = end, path, pause
        self.start()

    def run(self):
        with open(self.path, "wb") as file:
            while bytes_read := self.read_some():
                file.write(bytes_read)
                time.sleep(self.pause)

    def read_some(self):
        """As many bytes as a slow disk takes at once, or the last ones."""
        some = b""
        while len(some) < SLOW and (more := os.read(self.end, SLOW - len(some))):
            some += more
        return some


# bytes that a recording may have, the part of them that an account may have each second, and how often that while it's looked at, since
# nobody waits for longer than a second
BOUND, PART, TIMES, LEAST_SHARE = 256 << 20, 1024, 3, 1 << 20


def grown(stage, seconds):
    """Bytes that a recording gets in each second."""
    size, begun = os.path.getsize(stage.journal), time.monotonic()
    time.sleep(seconds)
    return (os.path.getsize(stage.journal) - size) / (time.monotonic() - begun)


@test("raw share of a recording", plain_only=True)
def share(build):
    """Who makes steps as fast as it may records its share of what is left, and then waits; others are served, and recorded."""
    with Stage(build, journal=DEVICE, wide=True, under=["prlimit", f"--fsize={BOUND}"]) as stage:
        let_others_in(stage)
        others = ["4001"] if not os.geteuid() else []
        stage.start([build.fuzz("rings"), "threads", "8", DEVICE, *others], client=False).wait_for("ready", 30)
        end = time.monotonic() + BUSY * 90
        while "records more than its share" not in stage.daemon.printed():
            expect(stage.daemon.runs() and time.monotonic() < end, f"nobody has to wait: {tail(stage.daemon.printed())}")
            time.sleep(0.1)
        had = os.path.getsize(stage.journal)
        each = grown(stage, 3)
        calls = figures(stage.run([build.fuzz("witness"), "2"])) if others else {"calls": 1}
        expect("broke off" not in stage.daemon.printed(), f"the recording broke off: {tail(stage.daemon.printed())}")
        stage.journal = None  # it has one command again and again, and takes a reader longer than it took to be made
    told = f"{had >> 20} MiB, then {each / 2**20:.1f} each second; {calls['calls']:.0f} calls of others meanwhile"
    expect(each <= TIMES * BOUND / PART and calls["calls"] > 0, told)
    return told


@contextmanager
def pipe_without_reader():
    """A pipe that nobody reads: its path, and an end of it."""
    with tempfile.TemporaryDirectory(prefix="hullpippin-log-") as folder:
        path = f"{folder}/log"
        os.mkfifo(path)
        end = os.open(path, os.O_RDWR | os.O_NONBLOCK)
        try:
            yield path, end
        finally:
            os.close(end)


def stuff(end):
    """Fills such a pipe."""
    while fill(end):
        pass


@test("raw unread share", plain_only=True)
def unread_share(build):
    """Nobody reads the log that is to tell who has had its share of a recording; others are served all the same."""
    if os.geteuid():
        return "nothing was seen: only root can become another user"
    under = ["prlimit", f"--fsize={BOUND}"]
    with pipe_without_reader() as (path, end), Stage(build, journal=DEVICE, wide=True, under=under, words=["--log", path]) as stage:
        let_others_in(stage)
        stuff(end)
        stage.start([build.fuzz("rings"), "threads", "8", DEVICE, "4001"], client=False).wait_for("ready", 30)
        patience = time.monotonic() + BUSY * 90
        while os.path.getsize(stage.journal) < LEAST_SHARE or grown(stage, 1) > TIMES * BOUND / PART:
            expect(time.monotonic() < patience, f"nobody has to wait after {os.path.getsize(stage.journal)} bytes")
        calls = figures(stage.run([build.fuzz("witness"), "2"], 30))["calls"]
        stage.journal, stage.is_over = None, True
        stage.daemon.kill()  # its last words would wait for a reader
    expect(calls > 0, "nobody is served")
    return f"{calls:.0f} calls of others meanwhile"


def end_with(stage, status, seconds=30):
    """The daemon is asked to end, and does, with a status: what it has told."""
    stage.is_over = True
    os.kill(stage.daemon.pid, signal.SIGTERM)
    return stage.daemon.finish(seconds, (status,))


def breaks_off(stage, why):
    comes(lambda: "broke off: " in stage.daemon.printed())
    broke_off_once(stage.daemon.printed(), why)


def broke_off_once(said, why):
    is_told = said.count("broke off: ") == 1 and f"broke off: {why}" in said
    expect(is_told, f"the daemon doesn't tell once that {why}: {tail(said, 12)}")


@test("raw slow recording")
def slow_recording(build):
    """A disk that takes less than comes makes calls slower, and the recording is whole."""
    with into_pipe(build) as (stage, end):
        reader = Reader(end, f"{stage.folder}/read", EACH)
        told = stage.run([build.raw(HEAVY[0]), *HEAVY[1:]], 60)
        said = end_with(stage, 0)
        reader.join()
        found = entries(build, reader.path)
        expect("broke off" not in said, f"the recording broke off: {tail(said)}")
        expect(found == steps_of(stage), f"{found} of {steps_of(stage)} steps are there")
    return f"all {found} steps are there; {told}"


@test("raw stuck recording")
def stuck_recording(build):
    """A disk that takes nothing keeps nobody waiting: the recording breaks off, and what there is of it is lawful."""
    with into_pipe(build) as (stage, end):
        told = stage.run([build.raw(HEAVY[0]), *HEAVY[1:]], 40)
        broke_off_once(stage.daemon.printed(), "more comes than the disk takes")
        stage.run([build.raw("nested")])
        reader = Reader(end, f"{stage.folder}/read", 0)
        broke_off_once(end_with(stage, 1, PATIENCE), "more comes than the disk takes")
        reader.join()
        found = entries(build, reader.path)
        expect(0 < found < steps_of(stage), f"{found} of {steps_of(stage)} steps are there")
    with into_pipe(build) as (stage, end):
        stage.run([build.raw("latency"), "300", "4096"])
        begin = time.monotonic()
        broke_off_once(end_with(stage, 1, STUCK_END), "the disk takes nothing")
        took = time.monotonic() - begin
    return f"{found} entries, lawful, and calls went on ({told}); a daemon whose disk takes nothing ended after {took:.1f} s"


@test("raw longest recorded step", timed=True)
def longest_recorded_step(build):
    """Of a recording that a stuck disk breaks off one step waits, for a second."""
    with into_pipe(build) as (stage, _):
        told = stage.run([build.raw(HEAVY[0]), *HEAVY[1:]], 40)
        broke_off_once(stage.daemon.printed(), "more comes than the disk takes")
        stage.clear()
    longest = figures(told)["longest"]
    expect(IN_TIME * 0.9e6 < longest < LONGEST_WAIT, f"the longest call took {longest / 1e6:.2f} s: {told}")
    return f"the longest call took {longest / 1e6:.2f} s"


@test("raw full recording")
def full_recording(build):
    """On a full disk the recording breaks off, and what there is of it is lawful; clients notice nothing."""
    with Stage(build, journal=DEVICE) as stage:
        resource.prlimit(stage.daemon.pid, resource.RLIMIT_FSIZE, (FULL, FULL))
        told = stage.run([build.raw(HEAVY[0]), *HEAVY[1:]], 30)
        breaks_off(stage, "File too large")
        stage.run([build.raw("nested")])
        broke_off_once(end_with(stage, 1), "File too large")
        found = entries(build, stage.journal)
        expect(0 < found < steps_of(stage), f"{found} of {steps_of(stage)} steps are there")
    with tempfile.TemporaryDirectory(prefix="hullpippin-full-") as folder:
        refuses(build, ["--socket", f"{folder}/socket", "--journal", f"{folder}/journal"], "No space left",
                lambda: resource.setrlimit(resource.RLIMIT_FSIZE, (1, 1)))
    return f"{found} entries, lawful, and calls went on ({told})"


@test("raw untaken recording")
def untaken_recording(build):
    """A disk that takes nothing of a write, and says no more than that, breaks the recording off."""
    with Stage(build, journal=DEVICE, daemon=build.short, daemon_environment={"SHORT_OF_DISK": "1"}) as stage:
        stage.run([build.raw("nested")])
        breaks_off(stage, "nothing of a write was taken")
        broke_off_once(end_with(stage, 1, STUCK_END), "nothing of a write was taken")
        found = entries(build, stage.journal)
        expect(found == 0, f"{found} entries are in what was never written")
    return "it broke off, and the daemon ended"


@test("raw uncounted recording")
def uncounted_recording(build):
    """A journal of 31 seats or fewer counts its entries by 32 bits: where no more can be counted the recording breaks off, and the device
    goes on."""
    few = {"SHORT_OF_ENTRIES": "1", "BEGIN_AT": "1"}
    with Stage(build, journal=DEVICE, daemon=build.short, daemon_environment=few) as stage:
        stage.run([build.raw("oneway")])
        breaks_off(stage, UNCOUNTED)
        stage.run([build.raw("nested")])
        broke_off_once(end_with(stage, 1), UNCOUNTED)
        found, made = entries(build, stage.journal), steps_of(stage)
    expect(found == COUNTED < made, f"{found} of {made} steps are there")
    return f"{found} entries, lawful, of {made}"


@test("raw unread log")
def unread_log(build):
    """Where nobody reads the log, clients don't wait while the recorder tells that the recording has broken off."""
    with pipe_without_reader() as (path, end), Stage(build, journal=DEVICE, words=["--log", path]) as stage:
        stuff(end)
        resource.prlimit(stage.daemon.pid, resource.RLIMIT_FSIZE, (FULL, FULL))
        told = stage.run([build.raw(HEAVY[0]), *HEAVY[1:]], 30)
        said = os.read(end, SLOW)
        expect(b"broke off" not in said, "the log had room")
        os.set_blocking(end, True)
        while b"broke off" not in said:
            said = os.read(end, SLOW)
        end_with(stage, 1)
    return f"calls went on ({told})"


def fill(end):
    """Puts something more into a pipe; whether there was room."""
    try:
        return os.write(end, b"x" * 4096) > 0
    except BlockingIOError:
        return False
