# SPDX-License-Identifier: Apache-2.0 OR MIT
"""Where a test plays: a daemon with a socket of its own in a folder that goes away, and the programs that run against it.

All processes are started in sessions of their own, and are ended with the stage, whatever happens.
"""
import os
import shutil
import signal
import socket
import subprocess
import tempfile
import time

from journals import Journal

# seconds that a program is waited for, where nothing else is said
PATIENCE = 60
# whatever is waited for has so many times as long as it should take: a machine that does much else takes its time
BUSY = 4


class Failed(Exception):
    """A test failed: why."""


def expect(condition, why):
    if not condition:
        raise Failed(why)


class Process:
    """A program that runs beside others; what it prints goes to a file."""

    def __init__(self, words, environment, log):
        self.words, self.log = words, log
        with open(log, "wb") as file:
            self.process = subprocess.Popen(words, env=environment, stdin=subprocess.DEVNULL, stdout=file,
                                            stderr=subprocess.STDOUT, start_new_session=True)

    @property
    def pid(self):
        return self.process.pid

    def name(self):
        return os.path.basename(self.words[0])

    def printed(self):
        with open(self.log, encoding="utf-8", errors="replace") as file:
            return file.read()

    def runs(self):
        return self.process.poll() is None

    def wait_for(self, text, seconds=10, times=1):
        """Waits until it has printed a text so often."""
        end = time.monotonic() + BUSY * seconds
        while self.printed().count(text) < times:
            expect(self.runs() or self.printed().count(text) >= times, f"{self.name()} ended: {tail(self.printed())}")
            expect(time.monotonic() < end, f"{self.name()} printed no {text!r} in {BUSY * seconds} s: {tail(self.printed())}")
            time.sleep(0.005)
        return self

    def finish(self, seconds=PATIENCE, statuses=(0,)):
        """Waits until it ends, which has to be with 0 or what is said: what it printed."""
        try:
            status = self.process.wait(BUSY * seconds)
        except subprocess.TimeoutExpired:
            self.kill()
            raise Failed(f"{self.name()} took over {BUSY * seconds} s: {tail(self.printed())}") from None
        expect(status in statuses, f"{self.name()} ended with {status}: {tail(self.printed())}")
        return self.printed().strip()

    def signal(self, number):
        """Signals all of its session."""
        try:
            os.killpg(self.pid, number)
        except ProcessLookupError:
            pass

    def kill(self):
        if self.process.returncode is None:
            self.signal(signal.SIGKILL)
            self.process.wait()


def listens(path):
    """Whether a client may come there."""
    with socket.socket(socket.AF_UNIX, socket.SOCK_SEQPACKET) as client:
        return client.connect_ex(path) == 0


def comes(condition, seconds=10):
    """Whether something comes to be so, which is waited for."""
    end = time.monotonic() + BUSY * seconds
    while not condition():
        if time.monotonic() > end:
            return False
        time.sleep(0.05)
    return True


def tail(text, lines=3):
    """The last lines of a text, as one."""
    return " | ".join(text.strip().splitlines()[-lines:]) or "nothing was printed"


def resident(pid):
    """KiB of memory that a process has of its own in RAM. What it shares by files and with clients isn't counted."""
    with open(f"/proc/{pid}/status", encoding="ascii") as file:
        return next(int(line.split()[1]) for line in file if line.startswith("RssAnon:"))


def processor_time(pid):
    """Seconds of processor time that a process has used."""
    with open(f"/proc/{pid}/stat", encoding="ascii", errors="replace") as file:
        words = file.read().rsplit(")", 1)[1].split()
    return (int(words[11]) + int(words[12])) / os.sysconf("SC_CLK_TCK")


def with_word(word):
    """The processes that have a word in their environment."""
    found = []
    for pid in filter(str.isdigit, os.listdir("/proc")):
        try:
            with open(f"/proc/{pid}/environ", "rb") as file:
                if word.encode() in file.read():
                    found.append(int(pid))
        except OSError:
            pass  # it has ended, or is somebody else's
    return found


def open_files(pid):
    return len(os.listdir(f"/proc/{pid}/fd"))


# seats of a device whose journal is of version two
NARROW = 31


class Stage:
    """A daemon, started; `journal` names a device whose journal is kept and judged in the end: of version two, but with `wide`. With
    `bare` a bare relay stands in its place, which nothing is asked of but times. With `daemon` it is another program; `words` are
    further ones for it, and `under` come before all."""

    def __init__(self, build, journal=None, daemon_environment=(), bare=False, daemon=None, words=(), wide=False, under=()):
        self.build, self.is_bare, self.is_wide = build, bare, wide
        self.folder = tempfile.mkdtemp(prefix="hullpippin-stage-")
        self.socket = f"{self.folder}/socket"
        self.journal = f"{self.folder}/journal" if journal else None
        self.entries = None
        self.others = []
        self.is_over = False
        self.environment = {**build.environment, "HULLPIPPIN_SOCKET": self.socket, "PATH": os.environ["PATH"], "HOME": self.folder}
        words = [build.bare, self.socket] if bare else [daemon or build.daemon, "--socket", self.socket, *words]
        if journal:
            words += ["--journal", f"{journal}={self.journal}", *([] if wide else ["--seats", str(NARROW)])]
        self.daemon = Process([*under, *words], {**self.environment, **dict(daemon_environment)}, f"{self.folder}/daemon.log")
        self.environment["RAW_DAEMON"] = str(self.daemon.pid)

    def __enter__(self):
        try:
            end = time.monotonic() + BUSY * 10
            while not (os.path.exists(self.socket) if self.is_bare else listens(self.socket)):
                expect(self.daemon.runs() and time.monotonic() < end, f"no daemon: {tail(self.daemon.printed())}")
                time.sleep(0.005)
        except BaseException:
            self.clear()
            raise
        return self

    def __exit__(self, kind, error, trace):
        try:
            if self.is_over:
                return
            if kind is None:
                self.end()
            elif issubclass(kind, Failed) and not self.daemon.runs():
                raise Failed(f"the daemon ended with {self.daemon.process.returncode}: {tail(self.daemon.printed(), 12)}; then: {error}")
        finally:
            self.clear()

    def clear(self):
        self.is_over = True
        for process in [*self.others, self.daemon]:
            process.kill()
        shutil.rmtree(self.folder, ignore_errors=True)

    def start(self, words, environment=(), client=True):
        """A program that runs on; a client's has the library preloaded."""
        expect(not self.is_over, "the stage is over")
        preload = {"LD_PRELOAD": self.build.preload} if client else {}
        log = f"{self.folder}/{len(self.others)}.log"
        process = Process(words, {**self.environment, **preload, **dict(environment)}, log)
        self.others.append(process)
        return process

    def run(self, words, seconds=PATIENCE, statuses=(0,), **rest):
        """A program that ends, with 0 or what is said: what it printed."""
        return self.start(words, **rest).finish(seconds, statuses)

    def manage(self, name="servicemanager", *words):
        """A context manager, ready."""
        return self.start([self.build.manager(name), "-v", *words]).wait_for("ready on")

    def end(self):
        """Ends the daemon in order; judges its journal."""
        if self.is_bare:
            return
        expect(self.daemon.runs(), f"the daemon ended with {self.daemon.process.returncode}: {tail(self.daemon.printed(), 12)}")
        for process in self.others:
            process.kill()
        self.end_daemon()

    def end_daemon(self):
        """The same, while the others run on."""
        os.kill(self.daemon.pid, signal.SIGTERM)
        self.see_end()

    def see_end(self, status=0):
        """The daemon ends in order, with a status; judges its journal."""
        self.is_over = True
        self.daemon.finish(30, (status,))
        expect(not os.path.exists(self.socket), "the daemon left its socket")
        if self.journal:
            self.judge()

    def judge(self):
        with open(self.journal, "rb") as file:
            read = Journal(file.read())
        expect(read.is_whole() and read.version == (3 if self.is_wide else 2), f"the journal: {read.told()}")
        self.entries = len(read.entries)
        if self.is_wide and not self.build.judges_wide():
            return
        done = subprocess.run([self.build.judge, "check", self.journal], capture_output=True, text=True, timeout=1200)
        words = done.stdout.split()
        expect(done.returncode == 0 and words[:1] == ["lawful"], f"the journal: {tail(done.stdout + done.stderr)}")
        expect(int(words[1]) == self.entries > 0, f"the journal has {self.entries} entries, and the player finds {words[1]}")
