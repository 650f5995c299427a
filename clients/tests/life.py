# SPDX-License-Identifier: Apache-2.0 OR MIT
"""Where a daemon lives, who may come there, and how it's started."""
import fcntl
import os
import shutil
import signal
import socket
import stat
import subprocess
import sys
import tempfile
import time
from contextlib import contextmanager

from builds import CLIENTS
from stage import BUSY, comes, expect, listens, tail, with_word
from suite import test

# users that no machine has, with whom root plays: others than those of a run beside this one, since a user has one folder in /tmp
STRANGER, OTHER = 4200000000 + os.getpid(), 4210000000 + os.getpid()

SECONDS = BUSY * 10


@contextmanager
def folder():
    """A folder of this user's alone, which goes away."""
    path = tempfile.mkdtemp(prefix="hullpippin-life-")
    try:
        yield path
    finally:
        shutil.rmtree(path, ignore_errors=True)


class Copied:
    """The daemon, the library and a client where other users may run them too, as they perhaps can't where they were built."""

    def __init__(self, build, where):
        self.environment, self.versions, self.short = build.environment, f"{where}/versions", build.short
        self.daemon, library = f"{where}/hullpippind", f"{where}/{os.path.basename(build.library)}"
        for old, new in ((build.daemon, self.daemon), (build.library, library), (build.raw("versions"), self.versions)):
            shutil.copy(old, new)
        self.preload = build.preload.replace(build.library, library)

    def raw(self, name):
        return {"versions": self.versions}[name]


def environment(build, **words):
    """Where no address is chosen but by these words."""
    left = {key: word for key, word in os.environ.items() if key not in ("HULLPIPPIN_SOCKET", "XDG_RUNTIME_DIR")}
    return {**left, **build.environment, **words}


def end(build, words, why, status=1, **how):
    """A daemon that is started so ends at once, and says why."""
    done = subprocess.run([build.daemon, *words], capture_output=True, text=True, timeout=SECONDS, stdin=subprocess.DEVNULL, **how)
    told = done.stdout + done.stderr
    expect(done.returncode == status and why in told, f"{' '.join(words) or 'no words'}: status {done.returncode}, {tail(told)}")


@contextmanager
def daemon(build, words, path, **how):
    """A daemon that listens at a path; it ends in order."""
    with subprocess.Popen([build.daemon, *words], stdin=subprocess.DEVNULL, stderr=subprocess.PIPE, text=True, **how) as process:
        try:
            until = time.monotonic() + SECONDS
            while not listens(path) and process.poll() is None and time.monotonic() < until:
                time.sleep(0.01)
            said = tail(process.stderr.read()) if process.poll() is not None else "it runs"
            expect(process.poll() is None and listens(path), f"no daemon at {path}: {said}")
            yield process
            process.send_signal(signal.SIGTERM)
            expect(process.wait(SECONDS) == 0, f"the daemon ended with {process.returncode}")
        finally:
            if process.poll() is None:
                process.kill()


def reaches(build, **how):
    """Whether the library finds a daemon, and `--look` says the same."""
    words = how.pop("env")
    how = {"capture_output": True, "text": True, "timeout": SECONDS, **how}
    looked = subprocess.run([build.daemon, "--look"], env=words, **how)
    called = subprocess.run([build.raw("versions")], env={**words, "LD_PRELOAD": build.preload}, **how)
    expect((looked.returncode == 0) == (called.returncode == 0),
           f"--look ends with {looked.returncode}, a program with {called.returncode}: {tail(looked.stderr + called.stderr)}")
    return looked.returncode == 0


def own_folders(build, where):
    """The user's own folder for sockets comes first; what is there has to be the user's alone."""
    env = environment(build, XDG_RUNTIME_DIR=where)
    own, path = f"{where}/hullpippin", f"{where}/hullpippin/socket"
    with daemon(build, [], path, env=env):
        expect(stat.S_IMODE(os.stat(own).st_mode) == 0o700, "others may come to the folder")
        expect(reaches(build, env=env), "the library doesn't look there")
    os.chmod(own, 0o755)
    end(build, [], "others may come there", env=env)
    os.rename(own, f"{where}/elsewhere")
    os.chmod(f"{where}/elsewhere", 0o700)
    os.symlink("elsewhere", own)
    end(build, [], "it is a link", env=env)
    os.unlink(own)
    with open(own, "w", encoding="ascii"):
        end(build, [], "it is no folder", env=env)
    expect(not os.path.exists(f"{where}/elsewhere/socket"), "a daemon listens behind a link")


def of_others(build, where):
    """Another user's folder, or lock, isn't taken for one's own."""
    taken, lock = f"/tmp/hullpippin-{STRANGER}", f"{where}/socket.lock"
    os.mkdir(taken, 0o777)
    try:
        os.chmod(taken, 0o777)
        end(build, [], "it is another user's", env=environment(build), user=STRANGER, group=STRANGER)
        os.chown(taken, STRANGER, STRANGER)
        os.chmod(taken, 0o700)
        # a folder that others may write to isn't the user's own
        os.mkdir(f"{where}/open", 0o777)
        os.chown(f"{where}/open", STRANGER, STRANGER)
        os.chmod(f"{where}/open", 0o777)
        env = environment(build, XDG_RUNTIME_DIR=f"{where}/open")
        with daemon(build, [], f"{taken}/socket", env=env, user=STRANGER, group=STRANGER):
            expect(reaches(build, env=env, user=STRANGER, group=STRANGER), "the library doesn't look into /tmp")
    finally:
        shutil.rmtree(taken, ignore_errors=True)
    with open(lock, "w", encoding="ascii") as file:
        os.chown(lock, OTHER, OTHER)
        os.chmod(lock, 0o666)
        fcntl.flock(file, fcntl.LOCK_EX)
        end(build, ["--socket", f"{where}/socket"], "it is another user's", env=environment(build))


def who_may_come(build, where):
    """The socket's mode and group are what was asked for."""
    path = f"{where}/s"
    env = environment(build, HULLPIPPIN_SOCKET=path)
    for mode in (0o600, 0o660, 0o666):
        with daemon(build, ["--mode", f"{mode:o}", "--group", str(os.getgid())], path, env=env):
            found = os.stat(path)
            expect(stat.S_IMODE(found.st_mode) == mode and found.st_gid == os.getgid(), f"{found.st_mode:o} in place of {mode:o}")
            if os.geteuid() == 0:
                expect(reaches(build, env=env, user=STRANGER, group=STRANGER) == (mode == 0o666), f"with mode {mode:o} it is otherwise")
    if os.geteuid() == 0:
        with daemon(build, ["--mode", "660", "--group", str(OTHER)], path, env=env):
            expect(reaches(build, env=env, user=STRANGER, group=OTHER), "one of the group isn't let in")
            expect(not reaches(build, env=env, user=STRANGER, group=STRANGER), "one who isn't of the group is let in")
    for words in (["--mode", "888"], ["--mode", "1777"], ["--mode", ""], ["--group", "no such group"], ["--group", "-1"]):
        end(build, words, f"hullpippind: {words[0]} '{words[1]}' makes no sense\nusage: ", 2, env=env)


@contextmanager
def started_with(build, listening, env):
    """A daemon that is started with a socket, as descriptor 3; it runs no longer than what is done with it."""
    words = ["sh", "-c", 'LISTEN_PID=$$ LISTEN_FDS=1 exec "$0" "$@"', build.daemon]
    with subprocess.Popen(words, env=env, stdin=subprocess.DEVNULL, stderr=subprocess.PIPE, text=True,
                          preexec_fn=lambda: os.dup2(listening.fileno(), 3), pass_fds=[3]) as process:
        try:
            yield process
        finally:
            process.kill()


def given(build, where):
    """A socket that it is started with is listened at, and stays."""
    path = f"{where}/given"
    env = environment(build, HULLPIPPIN_SOCKET=path)
    for kind, good in ((socket.SOCK_SEQPACKET, True), (socket.SOCK_STREAM, False)):
        with socket.socket(socket.AF_UNIX, kind) as listening:
            listening.bind(path)
            listening.listen()
            with started_with(build, listening, env) as process:
                if good:
                    expect(reaches(build, env=env), "a daemon with a given socket isn't reached")
                    process.send_signal(signal.SIGTERM)
                expect(process.wait(SECONDS) == (0 if good else 1), f"the daemon ended with {process.returncode}")
                expect(good or "listens for packets" in process.stderr.read(), "a socket of streams was taken")
        expect(os.path.exists(path), "a given socket is gone")
        os.unlink(path)


# seconds that a program may take that finds no daemon where somebody keeps it waiting, at its best of some tries
SOON, TRIES = 3, 3


def busy_at(path):
    """What listens there and takes nobody: the next one waits."""
    listening = socket.socket(socket.AF_UNIX, socket.SOCK_SEQPACKET)
    listening.bind(path)
    os.chmod(path, 0o777)
    listening.listen(0)
    waiting = [socket.socket(socket.AF_UNIX, socket.SOCK_SEQPACKET) for _ in range(3)]
    for it in waiting:
        it.setblocking(False)
        it.connect_ex(path)
    return [listening, *waiting]


# .. and one that has the library's patience, on a busy machine
LATE = BUSY * 20


def untaken(build, where):
    """Who listens and takes nobody keeps a program waiting for no longer than the library has patience."""
    kept = busy_at(f"{where}/busy")
    env = environment(build, HULLPIPPIN_SOCKET=f"{where}/busy", LD_PRELOAD=build.preload)
    done = subprocess.run([build.raw("versions")], env=env, capture_output=True, text=True, timeout=LATE, stdin=subprocess.DEVNULL)
    expect(done.returncode == 1 and "can't open" in done.stderr, f"a program whom nobody takes: {done.returncode}, {done.stdout}{done.stderr}")
    for it in kept:
        it.close()


def unreached(build, why, env, **how):
    """No daemon is reached, and that is known soon."""
    took = []
    while len(took) < TRIES and min(took, default=SOON) >= SOON:
        begin = time.monotonic()
        expect(not reaches(build, env=env, **how), why)
        took.append(time.monotonic() - begin)
    expect(min(took) < SOON, f"{why}: it took {min(took):.1f} s")


def of_liars(build, where):
    """What isn't the user's own isn't connected to where nobody has chosen it, be it a link, or kept busy by whose it is."""
    own, me = f"/tmp/hullpippin-{STRANGER}", {"user": STRANGER, "group": STRANGER}
    env = environment(build, HOME=where)
    os.chmod(where, 0o755)
    try:
        os.mkdir(own, 0o755)
        os.chown(own, OTHER, OTHER)
        kept = busy_at(f"{own}/socket")
        unreached(build, "another user's folder is looked into", env, **me)
        for it in kept:
            it.close()
        shutil.rmtree(own)
        os.mkdir(f"{where}/own", 0o700)
        os.chown(f"{where}/own", STRANGER, STRANGER)
        with daemon(build, ["--socket", f"{where}/own/socket"], f"{where}/own/socket", env=env, **me):
            os.symlink(f"{where}/own", own)
            os.lchown(own, OTHER, OTHER)
            unreached(build, "a link is followed to a folder", env, **me)
            os.unlink(own)
            os.mkdir(own, 0o755)
            os.chown(own, STRANGER, STRANGER)
            os.symlink(f"{where}/own/socket", f"{own}/socket")
            unreached(build, "a link is followed to a socket", env, **me)
            os.unlink(f"{own}/socket")
            os.rename(f"{where}/own/socket", f"{own}/socket")
            expect(reaches(build, env=env, **me), "the user's own isn't reached")
            os.rename(f"{own}/socket", f"{where}/own/socket")
    finally:
        (os.unlink if os.path.islink(own) else shutil.rmtree)(own)
    # a chosen one is waited for, but not for ever
    kept = busy_at(f"{where}/busy")
    words = {**env, "HULLPIPPIN_SOCKET": f"{where}/busy", "LD_PRELOAD": build.preload}
    status, _ = run([build.raw("versions")], env=words)
    expect(status, "who takes nobody is reached")
    for it in kept:
        it.close()


# a daemon of all users, and one of the user's own, in a place of their own: the one that is reached
BOTH = """mount -t tmpfs none /run && mkdir -m 755 /run/hullpippin && "$0" --socket /run/hullpippin/socket --mode 666 --background &&
setpriv --reuid=$1 --regid=$1 --clear-groups sh -c '"$0" --background && "$0" --look' "$0"
"""


def in_order(build, where):
    """The system's daemon comes before one in /tmp."""
    own, alone = f"/tmp/hullpippin-{STRANGER}", ["unshare", "--mount", "--pid", "--fork", "--mount-proc", "--kill-child"]
    if run([*alone, "true"])[0]:
        return
    os.chmod(where, 0o755)
    try:
        status, said = run([*alone, "sh", "-c", BOTH, build.daemon, str(STRANGER)], env=environment(build, HOME=where))
        expect(status == 0 and "listens at /run/hullpippin/socket" in said, f"beside a daemon of all users: {status}, {said}")
        expect(os.path.exists(f"{own}/socket"), "the user's own daemon hasn't begun")
    finally:
        shutil.rmtree(own, ignore_errors=True)


def listening_first(build, where):
    """A socket has its name from when the daemon listens on, so that nobody is refused who sees it. A killed daemon's gives way; any other
    file stays."""
    path = f"{where}/late"
    env = environment(build, HULLPIPPIN_SOCKET=path)
    with subprocess.Popen([build.short], env={**env, "SLOW_TO_LISTEN": "1"}, stdin=subprocess.DEVNULL, stderr=subprocess.DEVNULL) as process:
        try:
            expect(comes(lambda: os.path.exists(path)), "a daemon that is slow to listen has no socket")
            expect(listens(path), "who sees the daemon's socket is refused")
        finally:
            process.kill()
    with daemon(build, [], path, env=env):
        expect(reaches(build, env=env), "the socket of a killed daemon is in the way")
    with open(path, "w", encoding="ascii"):
        end(build, [], "Address already in use", env=env)
    expect(sorted(os.listdir(where)) == ["late", "late.lock"] and not os.stat(path).st_size, f"{os.listdir(where)} is left")


@test("raw addresses")
def addresses(build):
    """Where a daemon listens, and who may come there."""
    with folder() as programs:
        os.chmod(programs, 0o755)
        copied = Copied(build, programs)
        with folder() as where:
            own_folders(copied, where)
        for part in (who_may_come, given, listening_first, untaken, *([] if os.geteuid() else [of_others, of_liars, in_order])):
            with folder() as where:
                os.chmod(where, 0o711)
                part(copied, where)
    if os.geteuid():
        return "own folders, modes, given sockets, names of sockets; of other users nothing was seen: only root can be others"
    return "own folders, other users' folders, locks and sockets, links, modes, given sockets, names of sockets"


def run(words, **how):
    """hullpippin-run, or another program: its status, and all that it printed."""
    done = subprocess.run(words, capture_output=True, text=True, timeout=SECONDS, stdin=subprocess.DEVNULL, **how)
    return done.returncode, done.stdout + done.stderr


def without_standard_files(build, where):
    """A daemon that is started without them has no client's socket in their place."""
    path = f"{where}/without"
    words = ["sh", "-c", 'exec "$0" "$@" <&- >&- 2>&-', build.daemon, "--socket", path]
    with subprocess.Popen(words, env=environment(build)) as process:
        until = time.monotonic() + SECONDS
        while not os.path.exists(path) and process.poll() is None and time.monotonic() < until:
            time.sleep(0.01)
        files = [os.readlink(f"/proc/{process.pid}/fd/{number}") for number in range(3)]
        process.terminate()
    expect(files == ["/dev/null"] * 3, f"a daemon without standard files has {files}")


@test("raw run")
def running(build):
    """hullpippin-run never goes on without a daemon that the program reaches, nor without its library."""
    program = f"{CLIENTS}/hullpippin-run"
    with folder() as where:
        env = environment(build, HULLPIPPIN_SOCKET=f"{where}/socket", HULLPIPPIN_BUILD=build.out)
        with open(f"{where}/socket.lock", "w", encoding="ascii") as lock:
            fcntl.flock(lock, fcntl.LOCK_EX)
            status, said = run([program, "echo", "went on"], env=env)
        expect(status == 1 and "no daemon at" in said and "went on" not in said, f"beside a lock without a daemon: {status}, {said}")
        for letter in " :":
            os.symlink(CLIENTS, f"{where}/cli{letter}ents")
            status, said = run([f"{where}/cli{letter}ents/hullpippin-run", "echo", "went on"], env=env)
            expect(status == 2 and "a space or a colon" in said and "went on" not in said, f"in a folder with {letter!r}: {status}, {said}")
        without_standard_files(build, where)
        with daemon(build, [], f"{where}/socket", env=env):
            for word, lines in (("0", 0), ("1", 1)):
                status, said = run([program, build.raw("versions")], env={**env, "HULLPIPPIN_LOG": word})
                expect(status == 0 and ("hullpippin[" in said) == bool(lines), f"with HULLPIPPIN_LOG={word}: {status}, {said}")
        for words in ([program, "--help"], [build.daemon, "--help"]):
            status, said = run(words)
            expect(status == 0 and said.startswith("usage: "), f"{words}: {status}, {said}")
        status, said = run([build.daemon, "--version"])
        expect(status == 0 and "Binder protocol 8, library protocol" in said, f"--version: {status}, {said}")
        expect(run([program])[0] == 2, "hullpippin-run without words goes on")
    return "it sees that the daemon is there, and refuses a folder that LD_PRELOAD can't name"


@test("raw killed check", plain_only=True)
def killed_check(build):
    """Tests that are killed outright leave nothing running, neither their daemon nor clients in sessions of their own."""
    word = f"/of-a-killed-check-{os.getpid()}"  # (PATH is what a stage hands on)
    words = [f"{CLIENTS}/check", "raw", "--plain", "--only", "raw fuzz", "--seconds", "600", "--bplay", build.judge]
    with subprocess.Popen([sys.executable, *words], env={**os.environ, "PATH": f"{os.environ['PATH']}:{word}"}, stdin=subprocess.DEVNULL,
                          stdout=subprocess.DEVNULL, stderr=subprocess.DEVNULL) as check:
        begun = comes(lambda: {"hullpippind", "fuzz"} <= {command_of(it) for it in with_word(word)} or check.poll() is not None, 60)
        count = len(with_word(word))
        check.kill()
    try:
        expect(begun and check.returncode == -signal.SIGKILL, f"the tests didn't begin: status {check.returncode}, {count} processes")
        expect(comes(lambda: not with_word(word), 30), f"left running: {', '.join(map(command_of, with_word(word)))}")
    finally:
        for it in with_word(word):
            os.kill(it, signal.SIGKILL)
    return f"{count} processes ended with it"


def command_of(pid):
    """A process's name; none where it has ended."""
    try:
        with open(f"/proc/{pid}/comm", encoding="utf-8", errors="replace") as file:
            return file.read().strip()
    except OSError:
        return ""
