# SPDX-License-Identifier: Apache-2.0 OR MIT
"""Has all that a command begins end with it, in whatever session that is, and however the command itself is ended.

    python3 tools/leash.py COMMAND ..

A watcher, in a session of its own, begins the command, and becomes the parent of whatever loses its own. Once the command has ended, the
watcher ends what is left. Where it is the process in front that is killed, as by SIGKILL, the kernel tells the watcher, which then ends
the command too. The status is the command's. As a command, it also ends with whoever started it.
"""
import contextlib
import ctypes
import os
import signal
import sys
import time

# Signals that are passed on to the command.
PASSED_ON = (signal.SIGTERM, signal.SIGINT, signal.SIGHUP)
# Seconds that the command has to end in order, and what it leaves, before they are killed.
IN_ORDER, LEFT_OVER = 60, 10
# Of Linux's prctl.h.
SET_PDEATHSIG, SET_CHILD_SUBREAPER = 1, 36


def ends_with(parent):
    """Has this process told to end once its parent has gone, which may have been before."""
    ctypes.CDLL(None).prctl(SET_PDEATHSIG, signal.SIGTERM)
    if os.getppid() != parent:
        sys.exit(128 + signal.SIGTERM)


def parents():
    """The parent of each process that there is."""
    found = {}
    for pid in filter(str.isdigit, os.listdir("/proc")):
        try:
            with open(f"/proc/{pid}/stat", encoding="ascii", errors="replace") as file:
                found[int(pid)] = int(file.read().rsplit(")", 1)[1].split()[1])
        except OSError:
            pass  # it has ended meanwhile
    return found


def below(top, of=None):
    """The processes that this one has begun, and those that these have; by each one's parent, if that is known already."""
    children = {}
    for pid, parent in (parents() if of is None else of).items():
        children.setdefault(parent, []).append(pid)
    found = [top]
    for it in found:  # (which grows meanwhile)
        found += children.get(it, [])
    return found[1:]


def told(pids, number):
    """Sends a signal to each of these that is still there: a process, or below 0 a group."""
    for it in pids:
        try:
            os.kill(it, number)
        except ProcessLookupError:
            pass


def on_signals(handle):
    """Has signals handled so, but for those that this program was started to ignore."""
    for it in PASSED_ON:
        if signal.getsignal(it) != signal.SIG_IGN:
            signal.signal(it, handle)


def ends_in_order():
    """Has a signal end this program by `sys.exit`, so that what it has begun and made goes with it. No second signal stops that, as
    `timeout` sends one to all of a group."""
    def end(number, _):
        on_signals(signal.SIG_IGN)
        sys.exit(128 + number)

    on_signals(end)


def status_of(ended):
    """The status that a shell would tell of what has ended so."""
    return os.WEXITSTATUS(ended) if os.WIFEXITED(ended) else 128 + os.WTERMSIG(ended)


def waited(child):
    """The status of a child, once it has ended; who has lost its parent is buried meanwhile."""
    while True:
        pid, ended = os.wait()
        if pid == child:
            return status_of(ended)


def cleared():
    """Ends what is still below this process: in order, and then at once, as often as there is any."""
    number, until = signal.SIGTERM, time.monotonic() + LEFT_OVER
    told(below(os.getpid()), number)
    while True:
        try:
            is_idle = os.waitpid(-1, os.WNOHANG)[0] == 0
        except ChildProcessError:
            return
        if time.monotonic() > until:
            told(below(os.getpid()), signal.SIGKILL)
        time.sleep(0.01 * is_idle)


def watch(front, work):
    """What the watcher does, and the status that it ends with."""
    os.setsid()
    ctypes.CDLL(None).prctl(SET_CHILD_SUBREAPER, 1)
    watcher, child = os.getpid(), os.fork()
    if child == 0:
        os.setpgid(0, 0)
        ends_with(watcher)
        os._exit(called(work))
    with contextlib.suppress(OSError):  # (both do it, since either may come first; once the command is begun it is done)
        os.setpgid(child, child)

    def pass_on(number, _):
        told([-child], number)
        signal.alarm(IN_ORDER)

    on_signals(pass_on)
    signal.signal(signal.SIGALRM, lambda *_: told([-child], signal.SIGKILL))
    ctypes.CDLL(None).prctl(SET_PDEATHSIG, signal.SIGTERM)
    if os.getppid() != front:
        pass_on(signal.SIGTERM, None)
    status = waited(child)
    signal.alarm(0)
    cleared()
    return status


def called(work):
    """The status that some work ends with, told as where it ends a program."""
    try:
        status = work()
    except SystemExit as end:
        status = end.code
    except BaseException:
        sys.excepthook(*sys.exc_info())
        status = 1
    if isinstance(status, str):
        print(status, file=sys.stderr)
    sys.stdout.flush()
    return status if isinstance(status, int) else int(status is not None)


def held(work):
    """Does some work in a process of its own, on a leash; its status."""
    sys.stdout.flush()
    front, watcher = os.getpid(), os.fork()
    if watcher == 0:
        os._exit(watch(front, work))
    on_signals(lambda number, _: told([watcher], number))
    return waited(watcher)


def main():
    words = sys.argv[1:]
    ends_with(os.getppid())

    def work():
        try:
            os.execvp(words[0], words)
        except OSError as error:
            return f"{words[0]}: {error.strerror}"

    return held(work)


if __name__ == "__main__":
    sys.exit(main() if len(sys.argv) > 1 else __doc__)
