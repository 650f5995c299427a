# SPDX-License-Identifier: Apache-2.0 OR MIT
"""What the daemon and its clients have of the machine: the system calls that they may make, and the time that waiting takes."""
import os
import signal
import time

from stage import BUSY, Stage, expect, tail
from suite import test

# by name what the daemon asks for that it has no use for (short/), and the errno that it is told; None: it ends
CALLS = {"exec": None, "fork": None, "socket": None, "pair": None, "signal": None, "other": None, "code": None, "protect": None,
         "write": "EACCES", "unknown": "ENOSYS"}

THREADS = 500
# seconds in which waiting threads are watched, in which they come to rest before that, and in which they learn of the daemon's end
WATCHED, SETTLE, AT_ONCE = 5, 40, 1
# so often they are watched, where other work has kept somebody from coming to rest before
TIMES = 3


def by_thread(pid, *names):
    """Of each thread of a process what the kernel tells under some names."""
    told = []
    for task in os.listdir(f"/proc/{pid}/task"):
        with open(f"/proc/{pid}/task/{task}/status", encoding="ascii", errors="replace") as file:
            status = dict(line.split(":", 1) for line in file.read().splitlines() if ":" in line)
        told.append(tuple(status[name].strip() for name in names))
    return told


def filters(build, *words):
    """How the threads of a daemon are filtered that has clients on two devices."""
    with Stage(build, words=words) as stage:
        stage.manage()
        stage.manage("hwservicemanager")
        return by_thread(stage.daemon.pid, "Seccomp", "NoNewPrivs")


def call(build, name, error):
    """A daemon that asks for what it has no use for ends, or is told so and goes on."""
    with Stage(build, daemon=build.short, daemon_environment={"SHORT_CALL": name}) as stage:
        if error is not None:
            stage.run([build.raw("nested")])
            expect(f"call {name}: {error}" in stage.daemon.printed(), f"{name} isn't {error}: {tail(stage.daemon.printed())}")
            return
        stage.daemon.finish(10, statuses=(-signal.SIGSYS,))
        stage.clear()


@test("raw filter", plain_only=True)
def filtered(build):
    """The kernel keeps each of the daemon's threads to what the daemon is for, from when it lets the first client in."""
    threads = filters(build)
    expect(len(threads) >= 5 and set(threads) == {("2", "1")}, f"the daemon's threads: {threads}")
    without = filters(build, "--no-filter")
    expect({it[0] for it in without} == {"0"}, f"with --no-filter: {without}")
    for name, error in CALLS.items():
        call(build, name, error)
    return f"{len(threads)} threads; {sum(error is None for error in CALLS.values())} calls end the daemon, others fail"


def switches(*processes):
    """How often the threads of some processes have gone to sleep."""
    return [sum(int(it[0]) for it in by_thread(process.pid, "voluntary_ctxt_switches")) for process in processes]


def come_to_rest(*processes):
    """Waits until all of them have been asleep for a second and a half: the daemon has its last look at everything after one."""
    end, before = time.monotonic() + BUSY * SETTLE, None
    while (now := switches(*processes)) != before:
        expect(time.monotonic() < end, f"{THREADS} threads that wait don't come to rest: {before} and then {now} times asleep")
        before = now
        time.sleep(1.5)
    return now


def woken_at_rest(*processes):
    """How often the threads of each were woken, of which none had been for a while."""
    before = come_to_rest(*processes)
    time.sleep(WATCHED)
    return [now - then for now, then in zip(switches(*processes), before)]


@test("raw asleep")
def asleep(build):
    """Threads that wait are woken by nothing but what they wait for, and by the daemon's end at once."""
    with Stage(build) as stage:
        program = stage.start([build.raw("asleep"), str(THREADS)]).wait_for("ready", 30)
        for _ in range(TIMES):
            if not any(woken := woken_at_rest(program, stage.daemon)):
                break
        begin = time.monotonic()
        stage.daemon.kill()
        told = program.finish(10)
        took = time.monotonic() - begin
        stage.clear()
    expect(not any(woken), f"in {WATCHED} s {THREADS} threads that wait, and the daemon's, were woken {woken} times")
    expect(took < AT_ONCE * (BUSY if build.untimed else 1), f"the daemon's end was seen after {took:.1f} s")
    return f"nobody was woken in {WATCHED} s; {told.splitlines()[-1]}, after {took * 1e3:.0f} ms"
