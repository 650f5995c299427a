# SPDX-License-Identifier: Apache-2.0 OR MIT
"""What who takes all that it can get leaves to others."""
import os
import resource
import time

from crowds import let_others_in
from rings import asked, shares_in
from stage import BUSY, Stage, comes, expect, open_files, processor_time, resident, tail
from suite import figures, test

DEVICES = "/dev/binder", "/dev/hwbinder", "/dev/vndbinder"
# bytes of address space that a daemon has, and KiB of memory of its own that it may have then
LITTLE, LITTLE_KIB = 400 << 20, 200 << 10
# with more address space a daemon has room for more windows than one may have; as large as they get, and the part of it that one may have
ROOMY, WINDOW, PART_OF_WINDOWS = 1 << 30, 4 << 20, 4
KINDS = "calls", "objects", "handles", "deaths", "threads", "windows"
# more than anybody gets
COUNT = "300000"


def take_all(stage, build, kind, *user):
    """A program that takes all of a kind that it gets: it, and how much that was."""
    greedy = stage.start([build.fuzz("greedy"), kind, COUNT, *user], client=False)
    return greedy, figures(greedy.wait_for("taken", 50).printed())["taken"]


def serves(stage, build):
    """Others open each device and call there."""
    for device in DEVICES:
        stage.run([build.raw("nested")], environment={"RAW_DEVICE": device})


def back_to(stage, files):
    """The daemon has no more descriptors than before soon, as fast as the machine lets it end who had much."""
    comes(lambda: open_files(stage.daemon.pid) <= files, 20)
    expect(open_files(stage.daemon.pid) <= files, f"the daemon has {open_files(stage.daemon.pid)} descriptors after {files}")


@test("raw greed", plain_only=True)
def greed(build):
    """With little memory the daemon goes on whatever one takes: it is refused, others are served, and its end is no other's."""
    told = []
    for kind in KINDS:
        room = ROOMY if kind == "windows" else LITTLE
        with Stage(build, under=["prlimit", f"--as={room}"]) as stage:
            serves(stage, build)
            files = open_files(stage.daemon.pid)
            greedy, taken = take_all(stage, build, kind)
            expect(0 < taken < 3 * int(COUNT), f"{kind}: {taken:.0f} were taken")
            expect(kind != "windows" or taken * WINDOW <= room / PART_OF_WINDOWS, f"{taken:.0f} windows were taken")
            held = resident(stage.daemon.pid)
            expect(held < LITTLE_KIB, f"{kind}: the daemon has {held} KiB")
            stage.start([build.raw("opens")]).wait_for("ready").kill()
            greedy.kill()
            back_to(stage, files)
            serves(stage, build)
            expect("memory" not in stage.daemon.printed(), f"{kind}: {tail(stage.daemon.printed())}")
        told.append(f"{taken:.0f} {kind}")
    return ", ".join(told)


# objects that a process may own at a time, whatever its share
OWNED = 32768


@test("raw owners", plain_only=True)
def owners(build):
    """However much memory there is, a process owns no more objects than what its end, which is one step, takes little time for."""
    with Stage(build) as stage:
        serves(stage, build)
        files = open_files(stage.daemon.pid)
        greedy, _ = take_all(stage, build, "objects")
        of = shares_in(asked(build, stage, ["--state", DEVICES[0]]))[f"account {os.geteuid()}"]
        owned, refused = of["objects"]
        expect(0 < owned <= OWNED * len(DEVICES) and refused, f"{len(DEVICES)} open files own {owned} objects, {refused} times refused")
        greedy.kill()
        back_to(stage, files)
        serves(stage, build)
    return f"{len(DEVICES)} open files own {owned} objects, and were refused more {refused} times"


def while_used(stage, comes, seconds=10):
    """Waits until the daemon's log says something, while no device ends for want of memory."""
    end = time.monotonic() + BUSY * seconds
    while not comes(printed := stage.daemon.printed()):
        expect(stage.daemon.runs() and time.monotonic() < end and "the device ends" not in printed, f"the daemon: {tail(printed)}")
        time.sleep(0.05)


# so much more memory than before, in KiB, may a daemon have once all are gone who have taken what they could
LEFT_KIB = 8192


@test("raw remains", plain_only=True)
def remains(build):
    """Once all are gone who took what they could, the daemon has no more memory, nor descriptors, than before."""
    told = []
    with Stage(build) as stage:
        for device in DEVICES:
            stage.run([build.raw("nested")], environment={"RAW_DEVICE": device})
        before, files = resident(stage.daemon.pid), open_files(stage.daemon.pid)
        for kind in ("calls", "deaths"):
            greedy, taken = take_all(stage, build, kind)
            most = resident(stage.daemon.pid)
            greedy.kill()
            back_to(stage, files)
            comes(lambda: resident(stage.daemon.pid) <= before + LEFT_KIB)
            kept = resident(stage.daemon.pid)
            expect(kept <= before + LEFT_KIB, f"the daemon keeps {kept} KiB after {before}, {most} with {taken:.0f} {kind}")
            told.append(f"{most} KiB with {taken:.0f} {kind}, then {kept}")
        serves(stage, build)
    return f"{before} KiB, {'; '.join(told)}"


# the part of the machine's memory that a device sets aside, and bytes that are less than that where there is much
SET_ASIDE, FEW_BYTES = 256, 64 << 20


def heap(pid):
    """Bytes from the beginning of a program's heap to its end, with all holes: limits count them, and they may last."""
    with open(f"/proc/{pid}/maps", encoding="ascii") as file:
        ends = [int(it, 16) for line in file if line.rstrip().endswith("[heap]") for it in line.split()[0].split("-")]
    return max(ends, default=0) - min(ends, default=0)


@test("raw set aside", plain_only=True)
def set_aside(build):
    """Who has much ends also where no memory is left but what is set aside for that; with what the end gives back there is some again."""
    with Stage(build) as stage:
        let_others_in(stage)
        before = heap(stage.daemon.pid)
        greedy, taken = take_all(stage, build, "deaths")
        grown, memory = heap(stage.daemon.pid) - before, os.sysconf("SC_PHYS_PAGES") * resource.getpagesize()
        expect(grown <= max(memory // SET_ASIDE, FEW_BYTES), f"the heap has grown by {grown >> 20} MiB, of which little may ever go")
        with open(f"/proc/{stage.daemon.pid}/statm", encoding="ascii") as file:
            used = int(file.read().split()[0]) * resource.getpagesize()
        resource.prlimit(stage.daemon.pid, resource.RLIMIT_AS, (used, resource.RLIM_INFINITY))
        greedy.kill()
        while_used(stage, lambda printed: "but what was set aside" in printed)
        while_used(stage, lambda printed: printed.count("but what was set aside") == printed.count("set aside again"), 45)
        resource.prlimit(stage.daemon.pid, resource.RLIMIT_AS, (resource.RLIM_INFINITY, resource.RLIM_INFINITY))
        serves(stage, build)
        expect("the device ends" not in stage.daemon.printed(), f"the daemon: {tail(stage.daemon.printed())}")
    return f"the owner of {taken:.0f} watched objects has ended, and others are served; the heap had grown by {grown >> 20} MiB"


# threads of a client that never takes descriptors, and how many parcels with as many as a packet takes it sends each of them
UNTAKING, UNTAKEN = 12, 8
# of a packet
DESCRIPTORS = 253
# a daemon of that user, who has so many descriptors, and whom it serves
AS_USER = ["sh", "-c", 'chmod 777 "${3%/*}" && exec setpriv --reuid=4000 --regid=4000 --clear-groups prlimit --nofile=4096 "$@"', "sh"]


@test("raw untaken descriptors", plain_only=True)
def untaken(build):
    """Of descriptors that a client doesn't take from its links one packet lies in each, in its share; and others get theirs."""
    with Stage(build) as stage:
        told = stage.run([build.fuzz("untaken"), DEVICES[0], str(UNTAKING), str(UNTAKEN)], client=False)
        seen = figures(told)
        expect(DESCRIPTORS <= seen["untaken"] and seen["most"] <= DESCRIPTORS and "let in" in told, told)
    if os.geteuid():
        return f"{told}; only root can have a daemon of another user"
    with Stage(build, under=AS_USER, words=["--mode", "666"]) as stage:
        newcomer = stage.run([build.fuzz("untaken"), DEVICES[0], str(UNTAKING), str(UNTAKEN), "4001", "4002"], client=False)
        expect("let in" in newcomer, newcomer)
    return f"{told}; of another user's daemon {newcomer}"


@test("raw told shares", plain_only=True)
def told_shares(build):
    """What one has taken, and was refused, is told of it, of its user and of its account, until it is gone."""
    with Stage(build, under=["prlimit", f"--as={LITTLE}"]) as stage:
        greedy, _ = take_all(stage, build, "calls")
        shares = shares_in(asked(build, stage, ["--state", DEVICES[0]]))
        calls, user = {whose: of["calls"] for whose, of in shares.items() if "calls" in of}, os.geteuid()
        whose = {f"account {user}", f"user {user} of account {user}", *(it for it in calls if it.startswith("process "))}
        expect(whose == set(calls) and len(calls) == 3, f"those that have calls are {set(calls)}")
        expect(len(set(calls.values())) == 1 and all(calls[f"account {user}"]), f"they have, and were refused, {calls}")
        greedy.kill()
        gone = comes(lambda: not any("calls" in it for it in shares_in(asked(build, stage, ["--state", DEVICES[0]])).values()), 20)
        expect(gone, f"somebody has calls still: {shares_in(asked(build, stage, ['--state', DEVICES[0]]))}")
    return "{} calls, {} times refused".format(*calls[f"account {user}"])


@test("raw fair greed")
def fair(build):
    """Beside another user's who takes all, also by many processes, others get what they want."""
    if os.geteuid():
        return "nothing was seen: only root can become another user"
    told = []
    for kind in ("calls", "handles"):
        with Stage(build) as stage:
            let_others_in(stage)
            _, taken = take_all(stage, build, kind, "4001")
            stage.run([build.raw("versions")])
            told.append(f"{taken:.0f} {kind}")
    return ", ".join(told)


# of the processor's time that it takes to close what a client leaves a thread that others wait for may take such a part; and that is more
# than so many seconds
LETTING_GO, MUCH, COSTLY_TRIES = 0.1, 0.02, 3


def device_time(pid, thread):
    """Seconds of processor time that a thread has used."""
    with open(f"/proc/{pid}/task/{thread}/schedstat", encoding="ascii") as file:
        return int(file.read().split()[0]) / 1e9


def begun_at(pid, thread):
    """When a thread of the process began, in the kernel's ticks."""
    with open(f"/proc/{pid}/task/{thread}/stat", encoding="ascii", errors="replace") as file:
        return int(file.read().rpartition(")")[2].split()[19])


def used_for_closing(pid, before):
    """Seconds of processor time that the daemon has used once it rests, after some of it: more than before."""
    comes(lambda: processor_time(pid) > before + MUCH, 30)
    used = None
    while used != (used := processor_time(pid)):
        time.sleep(1)
    return used - before


def closed(build, words):
    """Seconds of processor time that it takes a thread for which clients wait to close what one has left, and the daemon all together."""
    with Stage(build) as stage:
        pid = stage.daemon.pid
        before, used, all_used = set(os.listdir(f"/proc/{pid}/task")), device_time(pid, pid), processor_time(pid)
        stage.start([build.fuzz("costly"), *words], client=False).wait_for("ready", 30)
        # The first that came is the device's; those behind it close what was left.
        thread = pid if words else min(set(os.listdir(f"/proc/{pid}/task")) - before, key=lambda it: begun_at(pid, it))
        all_took = used_for_closing(pid, all_used)
        return device_time(pid, thread) - (used if words else 0), all_took


@test("raw costly ends", plain_only=True)
def costly(build):
    """What takes its time to be closed is closed by no thread that a client waits for."""
    told = []
    for whose, words in (("the device's thread", []), ("that which takes connections", ["control"])):
        # Once, on a busy machine, the daemon had used no time at all when it rested. Then there is nothing to judge, and another client comes.
        took, all_took = next(((one, every) for one, every in (closed(build, words) for _ in range(COSTLY_TRIES)) if every > MUCH), (0, 0))
        told.append(f"{whose} took {took * 1e3:.1f} of {all_took * 1e3:.0f} ms")
        expect(all_took > MUCH and took < LETTING_GO * all_took, f"{told[-1]} to let go of what it was left")
    return f"{', '.join(told)} to let go of much memory, and of sockets with many connections"
