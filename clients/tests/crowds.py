# SPDX-License-Identifier: Apache-2.0 OR MIT
"""What many clients, or hostile ones, do to the time and the room of others."""
import contextlib
import os
import re
import subprocess
import tempfile
import time

from raw_tests import DEVICE, counts, give_turns, stats, turns_given
from stage import Stage, comes, expect, open_files, resident
from suite import figures, test

OTHER_DEVICE = "/dev/hwbinder"
# a user that nobody is, whose processes the tests can be where they are root's
NOBODY = "65534"
# a turn makes so many steps at most, and who owes nothing waits for so few turns of others: those of two honest processes, of a
# hostile one, and of ends
MOST_STEPS, MOST_WAIT = 64, 8
# beside hostile clients a call takes at most so many times as long as alone, and beside those that do nothing
HOSTILE_TIMES, IDLE_TIMES = 4, 2
# looks of the daemon at others' threads, for each step
MOST_LOOKS = 1.5
# steps of a call without objects, of those for which some calls are counted beside fewer
STEPS_OF_CALL, FEW_CALLS, MANY_CALLS = 7, 100, 600
# the longest that a call may take while a thousand callers end, in microseconds
MOST_ENDING = 20e3
ROUNDS = 5
# somebody's users: whose they are, the first, and how many; and how many turns of all there may be for each of so many calls beside them
OWNER, FIRST, PERSONS = 1234567, 200000, 64
MOST_TURNS, PERSONS_CALLS, PERSONS_ROUNDS = 32, 1000, 10
# a call has so few turns where none of those beside has a processor
ALONE = 4
# a turn takes at most so many microseconds of the processor's time, whatever is asked for, and a device's first calls more than so many;
# costly turns of an account take at most such a part of the time, a third but for what is made before it is told
LEAST_TURN_TIME, MOST_TURN_TIME, MOST_COSTLY = 10, 1000, 0.38
HEAVY_ROUNDS = 5
# of so many processes that send some have to wait, and a turn may be as long as it is
MANY_SENDERS = ["48"]
# What a turn takes of a slow processor, or of one whose other half is busy, is more. Where times aren't judged it is measured in what the
# daemon takes in the same run for one object, of small parcels and until it is gone again: a parcel of 256 is 110 to 150 of these,
# and one of 8,192 would be thousands.
MOST_TURN_OBJECTS = 512
# how much a process holds that ends, and how long a turn of its end may be, in microseconds, or in what it took for one of them to be held:
# the end is some 330 of these, and was thousands where it wasn't divided
HELD, MOST_END_TIME, MOST_END_HELD, ENDING_ROUNDS = 32768, 5000, 1000, 4
# processes that connect and hang up; each time takes at most such a part of the daemon's time for an open
COMERS, MOST_HANGUP = "8", 0.125
# so many open it beside them where nobody judges how long that takes
FEW_OPENS = "10"
# descriptors of a device that somebody has opened: an epoll, a bell, and its latest steps
OF_DEVICE = 3
# so much more memory than before may the daemon have after a rest
REST_KIB = 512


def let_others_in(stage):
    os.chmod(stage.folder, 0o755)
    os.chmod(stage.socket, 0o777)


def crowds():
    """What stands beside honest clients, as words of `rings`."""
    return [["threads", "512", DEVICE], ["files", "512", DEVICE], ["threads", "512", OTHER_DEVICE],
            *([["users", "512", DEVICE, NOBODY]] if os.geteuid() == 0 else [])]


@test("raw turns")
def turns(build):
    """However much a process asks for, by threads or by open files, others wait for one turn of it, and that is short."""
    told = []
    for kind in ("threads", "files"):
        with Stage(build) as stage:
            rings = stage.start([build.fuzz("rings"), kind, "64", DEVICE], client=False).wait_for("ready", 30)
            stage.run([build.raw("latency"), "300"])
            rings.kill()
            found = counts(stage)
        expect(found["turns"] > 1000, f"there were only {found['turns']} turns")
        expect(found["longest"] <= MOST_STEPS, f"a turn made {found['longest']} steps")
        expect(found["waited"] <= MOST_WAIT, f"somebody waited for {found['waited']} turns beside {kind}")
        told.append(f"64 {kind}: {found['turns']} turns, the longest of {found['longest']} steps, at most {found['waited']} waited for")
    return "; ".join(told)


@test("raw steps")
def steps(build):
    """Each side gives a buffer back, sends and reads: the call's completion is read along with its reply, the reply's by itself."""
    made = []
    for calls in (FEW_CALLS, MANY_CALLS):
        with Stage(build) as stage:
            stage.run([build.raw("latency"), str(calls)])
            made.append(counts(stage)["steps"])
    of_call = (made[1] - made[0]) / (MANY_CALLS - FEW_CALLS)
    expect(abs(of_call - STEPS_OF_CALL) < 0.05, f"a call takes {of_call} steps")
    return f"{of_call} steps a call"


@contextlib.contextmanager
def daemon_told(build, ranges):
    """A program that is the daemon, for which this is /etc/subuid."""
    with tempfile.TemporaryDirectory(prefix="hullpippin-ranges-") as folder:
        os.chmod(folder, 0o755)
        file, program = f"{folder}/subuid", f"{folder}/daemon"
        with open(file, "w", encoding="ascii") as out:
            out.write(ranges)
        with open(program, "w", encoding="ascii") as out:
            out.write(f"#!/bin/sh\nexec unshare -m --propagation private sh -c 'mount --bind {file} /etc/subuid && exec \"$0\" \"$@\"' "
                      f"{build.daemon} \"$@\"\n")
        os.chmod(program, 0o755)
        yield program


@contextlib.contextmanager
def slice_of(uid):
    """The list of processes of a control group that is a user's slice; None where systemd has its own, or none can be made."""
    with tempfile.TemporaryDirectory(prefix="hullpippin-slice-") as folder:
        words = ["mount", "-t", "cgroup", "-o", "none,name=systemd", "systemd", folder]
        if os.path.exists("/run/systemd/system") or subprocess.run(words, capture_output=True).returncode:
            yield None
            return
        made = [f"{folder}/user.slice", f"{folder}/user.slice/user-{uid}.slice"]
        try:
            for path in made:
                os.makedirs(path, exist_ok=True)
            yield f"{made[-1]}/cgroup.procs"
        finally:
            for path in reversed(made):
                with contextlib.suppress(OSError):
                    os.rmdir(path)
            subprocess.run(["umount", folder], check=True)


def turns_for_a_call(build, program, words):
    """How many turns are given for each call of somebody beside so many users, at least: while he has no processor there are more."""
    found = []
    with Stage(build, daemon=program) as stage:
        let_others_in(stage)
        rings = stage.start([build.fuzz("rings"), "persons", str(PERSONS), DEVICE, *words], client=False).wait_for("ready", 30)
        while len(found) < PERSONS_ROUNDS and not any(ALONE < it <= MOST_TURNS for it in found):
            found.append(turns_for_each(stage, build))
            expect(rings.runs(), "nobody is beside any more")
        rings.kill()
        time.sleep(0.2)  # until nobody is in the control group
    expect(max(found) > ALONE, "none of those beside has had a processor")
    return min(it for it in found if it > ALONE)


def turns_for_each(stage, build):
    before = turns_given(stage, build)
    stage.run([build.raw("latency"), "1"])
    few = turns_given(stage, build)
    stage.run([build.raw("latency"), str(1 + PERSONS_CALLS)])
    return (turns_given(stage, build) - few - (few - before)) / PERSONS_CALLS


@test("raw persons")
def persons(build):
    """However many users somebody has, by ranges of their ids or in a slice, others wait for one turn of his."""
    if os.geteuid() or subprocess.run(["unshare", "-m", "true"], capture_output=True).returncode:
        return "nothing was seen: only root can be other users, and have a file of its own for the daemon"
    with daemon_told(build, f"{OWNER}:{FIRST}:{PERSONS}\n") as program, slice_of(OWNER) as group:
        found = {"of one": turns_for_a_call(build, program, [str(FIRST)])}
        if group:
            found["in one slice"] = turns_for_a_call(build, program, [str(FIRST + PERSONS), group])
    told = "; ".join(f"{it:.1f} turns for a call beside {PERSONS} users {how}" for how, it in found.items())
    expect(all(it <= MOST_TURNS for it in found.values()), told)
    return told if group else f"{told}; no slice could be made"


def best_median(stage, build, rounds=ROUNDS):
    return min(figures(stage.run([build.raw("latency"), "1000"]))["median"] for _ in range(rounds))


@test("raw crowded", plain_only=True, timed=True)
def crowded(build):
    told = []
    for words in crowds():
        with Stage(build) as stage:
            let_others_in(stage)
            alone = best_median(stage, build)
            stage.start([build.fuzz("rings"), *words], client=False).wait_for("ready", 30)
            beside = best_median(stage, build)
        told.append(f"{alone} then {beside} us beside {' '.join(words)}")
        expect(beside <= HOSTILE_TIMES * alone, told[-1])
    return "; ".join(told)


def is_short(build, took, most, each, most_of_each):
    """Whether a turn took no more microseconds than it may; where times aren't judged, no more than so many times what one thing takes."""
    return took <= (each * most_of_each if build.untimed else most)


def asked(stage, build):
    """What a device's `--stats` tells of costly turns."""
    told = stats(stage, build)
    found = re.search(r"longest turn: (\d+) us.*\ncostly turns: (\d+) us; parcels put off: (\d+)", told)
    expect(found, f"--stats tells nothing of turns' time: {told[-300:]}")
    return [int(it) for it in found.groups()]


def heavy(build, words):
    """The first good one of some runs beside processes that send objects, or the last: whether the longest turn was short, how long that
    was, what part of the time was in costly turns, how many parcels were put off, and what a call took, told."""
    for _ in range(HEAVY_ROUNDS):
        with Stage(build) as stage:
            let_others_in(stage)
            told = stage.run([build.raw("heavy"), *words])
            longest, costly, put_off = asked(stage, build)
        found = figures(told)
        times, part = found["beside"] / found["alone"], costly / 1e6 / found["seconds"]
        is_good = is_short(build, longest, MOST_TURN_TIME, found["object"], MOST_TURN_OBJECTS) or words[1:] == MANY_SENDERS
        if is_good and (build.untimed or times <= HOSTILE_TIMES):
            break
    return is_good, longest, part, put_off, times, told


@test("raw heavy parcels", plain_only=True)
def heavy_parcels(build):
    """However many objects a process sends, no turn takes over a millisecond, and no account has costly turns for more than a third of the
    time; who calls and sleeps notices little of it."""
    lines = []
    for words in (["8192"], ["256"], *([["256", "1", NOBODY]] if os.geteuid() == 0 else []), ["256", *MANY_SENDERS]):
        is_good, longest, part, put_off, times, told = heavy(build, words)
        lines.append(f"{' '.join(words)}: {told}; {longest} us in a turn, {part:.2f} of the time in costly ones, {put_off} put off")
        expect(LEAST_TURN_TIME < longest and is_good, lines[-1])
        expect(part <= MOST_COSTLY, lines[-1])
        expect(put_off or words[1:] != MANY_SENDERS, lines[-1])
        expect(build.untimed or times <= HOSTILE_TIMES, lines[-1])
    return "; ".join(lines)


def longest_end(build, kind):
    """The longest turn, in microseconds, in which the daemon saw to the end of a process that had much; what it took for one of these to be
    held; and the longest call meanwhile."""
    with Stage(build) as stage:
        told = stage.start([build.raw("ending"), kind, str(HELD)]).wait_for("ended", 100).printed()
        found = re.search(r"by which they end: (\d+) us", stats(stage, build))
    expect(found, "--stats tells nothing of ends")
    return int(found[1]), figures(told)["each"], figures(told)["ended"]


@test("raw ends in parts", plain_only=True)
def ends_in_parts(build):
    """Who holds many objects, or has asked to hear of as many deaths, gives them back some at a time as it ends."""
    lines = []
    for kind in ("handles", "deaths"):
        for _ in range(ENDING_ROUNDS):
            longest, each, call = longest_end(build, kind)
            if is_good := is_short(build, longest, MOST_END_TIME, each, MOST_END_HELD):
                break
        lines.append(f"{HELD} {kind}: {longest} us in a turn, {each} for one to be held, the longest call {call} us")
        expect(is_good, lines[-1])
    return "; ".join(lines)


@test("raw comers", plain_only=True)
def comers(build):
    """Who connects and hangs up takes little of the daemon's time, beside what an open takes, and of others' opens."""
    for _ in range(ROUNDS):
        with Stage(build) as stage:
            told = stage.run([build.raw("comers"), COMERS, *([FEW_OPENS] if build.untimed else [])])
        found = figures(told)
        part, times = found["hangup"] / found["open"], found["beside"] / found["alone"]
        if part <= MOST_HANGUP and (build.untimed or times <= HOSTILE_TIMES):
            break
    told = f"{told}; {part:.2f} of an open's time, {times:.1f} times as long"
    expect(part <= MOST_HANGUP and (build.untimed or times <= HOSTILE_TIMES), told)
    return told


@test("raw refused parcels")
def refused_parcels(build):
    """What the context manager's window can't hold is refused before it is copied."""
    with Stage(build) as stage:
        stage.manage()
        stage.start([build.fuzz("rings"), "parcels", "4", DEVICE], client=False).wait_for("ready")
        give_turns(stage, build)
        found = counts(stage)
    expect(found["copied"] < 4 << 20, f"{found['copied']} bytes were copied")
    return f"{found['turns']} turns, {found['copied']} bytes copied"


@test("raw looks")
def looks(build):
    """The daemon doesn't look at everybody who waits or polls, whatever comes."""
    lines = []
    for kind, whom in (("idle", "processes that wait"), ("pollers", "threads of who serves that poll"),
                       ("waiters", "threads of who serves that wait")):
        with Stage(build) as stage:
            told = stage.run([build.raw("beside"), kind, "200", "3000"])
            found = counts(stage)
        each = found["looks"] / found["steps"]
        lines.append(f"{each:.1f} looks a step beside 200 {whom}; {told}")
        expect(each <= MOST_LOOKS, lines[-1])
    return "; ".join(lines)


def beside(build, words, longest):
    """The best of some runs, each beside the same crowd: how long a call takes there for each microsecond alone."""
    best = None
    for _ in range(ROUNDS):
        with Stage(build) as stage:
            found = figures(told := stage.run([build.raw("beside"), *words], 180))
        times = found["beside"] / found["alone"]
        if times <= IDLE_TIMES and found["ending"] <= longest:
            return told
        best = min(best or (times, told), (times, told))
    expect(False, f"{best[1]}: over {IDLE_TIMES} times, or over {longest} us")


@test("raw idle processes", plain_only=True, timed=True)
def idle_processes(build):
    return beside(build, ["idle", "1000", "2000"], float("inf"))


@test("raw blocked callers", plain_only=True, timed=True)
def blocked_callers(build):
    return beside(build, ["callers", "1000", "2000"], MOST_ENDING)


@test("raw rest", plain_only=True)
def rest(build):
    """The daemon gives memory of large parcels back after a second of rest."""
    with Stage(build) as stage:
        stage.run([build.raw("latency"), "100"])
        time.sleep(1.5)
        before = resident(stage.daemon.pid)
        stage.run([build.raw("latency"), "100", "900000"])
        most = resident(stage.daemon.pid)
        comes(lambda: resident(stage.daemon.pid) <= before + REST_KIB)
        left = resident(stage.daemon.pid)
    expect(left <= before + REST_KIB, f"the daemon keeps {left} KiB after {before}")
    return f"{before} KiB, {most} with large parcels, {left} after a second"


def hoarders(stage, build, *words):
    """Some that take what they can get, until they have it: how much that was."""
    started = [stage.start([build.fuzz("hoard"), *its], client=False) for its in words]
    return [figures(it.wait_for("taken", 40).printed())["taken"] for it in started]


@test("raw shares")
def shares(build):
    """Who takes all that it can get leaves enough for others: connections that open nothing, which go after seconds, and threads."""
    told = []
    with Stage(build) as stage:
        let_others_in(stage)
        before = open_files(stage.daemon.pid)
        hoarders(stage, build, ["connections", "30000"])
        held = open_files(stage.daemon.pid)
        stage.run([build.raw("nested")])
        comes(lambda: open_files(stage.daemon.pid) <= before + OF_DEVICE, 12)
        left = open_files(stage.daemon.pid)
        expect(left <= before + OF_DEVICE, f"the daemon keeps {left} descriptors for who opens nothing, {before} before")
        told.append(f"{held} descriptors for connections that opened nothing, {left} after seconds")
        for user in ([], [NOBODY]) if os.geteuid() == 0 else ([],):
            taken = hoarders(stage, build, *[["threads", "5000", *user]] * 3)
            stage.run([build.raw("nested")])
            told.append(f"{sum(taken):.0f} threads{' of another user' if user else ''}")
    return "; ".join(told)
