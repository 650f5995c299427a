# SPDX-License-Identifier: Apache-2.0 OR MIT
"""Tests with our own clients alone, which need nothing but the kernel's header."""
import os
import re
import shutil
import signal
import subprocess
import tempfile
import time

from stage import BUSY, Stage, comes, expect, open_files, processor_time, resident, tail
from suite import figures, test

# what a round trip may take, in microseconds
ROUND_TRIP = 25
# a call with hundreds of services may take so much longer than with one, and a look-up, whose reply carries an object, so much
SLACK, SLACK_OF_OBJECTS = 1.25, 3
# rounds that are measured: the first so many, and more until they show what is asked for, or there are enough
ROUNDS, MOST_ROUNDS = 12, 40
# hostile clients may leave so much behind in the daemon; and beside them a call takes so many microseconds at most, and so many are made
FUZZ_KIB = 65536
LONGEST_CALL, CALLS_A_SECOND = 2e6, 100
# callers of who ends: so few that the engine names whom that reaches, and so many that it doesn't
MOURNED = (4, 100)
# threads that wait to hear of that: a few, and more than there are steps in a turn
MOURNERS = (2, 200)
TURN_STEPS = 64

DEVICE = "/dev/binder"
# places from here on need more than 32 bits; a device of these tests begins so many steps before
EDGE, BEFORE = 2**32, 1000
BEGUN = {"BEGIN_AT": str(EDGE - BEFORE)}
# so many services whose handles fill more than one page of --state
SERVICES = 40
# what goes over it: what lives long, what is named by steps (tickets, buffers, deaths, owners)
OVER_EDGE = (("descriptors", "200"), ("arrays", "50"), ("nested",), ("places",), ("deaths",), ("told",), ("takers",), ("oneway",))
# malloc gives what isn't used back at once, so that what is measured is used
GIVES_BACK = {"GLIBC_TUNABLES": "glibc.malloc.trim_threshold=65536:glibc.malloc.mmap_threshold=65536"}


def counts(stage, device=DEVICE):
    """Ends the daemon: what it tells that it has done for a device."""
    stage.end()
    lines = re.findall(rf"{device}: (\d+) steps\n.*{device}: (turns .*)", stage.daemon.printed())
    expect(len(lines) == 1, f"the daemon tells no counts of {device}")
    steps, rest = lines[0]
    return {"steps": int(steps), **{word: int(number) for word, number in re.findall(r"(\w+) (\d+)", rest)}}


def stats(stage, build):
    words = [build.daemon, "--socket", stage.socket, "--stats", DEVICE]
    return subprocess.run(words, capture_output=True, text=True, timeout=BUSY * 30, env={**os.environ, **build.environment}).stdout


def turns_given(stage, build):
    return int(re.search(r"^turns: (\d+)", stats(stage, build), re.M)[1])


def rested(stage, build):
    """How many threads were to be looked at while nothing came, and how often that was."""
    return [int(it) for it in re.search(r"; (\d+) left to be looked at in (\d+) seconds of rest", stats(stage, build)).groups()]


@test("raw nobody left")
def nobody_left(build):
    """Nobody is still to be looked at while nothing comes, whoever waits."""
    with Stage(build) as stage:
        stage.start([build.raw("asleep"), "40"]).wait_for("ready", 30)
        expect(comes(lambda: rested(stage, build)[1] > 0, 30), "the daemon doesn't rest")
        left, rests = rested(stage, build)
    expect(left == 0, f"{left} threads were still to be looked at while nothing came, in {rests} seconds")
    return f"nobody in {rests} seconds of rest"


# so many turns whoever asks for what it isn't to have is given before it's looked at what comes of that
MANY_TURNS = 1000


def give_turns(stage, build):
    expect(comes(lambda: turns_given(stage, build) > MANY_TURNS, 30), f"there were only {turns_given(stage, build)} turns")


def plays(name, *words, title=None):
    """A test that is one program, over a daemon whose journal is judged."""
    @test(f"raw {title or name}")
    def play(build):
        with Stage(build, journal=DEVICE) as stage:
            told = stage.run([build.raw(name), *words], 180).rpartition("\n")[2]  # what the library complains of comes before
        return f"{told}; lawful, {stage.entries} steps"


for name in ("nested", "oneway", "deaths", "parcels", "pool", "two_opens", "refusals", "files", "seats", "leftovers", "cancelled", "lives", "pointers", "namespaces", "buffers", "places", "ways", "waits", "told", "takers", "handlers"):
    plays(name)
plays("descriptors", "10000")
plays("arrays", "1000")
for word in ("asked", "unasked"):
    plays("flooding", word, title=f"flooding {word}")


@test("raw crossed")
def crossed(build):
    with Stage(build, journal=DEVICE, wide=True) as stage:
        told = stage.run([build.raw("crossed"), "3"], 120)
    return f"{told}; {stage.entries} steps"


@test("raw mourners")
def mourners(build):
    """An end that reaches more lists than the engine names at once is heard of by as many threads as wait and have something to read;
    where these are many, they are told in more turns than one."""
    with Stage(build, journal=DEVICE, wide=True) as stage:
        told = "; ".join(stage.run([build.raw("mourners"), str(callers), str(threads)], 120) for callers in MOURNED for threads in MOURNERS)
        longest = counts(stage)["longest"]
    expect(longest <= TURN_STEPS, f"a turn has made {longest} steps: {told}")
    return f"{told}; {stage.entries} steps, {longest} in a turn at most"


@test("raw paths")
def paths(build):
    with Stage(build) as stage:
        return stage.run([build.raw("paths")])


@test("raw callers")
def callers(build):
    """Whose a call is, and that nobody's is told as another's. Both need a root that may become others."""
    if os.geteuid():
        return "nothing was seen: only root can become another user"
    with Stage(build, journal=DEVICE) as stage:
        told = stage.run([build.raw("callers")]).rpartition("\n")[2]
    with Stage(build) as stage:
        programs = [f"{stage.folder}/{name}" for name in ("sleep", "group", "turn")]
        for program, source, mode in zip(programs, ("/bin/sleep", "/bin/sleep", build.fuzz("impostor")), (0o4755, 0o2755, 0o4755)):
            shutil.copy(source, program)
            os.chmod(program, mode)
        os.chmod(stage.folder, 0o755)
        os.chmod(stage.socket, 0o777)
        stage.start([build.raw("callers"), "serve"]).wait_for("ready")
        nobody = stage.run([build.fuzz("impostor"), *programs], client=False)
    return f"{told}; {nobody}"


# who was the context manager and may be it next: another user keeps no root out, and root keeps it; and where one is chosen
MANAGERS = ((["4001", "yes", "4002", "no", "4001", "yes", "0", "yes", "4001", "no", "0", "yes"], []),
            (["4001", "no", "4002", "yes", "4001", "no", "0", "yes", "4002", "yes", "0", "yes"], ["--manager", "4002"]),
            (["4001", "no", "0", "yes", "4001", "no"], ["--manager", "root"]))


@test("raw managers")
def managers(build):
    """Nobody is the context manager who may not, and root always may. It needs a root that may become others."""
    if os.geteuid():
        return "nothing was seen: only root can become another user"
    told = []
    for users, words in MANAGERS:
        with Stage(build, journal=DEVICE, words=words) as stage:
            told.append(stage.run([build.raw("managers"), *users]))
    return "; ".join(told)


@test("raw latency", plain_only=True, timed=True)
def latency(build):
    """Round trips beside those over bare relays, in turn; of each the round with the best median counts, as other work only delays."""
    best = {}
    with Stage(build) as stage, Stage(build, bare=True) as bare:
        measured = {"over sockets": (stage, [build.raw("relay"), "sockets", "2000"], False),
                    "over a page": (stage, [build.raw("relay"), "page", "2000"], False),
                    "over the bare relay": (bare, [build.raw("latency"), "2000"], True),
                    "call": (stage, [build.raw("latency"), "2000"], True),
                    "call of 4096 bytes": (stage, [build.raw("latency"), "2000", "4096"], True)}
        for turn in range(MOST_ROUNDS):
            if turn >= ROUNDS and best["call"]["median"] <= ROUND_TRIP:
                break
            for what, (where, words, client) in measured.items():
                found = figures(where.run(words, client=client))
                if what not in best or found["median"] < best[what]["median"]:
                    best[what] = found
    told = "; ".join(f"{what} {it['median']} us (p10 {it['tenth']}, p99 {it['last']})" for what, it in best.items())
    expect(best["call"]["median"] <= ROUND_TRIP, f"a round trip takes over {ROUND_TRIP} us: {told}")
    return told


def flat_cost(found, what, slack=SLACK):
    """Whether a call costs no more with all services than with one."""
    before, after = figures(found)[what], float(found.split(f"{what} ")[1].split(" then ")[1].split()[0])
    return after <= slack * before + 2


def costs_no_more(found, untimed):
    """Whether a call and a look-up are so; where times aren't judged, a look-up by and large."""
    if untimed:
        return flat_cost(found, "find", BUSY * SLACK_OF_OBJECTS)
    return flat_cost(found, "call") and flat_cost(found, "find", SLACK_OF_OBJECTS)


@test("raw services")
def services(build):
    """Each of a process of its own."""
    with Stage(build, journal=DEVICE) as stage:
        stage.manage()
        stage.run([build.raw("services"), "20"])
    with Stage(build) as of_many:
        of_many.manage()
        told = of_many.run([build.raw("services"), "300"], 180)
        if not build.sanitized:
            if not costs_no_more(told, build.untimed):
                told = of_many.run([build.raw("services"), "300"], 180)  # once more, should other work have come between
            expect(costs_no_more(told, build.untimed), f"slower with more services: {told}")
    return f"{told}; lawful, {stage.entries} steps"


@test("raw slow services")
def slow_services(build):
    """The manager asks a new service back; nobody else waits for its answer."""
    with Stage(build, journal="/dev/hwbinder") as stage:
        stage.manage("hwservicemanager")
        told = stage.run([build.raw("slow_service")], environment={"RAW_DEVICE": "/dev/hwbinder"})
    return f"{told}; lawful, {stage.entries} steps"


@test("raw churn", timed=True)
def churn(build):
    """What the daemon keeps of clients that are gone would show in the second thousand."""
    with Stage(build, daemon_environment=GIVES_BACK) as stage:
        before = open_files(stage.daemon.pid)
        told = stage.run([build.raw("churn"), "2000"], 300)
        found = figures(told)
        grown = float(told.split(" then ")[1].split()[0]) - found["memory"]
        expect(grown <= 128 or build.sanitized, f"the daemon's memory grew: {told}")  # a sanitizer keeps what is freed
        expect(open_files(stage.daemon.pid) <= before + 6, f"the daemon keeps descriptors: {told}, {before} before")
    return told


@test("raw idle", timed=True)
def idle(build):
    """While its clients wait, the daemon does too."""
    with Stage(build) as stage:
        stage.manage()
        stage.manage("hwservicemanager")
        before = processor_time(stage.daemon.pid)
        time.sleep(2)
        used = processor_time(stage.daemon.pid) - before
        expect(used <= 0.1, f"the daemon used {used} s of processor time in 2 s with nothing to do")
    return f"{used} s of processor time in 2 s"


@test("raw end")
def end(build):
    """Who waits while the daemon ends is told at once, and so is who asks again meanwhile, as a service does whose manager goes first."""
    with Stage(build, journal=DEVICE) as stage:
        waiting = [stage.manage(), stage.manage("hwservicemanager")]
        waiting += [stage.start([build.manager("hello"), f"hello{i}"]).wait_for("ready") for i in range(8)]
        stage.end_daemon()
        begin = time.monotonic()
        for process in waiting:
            expect("No such device" in process.finish(5, statuses=(1,)), f"{process.name()}: {process.printed()}")
        took = time.monotonic() - begin
        expect(took < 1 or build.untimed, f"the daemon's clients went on for {took:.1f} s after it")
    return f"{len(waiting)} clients ended within {took * 1e3:.0f} ms; lawful, {stage.entries} steps"


def gone_over(stage):
    """Ends a daemon whose devices have begun before the edge: how far behind it one has come, with all its steps recorded."""
    steps = counts(stage)["steps"]
    expect(steps > 2 * BEFORE and stage.entries == steps, f"{steps} steps, {stage.entries} entries")
    return f"{steps - BEFORE} steps behind 2^32; lawful, {stage.entries} steps recorded"


@test("raw over the edge")
def over_the_edge(build):
    """A device whose history comes to need places of more than 32 bits serves its clients on, those that were there before and those
    that come then, tells what goes on, and records a lawful journal."""
    with Stage(build, journal=DEVICE, daemon=build.short, daemon_environment=BEGUN, wide=True) as stage:
        for words in OVER_EDGE:
            stage.run([build.raw(words[0]), *words[1:]], 120)
        stage.manage()
        for i in range(SERVICES):
            stage.start([build.manager("hello"), f"hello{i}"]).wait_for("ready")
        state = stage.run([build.daemon, "--state", DEVICE], client=False)
        made = [int(place) for place in re.findall(r"handle [1-9]\d*: object (\d+)\.", state)]
        expect(len(made) == len(set(made)) == SERVICES and min(made) > EDGE, f"--state tells of objects that were made at {made}: {state}")
        told = gone_over(stage)
    return told


@test("raw full")
def full(build):
    """A device whose engine can't make the steps by which processes end ends in order, and its clients are told; others go on."""
    other = {"RAW_DEVICE": "/dev/hwbinder"}
    with Stage(build, journal=DEVICE, daemon=build.short) as stage:
        waiting = stage.start([build.manager("hwservicemanager"), "-v"]).wait_for("ready on")
        said = stage.start([build.raw("oneway")]).finish(statuses=(1,))
        expect("Cannot allocate memory" in said or "No such device" in said, f"oneway: {said}")
        again = stage.start([build.raw("nested")]).finish(statuses=(1,))
        expect("No such device" in again, f"nested, afterwards: {again}")
        expect(waiting.runs(), f"another device's manager: {waiting.printed()}")
        waiting.kill()
        stage.run([build.raw("nested")], environment=other)
        os.kill(stage.daemon.pid, signal.SIGTERM)
        stage.see_end(1)
        printed = stage.daemon.printed()
        expect(printed.count("there is no memory for processes to come or go, the device ends") == 1, f"the daemon: {printed}")
    return f"the device ended in order, the other went on; lawful, {stage.entries} steps"


@test("raw frees of nothing")
def frees_of_nothing(build):
    """Who gives back what was never handed out makes no step of the history."""
    with Stage(build) as stage:
        stage.manage()
        stage.start([build.fuzz("rings"), "frees", "4", DEVICE], client=False).wait_for("ready")
        give_turns(stage, build)
        found = counts(stage)
    expect(found["steps"] < 200, f"{found['steps']} steps were made")
    return f"{found['turns']} turns, {found['steps']} steps"


@test("raw short of memory")
def short_of_memory(build):
    """A daemon whose clients the kernel has no memory for tries again each second, and does nothing meanwhile; seats that were lost
    for want of memory are lent again."""
    with Stage(build, journal=DEVICE, daemon=build.short, daemon_environment={"SHORT_OF_MEMORY": "1"}) as stage:
        told = stage.run([build.raw("seats")])
        used = processor_time(stage.daemon.pid)
        expect(used <= 1, f"the daemon used {used} s of processor time")
        expect("a client was tried" not in stage.daemon.printed(), f"the daemon: {tail(stage.daemon.printed())}")
        expect("lost seats are back" in stage.daemon.printed(), f"the daemon: {tail(stage.daemon.printed())}")
    return f"{told}, {used} s of processor time; lawful, {stage.entries} steps"


def refuses(build, words, why, prepare=None):
    """Whether a daemon that is started with these words ends at once, and says why; `prepare` is called in its process before."""
    done = subprocess.run([build.daemon, *words], env={**os.environ, **build.environment}, capture_output=True, text=True, timeout=BUSY * 10,
                          preexec_fn=prepare)
    expect(done.returncode == 1 and why in done.stderr, f"{' '.join(words)}: {done.returncode}, {done.stderr}")


@test("raw refused beginnings")
def refused_beginnings(build):
    """A daemon that can't begin leaves old journals as they are."""
    with tempfile.TemporaryDirectory(prefix="hullpippin-begin-") as folder:
        old, again, taken = (f"{folder}/{name}" for name in ("old", "again", "taken"))
        for path in (old, taken):
            with open(path, "w", encoding="ascii") as file:
                file.write("old")
        os.symlink(old, again)
        refuses(build, ["--socket", taken, "--journal", old], "Address already in use")
        refuses(build, ["--socket", f"{folder}/socket", "--journal", old, "--journal", f"/dev/hwbinder={again}"], "two devices")
        for path, why in ((f"{folder}/none/new", "No such file"), (folder, "Is a directory"), ("/dev/null", "it is neither a file nor a pipe")):
            refuses(build, ["--socket", f"{folder}/socket", "--journal", old, "--journal", f"/dev/hwbinder={path}"], why)
        os.symlink(old, f"{folder}/new.who")
        refuses(build, ["--socket", f"{folder}/socket", "--journal", f"{folder}/new"], "new.who: Too many levels of symbolic links")
        for ending in ("who", "times"):
            os.unlink(f"{folder}/new.{ending}")
            os.link(old, f"{folder}/new.{ending}")
            refuses(build, ["--socket", f"{folder}/socket", "--journal", f"{folder}/new"], f"new.{ending}: it is a file that has other names")
        refuses(build, ["--socket", f"{folder}/socket", "--journal", old], f"{old}: it is a file that has other names")
        refuses(build, ["--socket", f"{folder}/socket", "--journal", taken, "--journal", f"/dev/hwbinder={taken}.times"], "two devices")
        with Stage(build, journal=DEVICE) as stage:  # whose journal is judged, so that it wasn't written anew either
            stage.run([build.raw("oneway")], 60)
            refuses(build, ["--socket", f"{folder}/socket", "--journal", stage.journal], "another daemon writes")
        with open(old, encoding="ascii") as file:
            expect(file.read() == "old", "the old journal is gone")
        expect(not os.path.exists(f"{folder}/socket"), "a daemon that hasn't begun left its socket")
    return "where the address is taken, a journal would be two devices' or is another daemon's, or no file, or can't be had, the old journal stays"


@test("raw fuzz")
def fuzz(build):
    """Hostile clients for a minute; an honest pair calls meanwhile, and others are served afterwards."""
    with Stage(build) as stage:
        alone = figures(stage.run([build.fuzz("witness"), "2"]))
        stage.run([build.fuzz("witness"), "1"], environment={"RAW_DEVICE": "/dev/vndbinder"})  # each device has descriptors of its own
        before, files = resident(stage.daemon.pid), open_files(stage.daemon.pid)
        witness = stage.start([build.fuzz("witness"), str(build.fuzz_seconds)]).wait_for("ready")
        attacks = stage.run([build.fuzz("fuzz"), str(build.fuzz_seconds), str(build.seed)], build.fuzz_seconds + 30, client=False)
        calls = figures(witness.finish())
        expect(stage.daemon.runs(), "the daemon ended")
        expect(calls["longest"] < LONGEST_CALL * (BUSY if build.untimed else 1), f"a call took {calls['longest'] / 1e6:.1f} s meanwhile")
        expect(calls["calls"] > build.fuzz_seconds * (1 if build.untimed else CALLS_A_SECOND), f"only {calls['calls']:.0f} calls were answered meanwhile")
        stage.run([build.raw("nested")])
        comes(lambda: open_files(stage.daemon.pid) <= files)
        expect(open_files(stage.daemon.pid) <= files, f"the daemon has {open_files(stage.daemon.pid)} descriptors after {files}")
        grown = resident(stage.daemon.pid) - before
        expect(build.sanitized or grown < FUZZ_KIB, f"the daemon grew by {grown} KiB")
    return (f"{calls['calls']:.0f} calls of another client meanwhile, median {calls['median']} us (alone {alone['median']}), "
            f"longest {calls['longest'] / 1e3:.1f} ms; the daemon grew by {grown} KiB; {attacks}")


@test("raw linger")
def linger(build):
    """Others needn't wait while a descriptor is closed that a client has left, however long that takes."""
    with Stage(build) as stage:
        told = stage.run([build.fuzz("linger")], client=False)
        expect("closing takes long: 2 threads do it" in stage.daemon.printed(), "one thread closes all, however long that takes")
    return told


@test("raw dropped descriptors")
def dropped(build):
    """What comes with a request that isn't run, or that takes no descriptors, is closed, and the next one gets its own."""
    with Stage(build) as stage:
        return stage.run([build.fuzz("dropped")], client=False)


@test("raw hanging")
def hanging(build):
    """Others needn't wait for descriptors whose closing never ends."""
    with Stage(build) as stage:
        os.chmod(stage.folder, 0o755)
        os.chmod(stage.socket, 0o777)
        return stage.run([build.fuzz("hanging")], client=False)


@test("raw ghost")
def ghost(build):
    """A context manager that is dead is none, whoever has its connection, and whatever it asks for as it goes."""
    with Stage(build, journal="/dev/vndbinder") as stage:
        return f"{stage.run([build.fuzz('ghost')], client=False)}"


@test("raw residue")
def residue(build):
    """What lies about in a client's page comes into nobody's window with a parcel that it isn't part of."""
    with Stage(build, journal="/dev/vndbinder") as stage:
        return f"{stage.run([build.fuzz('residue')], client=False)}"


@test("raw unheard")
def unheard(build):
    """What the daemon tells a client that doesn't listen takes no more of the kernel's memory than a little."""
    with Stage(build) as stage:
        return stage.run([build.fuzz("unheard")], client=False)


@test("raw holes")
def holes(build):
    """What a client leaves empty of its pages takes no memory when the daemon reads it."""
    with Stage(build) as stage:
        return stage.run([build.fuzz("holes"), "20"], client=False)


@test("raw fuzz of managers")
def fuzz_managers(build):
    """The two context managers get requests that lie for a while, and work afterwards."""
    told = []
    with Stage(build, journal=DEVICE) as stage:
        for name, kind, device in (("servicemanager", "aidl", DEVICE), ("hwservicemanager", "hidl", "/dev/hwbinder")):
            manager = stage.manage(name)
            words = [build.fuzz("garbage"), "5", str(build.seed), kind]
            told.append(f"{kind} {stage.run(words, environment={'RAW_DEVICE': device})}")
            expect(manager.runs(), f"{name} ended: {manager.printed()[-300:]}")
        stage.run([build.raw("services"), "20"])
    return f"{', '.join(told)}; lawful, {stage.entries} steps"
