#!/usr/bin/env python3
# SPDX-License-Identifier: Apache-2.0 OR MIT
"""Linux's own driver, judged as it is used: records the raw clients and storms of them in a virtual machine with several processors, and
asks whether the rules explain what the driver answered.

    clients/check kernel traffic [--kernel FOLDER] [--suite SUITE] [--storms N] [--crowds N] [--calls N] [--seed N] [--spoiled N]
                                 [--processors N] [--keep FOLDER] [--from FOLDER] [--judge PROGRAM] [--bplay PROGRAM] [--document]

A storm is of three processes, every third one with three of them killed; a crowd is of four with two loopers each. Both are recorded
with the kernel's tracepoints, the raw clients without. Each recording is judged by `hullpippin judge`. An order without a switch is judged
by the proved player besides. Then recordings of raw clients are spoiled: a bit of what was read is turned, two reads' answers are
exchanged, or a read is left out. One that is called lawful all the same has to be: its order has no switch, and the player plays it.
--calls N records eight callers of N calls each besides, 56 steps for each N. --suite takes the kernel of another of Debian's suites, as
trixie or trixie-backports. --keep keeps the recordings there, and beside one that isn't judged, in NAME.unknown, how far it came and what
was tried; --from judges what was kept so, by the same words, and needs no machine. --document writes what was seen into
docs/DIFFERENCES.md. The last line ends in `not as it should be`, with how many.
"""
import argparse
import glob
import os
import random
import re
import shutil
import struct
import subprocess
import sys
import tempfile
from concurrent.futures import ThreadPoolExecutor

sys.dont_write_bytecode = True
HERE = os.path.dirname(os.path.abspath(__file__))
CLIENTS = os.path.dirname(HERE)
ROOT = os.path.dirname(CLIENTS)
sys.path.insert(0, HERE)
sys.path.insert(0, f"{CLIENTS}/tests")

import document  # noqa: E402
from fetch import SUITE, Kernel, Missing, default_folder  # noqa: E402
from machine import NotRun, run  # noqa: E402
from programs import library, make  # noqa: E402

# each with the differences that it needs
RAW = {"latency 50": "", "nested": "", "oneway": "", "deaths": "", "waits": "", "parcels": "", "pool": "", "many 4 3 50": "", "many 8 4 100": "",
       "told": "notices", "two_opens": "own_pid"}
EVENTS = ("ioctl ioctl_done command return write_done read_done wait_for_work transaction transaction_received transaction_node_to_ref "
          "transaction_ref_to_node transaction_ref_to_ref transaction_buffer_release")
SCRIPT = """T=/sys/kernel/tracing
mount -t tracefs trace $T
LOAD="./lib/ld-linux-x86-64.so.2 --library-path lib --preload ./libhullpippin-record.so"
echo mono > $T/trace_clock
echo 8192 > $T/buffer_size_kb
for event in {events}; do echo 1 > $T/events/binder/binder_$event/enable; done
one() {{
    name=$1; traced=$2; shift 2
    mkdir -p /tmp/recordings/$name
    echo > $T/trace
    echo $traced > $T/tracing_on
    HULLPIPPIN_RECORD=/tmp/recordings/$name timeout 900 $LOAD "$@" > /tmp/told 2>&1
    status=$?
    echo 0 > $T/tracing_on
    [ $traced = 0 ] || cat $T/trace > /tmp/recordings/$name/trace
    echo "$name $status $(tail -n 1 /tmp/told)"
    cp -r /tmp/recordings/$name recordings/$name
    rm -rf /tmp/recordings/$name
}}
"""
# so many steps are tried of a spoiled recording, some hundred times what the whole one takes
SPOILED_TRIES = 300_000
# so many recordings are judged at once
AT_ONCE = 2
USED = struct.Struct("<8sQ")
HEAD, RECORD = 64, struct.Struct("<IIQQ")
WRITE_READ = 4
VERDICT = re.compile(r"(\d+) processes, (\d+) threads, (\d+) steps: (lawful|unlawful|unknown)(?:, with ([a-z0-9_, ]*[a-z0-9_]))?")
SECONDS = re.compile(r", ([0-9.]+) s$", re.M)


def runs_of(given):
    """What is recorded: its name, whether with tracepoints, and the words of the program."""
    found = [(name.replace(" ", "-"), 0, f"./raw/{name}") for name in RAW]
    if given.calls:
        found.append((f"long-{given.calls}", 0, f"./raw/many 8 4 {given.calls}"))
    for i in range(given.storms):
        ends = " 3" if i % 3 == 2 else ""
        found.append((f"storm-{given.seed + i}", 1, f"./raw/storm {given.seed + i} 3 2 1 90{ends}"))
    for i in range(given.crowds):
        found.append((f"crowd-{given.seed + i}", 1, f"./raw/storm {given.seed + i} 4 2 2 80"))
    return found


def record(given, kernel, folder):
    """Records all in the machine; what each program said, by its name."""
    make(CLIENTS, "out/libhullpippin-record.so")
    make(f"{CLIENTS}/tests", "raw")
    os.makedirs(f"{folder}/lib")
    os.makedirs(f"{folder}/recordings")
    for name in ("ld-linux-x86-64.so.2", "libc.so.6"):
        shutil.copy(library(name), f"{folder}/lib/{name}")
    shutil.copy(f"{CLIENTS}/out/libhullpippin-record.so", folder)
    shutil.copytree(f"{CLIENTS}/tests/out/raw", f"{folder}/raw")
    script = SCRIPT.format(events=EVENTS) + "".join(f"one {name} {traced} {words}\n" for name, traced, words in runs_of(given))
    with open(f"{folder}/run", "w", encoding="ascii") as file:
        file.write(script)
    _, output = run(kernel, folder, given.seconds, processors=given.processors)
    for path in glob.glob(f"{folder}/recordings/*/*.*.*"):
        shorten(path)
    for name, text in (("outcomes", output), ("version", kernel.version)):
        with open(f"{folder}/recordings/{name}", "w", encoding="utf-8") as file:
            file.write(text)


def told_of(recordings):
    """Which driver it was, and what each program said, by its name."""
    with open(f"{recordings}/version", encoding="utf-8") as file:
        version = file.read()
    with open(f"{recordings}/outcomes", encoding="utf-8") as file:
        return version, dict(line.split(" ", 1) for line in file.read().splitlines() if " " in line)


def shorten(path):
    """A thread's file grows by steps; what it doesn't use goes. Of a thread that was ended before its first record nothing is there."""
    with open(path, "rb") as file:
        head = file.read(USED.size)
    used = USED.unpack(head)[1] if len(head) == USED.size else 0
    if used < HEAD:
        os.remove(path)
    else:
        os.truncate(path, used)


def judged(given, recording, journal, *words):
    """The verdict, the switches, how many steps and threads, seconds of a processor, and all that was said."""
    done = subprocess.run(["nice", "-n", "10", given.judge, "judge", recording, "--journal", journal, "--most", "64", *words],
                          capture_output=True, text=True, stdin=subprocess.DEVNULL, timeout=1800)
    found, seconds = VERDICT.match(done.stdout), SECONDS.search(done.stdout)
    if not found or not seconds:
        raise NotRun(f"{recording}: {done.stdout}{done.stderr}")
    return found[4], found[5] or "", int(found[3]), int(found[2]), float(seconds[1]), done.stdout


def player_says(given, journal):
    done = subprocess.run([given.bplay, "check", journal], capture_output=True, text=True, stdin=subprocess.DEVNULL, timeout=600)
    return done.stdout.strip()


def keep_unknown(given, name, said):
    """Beside a recording that is kept, what was tried on it, and what each of its threads would have to do next."""
    if given.keep:
        with open(f"{given.keep}/{name}.unknown", "w", encoding="utf-8") as file:
            file.write(said)


def judge_all(given, folder, recordings, told):
    """A line for each recording; what was seen of each, and how many aren't as they should be."""
    def judge(run):
        name, journal = run[0], f"{folder}/{run[0]}.journal"
        if told.get(name, "?").split()[0] != "0":
            return None
        verdict, ways, *figures = judged(given, f"{recordings}/{name}", journal)
        player = player_says(given, journal) if verdict == "lawful" and not ways and given.bplay else ""
        return verdict, ways, *figures, player

    seen, wrong = [], 0
    with ThreadPoolExecutor(AT_ONCE) as pool:
        outcomes = list(pool.map(judge, runs_of(given)))
    for (name, _, words), outcome in zip(runs_of(given), outcomes):
        if outcome is None:
            print(f"FAIL {name}: it ended with {told.get(name)}")
            wrong += 1
            continue
        verdict, ways, steps, threads, seconds, said, player = outcome
        is_raw = words[6:] in RAW
        is_good = verdict == "lawful" and (not is_raw or ways == RAW[words[6:]]) and (not player or player.startswith("lawful "))
        wrong += not is_good and is_raw
        seen.append((name, threads, steps, verdict, ways, seconds, player))
        print(f"{'ok  ' if is_good else 'FAIL'} {name}: {threads} threads, {steps} steps, {verdict}{', with ' + ways if ways else ''}, {seconds:.1f} s"
              f"{', and by the player: ' + player if player else ''}", flush=True)
        if not is_good:
            print("".join(f"    {line}\n" for line in said.splitlines()[1:4]), end="")
            keep_unknown(given, name, said)
    return seen, wrong


# ------------------------------------------------------------ spoiled recordings

def reads_of(recording):
    """Where in which file the answer of a read stands, and how long it is: those that told more than BR_NOOP."""
    found = []
    for path in sorted(glob.glob(f"{recording}/*.*.*")):
        with open(path, "rb") as file:
            data = file.read()
        at = HEAD
        while at < len(data):
            size, kind, _, _ = RECORD.unpack_from(data, at)
            if kind == WRITE_READ:
                written, sent, returned, _ = struct.unpack_from("<IIII", data, at + RECORD.size + 64)
                begin = at + RECORD.size + 88 + (written + 7) // 8 * 8 + (sent + 7) // 8 * 8
                if returned > 4:
                    found.append((path, at, size, begin, returned))
            at += size
    return found


def meant(data, begin, size):
    """What an answer says, without the pointers that a call's or reply's record ends with: where a buffer stands is the driver's affair."""
    return bytes(data[begin:begin + (size - 16 if size >= 68 else size)])


def spoil(recording, dice):
    """Changes one thing; what it was."""
    reads = reads_of(recording)
    path, at, size, begin, returned = dice.choice(reads)
    with open(path, "rb") as file:
        data = bytearray(file.read())
    how = dice.choice(["a bit", "two answers", "a read"])
    if how == "a bit":
        place = begin + dice.randrange(4, returned)
        data[place] ^= 1 << dice.randrange(8)
        how = f"bit of byte {place - begin} of what was read"
    elif how == "a read":
        del data[at:at + size]
        struct.pack_into("<Q", data, 8, len(data))
    else:
        others = [it for it in reads if it[0] == path and it[4] == returned and meant(data, it[3], returned) != meant(data, begin, returned)]
        if not others:
            return None
        other = dice.choice(others)[3]
        data[begin:begin + returned], data[other:other + returned] = data[other:other + returned], data[begin:begin + returned]
    with open(path, "wb") as file:
        file.write(data)
    return f"{how} of {os.path.basename(path)} at {at}"


def spoiled_ones(given, folder, recordings):
    """The names of recordings, where a spoiled one is, and what was spoiled."""
    dice, count = random.Random(given.seed), 0
    names = ["nested", "deaths", "many-4-3-50", "latency-50"]
    while count < given.spoiled:
        name, spoiled = names[count % len(names)], f"{folder}/spoiled-{count + 1}"
        shutil.rmtree(spoiled, ignore_errors=True)
        shutil.copytree(f"{recordings}/{name}", spoiled)
        how = spoil(spoiled, dice)
        if how:
            count += 1
            yield name, spoiled, how


def judge_spoiled(given, folder, recordings):
    """How many there were, which of them are called lawful, with what was spoiled, and how many of those aren't lawful for certain."""
    def judge(it):
        journal = f"{it[1]}.journal"
        verdict, ways, *_ = judged(given, it[1], journal, "--tries", str(SPOILED_TRIES))
        return verdict, ways, player_says(given, journal) if verdict == "lawful" and not ways and given.bplay else ""

    all_spoiled, lawful, doubtful = list(spoiled_ones(given, folder, recordings)), [], 0
    count = len(all_spoiled)
    with ThreadPoolExecutor(AT_ONCE) as pool:
        outcomes = list(pool.map(judge, all_spoiled))
    for (name, spoiled, how), (verdict, ways, player) in zip(all_spoiled, outcomes):
        if verdict == "lawful":
            doubtful += not player.startswith("lawful ")
            lawful.append(f"{name}, {how}")
            print(f"{'ok  ' if player.startswith('lawful ') else 'FAIL'} spoiled {name}, {how}: lawful{', with ' + ways if ways else ''}"
                  f"{', and by the player: ' + player if player else ''}", flush=True)
            if given.keep:
                shutil.copytree(spoiled, f"{given.keep}/{os.path.basename(spoiled)}", dirs_exist_ok=True)
    print(f"{count} spoiled recordings, {len(lawful)} of them called lawful, {doubtful} of these not so for certain")
    return count, lawful, doubtful


# ------------------------------------------------------------ what is told

def group(seen, word):
    """Of the recordings whose names begin so: how many, how many judged, the least and the most steps, the most threads, the most seconds of
    those that were judged and of all."""
    its = [it for it in seen if it[0].startswith(word)]
    good = [it for it in its if it[3] == "lawful"]
    steps = [it[2] for it in its] or [0]
    seconds = [f"{max([it[5] for it in those] or [0]):.1f}" for those in (good, its)]
    return len(its), len(good), min(steps), max(steps), max([it[1] for it in its] or [0]), *seconds


def needs_of(seen):
    """Which differences storms and crowds need, and how many of them each."""
    needed = {}
    for *_, ways, _, _ in [it for it in seen if it[3] == "lawful" and it[0].startswith(("storm", "crowd"))]:
        for way in filter(None, ways.split(", ")):
            needed[way] = needed.get(way, 0) + 1
    return ", ".join(f"*{way}* {count}" for way, count in sorted(needed.items(), key=lambda it: -it[1])) or "none"


def spoiled_told(spoiled):
    """What is told of spoiled recordings."""
    count, lawful, doubtful = spoiled
    return f"{len(lawful)} of {count}, {len(lawful) - doubtful} so for certain" if lawful else f"0 of {count}"


def tell(given, version, seen, spoiled):
    lines = [(name, str(threads), str(steps), verdict, ways or "none", f"{seconds:.1f}", player)
             for name, threads, steps, verdict, ways, seconds, player in seen if not name.startswith(("storm", "crowd"))]
    suite = f" --suite {given.suite}" if given.suite != SUITE else ""
    numbers = f"--storms {given.storms} --crowds {given.crowds} --calls {given.calls} --seed {given.seed} --spoiled {given.spoiled}"
    text = [f"Seen on {version}, by `clients/check kernel traffic{suite} {numbers}`.\n"]
    text += document.table(["Raw client, untraced", "Threads", "Steps", "Verdict", "Differences needed", "Seconds", "The player, of the order"], lines)
    text.append("")
    rows = [(name, *group(seen, word)) for name, word in (("storms of three processes", "storm"), ("crowds of four, with two loopers each", "crowd"))]
    text += document.table(["With tracepoints", "Recordings", "Judged lawful", "Least steps", "Most", "Threads up to",
                            "Seconds at most, of those judged", "Of all"], [tuple(map(str, it)) for it in rows])
    text += ["", "Seconds are of a processor, by `judge`'s own count." , f"Those that were judged need, in so many: {needs_of(seen)}.",
             f"Spoiled recordings of raw clients that were called lawful: {spoiled_told(spoiled)}, since the player plays their orders too"
             f"{': ' + '; '.join(spoiled[1]) if spoiled[1] else ''}."]
    text += [f"{name} wasn't judged, after {seconds:.1f} s and {steps} steps." for name, _, steps, verdict, _, seconds, _ in seen
             if verdict != "lawful"]
    return "\n".join(text)


def cells_of(seen, spoiled):
    """What the table of all drivers has of it."""
    raw = [it for it in seen if not it[0].startswith(("storm", "crowd"))]
    storms, crowds = (group(seen, word)[:2] for word in ("storm", "crowd"))
    return {"Raw clients lawful": f"{sum(it[3] == 'lawful' for it in raw)} of {len(raw)}", "Storms": f"{storms[1]} of {storms[0]}",
            "Crowds": f"{crowds[1]} of {crowds[0]}", "Seconds at most of both": group(seen, ("storm", "crowd"))[-1],
            "Differences needed by both": needs_of(seen),
            "Spoiled ones called lawful": spoiled_told(spoiled)}


def arguments():
    parser = argparse.ArgumentParser(usage=__doc__)
    parser.add_argument("what", choices=["traffic"])
    parser.add_argument("--kernel")
    parser.add_argument("--suite", default=SUITE)
    parser.add_argument("--calls", type=int, default=0)
    parser.add_argument("--storms", type=int, default=12)
    parser.add_argument("--crowds", type=int, default=6)
    parser.add_argument("--seed", type=int, default=1)
    parser.add_argument("--spoiled", type=int, default=20)
    parser.add_argument("--processors", type=int, default=4)
    parser.add_argument("--seconds", type=int, default=3600)
    parser.add_argument("--keep")
    parser.add_argument("--from", dest="kept")
    parser.add_argument("--judge", default=f"{ROOT}/tool/target/release/hullpippin")
    parser.add_argument("--bplay", default=f"{ROOT}/crates/bd_play/out/bd_play")
    parser.add_argument("--document", action="store_true")
    given = parser.parse_args()
    given.kernel = given.kernel or (default_folder() if given.suite == SUITE else f"{default_folder()}-{given.suite}")
    return given


def main():
    given = arguments()
    if not os.access(given.judge, os.X_OK):
        print(f"kernel: {given.judge} isn't there: tool/setup builds it", file=sys.stderr)
        return 1
    if not os.access(given.bplay, os.X_OK):
        given.bplay = None
    folder = tempfile.mkdtemp(prefix="kernel-traffic-")
    recordings = given.kept or f"{folder}/recordings"
    try:
        if not given.kept:
            record(given, Kernel(os.path.abspath(given.kernel), given.suite), folder)
        if given.keep and os.path.realpath(given.keep) != os.path.realpath(recordings):
            shutil.copytree(recordings, given.keep, dirs_exist_ok=True)
        version, told = told_of(recordings)
        seen, wrong = judge_all(given, folder, recordings, told)
        spoiled = judge_spoiled(given, folder, recordings)
    except (Missing, NotRun, OSError) as why:
        print(f"kernel: {why}", file=sys.stderr)
        return 1
    finally:
        shutil.rmtree(folder, ignore_errors=True)
    text = tell(given, version, seen, spoiled)
    print(text)
    if given.document:
        document.write(ROOT, "traffic" if given.suite == SUITE else "traffic of a newer driver", text)
        document.write_cells(ROOT, "drivers", version, cells_of(seen, spoiled))
    print(f"kernel traffic: {len(seen)} recordings, {wrong + spoiled[2]} not as it should be")
    return 0 if not wrong and not spoiled[2] else 1


if __name__ == "__main__":
    sys.exit(main())
