# SPDX-License-Identifier: Apache-2.0 OR MIT
"""Clients are recorded over the daemon, between them and the preloaded library, as they would be over a driver: the rules have to explain
all that they were answered, and the player has to answer so in the order that was found."""
import os
import re
import resource
import subprocess

from builds import CLIENTS, ROOT, NotBuilt
from raw_tests import DEVICE
from stage import Stage, expect, tail
from suite import test

TOOL = f"{ROOT}/tool"
# those that need no difference on a driver either
PLAIN = ("latency 50", "nested", "oneway", "deaths", "waits", "parcels", "pool", "many 4 3 50", "many 8 4 100")
# eight callers with so many calls each make that many steps, which are judged within so many seconds of a processor
LONG, LONG_STEPS, LONG_SECONDS = "many 8 4 1900", 100_000, 60
VERDICT = re.compile(r"\d+ processes, (\d+) threads, (\d+) steps: (.*)")
WRITTEN = re.compile(r"the order is written to .*, (\d+) entries")


def program():
    """The program that records and judges: the one that HULLPIPPIN names, or that is built, or that is built here."""
    paths = [os.environ.get("HULLPIPPIN"), f"{TOOL}/target/release/hullpippin", f"{TOOL}/target/debug/hullpippin"]
    found = next((it for it in paths if it and os.access(it, os.X_OK)), None)
    if found:
        return found
    done = subprocess.run(["cargo", "--quiet", "--config", ".cargo/offline.toml", "build"], cwd=TOOL, stdin=subprocess.DEVNULL,
                          capture_output=True, text=True)
    if done.returncode:
        raise NotBuilt(f"hullpippin can't be built: {tail(done.stderr)}")
    return paths[-1]


def record(build, stage, words):
    """Runs a raw client and keeps what it was asked and answered: where."""
    name, *rest = words.split()
    into = f"{stage.folder}/recording"
    library = f"{CLIENTS}/{build.out}/libhullpippin-record.so"
    told = stage.run([program(), "record", "--no-trace", "--into", into, build.raw(name), *rest], 180, client=False,
                     environment={"HULLPIPPIN_RUN": f"{CLIENTS}/hullpippin-run", "HULLPIPPIN_RECORDER": library})
    expect(re.search(r"recording: [1-9]\d* calls of \d+ threads", told), f"{words}: {tail(told)}")
    return into


def judged(build, stage, words):
    """The rules explain a recording without a difference, and the player the order: how many steps, and seconds of a processor."""
    recording, order = record(build, stage, words), f"{stage.folder}/order"
    before = resource.getrusage(resource.RUSAGE_CHILDREN).ru_utime
    told = stage.run([program(), "judge", recording, "--journal", order], 600, statuses=(0, 1), client=False)
    seconds = resource.getrusage(resource.RUSAGE_CHILDREN).ru_utime - before
    verdict, written = VERDICT.match(told), WRITTEN.search(told)
    expect(verdict and verdict[3] == "lawful" and written, f"{words}: {tail(told)}")
    if build.judges_wide():
        done = subprocess.run([build.judge, "check", order], capture_output=True, text=True, timeout=600)
        expect(done.stdout.split() == ["lawful", written[1]], f"{words}: of {written[1]} entries the player says {tail(done.stdout)}")
    return int(verdict[2]), seconds


@test("raw recorded clients", plain_only=True)
def recorded_clients(build):
    """What the daemon answers is explained from outside too, by who was asked what, when, and answered what."""
    steps = 0
    for words in PLAIN:
        with Stage(build, journal=DEVICE) as stage:
            steps += judged(build, stage, words)[0]
    return f"{len(PLAIN)} clients, {steps} steps, lawful without a difference"


@test("raw recorded at length", plain_only=True)
def recorded_at_length(build):
    """A recording of a hundred thousand steps is judged within a minute."""
    with Stage(build) as stage:
        steps, seconds = judged(build, stage, LONG)
    expect(steps >= LONG_STEPS, f"{steps} steps")
    expect(build.untimed or seconds <= LONG_SECONDS, f"{steps} steps took {seconds:.0f} s")
    return f"{steps} steps, lawful, {seconds:.1f} s of a processor"
