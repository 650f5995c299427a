# SPDX-License-Identifier: Apache-2.0 OR MIT
"""Soaks: clients and services that come, call and are killed at random, while the daemon's memory is watched."""
import random
import threading
import time

from raw_tests import DEVICE, GIVES_BACK
from rings import asked
from stage import Failed, Stage, expect, open_files, resident
from suite import test

# how long a soak takes, unless --soak says otherwise; one that takes longer pauses behind each call, so that its journal can be judged
SECONDS = 20
PAUSE = 100000
# from this second on the daemon's memory has to be flat; of a long soak, whose clients pause, from its half on: its tables grow until they
# have met the most of each kind that there is at once
WARM = 10
KIB = 256
# the longest time of those who live for long
LONG = 30
# seconds in which the daemon lets go of what those have left who were killed last
PATIENCE = 10
SAMPLES = 10


class Player(threading.Thread):
    """Starts one of some programs again and again, and kills it after a while, unless it ends by itself."""

    def __init__(self, stage, choices, longest, honest, seed):
        super().__init__(daemon=True)
        self.stage, self.choices, self.longest, self.honest = stage, choices, longest, honest
        self.chance = random.Random(seed)
        self.until = time.monotonic() + stage.build.soak_seconds
        self.kills, self.why = 0, None

    def run(self):
        try:
            while time.monotonic() < self.until:
                self.once()
        except Exception as why:  # it is told by whoever joins
            self.why = why

    def once(self):
        words = self.chance.choice(self.choices)
        process = self.stage.start(words)
        end = time.monotonic() + self.chance.uniform(0.05, self.longest)
        while process.runs() and time.monotonic() < end:
            time.sleep(0.01)
        if process.runs():
            process.kill()
            self.kills += 1
        elif self.honest and process.process.returncode:
            raise Failed(f"{' '.join(words)}: {process.printed().strip()}")


def watched(stage, players):
    """The least of the daemon's memory in each second, while the players play. In a second that nobody was let look it is as before."""
    memory, begin = [], time.monotonic()
    for player in players:
        player.start()
    while any(player.is_alive() for player in players):
        least = []
        for _ in range(SAMPLES):
            time.sleep(1 / SAMPLES)
            least.append(resident(stage.daemon.pid))
        memory += [min(least)] * max(1, int(time.monotonic() - begin) - len(memory))
    for player in players:
        player.join()
        if player.why:
            raise Failed(str(player.why))
    return memory


def is_long(seconds):
    return seconds > 3 * SECONDS


def is_flat(memory, seconds):
    """Whether memory grows no more: at its least. What comes and goes with unread parcels is above that."""
    warm = seconds // 2 if is_long(seconds) else WARM
    early, late = memory[warm - 1:warm + 5], memory[max(warm + 4, seconds - SECONDS):seconds]
    expect(len(late) > 3, f"the soak was over after {len(memory)} seconds")
    return min(late) <= min(early) + KIB


def descriptors_at_rest(stage):
    """How many descriptors the daemon has before the players come: the least of a second, once its device has begun and answers. A daemon
    listens before that, and beside other work there is time to look in between, when the device's own descriptors aren't there yet."""
    asked(stage.build, stage, ["--state", DEVICE])
    found = []
    for _ in range(SAMPLES):
        found.append(open_files(stage.daemon.pid))
        time.sleep(1 / SAMPLES)
    return min(found)


def wait_for_descriptors(stage, before):
    """Until the daemon has no more than before: how many seconds that took. What the killed have left it closes one after the other,
    which takes its time beside other work; what stays for longer stays for good."""
    begin = time.monotonic()
    while (after := open_files(stage.daemon.pid)) > before:
        expect(time.monotonic() < begin + PATIENCE, f"the daemon has {after} descriptors after {before}")
        time.sleep(0.02)
    return time.monotonic() - begin


def soak(build, begin, parts, honest, then=lambda stage: None):
    """Begins, and plays parts, each some commands and the longest time of one life; judges memory, descriptors and the journal, and
    what is played then."""
    with Stage(build, journal=DEVICE, daemon_environment=GIVES_BACK) as stage:
        begin(stage)
        before = descriptors_at_rest(stage)
        players = [Player(stage, choices, longest, honest, seed) for seed, (choices, longest) in enumerate(parts(stage))]
        memory = watched(stage, players)
        kills, seconds = sum(player.kills for player in players), build.soak_seconds
        told = memory[WARM - 1:seconds:max(1, seconds // SECONDS)]
        expect(build.sanitized or is_flat(memory, seconds), f"the daemon's memory by seconds: {told} KiB")
        expect(kills > seconds, f"only {kills} were killed")
        took = wait_for_descriptors(stage, before)
        then(stage)
    return f"{kills} killed in {seconds} s; KiB of memory from second {WARM} on: {told}; descriptors were back after {took:.1f} s; \
lawful, {stage.entries} steps"


def raw_parts(stage):
    """Some live for long, so that they see who hangs: they fail where a call isn't answered, or a death isn't told, in five seconds."""
    seconds = stage.build.soak_seconds
    pause = PAUSE if is_long(seconds) else 0

    def busy(part, longest):
        return [[stage.build.raw("busy"), part, str(seconds), str(pause)]], longest
    return [busy("serve", 3), busy("serve", 3), *[busy("call", 2)] * 3, busy("call", LONG), *[busy("hold", 1)] * 2, busy("hold", LONG)]


@test("raw soak of kills", timed=True)
def raw_soak(build):
    return soak(build, lambda stage: None, raw_parts, honest=True, then=lambda stage: stage.run([build.raw("nested")]))
