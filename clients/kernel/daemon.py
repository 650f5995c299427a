#!/usr/bin/env python3
# SPDX-License-Identifier: Apache-2.0 OR MIT
"""Plays random scripts of well-behaved programs through the daemon and the preloaded library: in how many it answers as Linux's driver.

    clients/check kernel daemon [--scripts N] [--seed N] [--patience MICROSECONDS] [--model] [--kernel FOLDER] [--keep FOLDER]
        [--seconds N] [--document]

The same scripts are played on the driver, as by `clients/check kernel`; with --model its model (the rules with all switches) answers in
its place. A script has 60 lines. Its threads are in the loop, read with room of 256 bytes what there is for them before they write, call
and acquire what they name strongly, release what they acquired, and stay; a process ends now and then. Of a thread's lines that could be
written, 6 in 27 each are calls, replies and acknowledgements, 4 free a buffer, 3 ask for references and 2 for deaths; a call has no object
in 2 of 6, one in 2, two or three in the others.

Where the daemon answers otherwise, the fewest differences are told without which the driver's model answers as it does, or that only
what owners are told differs, or else how its first line does. The last line is `daemon: N of M scripts agree wholly, D differ in named
ways, U unknown`.
"""
import argparse
import collections
import itertools
import os
import subprocess
import sys
import tempfile
import time

sys.dont_write_bytecode = True
HERE = os.path.dirname(os.path.abspath(__file__))
CLIENTS = os.path.dirname(HERE)
sys.path.insert(0, HERE)

import document  # noqa: E402
import driver  # noqa: E402
from compare import Case, LINES, ROOT, driver_answers, tell_unknown  # noqa: E402
from differences import DIFFERENCES  # noqa: E402
from document import fields_apart, shown_all  # noqa: E402
from fetch import Kernel, Missing, default_folder  # noqa: E402
from machine import NotRun  # noqa: E402
from play import Played  # noqa: E402
from random_scripts import PoliteMaker, made  # noqa: E402
from rules import NoRules  # noqa: E402
from wire import read_returns  # noqa: E402

TOLD = ("BR_INCREFS", "BR_ACQUIRE", "BR_RELEASE", "BR_DECREFS")
# the daemon's own: what a thread is told of an object is read by the rules when another of its process reads what stands before that
EARLY = "only in what owners are told of their objects"
DAEMON, LIBRARY = f"{CLIENTS}/out/hullpippind", f"{CLIENTS}/out/libhullpippin-preload.so"


def wait_for_socket(daemon, path):
    end = time.monotonic() + 30
    while not os.path.exists(path):
        if daemon.poll() is not None or time.monotonic() > end:
            raise NotRun("no daemon")
        time.sleep(0.01)
    os.chmod(path, 0o777)  # the processes of scripts have euids of their own


def play(lowered, patience, seconds):
    """What the daemon answers to each script."""
    player = driver.build(static=False)
    with tempfile.TemporaryDirectory(prefix="kernel-daemon-") as folder:
        os.chmod(folder, 0o711)
        path = f"{folder}/socket"
        driver.write_scripts(f"{folder}/scripts", lowered)
        daemon = subprocess.Popen([DAEMON, "--socket", path, "--log", f"{folder}/log"], stdin=subprocess.DEVNULL)
        try:
            wait_for_socket(daemon, path)
            environment = {**os.environ, "LD_PRELOAD": LIBRARY, "HULLPIPPIN_SOCKET": path, "PLAYER_PATIENCE": str(patience)}
            with open(f"{folder}/answers", "w", encoding="ascii") as file:
                done = subprocess.run([player, f"{folder}/scripts"], stdin=subprocess.DEVNULL, stdout=file, stderr=subprocess.PIPE,
                                      text=True, env=environment, timeout=seconds)
        finally:
            daemon.terminate()
            daemon.wait()
        if done.returncode:
            raise NotRun(f"the player ended with {done.returncode}: {done.stderr[-600:]}")
        return driver.read_answers(f"{folder}/answers")


def answers_of(case, ways):
    """What the model answers, line by line, as far as the driver's player can play the script."""
    return [its.answers for its, line in zip(Played(case.script, ways).lines, case.expected) if line.lowered]


def names_of(case, its):
    """The fewest differences without which the driver's model answers as the daemon does in the whole script, or None."""
    found = [its.lines.get(it.number) for it in case.expected if it.lowered]
    asked = [name for name in DIFFERENCES if name in case.asked]
    for count in (1, 2, 3):
        for names in itertools.combinations(asked, count):
            if answers_of(case, DIFFERENCES.keys() - set(names)) == found:
                return names
    return None


def without_told(answers):
    """Answers without what owners are told of their objects."""
    found = []
    for seat, answer in answers or []:
        if answer.startswith("got "):
            stream, *rest = answer.split()[1:]
            others = [it for it in read_returns(bytes.fromhex(stream)) if it[0] not in TOLD]
            answer = "again" if [name for name, _ in others] == ["BR_NOOP"] else str((others, rest))
        found.append((seat, answer))
    return found


def differs_in_told(case, its):
    """Whether the daemon answers otherwise only in what owners are told of their objects, and when."""
    return all(without_told(its.lines.get(it.number)) == without_told(drivers_answers(case, it)) for it in case.expected if it.lowered)


def drivers_answers(case, line):
    """What the driver has answered, or its model where it wasn't asked."""
    return case.answers.lines.get(line.number) if case.answers else line.answers


def first_apart(case, its):
    """The first line that the daemon answers otherwise than the driver, and what this answers; or None."""
    for line in case.expected:
        drivers = drivers_answers(case, line)
        if line.lowered and its.lines.get(line.number) != drivers:
            return line, drivers
    return None


def kind_of(line, drivers, its):
    """What kind of line is answered otherwise, by the returns that the driver and the daemon give there."""
    own = line.answers[0][0]
    expected, found = shown_all(drivers, own), shown_all(its, own)
    if expected == found:
        return f"{line.words.split()[1]}: {', '.join(fields_apart(drivers[0][1], its[0][1]))} in {found}"
    return f"{line.words.split()[1]}: driver {expected}; daemon {found}"


Judged = collections.namedtuple("Judged", "agree names unknown")


def judge(all_cases, found):
    """In which scripts the daemon answers as the driver; in which otherwise, by the differences; and in how many neither."""
    agree, names, unknown = [], collections.defaultdict(list), 0
    for case in all_cases:
        its = found.get(case.name)
        apart = its and first_apart(case, its)
        if its and not apart:
            agree.append(case)
            continue
        named = its and (names_of(case, its) or differs_in_told(case, its) and [EARLY])
        if named:
            names[", ".join(named)].append((case, apart))
            continue
        unknown += 1
        print(f"FAIL {case.name}: " + (f"line {apart[0].number}: {kind_of(*apart, its.lines.get(apart[0].number))}" if apart else
                                       "it wasn't played to its end"))
    return Judged(agree, names, unknown)


def judge_driver(given, all_cases):
    """Plays the scripts on the driver, which has to answer as its model: in how many it doesn't, and which driver it is."""
    kernel = Kernel(os.path.abspath(given.kernel))
    answers, wrong = driver_answers(given, kernel, all_cases), 0
    for case in all_cases:
        case.answers = answers.get(case.name)
        line = case.unknown()
        if line:
            wrong += 1
            tell_unknown(case, line)
    return wrong, kernel.version


def text_of(given, version, all_cases, judged):
    """What docs/DIFFERENCES.md has of it."""
    lines = sum(len(it.rules) for it in all_cases)
    rows = [(names, str(len(those)), f"{those[0][0].name}, line {those[0][1][0].number}") for names, those in
            sorted(judged.names.items(), key=lambda it: -len(it[1]))]
    head = (f"Seen on {version}, by `clients/check kernel daemon --scripts {given.scripts} --seed {given.seed}`: {len(judged.agree)} of "
            f"{len(all_cases)} scripts, with {lines} lines, agree wholly with the driver.")
    return "\n".join([head, "", *document.table(["Others differ by", "Scripts", "First seen in"], rows)] if rows else [head])


def arguments():
    parser = argparse.ArgumentParser(usage=__doc__)
    parser.add_argument("--scripts", type=int, default=500)
    parser.add_argument("--seed", type=int, default=int(time.time()))
    parser.add_argument("--patience", type=int, default=20000)
    parser.add_argument("--seconds", type=int, default=7200)
    parser.add_argument("--kernel", default=default_folder())
    parser.add_argument("--keep")
    parser.add_argument("--model", action="store_true")
    parser.add_argument("--document", action="store_true")
    return parser.parse_args()


def main():
    given = arguments()
    try:
        all_cases = [Case(f"polite script {it}", made(it, LINES, PoliteMaker)) for it in range(given.seed, given.seed + given.scripts)]
        found = play({it.name: it.lowered() for it in all_cases}, given.patience, given.seconds)
        wrong, version = (0, "its model") if given.model else judge_driver(given, all_cases)
    except (Missing, NoRules, NotRun, OSError, subprocess.TimeoutExpired) as why:
        print(f"daemon: it can't be played: {why}", file=sys.stderr)
        return 1
    judged = judge(all_cases, found)
    for names, those in sorted(judged.names.items(), key=lambda it: -len(it[1])):
        print(f"{len(those):5}  {names}  ({those[0][0].name}, line {those[0][1][0].number})")
    if given.document and not given.model and not judged.unknown and not wrong:
        document.write(ROOT, "the daemon", text_of(given, version, all_cases, judged))
    named = sum(map(len, judged.names.values()))
    print(f"daemon: {len(judged.agree)} of {len(all_cases)} scripts agree wholly, {named} differ in named ways, "
          f"{judged.unknown + wrong} unknown")
    return 1 if judged.unknown or wrong else 0


if __name__ == "__main__":
    sys.exit(main())
