#!/usr/bin/env python3
# SPDX-License-Identifier: Apache-2.0 OR MIT
"""Plays scripts on Linux's own driver, on the engine, and by the rules that stand between them (`hullpippin rules`), and tells where they
agree.

    clients/check kernel [--scripts N] [--long N] [--pool N] [--seed N] [--bplay PROGRAM] [--kernel FOLDER] [--seconds N]
        [--keep FOLDER] [--only WORD] [--document]
    clients/check kernel --model ..

Of random scripts N have 60 lines (500), N have 200 (100), and N have 60 with a pool of threads that wait for calls (100); besides them
the worked examples are played that a real program can play, and the scripts in `kinds/`, each of which has to show its difference. The
rules without a switch have to answer as the player does, line by line, and with all as the driver does. The last line is `kernel: N agree,
D differ in named ways, 0 unknown`: in how many scripts the driver answers as the rules have it, in how many otherwise as the named
differences have it, and in how many neither.

The kernel is fetched into FOLDER (clients/out/kernel). What was played stays in --keep FOLDER: the same words go on where a run was
broken off, or had no more than --seconds. --only plays what has WORD in its name, as "kind". --document writes what was seen into
docs/DIFFERENCES.md; of what is unknown how many there are, in the table of drivers. With --model the driver is left out, and with it the network and the machine: only the rules are judged, beside
the player. Needs tool/setup's hullpippin, or the one that HULLPIPPIN names.
"""
import argparse
import glob
import os
import shutil
import sys
import tempfile
import time

sys.dont_write_bytecode = True
HERE = os.path.dirname(os.path.abspath(__file__))
ROOT = os.path.dirname(os.path.dirname(HERE))
sys.path.insert(0, HERE)

import document  # noqa: E402
import driver  # noqa: E402
import engine  # noqa: E402
from differences import DIFFERENCES, of_version  # noqa: E402
from fetch import Kernel, Missing, default_folder  # noqa: E402
from machine import NotRun  # noqa: E402
from play import Played, with_keys  # noqa: E402
from random_scripts import PoolMaker, made  # noqa: E402
from rules import NoRules  # noqa: E402
from scripts import Script  # noqa: E402

LINES, LONG = 60, 200


class Case:
    """A script with what the rules and the driver's model answer, and then what the driver did."""

    def __init__(self, name, text, ways=DIFFERENCES):
        self.name, self.script, self.ways = name, with_keys(Script(text)), ways
        by_rules, drivers = Played(self.script), Played(self.script, ways)
        self.rules, self.plain = by_rules.lines, by_rules.plain
        self.expected, self.asked = drivers.lines, drivers.asked
        self.answers = None

    def lowered(self):
        return [f"{it.number} {it.lowered}" for it in self.expected if it.lowered]

    def differs_from(self, lines):
        """The first line that the driver answers otherwise than these lines have it, or None."""
        return next((it for it in lines if it.lowered and self.answers.lines.get(it.number) != it.answers), None)

    def unknown(self):
        """Where the driver doesn't answer as the rules with all differences: the line, or None."""
        if not self.answers:
            return self.expected[-1]
        return self.differs_from(self.expected)

    def agrees(self):
        """Whether the driver answers as the rules have it, in all lines that it can play."""
        return self.differs_from([rule for rule, it in zip(self.rules, self.expected) if it.lowered]) is None

    def differences(self):
        """The differences without which the rules would answer otherwise than the driver here."""
        def answers(ways):
            return [it.answers for it in Played(self.script, ways).lines]
        whole = [it.answers for it in self.expected]
        return [name for name in self.ways if name in self.asked and answers(self.ways.keys() - {name}) != whole]


def texts_of(pattern, kind):
    found = {}
    for path in sorted(glob.glob(pattern)):
        with open(path, encoding="ascii") as file:
            found[f"{kind} {os.path.basename(path)[:-len('.script')]}"] = file.read()
    return found


def cases(given, ways):
    texts = {f"script {given.seed + it}": made(given.seed + it, LINES) for it in range(given.scripts)}
    texts |= {f"long script {given.seed + it}": made(given.seed + it, LONG) for it in range(given.long)}
    texts |= {f"pool script {given.seed + it}": made(given.seed + it, LINES, PoolMaker) for it in range(given.pool)}
    texts |= texts_of(f"{ROOT}/examples/*.script", "example")
    texts |= texts_of(f"{HERE}/kinds/*.script", "kind")
    return [Case(name, text, ways) for name, text in texts.items() if given.only in name and Script(text).is_playable()]


def judge_model(all_cases, program):
    """The rules without any difference have to answer as the player: in how many scripts they don't."""
    wrong = 0
    for case in all_cases:
        found = engine.first_difference(program, case.script.seats, case.plain)
        if found:
            wrong += 1
            print(f"FAIL {case.name}: the rules aren't the player: {found[0][:160]}\n  rules  {found[1][:300]}\n  player {found[2][:300]}")
    lines = sum(len(it.rules) for it in all_cases)
    print(f"the rules without a switch answer as the player in {len(all_cases) - wrong} of {len(all_cases)} scripts, {lines} lines")
    return wrong


def tell_unknown(case, line):
    its = case.answers.lines.get(line.number) if case.answers else "nothing"
    print(f"FAIL {case.name}, line {line.number}: {line.words[:200]}\n  expected {str(line.answers)[:400]}\n  driver   {str(its)[:400]}")


def judge_driver(all_cases, ways):
    """How many scripts agree, differ in named ways, are unknown; and how often each difference was met, in which script first."""
    agree, unknown, met = 0, 0, {name: [] for name in ways}
    for case in all_cases:
        line = case.unknown()
        if line:
            unknown += 1
            tell_unknown(case, line)
            continue
        if case.agrees():
            agree += 1
            continue
        for name in case.differences():
            met[name].append(case)
    return agree, len(all_cases) - agree - unknown, unknown, met


def unseen(met, all_cases):
    """Differences that their own script doesn't show, if it was played."""
    played_kinds = {it.name for it in all_cases}
    return [name for name, found in met.items() if f"kind {name}" in played_kinds - {it.name for it in found}]


def arguments():
    parser = argparse.ArgumentParser(usage=__doc__)
    parser.add_argument("--scripts", type=int, default=500)
    parser.add_argument("--long", type=int, default=100)
    parser.add_argument("--pool", type=int, default=100)
    parser.add_argument("--seed", type=int, default=int(time.time()))
    parser.add_argument("--bplay", default=engine.PLAYER)
    parser.add_argument("--kernel", default=default_folder())
    parser.add_argument("--seconds", type=int, default=7200)
    parser.add_argument("--keep")
    parser.add_argument("--only", default="")
    parser.add_argument("--document", action="store_true")
    parser.add_argument("--model", action="store_true")
    return parser.parse_args()


def driver_answers(given, kernel, all_cases):
    """What the driver answers to each script, in a folder that stays if it is wanted."""
    folder = os.path.abspath(given.keep) if given.keep else tempfile.mkdtemp(prefix="kernel-play-")
    try:
        return driver.play(driver.Goes(folder, kernel), {it.name: it.lowered() for it in all_cases}, given.seconds)
    finally:
        if not given.keep:
            shutil.rmtree(folder, ignore_errors=True)


def main():
    given = arguments()
    if not os.path.exists(given.bplay):
        print(f"kernel: {given.bplay} isn't built: cd crates/bd_play && rt run < stdin", file=sys.stderr)
        return 1
    try:
        kernel = None if given.model else Kernel(os.path.abspath(given.kernel))
        ways = of_version(kernel.version if kernel else "")
        all_cases = cases(given, ways)
    except (Missing, NoRules, OSError) as why:
        print(f"kernel: {why}", file=sys.stderr)
        return 1
    wrong = judge_model(all_cases, given.bplay)
    if given.model:
        return 1 if wrong else 0
    try:
        found = driver_answers(given, kernel, all_cases)
    except (Missing, NotRun, OSError) as why:
        print(f"kernel: the driver can't be played: {why}", file=sys.stderr)
        return 1
    for case in all_cases:
        case.answers = found.get(case.name)
    agree, differ, unknown, met = judge_driver(all_cases, ways)
    for name in unseen(met, all_cases):
        unknown += 1
        print(f"FAIL {name}: kinds/{name}.script doesn't show it")
    for name, those in met.items():
        print(f"{len(those):5}  {name}: {ways[name].driver}")
    if given.document and not wrong and not given.only:
        run = document.Run(kernel.version, given, all_cases, met, agree, differ)
        if os.path.abspath(given.kernel) == default_folder() and not unknown:
            document.write(ROOT, "the run", document.text_of(run))
        document.write_cells(ROOT, "drivers", kernel.version, {"Scripts": f"{agree} agree, {differ} in named ways, {unknown} unknown"})
    print(f"kernel: {agree} agree, {differ} differ in named ways, {unknown + wrong} unknown")
    return 1 if unknown or wrong else 0


if __name__ == "__main__":
    sys.exit(main())
