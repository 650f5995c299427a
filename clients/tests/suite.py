# SPDX-License-Identifier: Apache-2.0 OR MIT
"""The list of tests, and how they are run: one line for each."""
import os
import re
import time

from stage import Failed

TESTS = []


class Test:
    def __init__(self, name, play, needs, plain_only, timed):
        self.name, self.play, self.needs, self.plain_only, self.timed = name, play, needs, plain_only, timed


def test(name, real=False, plain_only=False, timed=False):
    """Puts a function among the tests. It gets the build, and with `real` the packages; it answers what the line is to tell.
    What a `timed` one judges, another program's work can spoil."""
    def put(play):
        TESTS.append(Test(name, play, real, plain_only, timed))
        return play
    return put


def wanted():
    """What each test fails unless, by its name."""
    with open(os.path.join(os.path.dirname(os.path.abspath(__file__)), "wanted.txt"), encoding="utf-8") as file:
        return dict(line.rstrip("\n").split(": ", 1) for line in file)


def listed():
    """Prints each test with what it fails unless; whether each has its line in wanted.txt, and each line its test."""
    lines, names = wanted(), [it.name for it in TESTS]
    for name in names:
        print(f"{name}: {lines.get(name, 'NOTHING IS SAID of it in wanted.txt')}")
    gone = [it for it in lines if it not in names]
    print(*(f"{it}: there is no such test, but a line in wanted.txt" for it in gone), sep="\n", end="\n" * bool(gone))
    return not gone and all(it in lines for it in names)


def figures(text):
    """The numbers that a program has printed, by the words before them."""
    return {word: float(number) for word, number in re.findall(r"(\S+) (-?\d+(?:\.\d+)?)(?![\w.])", text)}


def run(test, label, *given):
    """Runs a test and prints its line; whether it passed."""
    start = time.monotonic()
    try:
        told = test.play(*given)
    except Failed as why:
        print(f"FAIL {label}: {why}", flush=True)
        return False
    except Exception as why:  # what breaks a test fails it, and the others are run all the same
        print(f"FAIL {label}: {type(why).__name__}: {why}", flush=True)
        return False
    print(f"ok   {label}: {told} ({time.monotonic() - start:.1f} s)", flush=True)
    return True
