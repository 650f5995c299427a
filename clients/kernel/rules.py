# SPDX-License-Identifier: Apache-2.0 OR MIT
"""The rules of docs/RULES.md with a switch for each way in which Linux's driver does otherwise (differences.py), as `hullpippin rules`
plays them.

A dialogue says of each line of a script at once what it comes to, and what there is then: docs/FORMATS.md has the form of both. The
program is the one that HULLPIPPIN names, or else what tool/setup has built.
"""
import json
import os
import subprocess

ROOT = os.path.dirname(os.path.dirname(os.path.dirname(os.path.abspath(__file__))))
BUILT = os.path.join(ROOT, "tool", "target", "release", "hullpippin")


class NoRules(Exception):
    """The rules can't be asked: why."""


def program():
    path = os.environ.get("HULLPIPPIN") or BUILT
    if not os.access(path, os.X_OK):
        raise NoRules(f"{path} isn't there: tool/setup builds it")
    return path


def words(ways):
    return [program(), "rules", "-", "--format", "json", "--ways", ",".join(sorted(ways))]


def answers(seats, lines, ways=()):
    """What each line of a script comes to."""
    text = "".join(f"{it}\n" for it in [f"seats {seats}", *lines])
    done = subprocess.run(words(ways), input=text, capture_output=True, text=True)
    if done.returncode:
        raise NoRules(done.stderr)
    return [json.loads(it) for it in done.stdout.splitlines()]


class Dialogue:
    """A script that is written as it is played."""

    def __init__(self, seats, ways=()):
        self.process = subprocess.Popen(words(ways), stdin=subprocess.PIPE, stdout=subprocess.PIPE, text=True)
        self.tell(f"seats {seats}")

    def tell(self, line):
        self.process.stdin.write(f"{line}\n")
        self.process.stdin.flush()

    def ask(self, line):
        self.tell(line)
        answer = self.process.stdout.readline()
        if not answer:
            raise NoRules(f"no answer to {line}")
        return json.loads(answer)

    def end(self):
        self.process.stdin.close()
        self.process.stdout.close()
        self.process.wait()
