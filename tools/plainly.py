# SPDX-License-Identifier: Apache-2.0 OR MIT
"""Has a program that imports this end in one line, in place of a traceback, where another program or a file that it needs is missing; and
`must`, by which it runs a command and ends where that fails; and `Words`, by which it reads its own words. With --help alone it prints what it
says of itself, and ends.

What a user can mend by installing or building something is told so: a program that can't be started, a file that isn't there, a command that
failed. Where who read what it prints has gone, as `head` does, it says nothing. All else is a fault of ours and keeps its traceback.
"""
import argparse
import atexit
import os
import re
import subprocess
import sys

# The lines that show how a program is called.
CALLED = re.compile(r"(?:^    .*\n)+", re.M)
# What to do about a program that is missing.
HINTS = {"rt": "it is the command of the Rattle kit, which proves and compiles Rattle: README.md",
         "cc": "a C compiler: Debian's packages gcc and libc6-dev", "c++": "Debian's package g++", "make": "Debian's package make",
         "ar": "Debian's package binutils", "git": "Debian's package git", "cargo": "Debian's packages cargo and rustc",
         "pkg-config": "Debian's package pkg-config", "dpkg-deb": "Debian's package dpkg", "mmdebstrap": "Debian's package mmdebstrap"}


class Words(argparse.ArgumentParser):
    """The words of a program. Its help is what the program says of itself, and its usage what stands there indented first: how it is called."""

    def __init__(self, said, **how):
        super().__init__(**how)
        self.said = said

    def format_help(self):
        return self.said

    def format_usage(self):
        found = CALLED.search(self.said)
        return "usage:\n" + found[0] if found else f"usage: {self.prog}\n"


def told(error):
    """The line for an error that a user can mend; None for a fault of ours."""
    if isinstance(error, subprocess.CalledProcessError):
        words = error.cmd if isinstance(error.cmd, str) else " ".join(map(str, error.cmd[:4]))
        said = error.stderr or error.output or b""
        said = said.decode(errors="replace") if isinstance(said, bytes) else said
        last = (said.strip().splitlines() or [""])[-1]
        return f"`{words}` failed with status {error.returncode}{': ' if last else ''}{last}"
    if isinstance(error, OSError) and error.filename:
        name = os.fsdecode(error.filename) if isinstance(error.filename, (str, bytes)) else str(error.filename)
        if isinstance(error, FileNotFoundError) and "/" not in name:
            return f"{name} isn't here{': ' if name in HINTS else ''}{HINTS.get(name, '')}"
        return f"{name}: {error.strerror}"
    return None


def must(words, **how):
    """What a command prints, which has to go well: else this program ends with it."""
    done = subprocess.run(words, stdin=subprocess.DEVNULL, stdout=subprocess.PIPE, stderr=subprocess.STDOUT, text=True, errors="replace", **how)
    if done.returncode:
        sys.exit(f"{os.path.basename(sys.argv[0])}: {' '.join(words[:3])}: status {done.returncode}\n{done.stdout}")
    return done.stdout


def helped():
    """Prints what the program says of itself, and ends it, where nothing else is asked of it."""
    said = sys.modules["__main__"].__doc__
    if said and sys.argv[1:] in (["--help"], ["-h"]):
        print(said, end="")
        sys.exit(0)


def unread():
    """Nobody reads on, so there is nobody to tell: what is left to print goes nowhere."""
    os.dup2(os.open(os.devnull, os.O_WRONLY), 1)


def flushed():
    try:
        sys.stdout.flush()
    except BrokenPipeError:
        unread()


def hook(kind, error, trace):
    line = told(error)
    if isinstance(error, BrokenPipeError) and line is None:
        unread()
    elif line is None:
        sys.__excepthook__(kind, error, trace)
    else:
        print(f"{os.path.basename(sys.argv[0])}: {line}", file=sys.stderr)


sys.excepthook = hook
atexit.register(flushed)
helped()
