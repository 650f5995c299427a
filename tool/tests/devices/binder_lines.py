#!/usr/bin/env python3
# SPDX-License-Identifier: Apache-2.0 OR MIT
"""binder_lines [--fetch FOLDER]: writes src/kernel/binder_lines.rs to standard output: where Linux's driver refuses a call, by its sources.

    binder_lines.py VERSION=binder.c ..

failed_transaction_log tells a line of binder.c. Of each source that is given, this lists the lines that the driver notes down so, with
what stands before them: the condition, and what the driver tells the log of the kernel. With --fetch FOLDER the sources are fetched from
Debian's packages linux-source-* of the suites bullseye, bookworm and trixie.
"""
import glob
import os
import re
import subprocess
import sys

HERE = os.path.dirname(os.path.abspath(__file__))
ROOT = os.path.dirname(os.path.dirname(os.path.dirname(HERE)))
sys.dont_write_bytecode = True
sys.path[:0] = [f"{ROOT}/clients/tests", f"{ROOT}/tools"]
import plainly  # noqa: E402, F401  (what is missing is told in one line)

SUITES = {"bullseye": "linux-source-5.10", "bookworm": "linux-source-6.1", "trixie": "linux-source-6.12"}
SECURITY = "http://deb.debian.org/debian-security"
NOTED = re.compile(r"return_error_line = __LINE__;")
SAID = re.compile(r"binder_(?:user_error|txn_error|debug|set_txn_from_error|debug_no_lock)\s*\((.*)$")
HEAD = """// SPDX-License-Identifier: Apache-2.0 OR MIT
//! Where Linux's driver refuses a call, by the line of binder.c that it notes down. tests/devices/binder_lines.py writes this.

/// A version of Linux, as its Makefile has it, and its lines with what holds there, or what the driver says then.
pub type Version = (&'static str, &'static [(u32, &'static str)]);

pub static VERSIONS: [Version; %d] = [
"""


def fetch(folder):
    from packages import Apt
    for suite, package in SUITES.items():
        at = f"{folder}/{suite}"
        os.makedirs(at, exist_ok=True)
        # what a suite mends is in another one
        apt = Apt(f"{at}/apt", [(None, suite), *([(SECURITY, f"{suite}-security")] if suite == "bookworm" else [])])
        apt("update")
        apt("download", package, cwd=at)
        subprocess.run(["dpkg-deb", "-x", glob.glob(f"{at}/{package}_*.deb")[0], at], check=True)
        archive = glob.glob(f"{at}/usr/src/linux-source-*.tar.xz")[0]
        names = [f"{os.path.basename(archive).removesuffix('.tar.xz')}/{it}" for it in ("Makefile", "drivers/android/binder.c")]
        subprocess.run(["tar", "-xJf", archive, "-C", at, "--strip-components=1", *names], check=True)
        with open(f"{at}/Makefile", encoding="utf-8") as file:
            numbers = re.findall(r"^(?:VERSION|PATCHLEVEL|SUBLEVEL) = (\d+)", file.read(), re.M)
        yield ".".join(numbers), f"{at}/drivers/android/binder.c"


def joined(lines, at):
    """A statement that begins in a line, in one line."""
    text = lines[at].strip()
    while not text.endswith((";", "{")) and at + 1 < len(lines):
        at += 1
        text += " " + lines[at].strip()
    return text


def condition(lines, at):
    """The nearest condition above a line that is no further in than it."""
    depth = len(lines[at]) - len(lines[at].lstrip())
    for above in range(at - 1, max(at - 60, 0), -1):
        text = lines[above]
        if text.strip().endswith(":") and not text.strip().startswith(("case", "default")):
            return None
        here = len(text) - len(text.lstrip())
        if here < depth and re.search(r"\bif \(|\bcase |\bdefault:|\belse\b", text):
            return re.sub(r"^\} else |\s*\{$", "", joined(lines, above)).strip()
    return None


def said(lines, at):
    """What the driver tells just before it, if it does: the text of its message."""
    for above in range(at - 1, max(at - 12, 0), -1):
        if "{" in lines[above] and "if" in lines[above] or lines[above].strip() == "}":
            return None
        if SAID.search(lines[above]):
            found = re.findall(r'"((?:[^"\\]|\\.)*)"', joined(lines, above))
            text = "".join(found).replace("\\n", "")
            return re.sub(r"^%d:%d ", "", text).strip() or None
    return None


def table(path):
    with open(path, encoding="utf-8") as file:
        lines = file.read().split("\n")
    for at, line in enumerate(lines):
        if NOTED.search(line):
            text = said(lines, at) or condition(lines, at)
            if text:
                yield at + 1, text.replace("\\", "").replace('"', "'")


def main():
    if len(sys.argv) < 2 or sys.argv[-1] == "--fetch":
        sys.exit(__doc__)
    if sys.argv[1] == "--fetch":
        sources = list(fetch(os.path.abspath(sys.argv[2])))
    else:
        sources = [it.split("=", 1) for it in sys.argv[1:]]
    sys.stdout.write(HEAD % len(sources))
    for version, path in sources:
        print(f'    (\n        "{version}",\n        &[')
        for line, text in table(path):
            print(f'            ({line}, "{text}"),')
        print("        ],\n    ),")
    print("];")


if __name__ == "__main__":
    main()
