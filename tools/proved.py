# SPDX-License-Identifier: Apache-2.0 OR MIT
"""What is known to be proved: a record beside a built file, FILE.proved, and in out/gate what the gate has passed.

A record has a line for each of `commit`, `sources` (the sum of all that is proved), `kit` and `sum` (the file's), the gate's
one for `libraries` (those that it has built, by their sizes and times). Of a file that was built otherwise since, nothing is
known, nor of an archive over other libraries than the gate's. Records keep out mistakes, not lies.
"""
import glob
import hashlib
import os
import re
import subprocess

import crates

ROOT = crates.ROOT
GATE = f"{ROOT}/out/gate"
LIBRARY = f"{crates.folder('bd_c')}/out/libhullpippin.a"
PLAYER = f"{crates.folder('bd_play')}/out/bd_play"
# How README.md names the kit, and its logic: as `rt version` does.
KIT = re.compile(r"`rattle-kit-\S+ logic ([0-9a-f]+)`")
# What isn't proved, of a crate's folder.
ASIDE = ("out", "edits", "must-fail")


def sum_of(path):
    with open(path, "rb") as file:
        return hashlib.file_digest(file, "sha256").hexdigest()


def stamp_of(path):
    """What changes where a file is written anew, for those that are too large to be read."""
    found = os.stat(path)
    return f"{found.st_size} {found.st_mtime_ns}"


def sum_of_all(paths, told):
    """The sum of these files, and of those below these folders: each one's path, and what is told of it."""
    found = {it for path in paths for it in [path, *glob.glob(f"{glob.escape(path)}/**", recursive=True)] if os.path.isfile(it)}
    lines = "".join(f"{os.path.relpath(it, ROOT)} {told(it)}\n" for it in sorted(found))
    return hashlib.sha256(lines.encode()).hexdigest()


def sources():
    """The sum of all that is proved."""
    parts = [it for it in glob.glob(f"{ROOT}/crates/*/*") if os.path.basename(it) not in ASIDE]
    return sum_of_all([f"{ROOT}/crates.txt", f"{ROOT}/HANDLES", *parts], sum_of)


def commit():
    """The commit whose sources these are; where they are none's, it says so."""
    head, changed = (subprocess.run(["git", "-C", ROOT, *words], capture_output=True, text=True) for words in (
        ["rev-parse", "HEAD"], ["status", "--porcelain", "--", "crates", "crates.txt", "HANDLES"]))
    if head.returncode:
        return "unknown"
    return head.stdout.strip() + (" with changes" if changed.stdout.strip() else "")


def kit():
    return subprocess.run(["rt", "version"], check=True, capture_output=True, text=True).stdout.strip()


def state():
    """What is to be proved, as it stands now."""
    return {"commit": commit(), "sources": sources(), "kit": kit()}


def written(path, record):
    os.makedirs(os.path.dirname(path), exist_ok=True)
    with open(path, "w", encoding="utf-8") as file:
        file.writelines(f"{key} {value}\n" for key, value in record.items())


def read(path):
    """A record; nothing where there is none."""
    try:
        with open(path, encoding="utf-8") as file:
            return dict(line.rstrip("\n").split(" ", 1) for line in file if " " in line)
    except OSError:
        return {}


def libraries():
    """Which built libraries the archive stands on; nothing where one isn't there."""
    built = [crates.built(it) for it in crates.below("bd_c")]
    return sum_of_all(built, stamp_of) if all(map(os.path.exists, built)) else ""


def note(path, what):
    """Notes that this file was proved, of such a state."""
    written(f"{path}.proved", {**what, "sum": sum_of(path)})


def forget(path):
    """Takes a record away, before its file is built anew."""
    if os.path.exists(f"{path}.proved"):
        os.remove(f"{path}.proved")


def known(path):
    """The record of a file that is still the one that was proved; nothing where there is none."""
    record = read(f"{path}.proved")
    return record if record and record.get("sum") == sum_of(path) else {}


def note_gate(what):
    """Notes that the gate has passed all of that state, and that it built the libraries and the player."""
    written(GATE, {**what, "libraries": libraries()})
    if os.path.exists(PLAYER):
        note(PLAYER, what)


def gate_passed(what):
    """Whether a gate is known to have passed these sources."""
    return bool(what) and read(GATE).get("sources") == what["sources"]


def are_of_gate(what):
    """Whether the built libraries are those of a gate that has passed these sources."""
    built = libraries()
    return gate_passed(what) and built != "" and read(GATE).get("libraries") == built


def main():
    """Whether the archive that stands is proved of the sources that stand: `proved` and of what, or `unproved`; and the sources' sum."""
    record, sum_of_sources = known(LIBRARY) if os.path.exists(LIBRARY) else {}, sources()
    if record and record.get("sources") == sum_of_sources:
        print(f"proved, of commit {record['commit'][:12]}, by {record['kit']}; sources {sum_of_sources}")
    else:
        print(f"unproved; sources {sum_of_sources}")


if __name__ == "__main__":
    main()
