# SPDX-License-Identifier: Apache-2.0 OR MIT
"""What tools/edits keeps between its runs: what came of each try that went well, under a SHA-256 over all that decides it.

It lies outside of the repository, below hullpippin/edits in $XDG_CACHE_HOME or ~/.cache, so that all clones share it. What no run has used for
30 days goes. With RT_ANEW=1 nothing is taken from there.
"""
import functools
import hashlib
import json
import os
import subprocess
import tempfile
import time

import crates

# What a crate's proofs are made of, and what of that lies in its library, as the gate has read it.
PARTS = ("src", "specs", "proofs")
IN_LIBRARY = ("lang/src", "lang/antt/specs", "lang/antt/proofs")
# What runs a try, besides the kit.
TOOLS = ("edits", "crates.py", "kept.py")
DAYS = 30


def folder():
    return f"{os.environ.get('XDG_CACHE_HOME') or os.path.expanduser('~/.cache')}/hullpippin/edits"


def content(path):
    with open(path, "rb") as file:
        return file.read()


def files(top, parts):
    """The path and the bytes of each file in these parts of a folder."""
    for part in parts:
        for at, _, names in sorted(os.walk(f"{top}/{part}")):
            for name in sorted(names):
                yield os.path.relpath(f"{at}/{name}", top).encode()
                yield content(f"{at}/{name}")


def summed(pieces):
    """One sum of all pieces, of which each counts with its length."""
    total = hashlib.sha256()
    for it in pieces:
        total.update(b"%d " % len(it))
        total.update(it)
    return total.hexdigest()


@functools.lru_cache(maxsize=None)
def of_tools():
    """The kit, and what works with it."""
    version = subprocess.run(["rt", "version"], check=True, capture_output=True).stdout
    paths = [f"{crates.kit()}/bin/rattle", *(f"{crates.ROOT}/tools/{it}" for it in TOOLS)]
    return summed([version, *map(content, paths)]).encode()


@functools.lru_cache(maxsize=None)
def of_crate(name):
    """A crate that others stand on: its sources, and its library, which may be of other ones."""
    return summed([line_of(name), *files(crates.folder(name), PARTS), *files(crates.built(name), IN_LIBRARY)]).encode()


def line_of(name):
    return f"{name}: {' '.join(crates.uses()[name])}".encode()


def key(crate, room, about):
    """The sum of all that decides what comes of a try in this copy of a crate; `about` are its words."""
    return summed([of_tools(), line_of(crate), *files(room, PARTS), *map(of_crate, crates.below(crate)), *(it.encode() for it in about)])


def found(name):
    """What was kept of this try, or None."""
    if os.environ.get("RT_ANEW"):
        return None
    try:
        told = json.loads(content(f"{folder()}/{name}"))
        os.utime(f"{folder()}/{name}")  # it is in use
        return told
    except (OSError, ValueError):
        return None


def keep(name, told):
    """Keeps what came of a try. Where nothing can be written, the next run tries it again."""
    try:
        os.makedirs(folder(), exist_ok=True)
        with tempfile.NamedTemporaryFile("w", dir=folder(), encoding="utf-8", delete=False) as file:
            json.dump(told, file)
        os.replace(file.name, f"{folder()}/{name}")
    except OSError:
        pass


def forget():
    """Drops what no run has used for so long."""
    try:
        with os.scandir(folder()) as entries:
            for it in entries:
                if it.stat().st_mtime < time.time() - DAYS * 86400:
                    os.unlink(it.path)
    except OSError:
        pass  # there is nothing yet, or another run has dropped it
