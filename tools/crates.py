# SPDX-License-Identifier: Apache-2.0 OR MIT
"""What crates.txt says, the words by which the kit's compiler works over libraries that the gate has built, and the crates' edits."""
import functools
import glob
import os
import shutil
import subprocess
import tempfile

import plainly  # noqa: F401  (what is missing is told in one line)

ROOT = os.path.dirname(os.path.dirname(os.path.abspath(__file__)))
# How the library's part in C is compiled, which goes into shared libraries too.
IN_C = ["-std=c11", "-O2", "-fPIC", "-Wall", "-Wextra", "-Wpedantic", "-Werror"]


@functools.lru_cache(maxsize=None)
def kit():
    """The folder of the kit: `rt doc` prints the path of a page in it."""
    return os.path.dirname(subprocess.run(["rt", "doc"], check=True, capture_output=True, text=True).stdout.split()[-1])


@functools.lru_cache(maxsize=None)
def uses():
    """What each crate of the repository stands on, lowest first."""
    found = {}
    with open(f"{ROOT}/crates.txt", encoding="utf-8") as file:
        for line in file:
            name, colon, below = line.partition("#")[0].partition(":")
            if colon:
                found[name.split()[0]] = below.split()
    return found


def below(name):
    """The crates of the repository that a crate stands on, itself not among them."""
    found = {}
    for it in uses()[name]:
        if it in uses():
            found |= below(it) | {it: None}
    return found


def folder(name):
    return f"{ROOT}/crates/{name}"


def built(name):
    """Where the gate has a crate's library."""
    return f"{folder(name)}/out/rlib/{name}.rlib"


def of_gate(name):
    """Whether all libraries below a crate are there, as the gate leaves them: those of `rt check` have a stamp."""
    return all(os.path.isdir(built(it)) and not os.path.exists(f"{os.path.dirname(built(it))}/stamp") for it in below(name))


def words(name):
    """The words by which a check or a build of the crate finds what it stands on."""
    at = kit()
    top = "src/main.rt" if os.path.exists(f"{folder(name)}/src/main.rt") else "src/lib.rt"
    found = ["--crate-name", name, top, "--links", f"{name}="]
    for it in dict.fromkeys([*uses()[name], "std"]):
        found += ["--extern", f"{it}={built(it) if it in uses() else f'{at}/rlibs/{it}.rlib'}"]
    for it in [f"{at}/rlibs", *(os.path.dirname(built(it)) for it in below(name))]:
        found += ["-L", f"dependency={it}"]
    return [*found, "--antt-project", f"{at}/rattle/logic/antt-project.json", "--logic-built", f"{at}/logic_built"]


def with_kit(archive, out):
    """Makes the archive that programs link, of this one's members, the kit's C library object and what library/ has in C. The same make
    the same bytes."""
    with tempfile.TemporaryDirectory() as room:
        for number, it in enumerate((archive, f"{kit()}/c/liblibc_c.a")):
            os.mkdir(f"{room}/{number}")
            subprocess.run(["ar", "x", os.path.abspath(it)], cwd=f"{room}/{number}", check=True)
        subprocess.run(["cc", *IN_C, f"-I{ROOT}/include", "-c", f"{ROOT}/library/new.c", "-o", f"{room}/1/new.pic.o"], check=True)
        subprocess.run(["ar", "rcsD", f"{room}/made.a", *sorted(glob.glob(f"{room}/?/*"))], check=True)
        shutil.move(f"{room}/made.a", out)


class Edit:
    """A wrong body of a crate, as its file says it."""

    def __init__(self, path):
        self.crate, self.folder, self.name = path[len(f"{ROOT}/crates/") : -len(".edit")].split("/")
        with open(path, encoding="utf-8") as file:
            self.lines = file.read().split("\n")
        self.function, self.clause = self.said("function"), self.said("clause")

    def __str__(self):
        return f"{self.crate}: {self.name}"

    def said(self, word):
        """What a line of the file says behind this word."""
        return next((it[len(word) + 2 :].strip() for it in self.lines if it.startswith(f"{word}: ")), None)


def edits(kind=Edit):
    """All edits, in the order of crates.txt and then of their names."""
    order = list(uses())
    paths = glob.glob(f"{ROOT}/crates/*/must-fail/*.edit") + glob.glob(f"{ROOT}/crates/*/edits/*.edit")
    return sorted(map(kind, paths), key=lambda it: (order.index(it.crate), it.name))
