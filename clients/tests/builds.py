# SPDX-License-Identifier: Apache-2.0 OR MIT
"""What is tested: the daemon, the preloaded library, the managers and the test clients, built plainly or with sanitizers."""
import os
import subprocess
import sys
import tempfile

from journals import heading

HERE = os.path.dirname(os.path.abspath(__file__))
CLIENTS = os.path.dirname(HERE)
ROOT = os.path.dirname(CLIENTS)
sys.path.append(f"{ROOT}/tools")
import plainly  # noqa: E402, F401  (what is missing is told in one line)

JUDGE = os.path.join(ROOT, "crates", "bd_play", "out", "bd_play")
SANITIZERS = "address,undefined"


class NotBuilt(Exception):
    """Something can't be built: why."""


def make(folder, *words):
    done = subprocess.run(["make", "-s", "-j2", "-C", folder, *words], stdin=subprocess.DEVNULL, capture_output=True, text=True)
    if done.returncode:
        raise NotBuilt(f"make -C {os.path.relpath(folder, ROOT)} {' '.join(words)}\n{done.stdout}{done.stderr}".rstrip())


def library_file(name):
    """Where the compiler has one of its own libraries."""
    path = subprocess.run(["cc", f"-print-file-name={name}"], check=True, capture_output=True, text=True).stdout.strip()
    if not os.path.isabs(path):
        raise NotBuilt(f"the compiler has no {name}")
    return os.path.realpath(path)


class Build:
    """One build, in folders of its own."""

    def __init__(self, sanitized=False, judge=JUDGE):
        self.sanitized = sanitized
        self.judge = judge
        self.out = f"out/{SANITIZERS}" if sanitized else "out"  # as the makefiles have it
        words = [f"SAN={SANITIZERS}"] if sanitized else []
        make(CLIENTS, *words, "all", "short")
        make(HERE, *words, "raw", "bare", "fuzz")
        self.daemon = f"{CLIENTS}/{self.out}/hullpippind"
        self.short = f"{CLIENTS}/{self.out}/hullpippind-short"
        self.library = f"{CLIENTS}/{self.out}/libhullpippin-preload.so"
        self.bare = f"{HERE}/{self.out}/bare/bare"
        self.environment = {}
        self.preload = self.library
        if sanitized:
            # the sanitizer's library has to come first in whatever is run
            self.preload = f"{library_file('libasan.so')} {self.library}"
            self.environment = {"ASAN_OPTIONS": "abort_on_error=1:detect_leaks=1", "UBSAN_OPTIONS": "print_stacktrace=1"}
        if not os.path.exists(self.judge):
            raise NotBuilt(f"{self.judge} isn't built, which judges journals: cd crates/bd_play && rt run < stdin")

    def judges_wide(self):
        """Whether the player knows journals of more than 31 seats."""
        with tempfile.NamedTemporaryFile() as file:
            file.write(heading(3, 32, 0))
            file.flush()
            return subprocess.run([self.judge, "check", file.name], capture_output=True, text=True).stdout.split() == ["lawful", "0"]

    def manager(self, name):
        return f"{CLIENTS}/managers/{self.out}/hullpippin-{name}"

    def raw(self, name):
        return f"{HERE}/{self.out}/raw/{name}"

    def fuzz(self, name):
        return f"{HERE}/{self.out}/fuzz/{name}"

    def real(self, name):
        return f"{HERE}/{self.out}/real/{name}"

    def build_real(self, packages):
        """Builds the programs against libgbinder; they run with another C library, so they have no sanitizer of their own."""
        folders, libraries = packages.build_words()
        make(HERE, f"OUT={self.out}", "real", f"FOLDERS={' '.join(folders)}", f"LIBRARIES={' '.join(libraries)}")
