# SPDX-License-Identifier: Apache-2.0 OR MIT
"""What the programs here share: how the bench is built, how a command is run, how tables come into a document."""
import os
import re
import subprocess
import sys

ROOT = os.path.dirname(os.path.dirname(os.path.abspath(__file__)))
sys.path.append(f"{ROOT}/tools")
import plainly  # noqa: E402, F401  (what is missing is told in one line)
RUSTC = ["rustc", "-C", "opt-level=3", "-C", "codegen-units=1"]


def ran(words):
    """What a command prints."""
    done = subprocess.run(words, stdin=subprocess.DEVNULL, capture_output=True, text=True, errors="replace")
    if done.returncode:
        sys.exit(f"{' '.join(words)}\n{done.stderr[-2000:]}")
    return done.stdout


def wrapper(folder):
    """The commands that build the crates of rust/ there."""
    for crate, used in (("hullpippin-sys", []), ("hullpippin", ["--extern", f"hullpippin_sys={folder}/libhullpippin_sys.rlib"])):
        name = crate.replace("-", "_")
        yield [*RUSTC, "--edition", "2021", "-D", "warnings", "--crate-type", "rlib", "--crate-name", name, *used,
               f"{ROOT}/rust/{crate}/src/lib.rs", "-o", f"{folder}/lib{name}.rlib"]


def built(folder, archive, beside, quick):
    """The bench, in that folder; `quick`: built sooner, and not to be measured with."""
    program = f"{folder}/bench"
    ours = [*RUSTC, "--edition", "2024", "-D", "warnings", "-L", folder]
    commands, words = [*wrapper(folder)], ["--extern", f"hullpippin={folder}/libhullpippin.rlib", "--check-cfg", "cfg(beside)"]
    if beside:
        other = f"{folder}/libbaseline.rlib"
        words += ["--cfg", "beside", "--extern", f"baseline={other}"]
        commands.append([*RUSTC, "--edition", "2021", "--cap-lints", "allow", "--crate-type", "rlib", "--crate-name", "baseline",
                         f"{beside}/src/lib.rs", "-o", other])
    links = ["-C", f"link-arg={archive}"]
    commands.append([*ours, "-C", f"lto={'off' if quick else 'fat'}", *words, *links, "--crate-name", "bench", f"{ROOT}/bench/src/main.rs", "-o", program])
    for command in commands:
        ran(command)
    return program


def put(file, text, mark="bench"):
    """Puts tables between the two lines of the file that have this mark."""
    with open(file, encoding="utf-8") as it:
        was = it.read()
    now, count = re.subn(rf"(?s)(<!-- {mark} -->\n).*?(<!-- /{mark} -->)", lambda found: found[1] + text + found[2], was)
    if count != 1:
        sys.exit(f"{file} has no place for the tables")
    with open(file, "w", encoding="utf-8") as it:
        it.write(now)
