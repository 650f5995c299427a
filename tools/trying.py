# SPDX-License-Identifier: Apache-2.0 OR MIT
"""tools/edits and tools/archive in a small repository, over a kit that stands for Rattle's: what they make of what a prover says, and what they
keep."""
import contextlib
import os
import shutil
import stat
import subprocess
import sys

ROOT = os.path.dirname(os.path.dirname(os.path.abspath(__file__)))
TOOLS = ("edits", "archive", "crates.py", "kept.py", "plainly.py", "proved.py")
# What the prover says of a function `f` whose body is wrong, in the words of rattle-kit-13b, and how many edits are refused and failed then.
ANSWER = "./proofs/f/Answers.antt"
SAID = {
    "doesn't prove": ("not proved", 1, 0),
    "finds no proof of": (f"no proof: expected answers in {ANSWER}; `search` did not prove `returns-clause-a`", 1, 0),
    "proves": ("proved", 0, 1),
    "doesn't cover": ("no proof: expected `f_spec` in ./proofs/f/Proof.antt; the borrow checker does not cover this function yet: src/lib.rt:1:1: an "
                      "array of references that nothing reads after it is made", 0, 1),
    "can't judge for what it calls": ("no proof: the borrow checker's part in its proof is not made yet: a call of `high::g`, which has no proof", 0, 1),
    "knows no measure of": ("no proof: expected a measure in ./proofs/f/Invariants.antt", 0, 1),
    "can't tell of": ("could not tell", 0, 1),
}
# Files of the repository: what runs, two crates and one that they don't need, and the edits.
FILES = {
    "crates.txt": "low:\nbeside:\nhigh: low\nbd_c staticlib: low\n",
    "crates/high/src/lib.rt": "fn f() {\n    right\n}\nfn g() {\n}\n",
    "crates/high/specs/Words.antt": "words\n",
    "crates/high/proofs/f/Answers.antt": "answers\n",
    "crates/high/edits/turned.edit": "function: f\nwrong: it is\nfile: src/lib.rt\nold: right\nnew: wrong",
    "crates/high/edits/others.edit": "function: g\nfile: src/lib.rt\nold: fn g() {\nnew: fn g() { wrong_too",
    "crates/low/src/lib.rt": "low\n",
    "crates/low/proofs/Lemmas.antt": "lemmas\n",
    "crates/low/out/rlib/low.rlib/lang/src/lib.rt": "low, as it was built\n",
    "crates/beside/src/lib.rt": "beside\n",
    "crates/bd_c/src/lib.rt": "calls\n",
    "kit/START.md": "begin\n",
    "kit/version": "a kit\n",
    "kit/said": "",
    "kit/sound": "proved",
    "kit/beside": "",
    "kit/bin/rt": """#!/bin/sh
case $1 in
doc) echo "$HOME/kit/START.md" ;;
version) cat "$HOME/kit/version" ;;
esac
""",
    "kit/bin/rattle": """#!/bin/sh
echo "$*" >> "$HOME/tries"
if [ "$1" = build ]; then
    while [ "$1" != -o ]; do shift; done
    echo built > "$2"
    exit
fi
if grep -q wrong src/lib.rt; then echo "fn high::f: $(cat "$HOME/kit/said")"; else echo "fn high::f: $(cat "$HOME/kit/sound")"; fi
cat "$HOME/kit/beside"
echo "only=1 proved=0"
""",
}
# Programs that stand for those that make an archive of others.
MAKERS = {
    "kit/bin/ar": """#!/bin/sh
if [ "$1" = rcsD ]; then echo archive > "$2"; fi
""",
    "kit/bin/cc": "#!/bin/sh\n",
}
DECIDING = ("kit/version", "kit/bin/rattle", "tools/edits", "tools/crates.py", "tools/kept.py", "crates/high/src/lib.rt", "crates/high/specs/Words.antt",
            "crates/high/proofs/f/Answers.antt", "crates/high/edits/turned.edit", "crates/low/src/lib.rt", "crates/low/proofs/Lemmas.antt",
            "crates/low/out/rlib/low.rlib/lang/src/lib.rt")
LINES = (("low:\n", "low: std\n"), ("high: low", "high: low std"))
NOT_DECIDING = ("crates/beside/src/lib.rt", "crates/high/edits/others.edit", "kit/START.md")
KEPT = ".cache/hullpippin/edits"


def write(path, text):
    os.makedirs(os.path.dirname(path), exist_ok=True)
    with open(path, "w", encoding="utf-8") as file:
        file.write(text)
    if text.startswith("#!"):
        os.chmod(path, os.stat(path).st_mode | stat.S_IXUSR)


class Small:
    """The repository."""

    def __init__(self, top):
        self.top = top
        for path, text in FILES.items():
            write(f"{top}/{path}", text)
        os.mkdir(f"{top}/tools")
        for it in TOOLS:
            shutil.copy(f"{ROOT}/tools/{it}", f"{top}/tools/{it}")

    def ran(self, said="not proved", **more):
        """How many edits are refused and failed, how many were kept, how often the prover ran, and all that was printed."""
        write(f"{self.top}/kit/said", said)
        write(f"{self.top}/tries", "")
        environment = {"PATH": f"{self.top}/kit/bin:{os.environ['PATH']}", "HOME": self.top, "LC_ALL": "C.UTF-8", **more}
        done = subprocess.run([sys.executable, "tools/edits", "--jobs", "1"], cwd=self.top, env=environment, stdin=subprocess.DEVNULL,
                              stdout=subprocess.PIPE, stderr=subprocess.STDOUT, text=True, timeout=60)
        kept, counts = done.stdout.strip().split("\n")[-2:] if done.returncode in (0, 1) else ("", done.stdout)
        with open(f"{self.top}/tries", encoding="utf-8") as file:
            return counts, kept, len(file.readlines()), done.stdout

    @contextlib.contextmanager
    def changed(self, path, old="", new=""):
        """Something else in a file, or one byte more, for a while."""
        with open(f"{self.top}/{path}", encoding="utf-8") as file:
            before = file.read()
        write(f"{self.top}/{path}", before.replace(old, new) if old else before + "\n")
        yield
        write(f"{self.top}/{path}", before)


def judges(small):
    """What is made of what a prover says: what, what is wrong with that, and what was printed."""
    for what, (said, refused, failed) in SAID.items():
        counts, _, _, printed = small.ran(said, RT_ANEW="1")
        wanted = f"edits: {refused} refused, {failed} failed"
        yield f"tools/edits of a body that the prover {what}", "" if counts == wanted else f"{counts}, not {wanted}", printed
    edit = "crates/high/edits/turned.edit"
    write(f"{small.top}/{edit}", FILES[edit].replace("function: f\n", "function: f\nclause: measure\n"))
    counts, _, _, printed = small.ran(SAID["knows no measure of"][0])
    write(f"{small.top}/{edit}", FILES[edit])
    yield "tools/edits of a loop that may run for ever, as the edit means it", "" if counts == "edits: 1 refused, 0 failed" else counts, printed


def controls(small):
    """Which functions have to be proved as they are: what, what is wrong with that, and what was printed."""
    def amiss(counts, tries):
        said, _, tried, printed = small.ran(RT_ANEW="1")
        found = said, tried, printed.count("as it is: proved")
        return "" if found == (counts, tries, int("0 failed" in counts)) else f"{found}", printed

    well, ill = "edits: 1 refused, 0 failed", "edits: 1 refused, 1 failed"
    yield "tools/edits where nothing is proved beside", *amiss(well, 2)
    with small.changed("kit/sound", "proved", "not proved"):
        yield "tools/edits where a function as it is isn't proved", *amiss(ill, 2)
    write(f"{small.top}/kit/beside", "fn high::g: proved\n")
    yield "tools/edits where another function is proved beside", *amiss(well, 1)
    write(f"{small.top}/kit/beside", "fn high::g: not proved\nfn low::h: proved\n")
    yield "tools/edits where another function is refused beside", *amiss(well, 2)
    write(f"{small.top}/kit/beside", "")


def proves_once(small):
    """Whether the checks of a crate take what earlier ones have proved, and leave nothing behind: what, what is wrong, and what was printed."""
    edit = "crates/high/edits/again.edit"
    write(f"{small.top}/{edit}", "function: f\nwrong: it is\nfile: src/lib.rt\nold: right\nnew: wrong_again")
    counts, _, _, printed = small.ran(RT_ANEW="1")
    os.unlink(f"{small.top}/{edit}")
    with open(f"{small.top}/tries", encoding="utf-8") as file:
        rooms = [line.split()[line.split().index("--incremental") + 1] for line in file if "--incremental" in line]
    right = counts == "edits: 2 refused, 0 failed" and len(rooms) == 3 and len(set(rooms)) == 1 and not os.path.exists(rooms[0])
    yield "tools/edits over what its earlier checks proved", "" if right else f"{counts}, {rooms}", printed


def keeps(small):
    """When it tries again what it has tried: what, what is wrong with that, and what was printed."""
    def amiss(kept, **more):
        counts, said, tries, printed = small.ran(**more)
        wanted = f"kept from earlier runs: {int(kept)}"
        return "" if (said, tries == 0) == (wanted, kept) else f"{said}, {tries} tries", printed

    shutil.rmtree(f"{small.top}/.cache", ignore_errors=True)
    yield "tools/edits at first", *amiss(False)
    yield "tools/edits once more", *amiss(True)
    for path in DECIDING:
        with small.changed(path):
            yield f"tools/edits after a byte of {path}", *amiss(False)
    for old, new in LINES:
        with small.changed("crates.txt", old, new):
            yield f"tools/edits after {new.strip()} in crates.txt", *amiss(False)
    for path in NOT_DECIDING:
        with small.changed(path):
            yield f"tools/edits after a byte of {path}", *amiss(True)
    yield "tools/edits with RT_ANEW=1", *amiss(False, RT_ANEW="1")
    yield "tools/edits in another cache", *amiss(False, XDG_CACHE_HOME=f"{small.top}/elsewhere")
    for days, kept in ((20, True), (20, True), (31, False)):
        for it in os.scandir(f"{small.top}/{KEPT}"):
            os.utime(it.path, (0, it.stat().st_mtime - days * 86400))
        yield f"tools/edits {days} days later", *amiss(kept)
    shutil.rmtree(f"{small.top}/.cache")
    small.ran("proved")
    yield "tools/edits after a failure", *amiss(False)


class Archives:
    """tools/archive of the repository."""

    def __init__(self, small):
        self.small = small
        for path, text in MAKERS.items():
            write(f"{small.top}/{path}", text)

    def ran(self, *words, **more):
        """What it printed, and the words by which the prover was run, if it was."""
        top = self.small.top
        write(f"{top}/tries", "")
        environment = {"PATH": f"{top}/kit/bin:{os.environ['PATH']}", "HOME": top, "LC_ALL": "C.UTF-8", **more}
        done = subprocess.run([sys.executable, *(words or ["tools/archive"])], cwd=top, env=environment, stdin=subprocess.DEVNULL,
                              stdout=subprocess.PIPE, stderr=subprocess.STDOUT, text=True, timeout=60)
        with open(f"{top}/tries", encoding="utf-8") as file:
            return done.stdout, file.read()

    def gate(self):
        """Notes what a gate notes."""
        self.ran("-c", "import sys; sys.path.insert(0, 'tools'); import proved; proved.note_gate(proved.state())")

    def amiss(self, is_noted, is_proved, **more):
        """What is wrong with a run, and what it printed."""
        said, tries = self.ran(**more)
        noted = "archive: 1 made, noted as proved\n" in said, os.path.exists(f"{self.small.top}/crates/bd_c/out/libhullpippin.a.proved")
        return "" if (noted, bool(tries)) == ((is_noted, is_noted), is_proved) else f"noted: {noted}, proved: {tries or 'nothing'}", said


def archives(small):
    """When it proves the library, and notes that: what, what is wrong with that, and what was printed."""
    made, out = Archives(small), f"{small.top}/crates/bd_c/out"
    os.makedirs(out)
    yield "tools/archive after no gate", *made.amiss(False, True)
    made.gate()
    yield "tools/archive after a gate", *made.amiss(True, True)
    yield "tools/archive once more", *made.amiss(True, False)
    shutil.rmtree(out)
    os.makedirs(out)
    made.gate()
    yield "tools/archive after a gate of the same sources", *made.amiss(True, False)
    yield "tools/archive with RT_ANEW=1", *made.amiss(True, True, RT_ANEW="1")
    with small.changed("out/archive/libbd_c.a"):
        yield "tools/archive where what was built has changed", *made.amiss(True, True)
    for path in ("crates/bd_c/src/lib.rt", "crates/low/src/lib.rt"):
        with small.changed(path):
            yield f"tools/archive after a byte of {path}", *made.amiss(False, True)
            made.gate()
            yield f"tools/archive after a byte of {path}, and a gate", *made.amiss(True, True)
    os.makedirs(f"{out}/incremental")
    kept = made.ran()[1].count("--incremental out/incremental")
    yield "tools/archive over kept work", "" if kept == 1 else f"{kept} checks over kept work", ""
    shutil.rmtree(out)


def tried(folder):
    small = Small(f"{folder}/small")
    return [*judges(small), *controls(small), *proves_once(small), *keeps(small), *archives(small)]
