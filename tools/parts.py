# SPDX-License-Identifier: Apache-2.0 OR MIT
"""The parts of ./check: what each runs and stands on, how its count is read, and the sum of all.

A part has passed if it ends with 0, and has printed its count, and that is of something, and of no failure. One that ends otherwise
counts as one failure at least, and so does one that wasn't run because what it stands on has failed. Two lanes of parts run side by side,
the parts of each in turn.
"""
import argparse
import contextlib
import datetime
import json
import os
import re
import shutil
import signal
import subprocess
import sys
import threading
import time

sys.dont_write_bytecode = True
import crates  # noqa: E402  (they leave no files behind)
import leash  # noqa: E402
import proved  # noqa: E402

ROOT = crates.ROOT
LOGS = f"{ROOT}/out/check"
ROOTS = f"{LOGS}/roots"
LAST = f"{LOGS}/last.json"
CALLERS = f"{ROOT}/clients/out/packages"
PLAYER = os.path.relpath(proved.PLAYER, ROOT)
TRIES = 3
ANEW = "--anew"
# seconds for what an ended part has printed to arrive
LAST_WORDS = 5
# on a busy machine a part may take longer by the clock, but no more than so many times
MOST_TIMES = 4
# seconds between two looks at whether a part has ended, and between two at its clock
GLANCE, LOOK = 0.05, 1
# Set where nothing more is to be run: what runs is ended.
STOPPED = threading.Event()
PRINTING = threading.Lock()


class Part:
    """A part: its command; how a line with its count looks, `passed` and `failed` in it; how many minutes it may take of a machine that
    does nothing else; which parts it stands on; which kinds of packages it needs (tools/fetch), and whether a network besides; and whether it
    runs in the second lane, beside the others. A count that isn't of tests is one test."""

    def __init__(self, name, words, count, minutes, needs=(), kinds=(), network=False, beside=False):
        self.name, self.words, self.count, self.minutes = name, words, re.compile(count, re.M), minutes
        self.needs, self.kinds, self.network, self.beside = needs, kinds, network, beside

    def read(self, said, status):
        """How many passed and failed, of all that it printed."""
        found = [it.groupdict() for it in self.count.finditer(said)]
        passed = sum(int(it.get("passed") or 0) if "passed" in it else 1 for it in found)
        failed = sum(int(it.get("failed") or 0) for it in found)
        if "passed" not in self.count.groupindex:
            passed = 1 if found and not failed else 0
        lacks = status != 0 or not found or passed + failed == 0
        return passed, max(failed, 1) if lacks else failed


def of_nothing(anew):
    """The word by which `rt ci` takes nothing from an earlier gate. A kit that keeps nothing doesn't know it."""
    said = subprocess.run(["rt", "help"], stdin=subprocess.DEVNULL, capture_output=True, text=True).stdout if anew and shutil.which("rt") else ""
    return [ANEW] if ANEW in said else []


def whole(anew):
    """All parts, in their order. The edits, which take the prover, leave one processor to the tests that run beside them."""
    of_gate, of_archive, of_edits = ("gate",), ("archive",), str(max(1, len(os.sched_getaffinity(0)) - 1))
    return [
        Part("gate", ["tools/gate-time", "rt", "ci", *of_nothing(anew)], r"^(?P<passed>\d+) passed, (?P<failed>\d+) failed$", 170),
        Part("documents", ["tools/check-docs"], r"^[1-9]\d* words and paths in backticks, (?P<failed>\d+) not found$", 10, beside=True),
        Part("manners", ["tools/manners"], r"^manners: (?P<passed>\d+) passed, (?P<failed>\d+) failed$", 15, beside=True),
        Part("edits", ["tools/edits", "--jobs", of_edits], r"^edits: (?P<passed>\d+) refused, (?P<failed>\d+) failed$", 120, of_gate, beside=True),
        Part("examples", ["tools/examples", PLAYER], r"^(?P<passed>\d+) runs, played by \d+ programs, (?P<failed>\d+) differences$", 20, of_gate),
        Part("program", ["tools/program", PLAYER], r"^(?P<passed>\d+) runs, (?P<failed>\d+) bad$", 30, of_gate),
        Part("words", ["tools/words", PLAYER], r"^(?P<passed>\d+) runs, (?P<failed>\d+) bad$", 20, of_gate),
        Part("archive", ["tools/archive"], r"^archive: (?P<passed>1) made, noted as proved$", 60, of_gate),
        Part("library", ["tools/library"], r"^(?P<passed>\d+) programs .* (?P<failed>\d+) differences$", 40, of_archive, ("tests",)),
        Part("starve", ["tools/starve"], r"^[1-9]\d* requests refused, (?P<failed>\d+) differ$", 40, of_archive),
        Part("installed", ["tools/installed"], r"^installed: .*; (?P<failed>\d+) wrong$", 30, of_archive, ("tests",)),
        Part("clients", ["clients/check", "raw", "--plain", "--untimed", "--seconds", "10", "--seed", "1"], OF_CLIENTS, 40, of_archive, ("viewer", "tests")),
        Part("libgbinder", ["clients/check", "--plain", "--untimed", "--only", "libgbinder"], OF_CLIENTS, 20, of_archive, network=True),
        Part("bench", ["bench/run", "--check"], r"^(?P<passed>\d+) journals are as they must be", 20, of_archive, ("tests",)),
        Part("tool", ["tool/check"], r"^test result: \w+\. (?P<passed>\d+) passed; (?P<failed>\d+) failed;", 40, of_archive, ("viewer", "tests")),
        Part("try", ["./try", "--unproved"], r"^try, \*unproved\*: ended well", 20, kinds=("viewer",), network=True),
        Part("packages", ["tools/packaged", "--roots", ROOTS], r"^packaged: .*; (?P<failed>\d+) wrong$", 30, of_archive, ("packages", "viewer"), True),
    ]


OF_CLIENTS = r"^clients: (?P<passed>\d+) passed, (?P<failed>\d+) failed$"


class Result:
    """What came of a part."""

    def __init__(self, part, passed, failed, wall=0.0, processor=0.0, why=""):
        self.name, self.passed, self.failed, self.wall, self.processor, self.why = part.name, passed, failed, wall, processor, why


def status_of(child):
    """A child's status, None while it runs. Once it has ended, `used` is how many seconds of the processor it took, with all that it began."""
    if child.returncode is None:
        pid, ended_so, used = os.wait4(child.pid, os.WNOHANG)
        if pid:
            child.returncode, child.used = os.waitstatus_to_exitcode(ended_so), used.ru_utime + used.ru_stime
    return child.returncode


def ended(child):
    """Ends a part with all that it has begun."""
    for number in (signal.SIGTERM, signal.SIGKILL):
        with contextlib.suppress(ProcessLookupError):
            os.killpg(child.pid, number)
        until = time.monotonic() + leash.IN_ORDER + 2 * leash.LEFT_OVER
        while status_of(child) is None and time.monotonic() < until:
            time.sleep(GLANCE)


def threads_of(pids):
    """How long each thread of these processes has run, and how long it has waited for a processor, in nanoseconds."""
    found = {}
    for path in (f"/proc/{pid}/task" for pid in pids):
        try:
            for it in os.listdir(path):
                with open(f"{path}/{it}/schedstat", encoding="ascii") as file:
                    found[it] = tuple(map(int, file.read().split()[:2]))
        except OSError:
            pass  # it has ended meanwhile, or the kernel doesn't tell
    return found


def own_time(passed, before, after):
    """How much of the seconds that passed would have passed if no thread had waited for a processor."""
    ran, waited = (sum(it[at] - before.get(name, (0, 0))[at] for name, it in after.items()) / 1e9 for at in (0, 1))
    return passed * (1 - waited / max(passed, ran + waited))


class Clock:
    """How many seconds a process, with all below it, would have taken of a machine that does nothing else."""

    def __init__(self, top):
        self.top, self.seen, self.threads, self.taken = top, time.monotonic(), {}, 0.0

    def look(self):
        now, threads = time.monotonic(), threads_of([self.top, *leash.below(self.top)])
        self.taken += own_time(now - self.seen, self.threads, threads)
        self.seen, self.threads = now, threads


def waited(child, seconds):
    """A child's status; None where it took more than so many seconds of a machine that does nothing else, or a multiple by the clock, or
    where nothing more is to be run."""
    clock, until = Clock(child.pid), time.monotonic() + MOST_TIMES * seconds
    while clock.taken < seconds and time.monotonic() < until and not STOPPED.is_set():
        if status_of(child) is not None:
            return child.returncode
        time.sleep(GLANCE)
        if time.monotonic() - clock.seen > LOOK:
            clock.look()
    return None


def tell(part, line):
    """Prints a line of a part. One that runs beside others names itself."""
    with PRINTING:
        print(f"{part.name}| {line}" if part.beside else line, end="", flush=True)


def watched(part, log):
    """Runs a part, prints what it says and writes it down; what it said, its status, None where it took too long, and the processor's seconds
    that it took. What it leaves running is ended with it, and so is the part where this is killed."""
    said = []
    words = [sys.executable, f"{ROOT}/tools/leash.py", *part.words]
    child = subprocess.Popen(words, cwd=ROOT, stdin=subprocess.DEVNULL, stdout=subprocess.PIPE, stderr=subprocess.STDOUT, text=True,
                             errors="replace", start_new_session=True)

    def listen():
        for line in child.stdout:
            said.append(line)
            log.write(line)
            tell(part, line)

    listener = threading.Thread(target=listen, daemon=True)
    listener.start()
    try:
        status = waited(child, 60 * part.minutes)
    finally:
        listener.join(0 if status_of(child) is None else LAST_WORDS)
        ended(child)
        listener.join(LAST_WORDS)
    return "".join(said), status, getattr(child, "used", 0.0)


def run(part, folder=LOGS):
    """Runs a part; its result."""
    tell(part, f"== {part.name}: {' '.join(part.words)}\n")
    began = time.monotonic()
    os.makedirs(folder, exist_ok=True)
    with open(f"{folder}/{part.name}.log", "w", encoding="utf-8") as log:
        try:
            said, status, used = watched(part, log)
        except OSError as error:
            return Result(part, 0, 1, why=f"not run: {error}")
    passed, failed = part.read(said, status)
    why = "" if not failed else f"took over {part.minutes} minutes" if status is None else f"status {status}"
    return Result(part, passed, failed, time.monotonic() - began, used, why)


class Lanes:
    """Runs parts in two lanes, side by side: those of each in turn, and none that stands on one which failed."""

    def __init__(self, parts, folder):
        self.parts, self.folder, self.results, self.changed = parts, folder, {}, threading.Condition()

    def result(self, part):
        """What comes of a part, once there is a result of all that it stands on and that is run."""
        needs = [it.name for it in self.parts if it.name in part.needs]
        with self.changed:
            self.changed.wait_for(lambda: STOPPED.is_set() or all(it in self.results for it in needs))
            below = [it for it in needs if it in self.results and self.results[it].failed]
        if STOPPED.is_set():
            return Result(part, 0, 1, why="not run: stopped")
        return Result(part, 0, 1, why=f"not run: {below[0]} failed") if below else run(part, self.folder)

    def told(self, part):
        """The same where something goes wrong outside of its command: then it has failed, since the other lane may wait for it."""
        try:
            return self.result(part)
        except Exception as error:
            return Result(part, 0, 1, why=f"not run: {error}")

    def go(self, beside):
        """Runs the parts of one lane."""
        for part in (it for it in self.parts if it.beside == beside):
            made = self.told(part)
            with self.changed:
                self.results[part.name] = made
                self.changed.notify_all()

    def run(self):
        """Runs all; where this is told to end, what runs in the other lane is ended first."""
        other = threading.Thread(target=self.go, args=(True,))
        other.start()
        try:
            self.go(False)
        except BaseException:
            with self.changed:
                STOPPED.set()
                self.changed.notify_all()
            raise
        finally:
            other.join()
        return [self.results[it.name] for it in self.parts]


def run_all(parts, folder=LOGS):
    """Runs the parts; their results, in the parts' order."""
    return Lanes(parts, folder).run()


def table(results, wall):
    """The lines of the table, of parts that took so many seconds all together."""
    rows = [("Part", "passed", "failed", "minutes", "processor minutes", "")]
    rows += [(it.name, str(it.passed), str(it.failed), f"{it.wall / 60:.1f}", f"{it.processor / 60:.1f}", it.why) for it in results]
    rows.append(("all", *(str(sum(getattr(it, name) for it in results)) for name in ("passed", "failed")),
                 f"{wall / 60:.1f}", f"{sum(it.processor for it in results) / 60:.1f}", ""))
    wide = [max(len(row[at]) for row in rows) for at in range(5)]
    for row in rows:
        cells = [row[0].ljust(wide[0]), *(row[at].rjust(wide[at]) for at in range(1, 5)), row[5]]
        yield "  ".join(cells).rstrip()


def last_line(results, lacks):
    """The sum of all; where it isn't of the whole check, it says so, and doesn't end as that does."""
    said = f"{sum(it.passed for it in results)} passed, {sum(it.failed for it in results)} failed"
    return f"{said}, and this isn't the whole check: {lacks}" if lacks else said


def tried(words):
    """Whether a command that needs a network goes well within some tries."""
    for pause in range(1, TRIES + 1):
        if not subprocess.run(words, cwd=ROOT, stdin=subprocess.DEVNULL).returncode:
            return True
        time.sleep(10 * pause if pause < TRIES else 0)
    return False


def fetched(parts, offline):
    """Fetches what the parts need; what can't be had."""
    kinds = sorted({"build", *(kind for it in parts for kind in it.kinds)})
    looked = subprocess.run([f"{ROOT}/tools/fetch", *(["--list"] if offline else []), *kinds], stdin=subprocess.DEVNULL, stdout=subprocess.PIPE,
                            text=True)
    if looked.returncode:
        yield looked.stdout.strip() or "what tools/fetch named"
    names = {it.name for it in parts}
    if names & {"gate", "edits", "archive"} and not shutil.which("rt"):
        yield "rt, the command of the Rattle kit (README.md)"
    if not offline and names & {"libgbinder", "tool", "try"} and not tried([sys.executable, "clients/tests/packages.py", CALLERS]):
        yield "libgbinder's packages"
    if "packages" in names and not tried(["tools/packaged", "--fetch", ROOTS]):
        yield "roots of Debian's suites"


def keep(results, wall):
    """Writes down what the whole check came to, for --write."""
    about = {"commit": proved.commit(), "date": datetime.date.today().isoformat(), "processors": len(os.sched_getaffinity(0)), "wall": wall,
             "kit": proved.kit(), "parts": [vars(it) for it in results]}
    with open(LAST, "w", encoding="utf-8") as file:
        json.dump(about, file, indent=1)


def last():
    """What the last whole check came to. Ends where none is known."""
    try:
        with open(LAST, encoding="utf-8") as file:
            return json.load(file)
    except OSError:
        sys.exit(f"{os.path.basename(sys.argv[0])}: no whole ./check is known to have run here")


def replaced(name, pattern, text):
    """Puts a text in the one place of a document that a pattern finds."""
    with open(f"{ROOT}/{name}", encoding="utf-8") as file:
        before = file.read()
    after, count = pattern.subn(lambda _: text, before)
    if count != 1:
        sys.exit(f"check: {name} has {count} places for what is to be written there")
    with open(f"{ROOT}/{name}", "w", encoding="utf-8") as file:
        file.write(after)


def told(about):
    """What the last whole check came to, in words, and the table of its parts. One that tools/fresh ran has where that was."""
    passed, failed, used = (sum(it[name] for it in about["parts"]) for name in ("passed", "failed", "processor"))
    wall = about["wall"]
    took = ", ".join([f"{wall / 60:.0f} minutes on {about['processors']} processors", f"{used / 60:.0f} of a processor", *filter(None, [about.get("where")])])
    rows = [f"| `{it['name']}` | {it['passed']} | {it['failed']} | {it['wall'] / 60:.1f} | {it['processor'] / 60:.1f} |" for it in about["parts"]]
    table = ["| Part | Passed | Failed | Minutes | Processor minutes |", "|---|---|---|---|---|", *rows,
             f"| all | {passed} | {failed} | {wall / 60:.1f} | {used / 60:.1f} |"]
    return f"{passed} passed, {failed} failed", took, table


def write():
    """Puts what the last whole check came to, and its kit, into README.md and docs/CHECKS.md, and its table into docs/FIGURES.md."""
    about = last()
    counts, took, table = told(about)
    whose, marks = f"`./check` of commit {about['commit'][:8]}, {about['date']}", re.compile(r"<!-- check -->\n.*?<!-- /check -->", re.S)
    for name, lines in (("docs/CHECKS.md", [f"{whose}: {counts}, in {took}. [Each part](FIGURES.md#the-last-whole-check)."]),
                        ("docs/FIGURES.md", [f"{whose}, on {about['processors']} processors:", "", *table])):
        replaced(name, marks, "\n".join(["<!-- check -->", *lines, "<!-- /check -->"]))
    replaced("README.md", re.compile(r"^    (?:N|\d+) passed, \d+ failed.*$", re.M), f"    {counts}        # commit {about['commit'][:8]}: {took}")
    replaced("README.md", proved.KIT, f"`{about['kit']}`")


def arguments(names):
    parser = argparse.ArgumentParser(prog="check", usage="check [--offline] [--only PART ..] [--list | --write]")
    parser.add_argument("--offline", action="store_true")
    parser.add_argument("--only", nargs="+", choices=names, metavar="PART")
    parser.add_argument("--list", action="store_true")
    parser.add_argument("--write", action="store_true")
    return parser.parse_args()


def main():
    sys.argv[0] = "check"  # (by which whoever started it knows it)
    parts = whole(bool(os.environ.get("RT_ANEW")))
    given = arguments([it.name for it in parts])
    if given.list:
        print(*(f"{it.name}: {' '.join(it.words)}" for it in parts), sep="\n")
        return 0
    if given.write:
        return write()
    lacks = []
    if given.only:
        parts = [it for it in parts if it.name in given.only]
        lacks.append(f"only {', '.join(it.name for it in parts)}")
    if given.offline:
        lacks.append(f"without {', '.join(it.name for it in parts if it.network) or 'a network'}")
        parts = [it for it in parts if not it.network]
        os.environ["HULLPIPPIN_OFFLINE"] = "1"
    leash.ends_in_order()  # (what runs is ended)
    missing = list(fetched(parts, given.offline))
    for it in missing:
        print(f"check: {it} can't be had, so nothing is run")
    began = time.monotonic()
    results = [] if missing else run_all(parts)
    wall = time.monotonic() - began
    shutil.rmtree(ROOTS, ignore_errors=True)  # they are large, and by the next time old
    print("", *table(results, wall), sep="\n")
    if not lacks and not missing:
        keep(results, wall)
    print(f"0 passed, {len(missing)} failed" if missing else last_line(results, "; ".join(lacks)))
    return 1 if missing or not results or any(it.failed for it in results) else 0


if __name__ == "__main__":
    sys.exit(main())
