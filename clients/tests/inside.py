# SPDX-License-Identifier: Apache-2.0 OR MIT
"""The daemon in libFuzzer's process (fuzz/inside.h), and what of it is reached there."""
import json
import os
import re
import shutil
import subprocess
import tempfile

from builds import CLIENTS, HERE, NotBuilt, make
from stage import expect, tail
from suite import test

CORPUS, OUT = f"{HERE}/fuzz/corpus", f"{HERE}/out/inside"
# it plays for so many seconds at least, and an input for no more than so many
LEAST, LONGEST = 60, 30
# what reads what clients write, and how much of its branches the corpus goes through, in hundredths
READERS = "daemon/parcels.c", "daemon/landings.c", "daemon/commands.c", "daemon/page.c", "packets.c"
WANTED = 80


def built(name):
    """A program of the daemon and the scripts' player."""
    try:
        make(HERE, name)
    except NotBuilt as why:
        expect(False, f"{why}")
    return f"{OUT}/{name}"


def runs(program, words, seconds, environment=None):
    """What a program has printed that has to end well."""
    done = subprocess.run([program, *words], env={**os.environ, **(environment or {})}, stdin=subprocess.DEVNULL, capture_output=True, text=True,
                          errors="replace", timeout=seconds)
    seen = re.findall(r"^(?:==\d+==ERROR|.*runtime error|inside: |SUMMARY).*", done.stderr, re.M)
    expect(done.returncode == 0, f"{os.path.basename(program)}: {'; '.join(seen) or tail(done.stderr)}")
    return done.stdout + done.stderr


@test("raw inside", plain_only=True)
def inside(build):
    """Scripts of clients, each found for the sake of what it reaches in the daemon, break nothing of it; what they find is kept in
    out/inside."""
    program, found = built("inside"), f"{OUT}/found"
    os.makedirs(found, exist_ok=True)
    seconds = max(LEAST, build.fuzz_seconds)
    words = [f"-max_total_time={seconds}", "-max_len=1024", "-len_control=0", f"-timeout={LONGEST}", f"-seed={build.seed % 2**32}",
             f"-artifact_prefix={OUT}/failed-", "-print_final_stats=1", found, CORPUS]
    printed = runs(program, words, seconds + 300)
    units, edges = re.findall(r"number_of_executed_units: (\d+)", printed), re.findall(r"DONE +cov: (\d+)", printed)
    expect(units and int(units[0]) >= len(os.listdir(CORPUS)) and edges, f"it has told of no inputs: {tail(printed)}")
    return f"{units[0]} scripts in {seconds} s, {edges[-1]} edges, {len(os.listdir(CORPUS))} scripts to begin with"


@test("raw edges", plain_only=True)
def edges(build):
    """The scripts that are kept go through what reads clients' bytes, in both ways of nearly each branch."""
    needed = [it for it in ("llvm-profdata", "llvm-cov") if not shutil.which(it)]
    expect(not needed, f"{' and '.join(needed)} can't be found: Debian's package is llvm")
    program = built("edges")
    with tempfile.TemporaryDirectory() as folder:
        raw, profile = f"{folder}/raw", f"{folder}/profile"
        runs(program, ["-runs=0", CORPUS], 300, {"LLVM_PROFILE_FILE": raw})
        runs("llvm-profdata", ["merge", "-sparse", raw, "-o", profile], 60)
        told = subprocess.run(["llvm-cov", "export", "-summary-only", program, f"-instr-profile={profile}"], capture_output=True, text=True, timeout=60)
    files = json.loads(told.stdout)["data"][0]["files"]
    seen = {os.path.relpath(os.path.realpath(it["filename"]), CLIENTS): it["summary"] for it in files}
    reached = {it: seen[it]["branches"]["percent"] for it in READERS}
    few = [f"{name} {percent:.0f}" for name, percent in reached.items() if percent < WANTED]
    expect(not few, f"of the branches too few are gone through, in hundredths: {', '.join(few)}")
    return ", ".join(f"{os.path.basename(name)} {percent:.0f}" for name, percent in reached.items())
