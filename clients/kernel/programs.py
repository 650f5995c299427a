#!/usr/bin/env python3
# SPDX-License-Identifier: Apache-2.0 OR MIT
"""Runs this folder's neighbours, unchanged, on Linux's own driver in the virtual machine.

    clients/check kernel raw [--kernel FOLDER] [--packages FOLDER] [--document]    the raw tests, and libgbinder's tools
    clients/check kernel cost [--kernel FOLDER] [--calls N] [--document]           calls on the driver and over the daemon

Each test's line says whether it passes there, and the last one how many don't though no reason is known; libgbinder is fetched into FOLDER (clients/out/packages) where it isn't yet. A cost is told
in thousands of instructions of the one processor, the whole machine's, as its clock counts them: the median of one client's round
trips, and what one takes of eight callers on four threads. --document writes what was seen into docs/DIFFERENCES.md.
"""
import argparse
import os
import shutil
import subprocess
import sys
import tempfile

sys.dont_write_bytecode = True
HERE = os.path.dirname(os.path.abspath(__file__))
CLIENTS = os.path.dirname(HERE)
sys.path.insert(0, HERE)
sys.path.insert(0, f"{CLIENTS}/tests")

import document  # noqa: E402
from fetch import Kernel, Missing, default_folder  # noqa: E402
from machine import NotRun, run  # noqa: E402
from packages import Packages, default_folder as packages_folder  # noqa: E402
from suite import figures  # noqa: E402

ROOT = os.path.dirname(CLIENTS)
STATIC = ["OUT=out/static", "CFLAGS=-O2 -g -static"]
# what clients/check runs of our own clients, but for what is of the daemon: its seats, its memory, its turns
RAW = ["nested", "oneway", "deaths", "ways", "waits", "told", "takers", "parcels", "buffers", "leftovers", "places", "pool", "two_opens",
       "refusals", "files", "descriptors 1000", "arrays 100", "flooding asked", "flooding unasked", "callers", "namespaces", "lives", "paths", "pointers",
       "cancelled", "latency 200", "many 8 4 50"]
# why some don't pass there, which are not to be told from others that don't by chance
REASONS = {
    "ways": "a thread that never entered the loop reads what comes to its process all the same (*looper*)",
    "leftovers": "it looks at the page between library and daemon, which isn't there",
    "refusals": "a command that the write's size cuts short is run, its bytes being read where memory goes on",
    "files": "the child of a fork acts as its parent", "lives": "the child of a fork acts as its parent",
    "arrays 100": "the descriptors of an FDA object whose buffer isn't given back stay open",
    "flooding asked": "flooding is told once, by another measure (*spam*)",
    "cancelled": "poll tells at once of a thread that has made no ioctl yet",
}
# .. those that want a context manager, and libgbinder's tools, which want a service too
OF_MANAGERS = ["services 20", "slow_service"]
TOOLS = ["binder-list -d /dev/binder", "binder-ping -d /dev/binder hello"]
ONE = """echo "== {test}"
{before}timeout 120 {command} > told 2>&1
echo "status $?"
tail -n 2 told
sleep 1
"""
BEGIN_MANAGERS = """./bin/hullpippin-servicemanager > /tmp/manager 2>&1 & MANAGERS=$!
./bin/hullpippin-hwservicemanager > /tmp/hwmanager 2>&1 & MANAGERS="$MANAGERS $!"
sleep 2
"""
BEGIN_SERVICE = """./bin/hullpippin-hello hello > /tmp/hello 2>&1 & MANAGERS="$MANAGERS $!"
sleep 2
"""
END_MANAGERS = "kill $MANAGERS\n"
COST = """export HULLPIPPIN_SOCKET=/tmp/socket
LOAD="./lib/ld-linux-x86-64.so.2 --library-path lib"
$LOAD ./hullpippind --socket $HULLPIPPIN_SOCKET --background
for bytes in {sizes}; do
    echo "driver one $bytes: $(./raw/latency {calls} $bytes)"
    mkdir -p /tmp/recorded-$bytes
    echo "recorded one $bytes: $(HULLPIPPIN_RECORD=/tmp/recorded-$bytes $LOAD --preload ./libhullpippin-record.so ./dynamic/latency {calls} $bytes)"
    echo "daemon one $bytes: $($LOAD --preload ./libhullpippin-preload.so ./dynamic/latency {calls} $bytes)"
    echo "driver many $bytes: $(./raw/many 8 4 {calls} $bytes)"
    echo "daemon many $bytes: $($LOAD --preload ./libhullpippin-preload.so ./dynamic/many 8 4 {calls} $bytes)"
done
"""
BYTES = ["0", "4096", "262144"]
OF_CLIENTS = ["hullpippind", "libhullpippin-preload.so", "libhullpippin-record.so"]
# what is measured, as its line begins: what it is, and which of the figures that it tells counts
MEASURED = {"driver one": ("the driver, one client, answered with nothing", "median"),
            "recorded one": ("the driver, one client that is recorded without the trace, answered with nothing", "median"),
            "daemon one": ("the daemon, one client, answered with nothing", "median"),
            "driver many": ("the driver, eight callers, four threads that answer with the same bytes", "call"),
            "daemon many": ("the daemon, eight callers, four threads that answer with the same bytes", "call")}


def make(folder, *words):
    done = subprocess.run(["make", "-s", "-C", folder, *words], stdin=subprocess.DEVNULL, capture_output=True, text=True)
    if done.returncode:
        raise NotRun(f"make {' '.join(words)}: {done.stdout}{done.stderr}")


def build_raw(folder):
    """The raw tests, which need nothing of the machine that they run on."""
    make(f"{CLIENTS}/tests", "raw", *STATIC)
    shutil.copytree(f"{CLIENTS}/tests/out/static/raw", f"{folder}/raw")


def add_managers(folder):
    make(f"{CLIENTS}/managers", *STATIC)
    shutil.copytree(f"{CLIENTS}/managers/out/static", f"{folder}/bin", ignore=shutil.ignore_patterns("*.o"))


def add_tools(folder, packages):
    """libgbinder's tools with their loader and libraries; whether they can be had."""
    try:
        Packages(packages)
    except (Missing, OSError) as why:
        print(f"FAIL libgbinder's tools: they can't be had: {why}")
        return False
    shutil.copytree(packages, f"{folder}/packages", symlinks=True)
    return True


def library(name):
    """Where the compiler's own libraries are."""
    return os.path.realpath(subprocess.run(["cc", f"-print-file-name={name}"], capture_output=True, text=True, check=True).stdout.strip())


def add_daemon(folder):
    """The daemon, the library and the raw tests for it, with the loader and the C library that they were built for."""
    make(CLIENTS, *(f"out/{name}" for name in OF_CLIENTS))
    make(f"{CLIENTS}/tests", "raw")
    shutil.copytree(f"{CLIENTS}/tests/out/raw", f"{folder}/dynamic")
    os.makedirs(f"{folder}/lib")
    for name in ("ld-linux-x86-64.so.2", "libc.so.6"):
        shutil.copy(library(name), f"{folder}/lib/{name}")
    for name in OF_CLIENTS:
        shutil.copy(f"{CLIENTS}/out/{name}", folder)


def script_of_tests(folder, packages):
    """The script that runs all of the tests, each behind its name."""
    build_raw(folder)
    add_managers(folder)
    script = "".join(ONE.format(test=test, before="", command=f"./raw/{test}") for test in RAW)
    script += BEGIN_MANAGERS
    for test in OF_MANAGERS:
        before = "export RAW_DEVICE=/dev/hwbinder\n" if test == "slow_service" else ""
        script += ONE.format(test=test, before=before, command=f"./raw/{test}")
    if add_tools(folder, packages):
        script += BEGIN_SERVICE + "".join(ONE.format(test=test, before="", command=f"sh packages/bin/{test}") for test in TOOLS)
    return script + END_MANAGERS


def tests_told(output):
    """Of each test its name, whether it passed, and what it said last."""
    for part in output.split("== ")[1:]:
        name, status, *told = part.strip().split("\n")
        yield name, status == "status 0", " ".join(told).replace("|", "/")[:200]


def tell_tests(kernel, output, is_documented):
    """A line for each test; whether all were run, and pass or have a reason not to."""
    found = list(tests_told(output))
    for name, passes, told in found:
        reason = f" ({REASONS[name]})" if name in REASONS and not passes else ""
        print(f"{'ok  ' if passes else 'FAIL'} {name}: {told}{reason}")
    passed, failed = sum(passes for _, passes, _ in found), [name for name, passes, _ in found if not passes]
    unknown = [name for name in failed if name not in REASONS]
    print(f"kernel raw: {passed} pass, {len(failed) - len(unknown)} don't for named reasons, {len(unknown)} unknown")
    is_good = len(found) == len(RAW + OF_MANAGERS + TOOLS) and not unknown
    if is_documented and is_good:
        lines = [(name, told, "" if passes else f"**doesn't pass**: {REASONS[name]}") for name, passes, told in found]
        head = f"Seen on {kernel.version}, by `clients/check kernel raw`: {passed} pass, {len(failed)} don't.\n"
        document.write(ROOT, "raw tests", "\n".join([head, *document.table(["Test", "What it says last", ""], lines)]))
    return is_good


def costs_told(output):
    """Thousands of instructions by what was measured and with how many bytes: a microsecond of that machine is a thousand."""
    found = {}
    for line in output.splitlines():
        what, _, told = line.partition(": ")
        kind, _, size = what.rpartition(" ")
        if kind in MEASURED:
            found[kind, size] = figures(told).get(MEASURED[kind][1])
    return found


def tell_costs(kernel, output, calls, is_documented):
    """Each cost; whether all were measured."""
    found = costs_told(output)
    lines = [(what, *(str(found.get((kind, size))) for size in BYTES)) for kind, (what, _) in MEASURED.items()]
    for what, *costs in lines:
        print(f"{what}: {', '.join(f'{cost} with {size} bytes' for cost, size in zip(costs, BYTES))}")
    is_whole = all(found.get((kind, size)) for kind in MEASURED for size in BYTES)
    print(output if not is_whole else f"kernel cost: thousands of instructions a call, on {kernel.version}")
    if is_documented and is_whole:
        head = f"Seen on {kernel.version}, by `clients/check kernel cost --calls {calls}`, in thousands of instructions a call.\n"
        document.write(ROOT, "cost", "\n".join([head, *document.table(["Calls", "0 bytes", "4,096", "262,144"], lines)]))
    return is_whole


def arguments():
    parser = argparse.ArgumentParser(usage=__doc__)
    parser.add_argument("what", choices=["raw", "cost"])
    parser.add_argument("--kernel", default=default_folder())
    parser.add_argument("--packages", default=packages_folder())
    parser.add_argument("--calls", type=int, default=200)
    parser.add_argument("--seconds", type=int, default=3600)
    parser.add_argument("--document", action="store_true")
    return parser.parse_args()


def script_of(given, folder):
    if given.what == "raw":
        return script_of_tests(folder, os.path.abspath(given.packages))
    build_raw(folder)
    add_daemon(folder)
    return COST.format(calls=given.calls, sizes=" ".join(BYTES))


def main():
    given = arguments()
    folder = tempfile.mkdtemp(prefix="kernel-programs-")
    try:
        kernel = Kernel(os.path.abspath(given.kernel))
        script = script_of(given, folder)
        with open(f"{folder}/run", "w", encoding="ascii") as file:
            file.write(script)
        _, output = run(kernel, folder, given.seconds)
    except (Missing, NotRun, OSError) as why:
        print(f"kernel: {why}", file=sys.stderr)
        return 1
    finally:
        shutil.rmtree(folder, ignore_errors=True)
    if given.what == "raw":
        return 0 if tell_tests(kernel, output, given.document) else 1
    return 0 if tell_costs(kernel, output, given.calls, given.document) else 1


if __name__ == "__main__":
    sys.exit(main())
