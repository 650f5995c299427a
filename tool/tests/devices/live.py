#!/usr/bin/env python3
# SPDX-License-Identifier: Apache-2.0 OR MIT
"""live HULLPIPPIN KERNEL [SUITE]: looks at a kernel while it runs, in the virtual machine of clients/kernel.

HULLPIPPIN is the built program; KERNEL keeps the kernel that is fetched, of Debian's suite (bookworm where none is named; bullseye has an
older one, trixie a newer); PACKAGES may name the folder of clients/tests/packages.py. What is looked for: the calls of binder-ping, by
trace and by top; that no instance of tracing is left when trace is interrupted, when it is killed, and when all that it has started is
killed before the next one begins. The last line says how many of these hold.
"""
import os
import re
import shutil
import sys
import tempfile

sys.dont_write_bytecode = True
HERE = os.path.dirname(os.path.abspath(__file__))
ROOT = os.path.dirname(os.path.dirname(os.path.dirname(HERE)))
sys.path[:0] = [f"{ROOT}/clients/kernel", f"{ROOT}/clients/tests", f"{ROOT}/tools"]

import machine  # noqa: E402
import plainly  # noqa: E402, F401  (what is missing is told in one line)
from kernels import kernel_of  # noqa: E402
from packages import Packages, default_folder  # noqa: E402
from programs import add_managers  # noqa: E402

# The machine's clock leaps to the next alarm while nobody computes, so a sleep is over before a file of the host's is read: what is run
# lies in the machine's own memory, and is waited for by what it does.
SCRIPT = r"""
I=/sys/kernel/debug/tracing/instances
cp -r bin packages hullpippin /tmp
H=/tmp/hullpippin
left() { echo "left: $(ls $I | wc -l)"; }
tries() { n=0; while [ $n -lt 2000 ]; do "$@" && return; n=$((n + 1)); sleep 0.1; done; echo "given up: $*"; }
traced() { [ "$(cat $I/hullpippin-$T/events/binder/enable 2> /dev/null)" = 1 ]; }
told() { [ "$(grep -c _PNG $1)" -ge 2 ]; }
untraced() { [ -z "$(ls $I)" ]; }
ping() { sh /tmp/packages/bin/binder-ping -d /dev/binder hello > /dev/null 2>&1; }
/tmp/bin/hullpippin-servicemanager > /tmp/manager 2>&1 &
sleep 1
/tmp/bin/hullpippin-hello hello > /tmp/hello 2>&1 &
tries ping
$H trace --kernel > interrupted 2> interrupted.said & T=$!
tries traced
echo "during: $(ls $I | wc -l)"
ping
tries told interrupted
kill -INT $T; sleep 1; kill -TERM $T; wait $T
tries untraced
left
$H trace --kernel -o killed --code _PNG 2> killed.said & T=$!
tries traced
ping
tries told killed
kill -9 $T
tries untraced
left
echo "events: $(cat /sys/kernel/debug/tracing/events/binder/enable)"
$H trace --kernel > /dev/null 2>&1 & T=$!
tries traced
G=$(pidof hullpippin | tr ' ' '\n' | grep -v "^$T\$")
kill -9 $G; kill -9 $T
sleep 1
left
$H top --kernel --once --interval 6 > top 2>&1 & T=$!
tries traced
ping
wait $T
tries untraced
left
"""


def text(path):
    with open(path, encoding="utf-8", errors="replace") as file:
        return file.read()


def main():
    if len(sys.argv) < 3:
        sys.exit(__doc__)
    program, folder, suite = [*sys.argv[1:], "bookworm"][:3]
    packages = os.environ.get("PACKAGES", default_folder())
    kernel = kernel_of(folder, suite)
    work = tempfile.mkdtemp(prefix="live-")
    try:
        add_managers(work)
        Packages(packages)
        shutil.copytree(packages, f"{work}/packages", symlinks=True)
        shutil.copy(program, f"{work}/hullpippin")
        with open(f"{work}/run", "w", encoding="ascii") as file:
            file.write(SCRIPT)
        _, output = machine.run(kernel, work, 900, True)
        told = {name: text(f"{work}/{name}") for name in ("interrupted", "interrupted.said", "killed", "killed.said", "top")}
    finally:
        shutil.rmtree(work, ignore_errors=True)
    ping = re.compile(r"^\S+ binder-ping\((\d+)/\d+\) -> hello\(\d+/\d+\) node \d+ _PNG .* = 0 B <", re.M)
    lefts = re.findall(r"left: (\d+)", output)
    holds = {
        "trace tells the ping": bool(ping.search(told["interrupted"])),
        "trace chooses by code": told["killed"].count("_PNG") >= 2 and "#" not in told["killed"],
        "an instance of its own": "during: 1" in output and "events: 0" in output,
        "none is left when it is interrupted": lefts[:1] == ["0"],
        "none is left when it is killed": lefts[1:2] == ["0"],
        "one that was forgotten goes with the next": lefts[2:] == ["1", "0"],
        "top tells the ping": bool(re.search(r"binder-ping -> hello +node \d+ _PNG$", told["top"], re.M)),
    }
    for what, does in holds.items():
        print(f"{'ok  ' if does else 'FAIL'} {what}")
    if not all(holds.values()):
        print(output, *(f"== {name}\n{it}" for name, it in told.items()), sep="\n")
    print(f"live, on {kernel.version}: {sum(holds.values())} of {len(holds)}")
    return 0 if all(holds.values()) else 1


if __name__ == "__main__":
    sys.exit(main())
