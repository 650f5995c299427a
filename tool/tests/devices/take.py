#!/usr/bin/env python3
# SPDX-License-Identifier: Apache-2.0 OR MIT
"""take FOLDER TO [SUITE] [MIRROR]: takes the samples of this folder anew, from Linux's own driver in the virtual machine of clients/kernel.

FOLDER keeps the kernel that is fetched, of Debian's suite (bookworm where none is named); the samples come into TO. Needs qemu, a network
for Debian's packages, a C compiler with a static C library, and trace-cmd and perf on this machine for the binary forms. Perfetto is
sid's: it records a ping twice, with all of Binder's events and with those that a phone's own settings have, beside an instance of text.
"""
import glob
import os
import shutil
import sys
import tempfile

sys.dont_write_bytecode = True
HERE = os.path.dirname(os.path.abspath(__file__))
ROOT = os.path.dirname(os.path.dirname(os.path.dirname(HERE)))
sys.path[:0] = [f"{ROOT}/clients/kernel", f"{ROOT}/clients/tests", f"{ROOT}/tools"]

import fetch  # noqa: E402
import machine  # noqa: E402
import plainly  # noqa: E402, F401  (what is missing is told in one line)
from kernels import kernel_of  # noqa: E402
from packages import Apt, Packages, default_folder  # noqa: E402
from programs import add_managers, build_raw  # noqa: E402

# what is run in the machine; the tests that are looked at use little, so that a sample stays small
SCRIPT = r"""
T=/sys/kernel/debug/tracing
B=/sys/kernel/debug/binder
export PATH=$PATH:/usr/sbin
keep() { for name in state stats transactions transaction_log failed_transaction_log; do cat $B/$name > $1.$name; done; }
begin() { echo > $T/trace; echo $1 > $T/options/record-tgid; echo 1 > $T/events/binder/enable; }
end() { echo 0 > $T/events/binder/enable; cat $T/trace > $1.trace; }
cat $T/events/binder/binder_transaction/format $T/events/binder/binder_return/format > formats
uname -r > release
begin 1
./raw/nested > /tmp/nested 2>&1; echo nested $?
end all
head -n 400 all.trace > nested.trace; rm all.trace
begin 1
./raw/deaths > /tmp/deaths 2>&1; echo deaths $?
keep raw
end raw
begin 1
./raw/many 3 2 60 > /tmp/many 2>&1 & Y=$!
sleep 0.02
for look in 1 2 3 4 5 6 7 8; do
    keep busy
    grep -q "pending\|outgoing" busy.state && break
done
wait $Y; echo many $?
end all
head -n 600 all.trace > many.trace; rm all.trace
begin 0
./bin/hullpippin-servicemanager > /tmp/manager 2>&1 & M=$!
sleep 1
./bin/hullpippin-hello hello > /tmp/hello 2>&1 & H=$!
sleep 1
keep before
sh packages/bin/binder-list -d /dev/binder; sh packages/bin/binder-ping -d /dev/binder hello
keep tools
end tools
kill $H
sleep 1
keep after
if [ -x /usr/bin/trace-cmd ]; then
    ./bin/hullpippin-hello hello > /tmp/hello 2>&1 & H=$!
    sleep 1
    trace-cmd record -q -e binder -o ping.dat sh packages/bin/binder-ping -d /dev/binder hello > /tmp/tc 2>&1; tail -n 2 /tmp/tc
    perf record -q -e 'binder:*' -k mono -a -o ping.data sh packages/bin/binder-ping -d /dev/binder hello > /tmp/perf 2>&1; tail -n 2 /tmp/perf
fi
I=$T/instances/beside
B=/tmp/perfetto/usr
perfetto() { name=$1; shift; $B/lib/x86_64-linux-gnu/ld-linux-x86-64.so.2 --library-path $B/lib/x86_64-linux-gnu:$B/lib/perfetto $B/$name "$@"; }
tries() { n=0; while [ $n -lt 2000 ]; do "$@" && return; n=$((n + 1)); sleep 0.1; done; echo "given up: $*"; }
traced() { [ "$(cat $T/events/binder/binder_transaction/enable)" = 1 ]; }
# (copied, as the clock leaps while a file of the host's is read)
cp -r perfetto packages bin /tmp
/tmp/bin/hullpippin-hello hello > /tmp/hello 2>&1 & H=$!
perfetto sbin/traced > /tmp/traced 2>&1 & P=$!
sleep 1
perfetto sbin/traced_probes > /tmp/probes 2>&1 & Q=$!
sleep 1
mkdir $I
echo 1 > $I/options/record-tgid
for set in whole phone; do
    perfetto bin/perfetto --txt -c perfetto/$set -o /tmp/$set.perfetto-trace > /tmp/said 2>&1 & R=$!
    tries traced
    echo > $I/trace; echo boot > $I/trace_clock; echo 1 > $I/events/binder/enable
    sh /tmp/packages/bin/binder-list -d /dev/binder; sh /tmp/packages/bin/binder-ping -d /dev/binder hello
    echo 0 > $I/events/binder/enable
    cat $I/trace > $set.beside
    wait $R; echo perfetto $?; tail -n 3 /tmp/said
    cp /tmp/$set.perfetto-trace .
done
tail -n 3 /tmp/traced /tmp/probes
kill $Q $P $H $M
"""
# What Perfetto is told to record: all of Binder's events, or those of its own category `binder_driver`, as phones have it.
SETTINGS = """buffers { size_kb: 4096 fill_policy: DISCARD }
data_sources { config { name: "linux.ftrace" ftrace_config { %s } } }
data_sources { config { name: "linux.process_stats" process_stats_config { scan_all_processes_on_start: true record_thread_names: true } } }
duration_ms: 15000
"""
SETS = {"whole": ["binder/*"],
        "phone": [f"binder/{it}" for it in ("binder_transaction", "binder_transaction_received", "binder_transaction_alloc_buf")]}


def add_perfetto(work):
    """Perfetto with all that it stands on, its own loader and C library too, and its settings."""
    with tempfile.TemporaryDirectory() as room:
        apt = Apt(f"{room}/apt")
        apt("update")
        apt("download", "perfetto", "libstdc++6", "libgcc-s1", "zlib1g", "libc6", cwd=room)
        for package in glob.glob(f"{room}/*.deb"):
            fetch.unpack(package, f"{work}/perfetto")
    for name, events in SETS.items():
        with open(f"{work}/perfetto/{name}", "w", encoding="ascii") as file:
            file.write(SETTINGS % " ".join(f'ftrace_events: "{it}"' for it in events))


def main():
    if len(sys.argv) < 3:
        sys.exit(__doc__)
    folder, to, suite, mirror = [*sys.argv[1:], "bookworm", None][:4] if len(sys.argv) == 3 else [*sys.argv[1:], None][:4]
    kernel = kernel_of(folder, suite, mirror)
    work = tempfile.mkdtemp(prefix="take-")
    try:
        build_raw(work)
        add_managers(work)
        add_perfetto(work)
        packages = os.environ.get("PACKAGES", default_folder())
        Packages(packages)
        shutil.copytree(packages, f"{work}/packages", symlinks=True)
        with open(f"{work}/run", "w", encoding="ascii") as file:
            file.write(SCRIPT)
        print(kernel.version, *machine.run(kernel, work, 900, True))
        os.makedirs(to, exist_ok=True)
        for pattern in ("raw.*", "before.*", "tools.*", "busy.*", "many.*", "nested.*", "after.*", "ping.*", "whole.*", "phone.*", "formats", "release"):
            for path in glob.glob(f"{work}/{pattern}"):
                shutil.copy(path, to)
    finally:
        shutil.rmtree(work, ignore_errors=True)


if __name__ == "__main__":
    main()
