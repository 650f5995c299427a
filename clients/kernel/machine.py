# SPDX-License-Identifier: Apache-2.0 OR MIT
"""A virtual machine with Linux's own Binder driver, in which a script is run.

    machine.py FOLDER [--seconds N] [--host] [--processors N] [--kernel FOLDER]   runs FOLDER/run there, with FOLDER as its working folder

The machine is emulated, with one processor, and needs no privilege. What the script prints comes to FOLDER/output. Its clock counts
instructions, a nanosecond each, whatever its host is busy with: a run is the same each time, however slow, and no interrupt of a clock
takes the time that a busy host leaves it. With --host it sees the host's /usr, for programs that aren't static.

With --processors it has more than one, so that several threads are inside of the driver at once. Its clock is the host's then, and no two
runs are the same.
"""
import argparse
import os
import subprocess
import sys
import time

from fetch import Kernel, Missing, default_folder

# no call of the kernel is left for another thread before it waits or ends
OF_KERNEL = ("console=ttyS0 quiet panic=-1 preempt=none nosmp no_timer_check tsc=reliable lpj=4000000 mitigations=off audit=0 apparmor=0 "
             "log_buf_len=1M")
# .. but where several processors are to be in the kernel at once
OF_SEVERAL = OF_KERNEL.replace("preempt=none nosmp", "preempt=voluntary")
# the least that what Rattle compiles runs on: x86-64-v2
PROCESSOR = "Nehalem"
# seconds until the kernel has to have come up, by an emulation that four others slow down
TO_COME_UP = 600
# how much longer a machine may take than it has of the host's processors, which may be a tenth of one
PATIENCE = 10


class NotRun(Exception):
    """The machine didn't run its script to the end: why."""


def words(kernel, folder, host, processors):
    """qemu's command line."""
    clock = ["-accel", "tcg", "-icount", "shift=0,sleep=off"] if processors == 1 else ["-accel", "tcg,thread=single"]
    memory, of_kernel = ("256", OF_KERNEL) if processors == 1 else ("640", OF_SEVERAL)
    shares = [(folder, "work", "")] + ([("/usr", "usr", ",readonly=on")] if host else [])
    found = [*kernel.qemu, "-nodefaults", "-no-user-config", "-display", "none", "-no-reboot", "-nic", "none", "-m", memory,
             "-smp", str(processors), "-cpu", PROCESSOR, *clock, "-kernel", kernel.image, "-initrd", kernel.first_files,
             "-serial", f"file:{folder}/console", "-append", of_kernel]
    for path, tag, more in shares:
        found += ["-virtfs", f"local,path={path},mount_tag={tag},security_model=none,id={tag},multidevs=remap{more}"]
    return found


def forget(folder, *names):
    for name in names:
        if os.path.exists(f"{folder}/{name}"):
            os.remove(f"{folder}/{name}")


def text_of(path):
    try:
        with open(path, encoding="utf-8", errors="replace") as file:
            return file.read()
    except FileNotFoundError:
        return ""


def worked(machine):
    """The seconds of the host's processors that a machine has had."""
    with open(f"/proc/{machine.pid}/stat", encoding="utf-8", errors="replace") as file:
        fields = file.read().rpartition(")")[2].split()
    return (int(fields[11]) + int(fields[12])) / os.sysconf("SC_CLK_TCK")


def wait_for_end(machine, folder, seconds, is_counted):
    """Waits for the script's end. A machine whose clock counts instructions never idles, so it is given so many seconds of work: of a
    busy host it gets a small part, and ten times as long by the clock was seen."""
    begin = time.monotonic()
    while machine.poll() is None and not os.path.exists(f"{folder}/done"):
        waited = time.monotonic() - begin
        took = max(worked(machine), waited / PATIENCE) if is_counted else waited
        if took > TO_COME_UP and not os.path.exists(f"{folder}/up"):
            raise NotRun(f"no kernel has come up in {TO_COME_UP} s: {text_of(f'{folder}/console')[-600:]}")
        if took > seconds:
            raise NotRun(f"its script wasn't done in {seconds} s ({waited:.0f} by the clock): {text_of(f'{folder}/output')[-600:]}")
        time.sleep(0.05)


def run(kernel, folder, seconds=600, host=False, processors=1):
    """Runs folder/run; its status, and what it printed. It has so many seconds, of work where there is one processor."""
    folder = os.path.abspath(folder)
    forget(folder, "up", "output", "status", "console", "complaints", "done")
    machine = subprocess.Popen(["nice", "-n", "10", *words(kernel, folder, host, processors)], env=kernel.environment,
                               stdin=subprocess.DEVNULL, stdout=subprocess.DEVNULL, stderr=subprocess.PIPE)
    try:
        wait_for_end(machine, folder, seconds, processors == 1)
    finally:
        machine.kill()
        said = machine.stderr.read().decode(errors="replace")
        machine.wait()
    status = text_of(f"{folder}/status").strip()
    if not status:
        raise NotRun(f"it ended before its script: {said}{text_of(f'{folder}/console')[-600:]}")
    complaints = text_of(f"{folder}/complaints")
    if complaints:
        raise NotRun(f"its kernel complains: {complaints}")
    return int(status), text_of(f"{folder}/output")


def main():
    parser = argparse.ArgumentParser(usage=__doc__)
    parser.add_argument("folder")
    parser.add_argument("--seconds", type=int, default=600)
    parser.add_argument("--host", action="store_true")
    parser.add_argument("--processors", type=int, default=1)
    parser.add_argument("--kernel", default=default_folder())
    given = parser.parse_args()
    try:
        status, output = run(Kernel(os.path.abspath(given.kernel)), given.folder, given.seconds, given.host, given.processors)
    except (Missing, NotRun, OSError) as why:
        print(f"machine: {why}", file=sys.stderr)
        return 1
    sys.stdout.write(output)
    return status


if __name__ == "__main__":
    sys.exit(main())
