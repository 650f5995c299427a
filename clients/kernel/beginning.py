#!/usr/bin/env python3
# SPDX-License-Identifier: Apache-2.0 OR MIT
"""The beginning of a recording as one file, as tool/tests/recordings keeps it (docs/FORMATS.md): what each thread had asked at a moment, and
of the trace what tells which transaction is which.

    beginning.py RECORDING MICROSECONDS FILE    of a folder that `clients/check kernel traffic --keep` has left

The moment is by the clock of the recording, as `hullpippin judge` tells where it is stuck. A call that hadn't come back then never does.
"""
import glob
import os
import re
import struct
import sys

HEAD, USED = 64, struct.Struct("<8sQ")
RECORD, WRITE_READ = struct.Struct("<IIQQ"), 4
# of a write and read, behind its record's head: what came of it, and where its four parts begin
RESULT, WRITTEN, READ, SIZES, PARTS = 8, 24, 48, 64, 88
EVENTS = ("ioctl", "command", "transaction", "transaction_received", "transaction_node_to_ref", "transaction_ref_to_node",
          "transaction_ref_to_ref", "transaction_buffer_release")
# which words of an event are kept, where it isn't the transaction's number alone
WORDS = {"ioctl": "cmd=", "transaction": ("transaction=", "dest_thread=", "reply=")}
EVENT = re.compile(r".*-(\d+)\s+\[\d+\]\s+\S+\s+(\d+)\.(\d+): binder_(\w+): ?(.*)")


def padded(size):
    return -(-size // 8) * 8


def without_end(record):
    """A call that never came back: what it had brought isn't there."""
    record = bytearray(record)
    struct.pack_into("<Q", record, 16, 0)
    if RECORD.unpack_from(record)[1] == WRITE_READ:
        body = RECORD.size
        written, sent = struct.unpack_from("<II", record, body + SIZES)
        del record[body + PARTS + padded(written) + padded(sent):]
        struct.pack_into("<I", record, 0, len(record))
        struct.pack_into("<ii", record, body + RESULT, 0, 0)
        struct.pack_into("<II", record, body + SIZES + 8, 0, 0)
        for before in (WRITTEN, READ):
            record[body + before + 8:body + before + 16] = record[body + before:body + before + 8]
    return bytes(record)


def of_thread(data, until):
    """The beginning of a thread's file; nothing where it had asked nothing yet."""
    used, at, kept = USED.unpack_from(data)[1], HEAD, b""
    while at < used:
        size, _, begin, end = RECORD.unpack_from(data, at)
        if begin > until:
            break
        record = data[at:at + size]
        kept += record if 0 < end <= until else without_end(record)
        at += size
    return data[:8] + struct.pack("<Q", HEAD + len(kept)) + data[16:HEAD] + kept if kept else b""


def of_trace(lines, tids, until):
    for line in lines:
        found = EVENT.match(line)
        if not found or int(found[1]) not in tids or found[4] not in EVENTS:
            continue
        if (int(found[2]) * 1_000_000 + int(found[3])) * 1000 <= until:
            words = [it for it in found[5].split() if it.startswith(WORDS.get(found[4], "transaction="))]
            yield f"-{found[1]}[ {found[2]}.{found[3]}: binder_{found[4]}:{''.join(f' {it}' for it in words)}\n"


def trace_of(recording, tids, until):
    """The beginning of the kernel's trace; nothing where it wasn't switched on."""
    if not os.path.exists(f"{recording}/trace"):
        return b""
    with open(f"{recording}/trace", encoding="utf-8", errors="replace") as file:
        trace = "".join(of_trace(file, tids, until)).encode()
    return b"HPTRACE1" + struct.pack("<Q", len(trace)) + trace


def main():
    if len(sys.argv) != 4:
        print("usage: beginning.py RECORDING MICROSECONDS FILE", file=sys.stderr)
        return 2
    recording, until = sys.argv[1], int(sys.argv[2]) * 1000
    threads, tids = b"", set()
    for path in sorted(glob.glob(f"{recording}/*.*.*")):
        with open(path, "rb") as file:
            kept = of_thread(file.read(), until)
        if kept:
            threads += kept
            tids.add(int(path.split(".")[-2]))
    with open(sys.argv[3], "wb") as file:
        file.write(threads + trace_of(recording, tids, until))
    return 0


if __name__ == "__main__":
    sys.exit(main())
