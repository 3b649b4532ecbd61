#!/usr/bin/env python3
"""Measures the export of a ledger and the audit of its dump, in time and memory, beside reading the dump and hashing each header once.

A ledger of COUNT records of 50 bytes, with an anchor at the end, is made in a folder of its own, which is removed at the end. Then it is
exported and its dump audited, TIMES times by turns, and the dump is read by this script, which hashes each header with the library
of Python. Prints the medians of the wall clock, the most memory that each program held, and what a journal's share of that is over an audit of a
ledger with one record.
"""
import hashlib
import os
import shutil
import statistics
import subprocess
import sys
import tempfile
import time

from common import append_line, built_program, made_ledger, timed, words_of


def main():
    parser = words_of(__doc__)
    parser.add_argument("--auditor", metavar="PATH", help="auditctl as it was built (otherwise that of bin/auditctl)")
    parser.add_argument("count", metavar="COUNT", nargs="?", type=int, default=1_000_000)
    parser.add_argument("times", metavar="TIMES", nargs="?", type=int, default=3)
    words = parser.parse_args()
    program = built_program(words.program)
    auditor = built_program(words.auditor, "auditctl")
    room = tempfile.mkdtemp(prefix="dumped-")
    try:
        small = measured(program, auditor, os.path.join(room, "small"), 1, 1)
        told = measured(program, auditor, os.path.join(room, "ledger"), words.count, words.times)
        print(f"{words.count} records: dump of {told['size']} bytes")
        for name in ("export", "audit", "read and hash"):
            print(f"{name}: {told[name]:.2f} s")
        print(f"memory: export {told['export memory']} KiB, audit {told['audit memory']} KiB")
        share = (told["audit memory"] - small["audit memory"]) * 1024 / words.count
        print(f"of an audit's memory a journal has {share:.0f} bytes")
        return 0
    finally:
        shutil.rmtree(room)


# The figures of a ledger with so many records.
def measured(program, auditor, folder, count, times):
    os.mkdir(folder)
    ledger = made_ledger(program, folder)
    line = append_line(bytes.fromhex(ledger), b"x" * 50)
    given = subprocess.run([program, "run", folder], input=line * count + b"0 anchor\n0 head\n", capture_output=True, check=True)
    head = given.stdout.split(b"\n")[-2].split()
    words = [ledger, head[3].decode(), head[4].decode(), head[7].decode(), head[8].decode()]
    dump, told = os.path.join(folder, "dump"), {"export": [], "audit": [], "read and hash": []}
    for _ in range(times):
        seconds, memory, _ = timed([program, "export", folder], None, dump)
        told["export"].append(seconds)
        told["export memory"] = memory
        seconds, memory, report = timed([auditor, "dump", *words], dump, os.path.join(folder, "report"))
        told["audit"].append(seconds)
        told["audit memory"] = memory
        if report != 0:
            raise SystemExit(f"the audit ended with {report}: {open(os.path.join(folder, 'report')).read()}")
        told["read and hash"].append(hashed(dump))
    told = {name: statistics.median(value) if isinstance(value, list) else value for name, value in told.items()}
    told["size"] = os.path.getsize(dump)
    return told


# How long it takes to read a dump without a base, and to hash each header.
def hashed(dump):
    begin = time.perf_counter()
    with open(dump, "rb") as file:
        bytes_of = file.read()
    count, at = int.from_bytes(bytes_of[48:56], "big"), 56
    for _ in range(count):
        header = bytes_of[at : at + 174]
        hashlib.sha256(b"\0" + header).digest()
        at += 175 + int.from_bytes(header[106:110], "big")
        at += 4 + int.from_bytes(bytes_of[at : at + 4], "big")
    return time.perf_counter() - begin


if __name__ == "__main__":
    sys.exit(main())
