#!/usr/bin/env python3
"""Measures the keeping, the carrying on and the reviving of a set of 64 journals, in time, memory and bytes, beside opening the ledger.

A ledger of COUNT records of 50 bytes, with an anchor, 1,000 more records and a second anchor behind them, is made in a folder of its own, which is
removed at the end. Of the records 64 that are evenly spread are kept in front of the first anchor. The set is carried on to the second, and the
carried set is revived, TIMES times by turns; an empty script shows what opening alone takes. Prints the medians of the wall clock, the most memory
that each call held, and the bytes that it wrote.
"""
import os
import shutil
import statistics
import sys
import tempfile

from common import append_line, built_program, made_ledger, run_script, timed, words_of


def main():
    parser = words_of(__doc__)
    parser.add_argument("count", metavar="COUNT", nargs="?", type=int, default=1_000_000)
    parser.add_argument("times", metavar="TIMES", nargs="?", type=int, default=5)
    words = parser.parse_args()
    program = built_program(words.program)
    room = tempfile.mkdtemp(prefix="kept-")
    try:
        folder = os.path.join(room, "ledger")
        os.mkdir(folder)
        points = anchored(program, folder, words.count)
        calls = calls_of(room, folder, points, words.count)
        told = {name: [] for name in calls}
        for _ in range(words.times):
            for name, (form, given, taken) in calls.items():
                seconds, memory, status = timed([program, *form], given, taken)
                if status != 0:
                    raise SystemExit(f"{name} ended with {status}")
                told[name].append((seconds, memory, os.path.getsize(taken)))
        for name, runs in told.items():
            print(f"{name}: {statistics.median(run[0] for run in runs):.3f} s, {max(run[1] for run in runs)} KiB, {runs[-1][2]} bytes")
        return 0
    finally:
        shutil.rmtree(room)


# Makes the ledger's journals, and answers the numbers of the two anchors.
def anchored(program, folder, count):
    line = append_line(bytes.fromhex(made_ledger(program, folder)), b"x" * 50)
    given = run_script(program, folder, line * count + b"0 anchor\n" + line * 1000 + b"0 anchor\n")
    if given.returncode != 0:
        raise SystemExit(f"the script ended with {given.returncode}")
    replies = given.stdout.split(b"\n")
    return [replies[at].split()[2].decode() for at in (count, count + 1001)]


# The words of each call, and the files of its input and its output.
def calls_of(room, folder, points, count):
    numbers = ",".join(str(1 + k * (count // 64)) for k in range(64))
    kept, carried, shown, none = (os.path.join(room, name) for name in ("kept", "carried", "shown", "none"))
    return {
        "opening": (["run", folder], None, none),
        "keep": (["keep", folder, points[0], numbers], None, kept),
        "carry": (["carry", folder, points[1]], kept, carried),
        "revive": (["revive", folder], carried, shown),
    }


if __name__ == "__main__":
    sys.exit(main())
