#!/usr/bin/env python3
"""Measures provers beside a run: how many proofs a second they make, and how much slower they make the run.

A script appends records to a new ledger, first by `run`, then by `board` with 1, 2 and 4 provers, each on a ledger of its own.
Each prover makes as many proofs as were named. Of each run it prints the seconds, the records a second, and the proofs a second
over the whole run, which ends where both the script and the provers have ended.

It looks whether each prover's line tells as many accepted proofs as were asked for, and whether the published size is that of the
ledger behind the script, and ends with 1 where one doesn't.
"""
import os
import subprocess
import sys
import tempfile
import time

from common import append_line, built_program, made_ledger, words_of

PROVERS = (1, 2, 4)
faults = 0


def main():
    words = words_of(__doc__)
    words.add_argument("--records", type=int, default=200_000, help="how many records the script appends (200,000)")
    words.add_argument("--proofs", type=int, default=100_000, help="how many proofs each prover makes (100,000)")
    words = words.parse_args()
    program = built_program(words.program)
    with tempfile.TemporaryDirectory(prefix="ledger-") as top:
        alone = measured(program, top, "run", [], words.records)[0]
        print(f"run: {alone:.1f} s, {words.records / alone:.0f} records a second")
        for provers in PROVERS:
            seconds, replies = measured(program, top, "board", [str(provers), str(words.proofs)], words.records)
            looked_at(replies, provers, words.proofs, words.records)
            proofs = provers * words.proofs / seconds
            print(f"board with {provers}: {seconds:.1f} s, {words.records / seconds:.0f} records and {proofs:.0f} proofs a second")
    return 1 if faults else 0


# Runs a script of so many records on a new ledger: the seconds, and the replies.
def measured(program, top, verb, more, records):
    folder = os.path.join(top, "-".join([verb, *more]))
    os.mkdir(folder)
    line = append_line(bytes.fromhex(made_ledger(program, folder)), b"hi")
    began = time.monotonic()
    done = subprocess.run([program, verb, folder, *more], input=line * records, capture_output=True, check=True)
    return time.monotonic() - began, done.stdout.decode().splitlines()


# Looks at the lines behind the replies. Journal 0 was there before.
def looked_at(replies, provers, proofs, records):
    *lines, last = replies[-1 - provers:]
    for number, line in enumerate(lines):
        expect(line.startswith(f"board {number} {proofs} "), line)
    expect(last == f"published {records + 1}", last)


# Counts what isn't as it should be, and tells it.
def expect(holds, what):
    global faults
    if not holds:
        faults += 1
        print("FAULT:", what)


if __name__ == "__main__":
    sys.exit(main())
