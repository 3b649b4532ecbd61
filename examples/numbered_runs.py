#!/usr/bin/env python3
"""Kills `ledgerctl run` at random moments, sends every line again, and looks whether each record stands once.

A ledger is made in a folder of its own, which is removed at the end. TIMES times, a run is given COUNT numbered records of the
operator, and an anchor behind each 40, and killed at a random moment after its first receipt. Then the same records are sent
again, all of them. Each has to be answered with a receipt; where the killed run printed the record's receipt whole, with that one,
word for word. Behind the last turn each journal of the ledger is read, and each number has to stand in one record. Prints what it
saw, and ends with 1 where a record is missing, stands twice or is told another receipt, or no run was killed behind a receipt.
"""
import random
import shutil
import subprocess
import sys
import tempfile

from common import WRAPPER, append_line, made_ledger, words_of
from kill_runs import killed_run


def main():
    parser = words_of(__doc__)
    parser.add_argument("times", metavar="TIMES", nargs="?", type=int, default=50)
    parser.add_argument("count", metavar="COUNT", nargs="?", type=int, default=2000)
    parser.add_argument("seed", metavar="SEED", nargs="?", type=int, default=1)
    words = parser.parse_args()
    program = words.program or WRAPPER
    chance = random.Random(words.seed)
    folder = tempfile.mkdtemp(prefix="ledger-")
    try:
        ledger = bytes.fromhex(made_ledger(program, folder))
        told, other, unanswered, silent = 0, 0, 0, 0
        for turn in range(words.times):
            first = 1 + turn * words.count
            lines = [numbered(ledger, number) for number in range(first, first + words.count)]
            before = receipts(killed_run(program, folder, once(lines), chance.uniform(0, 0.05)))
            again = receipts(whole_run(program, folder, lines))
            told += len(before)
            silent += not before
            unanswered += sum(number not in again for number in range(words.count))
            other += sum(again.get(number) != receipt for number, receipt in before.items())
        numbers = numbers_in(program, folder)
        wanted = words.times * words.count
        twice = len(numbers) - len(set(numbers))
        lacking = wanted - len(set(numbers))
        print(f"{words.times} runs killed, {silent} of them without a receipt; {wanted} records, all sent again")
        print(f"{told} receipts were printed before; {other} were told otherwise, {unanswered} lines had no receipt")
        print(f"{len(numbers)} records stand: {twice} twice, {lacking} not at all")
        return 0 if told and not (other or unanswered or twice or lacking) else 1
    finally:
        shutil.rmtree(folder)


# The line of a record of the operator whose content is its number, which is the request's number too.
def numbered(ledger, number):
    return append_line(ledger, str(number).encode(), number)


# Of each record of a run that got a whole receipt, by its place among the records: the words of the receipt.
def receipts(printed):
    found = {}
    for line in printed[: printed.rfind(b"\n") + 1].splitlines():
        index, _, words = line.partition(b" ")
        place = int(index.partition(b".")[2]) - 1
        if words.startswith(b"ok ") and place % 41 != 40:
            found[place - place // 41] = words
    return found


# The lines with an anchor behind each 40.
def with_anchors(lines):
    return b"".join(line + b"0 anchor\n" * (at % 40 == 39) for at, line in enumerate(lines))


# Writes these lines once. The pipe stays open behind them, so that the run doesn't end by itself.
def once(lines):
    def feed(pipe):
        try:
            pipe.write(with_anchors(lines))
            pipe.flush()
        except OSError:
            pass

    return feed


def whole_run(program, folder, lines):
    return subprocess.run([program, "run", folder], input=with_anchors(lines), capture_output=True, check=True).stdout


# The numbers of all records of a ledger.
def numbers_in(program, folder):
    head = subprocess.run([program, "run", folder], input=b"0 head\n", capture_output=True, check=True).stdout
    size = int(head.split(b" ")[3])
    asked = b"".join(b"0 get %d\n" % n for n in range(size))
    shown = subprocess.run([program, "run", folder], input=asked, capture_output=True, check=True).stdout
    headers = [bytes.fromhex(line.split(b" ")[2].decode()) for line in shown.splitlines()]
    return [int.from_bytes(header[58:66], "big") for header in headers if header[1] == 1]


if __name__ == "__main__":
    sys.exit(main())
