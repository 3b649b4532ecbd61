#!/usr/bin/env python3
"""Kills `ledgerctl run` with SIGKILL while it gives up old journals, and searches the files for what is to be gone.

A ledger is made in a folder of its own, which is removed at the end. Then, TIMES times, a run appends records with contents that
stand nowhere else, has an anchor stamped, appends more, and purges all journals in front of the anchor's, again and again, until it
is killed at a random moment. Then the bytes of both files are searched: a content that a purge took whose receipt was printed whole
must not be found, before the ledger is opened again and after it. Once it was opened, no content in front of the point is to be found,
the journal of each receipt has to be there, or in front of the point, and one of the two files has to be empty.
Prints what it saw, and ends with 1 where a content was found or a receipt is lost, or nothing was purged.
"""
import os
import random
import shutil
import subprocess
import sys
import tempfile
import threading

from common import WRAPPER, answer, append_line, leaf_of, made_ledger, purge_line, receipts_in, run_script, searched, words_of


def main():
    parser = words_of(__doc__)
    parser.add_argument("times", metavar="TIMES", nargs="?", type=int, default=50)
    parser.add_argument("seed", metavar="SEED", nargs="?", type=int, default=1)
    words = parser.parse_args()
    program = words.program or WRAPPER
    chance = random.Random(words.seed)
    folder = tempfile.mkdtemp(prefix="ledger-")
    try:
        ledger = bytes.fromhex(made_ledger(program, folder))
        placed, receipts, point, purges, found, lost, undone, full = {}, {}, 0, 0, 0, 0, 0, 0
        for turn in range(words.times):
            new_placed, new_point, new_purges, printed = killed_run(program, folder, ledger, chance)
            placed.update(new_placed)
            receipts.update(receipts_in(printed))
            purges += new_purges
            point = max(point, new_point)
            found += searched(folder, [content for number, content in placed.items() if number < point])
            seen = head_of(program, folder)
            undone += seen > point
            point = max(point, seen)
            gone = [number for number in placed if number < point]
            found += searched(folder, [placed.pop(number) for number in gone])
            lost += missing(program, folder, receipts, point)
            full += all(os.path.getsize(os.path.join(folder, name)) for name in ("ledger.a", "ledger.b"))
        print(f"{words.times} runs killed; {len(receipts)} receipts, {lost} lost")
        print(f"{purges} purges with a receipt, {undone} finished at the next opening; point {point}; {found} contents found")
        print(f"{full} openings left two files with bytes")
        return 0 if purges and not lost and not found and not full else 1
    finally:
        shutil.rmtree(folder)


# Runs until it is killed. Tells the contents of placed records by their numbers, the point of the last purge that has a receipt, how
# many such purges there were, and what was printed.
def killed_run(program, folder, ledger, chance):
    run = subprocess.Popen([program, "run", folder], stdin=subprocess.PIPE, stdout=subprocess.PIPE)
    placed, point, purges, printed = {}, 0, 0, []
    timer = threading.Timer(0.05 + chance.uniform(0, 0.15), run.kill)
    timer.start()
    try:
        while True:
            place_records(run, ledger, chance, placed, printed)
            run.stdin.write(b"0 head\n0 anchor\n")
            run.stdin.flush()
            root = answer(run, printed)[4].decode()
            anchor = int(answer(run, printed)[2])
            place_records(run, ledger, chance, placed, printed)
            run.stdin.write(purge_line(ledger, anchor, root))
            run.stdin.flush()
            if answer(run, printed)[1] == b"ok":
                point, purges = anchor, purges + 1
    except (BrokenPipeError, EOFError):
        pass
    timer.cancel()
    run.kill()
    run.wait()
    return placed, point, purges, b"".join(printed)


# Appends some records, and waits for their receipts.
def place_records(run, ledger, chance, placed, printed):
    contents = [os.urandom(24 + chance.randrange(3000)) for _ in range(chance.randrange(1, 8))]
    run.stdin.write(b"".join(append_line(ledger, content) for content in contents) + b"0 head\n")
    run.stdin.flush()
    for content in contents:
        placed[int(answer(run, printed)[2])] = content
    answer(run, printed)


# The point of the ledger, once it is opened again.
def head_of(program, folder):
    return int(run_script(program, folder, b"0 head\n").stdout.split()[6])


# How many of these journals aren't there and aren't in front of the point, or have another leaf digest.
def missing(program, folder, receipts, point):
    numbers = sorted(receipts)
    replies = run_script(program, folder, "".join(f"0 get {number}\n" for number in numbers).encode()).stdout.split(b"\n")[:-1]
    if len(replies) != len(numbers):
        return max(1, len(numbers))
    return sum(not shows(reply, number, receipts[number], point) for number, reply in zip(numbers, replies))


# Whether a reply shows the journal, or says that it was purged.
def shows(reply, number, leaf, point):
    if number < point:
        return reply.split()[1:] == [b"no", b"21", str(point).encode()]
    return leaf_of(reply) == leaf


if __name__ == "__main__":
    sys.exit(main())
