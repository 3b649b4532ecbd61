#!/usr/bin/env python3
"""Kills `ledgerctl run` with SIGKILL at random moments, and looks whether every receipt that it printed is kept.

A ledger is made in a folder of its own, which is removed at the end. Then, TIMES times, a run is given records without
end, an anchor behind each 40, and killed, at a random moment after its first receipt; the ledger is opened again, and each
journal of which that run printed a whole receipt is read back: its header has to have the leaf digest of the receipt. For a
time journal the notary's file has to have the entry that its receipt names. At the end it is looked whether the receipts of
all runs are still there. Before that it is looked whether a line that asks is answered, and the receipts before it are
written, while the run waits for its next line. Prints what it saw, and ends with 1 where a receipt or an entry is lost, no
answer comes, or no run printed a receipt.
"""
import random
import shutil
import subprocess
import sys
import tempfile
import threading
import time

from common import WRAPPER, made_ledger, missing, missing_entries, receipts_in, record, stamps_in, words_of

# How long a run may take until its first receipt, in seconds.
PATIENCE = 60


def main():
    parser = words_of(__doc__)
    parser.add_argument("times", metavar="TIMES", nargs="?", type=int, default=100)
    parser.add_argument("seed", metavar="SEED", nargs="?", type=int, default=1)
    words = parser.parse_args()
    program = words.program or WRAPPER
    chance = random.Random(words.seed)
    folder = tempfile.mkdtemp(prefix="ledger-")
    try:
        line = record(program, made_ledger(program, folder))
        answered = answers_at_once(program, folder, line)
        print("a head and the receipt before it", "came" if answered else "didn't come", "while the script went on")
        receipts, stamps, lost, cut, silent = {}, {}, 0, 0, 0
        for turn in range(words.times):
            printed = killed_run(program, folder, endless(line * 40 + b"0 anchor\n"), chance.uniform(0, 0.25))
            new = receipts_in(printed)
            cut += not printed.endswith(b"\n")
            silent += not new
            lost += missing(program, folder, new)
            receipts.update(new)
            stamps.update(stamps_in(printed))
            lost += missing_entries(folder, stamps)
        lost += missing(program, folder, receipts)
        print(f"{words.times} runs killed, {cut} within a line, {silent} without a receipt")
        print(f"{len(receipts)} receipts, {len(stamps)} of them of time journals; {lost} lost")
        return 0 if answered and receipts and not lost else 1
    finally:
        shutil.rmtree(folder)


# Whether the receipt of a record and the head behind it come while the pipe stays open.
def answers_at_once(program, folder, line):
    run = subprocess.Popen([program, "run", folder], stdin=subprocess.PIPE, stdout=subprocess.PIPE)
    run.stdin.write(line + b"0 head\n")
    run.stdin.flush()
    replies = []
    reader = threading.Thread(target=lambda: replies.extend(run.stdout.readline() for _ in range(2)))
    reader.start()
    reader.join(PATIENCE)
    came = [reply.split(b" ")[1:2] for reply in list(replies)]
    run.stdin.close()
    run.wait()
    reader.join()
    return came == [[b"ok"], [b"head"]]


# What a run prints that is given lines by this function, and killed some time after its first receipt.
def killed_run(program, folder, feed, seconds):
    run = subprocess.Popen([program, "run", folder], stdin=subprocess.PIPE, stdout=subprocess.PIPE)
    printed, begun = [], threading.Event()
    reader = threading.Thread(target=read_all, args=(run.stdout, printed, begun))
    feeder = threading.Thread(target=feed, args=(run.stdin,))
    reader.start()
    feeder.start()
    begun.wait(PATIENCE)
    time.sleep(seconds)
    run.kill()
    run.wait()
    reader.join()
    feeder.join()
    return b"".join(printed)


# Reads all that a run prints, and tells when the first of it has come.
def read_all(pipe, printed, begun):
    while piece := pipe.read1():
        printed.append(piece)
        begun.set()
    begun.set()


# Writes these lines again and again.
def endless(lines):
    def feed(pipe):
        try:
            while True:
                pipe.write(lines)
        except OSError:
            pass

    return feed


if __name__ == "__main__":
    sys.exit(main())
