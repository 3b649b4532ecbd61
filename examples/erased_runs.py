#!/usr/bin/env python3
"""Kills `ledgerctl run` with SIGKILL while it hides contents, and searches the files for what is to be gone.

A ledger is made in a folder of its own, which is removed at the end. Then, TIMES times, a run appends records with contents that
stand nowhere else, and hides them as soon as their receipts were printed, one by its number or up to five by their clue, until it is
killed at a random moment. Then the bytes of both files are searched: a content whose occult's receipt was printed whole must not be
found, before the ledger is opened again and after it. Once it was opened, no content is to be found that `get` tells to be hidden,
and each receipt's journal has to be there.
Prints what it saw, and ends with 1 where a content was found or a receipt is lost, or nothing was hidden.
"""
import hashlib
import os
import random
import shutil
import subprocess
import sys
import tempfile
import threading

from common import (
    OPERATOR,
    REGULATOR,
    WRAPPER,
    answer,
    append_line,
    clue_digest,
    made_ledger,
    missing,
    proof,
    receipts_in,
    run_script,
    searched,
    words_of,
)


def main():
    parser = words_of(__doc__)
    parser.add_argument("times", metavar="TIMES", nargs="?", type=int, default=50)
    parser.add_argument("seed", metavar="SEED", nargs="?", type=int, default=1)
    words = parser.parse_args()
    program = words.program or WRAPPER
    chance = random.Random(words.seed)
    folder = tempfile.mkdtemp(prefix="ledger-")
    try:
        ledger = bytes.fromhex(made_ledger(program, folder))
        placed, hidden, receipts, found, lost, undone = {}, set(), {}, 0, 0, 0
        for turn in range(words.times):
            new_placed, new_hidden, printed = killed_run(program, folder, ledger, chance)
            placed.update(new_placed)
            hidden |= new_hidden
            receipts.update(receipts_in(printed))
            found += searched(folder, [placed[number] for number in hidden])
            lost += missing(program, folder, receipts)
            told = hidden_in(program, folder, placed)
            undone += len(told - hidden)
            found += searched(folder, [placed[number] for number in told | hidden])
            hidden |= told
        print(f"{words.times} runs killed; {len(receipts)} receipts, {lost} lost")
        print(f"{len(hidden)} contents hidden, {undone} of them without a receipt; {found} found")
        return 0 if hidden and not lost and not found else 1
    finally:
        shutil.rmtree(folder)


def occult_line(ledger, number, leaf):
    given = approvals(b"\x04" + ledger + number.to_bytes(8, "big") + bytes.fromhex(leaf))
    return f"0 occult {number} {leaf} {given}\n".encode()


def clue_occult_line(ledger, name, count):
    given = approvals(b"\x0d" + ledger + clue_digest(name) + count.to_bytes(4, "big"))
    return f"0 occultclue {name} {count} {given}\n".encode()


# The operator's and the regulator's approvals of a request.
def approvals(request):
    message = hashlib.sha256(request).digest()
    return ",".join(f"{member}:{proof(bytes.fromhex(key), message)}" for member, key in enumerate((OPERATOR, REGULATOR)))


# Runs until it is killed. Tells the contents of placed records by their numbers, which of them were hidden, and what was printed.
def killed_run(program, folder, ledger, chance):
    run = subprocess.Popen([program, "run", folder], stdin=subprocess.PIPE, stdout=subprocess.PIPE)
    placed, hidden, printed = {}, set(), []
    timer = threading.Timer(0.05 + chance.uniform(0, 0.1), run.kill)
    timer.start()
    try:
        while True:
            name = chance.choice(("-", os.urandom(8).hex()))
            contents = [os.urandom(24 + chance.randrange(5000)) for _ in range(1 if name == "-" else chance.randint(1, 5))]
            lines = b"".join(append_line(ledger, content, clue=name) for content in contents)
            *receipts, _ = asked(run, lines + b"0 head\n", len(contents) + 1, printed)
            new = {int(words[2]): content for words, content in zip(receipts, contents)}
            placed.update(new)
            last, leaf = int(receipts[-1][2]), receipts[-1][3].decode()
            line = occult_line(ledger, last, leaf) if name == "-" else clue_occult_line(ledger, name, len(contents))
            if asked(run, line, 1, printed)[0][1] == b"ok":
                hidden.update(new)
    except (BrokenPipeError, EOFError):
        pass
    timer.cancel()
    run.kill()
    run.wait()
    return placed, hidden, b"".join(printed)


# The words of the replies to so many lines.
def asked(run, lines, count, printed):
    run.stdin.write(lines)
    run.stdin.flush()
    return [answer(run, printed) for _ in range(count)]


# The numbers of those journals whose content the ledger tells to be hidden.
def hidden_in(program, folder, numbers):
    asked = sorted(numbers)
    replies = run_script(program, folder, "".join(f"0 get {number}\n" for number in asked).encode()).stdout.splitlines()
    return {number for number, reply in zip(asked, replies) if reply.split()[1] == b"occulted"}


if __name__ == "__main__":
    sys.exit(main())
