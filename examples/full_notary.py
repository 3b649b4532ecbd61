#!/usr/bin/env python3
"""Looks at what `ledgerctl` answers where its notary's list gets full.

A ledger is made in a folder of its own, which is removed at the end, and its notary's file is filled with entries until one
more fits. Two anchors and a `head` are asked: the first anchor gets the last entry, the second is refused, and the list is
full. Takes some minutes, 1.3 GB of disk and 2.3 GB of memory. Prints what it saw, and ends with 1 where it is something else.
"""
import os
import shutil
import sys
import tempfile

from common import built_program, made_ledger, run_script, words_of

# How many entries a list has at most.
LIMIT = 16_777_216

# A slot: an open gate, the time 1000, a peg and a salt.
SLOT = b"\x01" + (1000).to_bytes(8, "big") + bytes(64)


def main():
    words = words_of(__doc__).parse_args()
    program = built_program(words.program)
    folder = tempfile.mkdtemp(prefix="ledger-")
    try:
        made_ledger(program, folder)
        fill(os.path.join(folder, "notary"), LIMIT - 1)
        replies = run_script(program, folder, b"0 anchor\n0 anchor\n0 head\n").stdout.decode().splitlines()
    finally:
        shutil.rmtree(folder)
    for reply in replies:
        print(reply)
    placed, refused, head = (reply.split(" ") for reply in replies)
    if placed[1] == "ok" and placed[7] == str(LIMIT - 1) and refused[1:] == ["no", "28"] and head[7] == str(LIMIT):
        return 0
    return 1


# Writes a notary's file with so many entries, and its tail gate.
def fill(path, count):
    with open(path, "wb") as file:
        while count > 0:
            some = min(count, 65_536)
            file.write(SLOT * some)
            count -= some
        file.write(b"\x00")


sys.exit(main())
