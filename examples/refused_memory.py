#!/usr/bin/env python3
"""Refuses each growth of memory of a run in turn, one a run, and looks what the run tells and what it leaves.

A library that `gcc` makes in a folder of its own stands in front of the program's calls of `malloc` and `realloc`, and refuses the
one with a number. For each number, from 0 until a run makes no such call any more, a new ledger is made, and a run is given records,
an anchor, questions, an occult, one by clue and a purge. It has to end with status 6, `fail 6 memory` or a beginning of it as its last line, and
no reply that is another than without a refusal; or, where memory was only to be made smaller, with status 0 and all replies. Then the
ledger is opened again, and the journal of each receipt that was written whole has to be there, from the point in force on. Prints how
many growths were refused and what came of it, and ends with 1 where something is wrong.
"""
import os
import shutil
import subprocess
import sys
import tempfile
from collections import Counter

from common import append_line, built_program, made_ledger, missing, purge_line, receipts_in, run_script, words_of
from erased_runs import clue_occult_line, occult_line

LIBRARY = r"""
#define _GNU_SOURCE
#include <dlfcn.h>
#include <fcntl.h>
#include <stdatomic.h>
#include <stdlib.h>
#include <unistd.h>

static atomic_long calls;
static long refused = -1;

__attribute__((constructor)) static void begin(void) {
    const char *number = getenv("REFUSED");
    if (number) refused = atol(number);
}

static int refuses(void) {
    if (refused < 0 || atomic_fetch_add(&calls, 1) != refused) return 0;
    close(open(getenv("MARK"), O_CREAT | O_WRONLY, 0600));
    return 1;
}

void *malloc(size_t size) {
    static void *(*real)(size_t);
    if (!real) real = dlsym(RTLD_NEXT, "malloc");
    return refuses() ? 0 : real(size);
}

void *realloc(void *old, size_t size) {
    static void *(*real)(void *, size_t);
    if (!real) real = dlsym(RTLD_NEXT, "realloc");
    return refuses() ? 0 : real(old, size);
}
"""

# A number that no call has.
NEVER = 10**9


def main():
    words = words_of(__doc__).parse_args()
    program = built_program(words.program)
    room = tempfile.mkdtemp(prefix="refused-")
    try:
        library = made_library(room)
        first = refused_run(program, library, room, NEVER, "00" * 32, "00" * 32)
        leaf, root = receipts_in(first.printed)[2], root_in(first.printed)
        plain = refused_run(program, library, room, NEVER, leaf, root)
        told, number, wrong = Counter(), 0, 0
        while True:
            ran = refused_run(program, library, room, number, leaf, root)
            if not ran.refused:
                break
            told[ran.status] += 1
            wrong += is_wrong(program, ran, plain)
            number += 1
        print(f"{number} growths refused; " + ", ".join(f"status {status}: {count}" for status, count in sorted(told.items())))
        print(f"{wrong} runs told or left something wrong")
        return 1 if wrong or not number else 0
    finally:
        shutil.rmtree(room)


class Run:
    def __init__(self, folder, status, printed, refused):
        self.folder, self.status, self.printed, self.refused = folder, status, printed, refused


# The library in front of the program's calls.
def made_library(room):
    path = os.path.join(room, "refuse.so")
    subprocess.run(["gcc", "-shared", "-fPIC", "-O1", "-x", "c", "-", "-o", path], input=LIBRARY.encode(), check=True)
    return path


# A run on a new ledger in which the growth with this number is refused.
def refused_run(program, library, room, number, leaf, root):
    folder, mark = os.path.join(room, "ledger"), os.path.join(room, "mark")
    shutil.rmtree(folder, ignore_errors=True)
    if os.path.exists(mark):
        os.remove(mark)
    os.mkdir(folder)
    ledger = bytes.fromhex(made_ledger(program, folder))
    given = dict(os.environ, LD_PRELOAD=library, REFUSED=str(number), MARK=mark)
    ran = subprocess.run([program, "run", folder], input=script_of(ledger, leaf, root), capture_output=True, env=given)
    return Run(folder, ran.returncode, ran.stdout, os.path.exists(mark))


# Records, an anchor, questions, an occult of the journal with this leaf, one of a clue with two records, and a purge to the anchor, in
# front of which this is the root.
def script_of(ledger, leaf, root):
    records = b"".join(append_line(ledger, bytes([65 + at]) * (at * 700)) for at in range(1, 6))
    asked = b"0 get 2\n0 clue c\n" + records + b"0 prove 3\n0 extend ledger 4\n0 head\n"
    clued = b"".join(append_line(ledger, content, clue="c") for content in (b"one", b"two"))
    hiding = occult_line(ledger, 2, leaf) + clued + clue_occult_line(ledger, "c", 2)
    return records + b"0 anchor\n" + asked + hiding + purge_line(ledger, 6, root)


# The root that the receipt of journal 5 tells, the last one in front of the anchor.
def root_in(printed):
    return next(line.split()[6].decode() for line in printed.split(b"\n") if line.split()[1:3] == [b"ok", b"5"])


# Whether a run with a refusal told another status or reply, or lost a receipt.
def is_wrong(program, ran, plain):
    last = b"fail 6 memory\n"
    lines = ran.printed.split(b"\n")
    replies = [line for line in lines[:-1] if not line.startswith(b"fail ")]
    cut = lines[-1]
    is_done = ran.status == 0 and len(replies) == plain.printed.count(b"\n")
    bad = not (ran.status == 6 or is_done) or not last.startswith(cut) and cut
    bad = bad or any(not alike(line, whole) for line, whole in zip(replies, plain.printed.split(b"\n")))
    point = int(run_script(program, ran.folder, b"0 head\n").stdout.split()[6])
    kept = {number: leaf for number, leaf in receipts_in(ran.printed).items() if point <= number}
    if missing(program, ran.folder, kept) or bad:
        print(f"status {ran.status}: {ran.printed[-200:]}")
        return 1
    return 0


# Whether two replies are one, but for the notary's time and salt and the roots and leaves over them.
def alike(line, whole):
    return line.split(b" ")[:3] == whole.split(b" ")[:3]


if __name__ == "__main__":
    sys.exit(main())
