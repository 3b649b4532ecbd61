#!/usr/bin/env python3
"""Measures what a run of COUNT records costs on a disk and in memory, by turns with others that put as many records there.

By turns, TIMES times: `ledgerctl` on one lane and on eight, and the same of another build of it where --before names one; SQLite, by
Python's own module, with as many contents in transactions of 64, a log that is written ahead and synchronous FULL; and a program in C
(compiled by cc) that writes and syncs the very bytes of the ledger's file, in groups of at most 64 blocks and 1 MiB, as a commit does. For each
the best time by the clock is printed, and how many records a second that is. FOLDER, on the disk that is measured, gets a folder of its
own, which is removed at the end. Ends with 1 where a run ends with another status than 0.
"""
import os
import shutil
import sqlite3
import subprocess
import sys
import tempfile
import time

from common import append_line, built_program, compiled, made_ledger, timed, words_of

BLOCKS, BYTES = 64, 1 << 20
WRITER = r"""
#include <fcntl.h>
#include <stdio.h>
#include <stdlib.h>
#include <unistd.h>
int main(int count, char **words) {
  FILE *from = fopen(words[1], "rb"), *groups = fopen(words[2], "r");
  int to = open(words[3], O_RDWR | O_CREAT | O_TRUNC, 0600);
  fseek(from, 0, SEEK_END);
  long size = ftell(from), begin, end;
  rewind(from);
  unsigned char *bytes = malloc(size), one = 1;
  if (to < 0 || fread(bytes, 1, size, from) != (size_t)size) return 1;
  while (fscanf(groups, "%ld %ld", &begin, &end) == 2) {
    bytes[end] = 0;
    if (pwrite(to, bytes + begin + 1, end - begin, begin + 1) != end - begin || fdatasync(to)) return 1;
    if (pwrite(to, &one, 1, begin) != 1 || fdatasync(to)) return 1;
    bytes[end] = 1;
  }
  return 0;
}
"""


def main():
    parser = words_of(__doc__)
    parser.add_argument("--before", metavar="PATH", help="another build of ledgerctl, to be measured by turns with this one")
    parser.add_argument("--bytes", type=int, default=50, help="how long each content is")
    parser.add_argument("folder", metavar="FOLDER", help="a folder on the disk that is measured")
    parser.add_argument("count", metavar="COUNT", nargs="?", type=int, default=200_000)
    parser.add_argument("times", metavar="TIMES", nargs="?", type=int, default=5)
    words = parser.parse_args()
    programs = {"ledgerctl": built_program(words.program)}
    if words.before:
        programs["ledgerctl before"] = os.path.realpath(words.before)
    room = tempfile.mkdtemp(prefix="measured-", dir=words.folder)
    best, statuses = {}, set()
    try:
        writer = compiled(WRITER, room)
        for _ in range(words.times):
            for name, seconds, status in measured(programs, writer, room, words):
                best[name] = min(seconds, best.get(name, seconds))
                statuses.add(status)
    finally:
        shutil.rmtree(room)
    for name, seconds in best.items():
        print(f"{name}: {seconds:.3f} s, {words.count / seconds:,.0f} records a second")
    return 1 if statuses != {0} else 0


# One turn: each name with its seconds and its status.
def measured(programs, writer, room, words):
    last = None
    for lanes in (1, 8):
        for name, program in programs.items():
            folder = emptied(os.path.join(room, "ledger"))
            script = script_of(program, folder, os.path.join(room, "script"), lanes, words)
            seconds, _, status = timed([program, "run", folder], script, os.path.join(room, "out"))
            yield f"{name}, {lanes} lane{'s' if lanes > 1 else ''}", seconds, status
            last = folder
    yield "SQLite in transactions of 64", in_sqlite(os.path.join(room, "sqlite"), words), 0
    if writer:
        groups = os.path.join(room, "groups")
        with open(groups, "w") as file:
            file.writelines(f"{begin} {end}\n" for begin, end in groups_of(os.path.join(last, "ledger.a")))
        begun = time.perf_counter()
        status = subprocess.run([writer, os.path.join(last, "ledger.a"), groups, os.path.join(room, "copy")]).returncode
        yield "a C program that writes the same groups", time.perf_counter() - begun, status


def emptied(folder):
    shutil.rmtree(folder, ignore_errors=True)
    os.mkdir(folder)
    return folder


# Makes a ledger and the script that appends to it, and answers the script's name.
def script_of(program, folder, script, lanes, words):
    ledger = bytes.fromhex(made_ledger(program, folder))
    line = append_line(ledger, b"x" * words.bytes)
    with open(script, "wb") as file:
        file.writelines(b"%d" % (number % lanes) + line[1:] for number in range(words.count))
    return script


# How long SQLite takes to insert as many contents.
def in_sqlite(folder, words):
    base = sqlite3.connect(os.path.join(emptied(folder), "records.db"), isolation_level=None)
    base.execute("PRAGMA journal_mode = WAL")
    base.execute("PRAGMA synchronous = FULL")
    base.execute("CREATE TABLE records (number INTEGER PRIMARY KEY, content BLOB)")
    rows, begun = [(b"x" * words.bytes,)] * 64, time.perf_counter()
    for left in range(words.count, 0, -64):
        base.execute("BEGIN")
        base.executemany("INSERT INTO records (content) VALUES (?)", rows[:left])
        base.execute("COMMIT")
    seconds = time.perf_counter() - begun
    base.close()
    return seconds


# Where the gates of groups of a ledger's blocks stand, each with that behind the group.
def groups_of(path):
    with open(path, "rb") as file:
        data = file.read()
    gate = 64
    begin, blocks = gate, 0
    while data[gate] == 1:
        if blocks == BLOCKS or gate - begin >= BYTES:
            yield begin, gate
            begin, blocks = gate, 0
        gate += 1 + 44 + int.from_bytes(data[gate + 5 : gate + 13], "big")
        blocks += 1
    yield begin, gate


if __name__ == "__main__":
    sys.exit(main())
