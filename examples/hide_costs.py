#!/usr/bin/env python3
"""Measures an occult by clue: one line that hides the contents of COUNT records of one clue, and the opening behind it.

Two ledgers are made alike in a folder of their own below TMPDIR, which is removed at the end. The line is sent to a run that has
opened the first already, and the time to its receipt is taken. Beside it a program in C (compiled by cc) writes as many zeros over the
same places of the second one's file, each by a call of its own, and syncs once. TIMES times, by turns; best and median of each are
printed, and how many of the contents stand in the files at last. Ends with 1 where one does, or the line isn't accepted.
"""
import os
import shutil
import statistics
import subprocess
import sys
import tempfile
import time

from common import answer, append_line, built_program, compiled, made_ledger, run_script, searched, words_of
from erased_runs import clue_occult_line

WRITER = r"""
#include <fcntl.h>
#include <stdio.h>
#include <stdlib.h>
#include <time.h>
#include <unistd.h>
static double now(void) {
  struct timespec t;
  clock_gettime(CLOCK_MONOTONIC, &t);
  return t.tv_sec + t.tv_nsec / 1e9;
}
int main(int words, char **word) {
  int file = open(word[1], O_RDWR);
  long size = atol(word[2]), count = atol(word[3]);
  long *places = malloc(count * sizeof(long));
  char *zeros = calloc(size, 1);
  for (long i = 0; i < count; i++)
    if (scanf("%ld", places + i) != 1) return 1;
  double began = now();
  for (long i = 0; i < count; i++)
    if (pwrite(file, zeros, size, places[i]) != size) return 1;
  if (fdatasync(file)) return 1;
  printf("%.6f", now() - began);
  return 0;
}
"""


def main():
    parser = words_of(__doc__)
    parser.add_argument("--bytes", type=int, default=50, help="how long each content is")
    parser.add_argument("count", metavar="COUNT", nargs="?", type=int, default=10_000)
    parser.add_argument("times", metavar="TIMES", nargs="?", type=int, default=11)
    words = parser.parse_args()
    program, told, found = built_program(words.program), {}, 0
    room = tempfile.mkdtemp(prefix="hidden-")
    try:
        writer = compiled(WRITER, room)
        for turn in range(words.times):
            found += measured(program, writer, os.path.join(room, str(turn)), words, told)
    finally:
        shutil.rmtree(room)
    for name, seconds in told.items():
        print(f"{name}: best {min(seconds):.4f} s, median {statistics.median(seconds):.4f} s")
    print(f"{words.count} contents hidden, {words.times} times; {found} found")
    return 1 if found else 0


# Takes the time of the line, of as many zeros and of an opening, and tells how many of the contents are found then.
def measured(program, writer, room, words, told):
    os.mkdir(room)
    first, second = (os.path.join(room, name) for name in ("first", "second"))
    ledger, contents = filled(program, first, words)
    _, others = filled(program, second, words)
    told.setdefault("the line", []).append(hidden(program, first, clue_occult_line(ledger, "c", words.count)))
    if writer:
        told.setdefault("as many zeros", []).append(zeroed(writer, os.path.join(second, "ledger.a"), others, words.bytes))
    began = time.monotonic()
    run_script(program, first, b"")
    told.setdefault("opening behind it", []).append(time.monotonic() - began)
    return searched(first, contents)


# Makes a ledger with records of one clue, and answers its id and the contents.
def filled(program, folder, words):
    os.mkdir(folder)
    ledger = bytes.fromhex(made_ledger(program, folder))
    contents = [os.urandom(words.bytes) for _ in range(words.count)]
    run_script(program, folder, b"".join(append_line(ledger, content, clue="c") for content in contents))
    return ledger, contents


# How long a run that has opened its ledger takes from a line to its receipt.
def hidden(program, folder, line):
    run = subprocess.Popen([program, "run", folder], stdin=subprocess.PIPE, stdout=subprocess.PIPE)
    printed = []
    run.stdin.write(b"0 head\n")
    run.stdin.flush()
    answer(run, printed)
    began = time.monotonic()
    run.stdin.write(line)
    run.stdin.flush()
    verb = answer(run, printed)[1]
    took = time.monotonic() - began
    run.stdin.close()
    if run.wait() or verb != b"ok":
        sys.exit(f"the line is answered with {verb.decode()}")
    return took


# How long zeros take over contents that stand one behind the other in a file, with one sync.
def zeroed(writer, path, contents, size):
    with open(path, "rb") as file:
        image = file.read()
    places, at = [], 0
    for content in contents:
        at = image.index(content, at)
        places.append(at)
    words = [writer, path, str(size), str(len(places))]
    return float(subprocess.run(words, input="\n".join(map(str, places)), capture_output=True, text=True, check=True).stdout)


if __name__ == "__main__":
    sys.exit(main())
