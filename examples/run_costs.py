#!/usr/bin/env python3
"""Measures a run that appends COUNT records, and the opening of the ledger that it leaves, by the clock and in memory.

The ledger is made in a folder of its own, which is removed at the end; with files in memory where TMPDIR names such a folder. The script
of lines is written before, and read from a file. TIMES times a new ledger is run and opened, and the medians are printed. With --lanes the
lines go round by so many lanes, with --numbers they are numbered, and with --purge an anchor behind half of them is purged to. With --older
the file is given version 1, and the opening is measured that carries it over, beside a copy of as many bytes with a sync. Ends with 1 where
a run ends with another status than 0.
"""
import os
import shutil
import statistics
import sys
import tempfile
import time

from common import append_line, built_program, made_ledger, purge_line, run_script, timed, words_of


def main():
    parser = words_of(__doc__)
    parser.add_argument("--bytes", type=int, default=50, help="how long each content is")
    parser.add_argument("--lanes", type=int, default=1, choices=range(1, 9), help="on how many lanes the lines come")
    parser.add_argument("--numbers", action="store_true", help="the records are numbered")
    parser.add_argument("--purge", action="store_true", help="purge the first half, too")
    parser.add_argument("--older", action="store_true", help="open the ledger from a file of version 1, too")
    parser.add_argument("count", metavar="COUNT", nargs="?", type=int, default=100_000)
    parser.add_argument("times", metavar="TIMES", nargs="?", type=int, default=5)
    words = parser.parse_args()
    program, told = built_program(words.program), {}
    for _ in range(words.times):
        room = tempfile.mkdtemp(prefix="measured-")
        try:
            for name, figures in measured(program, room, words):
                told.setdefault(name, []).append(figures)
        finally:
            shutil.rmtree(room)
    for name, rows in told.items():
        seconds, memory, _ = (statistics.median(column) for column in zip(*rows))
        print(f"{name}: {seconds:.3f} s, {memory:.0f} KiB")
    return 1 if any(status for rows in told.values() for _, _, status in rows) else 0


# What a run, an opening and a purge take, each with its name.
def measured(program, room, words):
    folder, script, out = (os.path.join(room, name) for name in ("ledger", "script", "out"))
    os.mkdir(folder)
    ledger = bytes.fromhex(made_ledger(program, folder))
    with open(script, "wb") as file:
        for number in range(words.count):
            line = append_line(ledger, b"x" * words.bytes, number + 1 if words.numbers else 0)
            file.write(b"%d" % (number % words.lanes) + line[1:])
            if words.purge and number == words.count // 2:
                file.write(b"0 anchor\n")
    yield f"run of {words.count} records of {words.bytes} bytes", timed([program, "run", folder], script, out)
    with open(out, "rb") as file:
        anchors = [int(receipt[2]) for receipt in (line.split() for line in file) if len(receipt) == 9]
    write(script, b"0 head\n")
    yield f"opening, {os.path.getsize(os.path.join(folder, 'ledger.a'))} bytes", timed([program, "run", folder], script, out)
    if words.older:
        yield from carried(program, folder, script, out)
    for point in anchors:
        root = run_script(program, folder, f"0 purge {point} {'0' * 64} -\n".encode()).stdout.split()[3].decode()
        write(script, purge_line(ledger, point, root))
        yield "opening, and purging the first half", timed([program, "run", folder], script, out)


# What it takes to carry the ledger over from a file of version 1, and to copy as many bytes.
def carried(program, folder, script, out):
    path = os.path.join(folder, "ledger.a")
    with open(path, "r+b") as file:
        file.seek(9)
        file.write(b"\x01")
    begun = time.perf_counter()
    shutil.copyfile(path, path + ".copy")
    with open(path + ".copy", "rb") as file:
        os.fsync(file.fileno())
    seconds = time.perf_counter() - begun
    os.remove(path + ".copy")
    yield "copying as many bytes", (seconds, 0, 0)
    yield "opening a file of version 1, which is carried over", timed([program, "run", folder], script, out)


def write(path, text):
    with open(path, "wb") as file:
        file.write(text)


if __name__ == "__main__":
    sys.exit(main())
