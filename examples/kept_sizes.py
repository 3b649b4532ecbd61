#!/usr/bin/env python3
"""Shows that the files and the memory of a ledger grow with what is kept, and not with what there ever was.

A ledger is made in a folder of its own, which is removed at the end. One run then places COUNT journals: seven records of 50 bytes
and an anchor, again and again. At every fiftieth anchor all journals in front of it are purged. Behind each purge it looks at the
sizes of both files and at the memory of the run. Then the ledger is opened again, and each kept journal is asked for.
Prints the least and the greatest of these sizes, and ends with 1 where the files at the end are greater than twice those behind the
first purges, or a kept journal isn't shown.
"""
import os
import shutil
import subprocess
import sys
import tempfile

from common import answer, append_line, built_program, made_ledger, purge_line, run_script, words_of

RECORDS = 7
ANCHORS = 50


def main():
    parser = words_of(__doc__)
    parser.add_argument("count", metavar="COUNT", nargs="?", type=int, default=20000)
    words = parser.parse_args()
    program = built_program(words.program)
    folder = tempfile.mkdtemp(prefix="ledger-")
    try:
        ledger = bytes.fromhex(made_ledger(program, folder))
        placed, points, before, behind, memory = grown(program, folder, ledger, words.count)
        shown = all_shown(program, folder, points[-1], placed)
        print(f"{placed} journals placed, {len(points)} purges, point {points[-1]}")
        print(f"bytes of both files in front of a purge {min(before)} to {max(before)}, behind it {min(behind)} to {max(behind)}")
        print(f"memory of the run behind the first purge {memory[0]} KiB, behind the last {memory[-1]} KiB, at most {max(memory)} KiB")
        print("each kept journal is shown" if shown else "a kept journal isn't shown")
        return 0 if shown and max(behind) <= 2 * behind[1] else 1
    finally:
        shutil.rmtree(folder)


# Places that many journals, and purges. Tells how many there are, the points, the sizes of the files in front of each purge and
# behind it, and the memory behind it.
def grown(program, folder, ledger, count):
    run = subprocess.Popen([program, "run", folder], stdin=subprocess.PIPE, stdout=subprocess.PIPE)
    placed, points, before, behind, memory, anchors = 1, [], [], [], [], 0
    while placed < count:
        lines = [append_line(ledger, os.urandom(50)) for _ in range(RECORDS)]
        run.stdin.write(b"".join(lines) + b"0 anchor\n")
        run.stdin.flush()
        receipts = [answer(run, []) for _ in lines]
        anchor = int(answer(run, [])[2])
        placed, anchors = placed + RECORDS + 1, anchors + 1
        if anchors % ANCHORS == 0:
            before.append(sizes(folder))
            run.stdin.write(purge_line(ledger, anchor, receipts[-1][6].decode()))
            run.stdin.flush()
            if answer(run, [])[1] != b"ok":
                raise SystemExit("a purge was refused")
            placed += 1
            points.append(anchor)
            behind.append(sizes(folder))
            memory.append(resident(run.pid))
    run.stdin.close()
    run.wait()
    return placed, points, before, behind, memory


# How many bytes both files have.
def sizes(folder):
    return sum(os.path.getsize(os.path.join(folder, name)) for name in ("ledger.a", "ledger.b"))


# How much of a process stands in memory, in KiB.
def resident(process):
    with open(f"/proc/{process}/status") as status:
        return next(int(line.split()[1]) for line in status if line.startswith("VmRSS"))


# Whether each journal from the point on is shown, and the one in front of it is not.
def all_shown(program, folder, point, placed):
    script = "".join(f"0 get {number}\n" for number in range(point - 1, placed)).encode()
    replies = [line.split() for line in run_script(program, folder, script).stdout.split(b"\n")[:-1]]
    return replies[0][1:] == [b"no", b"21", str(point).encode()] and [reply[1] for reply in replies[1:]] == [b"whole"] * (placed - point)


if __name__ == "__main__":
    sys.exit(main())
