#!/usr/bin/env python3
"""Runs ledgerctl with closed standard streams, and many programs on one folder, and looks whether a ledger is damaged.

- Each set of the streams 0, 1 and 2 is closed, for `init` and for `run`. The program itself refuses to open a file in
  the place of a standard stream: status 4, and no byte of the ledger changes. bin/ledgerctl opens what is closed: a
  closed input is an empty script, a closed output can't be written, status 3.
- While one run writes, twelve others ask on the same folder: each ends with `fail 4 disk`. Then thirteen runs append at
  once, and each places all its lines or ends with `fail 4 disk`.
- Six `init`s at once: one makes the ledger, the others end with `fail 4 disk` or `fail 8 exists`.
- `ledger.b` is a link to `ledger.a`: `fail 4 disk`, and `ledger.a` stays as it is.

After each part the ledger is opened again and each receipt is looked for. Prints what it saw, and ends with 1 where a receipt
is lost, a ledger is damaged, or a run ends in another way.
"""
import os
import shutil
import subprocess
import sys
import tempfile
from concurrent.futures import ThreadPoolExecutor

from common import OPERATOR, REGULATOR, WRAPPER, built_program, made_ledger, missing, receipts_in, record, run_script, words_of

ASKERS = 12
REFUSED = (4, b"fail 4 disk\n")
SETS = [[n for n in range(3) if chosen >> n & 1] for chosen in range(1, 8)]
faults = 0


def main():
    words = words_of(__doc__)
    words.add_argument("--rounds", type=int, default=10, help="how often the runs at once are tried (10)")
    words = words.parse_args()
    program = built_program(words.program)
    with tempfile.TemporaryDirectory(prefix="ledger-") as top:
        closed_streams(program, program, os.path.join(top, "closed"), refuses_closed, "the program itself")
        if not words.program:
            closed_streams(program, WRAPPER, os.path.join(top, "opened"), opens_closed, "bin/ledgerctl")
        writer_and_askers(program, os.path.join(top, "asked"))
        writers_at_once(program, os.path.join(top, "crowd"), words.rounds)
        inits_at_once(program, top, words.rounds)
        linked_files(program, os.path.join(top, "linked"))
    print("all as it should be" if not faults else f"{faults} faults")
    return 1 if faults else 0


# Counts what isn't as it should be, and tells it.
def expect(holds, what):
    global faults
    if not holds:
        faults += 1
        print("FAULT:", what)


# Makes a ledger in a new folder, with some records: its record's line, and its receipts.
def new_ledger(program, folder):
    os.mkdir(folder)
    line = record(program, made_ledger(program, folder))
    return line, receipts_in(run_script(program, folder, line * 3).stdout)


def look(program, folder, receipts, what):
    lost = missing(program, folder, receipts)
    expect(receipts and not lost, f"{what}: {lost} of {len(receipts)} receipts are lost")
    return f"{len(receipts)} receipts, {lost} lost"


def bytes_of(folder):
    found = {}
    for name in ("ledger.a", "ledger.b"):
        with open(os.path.join(folder, name), "rb") as file:
            found[name] = file.read()
    return found


# The status and what was printed of a command with these streams closed.
def run_closed(command, closed, script):
    def close():
        for stream in closed:
            os.close(stream)

    ran = subprocess.run(command, input=script, capture_output=True, preexec_fn=close)
    return ran.returncode, ran.stdout


def closed_streams(program, started, folder, check, name):
    line, receipts = new_ledger(program, folder)
    for closed in SETS:
        empty = tempfile.mkdtemp(dir=folder)
        made = run_closed([started, "init", empty, "demo", OPERATOR, REGULATOR], closed, b"")
        before = bytes_of(folder)
        ran = run_closed([started, "run", folder], closed, line + b"0 head\n")
        receipts.update(receipts_in(ran[1]))
        check(closed, made, ran, before == bytes_of(folder))
        shutil.rmtree(empty)
    kept = look(program, folder, receipts, f"closed streams of {name}")
    print(f"closed streams, {name}: init and run with each of {len(SETS)} sets closed; {kept}")


# What the program itself does: it refuses before a byte is read or written.
def refuses_closed(closed, made, ran, same):
    wanted = (4, b"" if 1 in closed else REFUSED[1])
    expect(made == wanted, f"init with {closed} closed: {made}")
    expect(ran == wanted and same, f"run with {closed} closed: {ran}, the files {'as before' if same else 'changed'}")


# What the wrapper makes of it: an empty script, and an output that can't be written.
def opens_closed(closed, made, ran, same):
    wanted = 3 if 1 in closed else 0
    expect(made[0] == wanted and (1 in closed or made[1].startswith(b"ledger ")), f"init with {closed} closed: {made}")
    if 0 in closed:
        expect(ran == (0, b"") and same, f"run with {closed} closed: {ran}")
    else:
        replies = [] if 1 in closed else [b"ok", b"head"]
        told = [reply.split(b" ")[1] for reply in ran[1].splitlines()]
        expect(ran[0] == wanted and told == replies, f"run with {closed} closed: {ran}")


# One run that has its lock and goes on writing, and askers beside it.
def writer_and_askers(program, folder):
    line, receipts = new_ledger(program, folder)
    writer = subprocess.Popen([program, "run", folder], stdin=subprocess.PIPE, stdout=subprocess.PIPE)
    printed = asked_writer(writer, line)

    def ask(number):
        ran = run_script(program, folder, b"0 head\n" if number % 2 else b"0 get 1\n")
        return ran.returncode, ran.stdout

    with ThreadPoolExecutor(ASKERS) as pool:
        asking = [pool.submit(ask, number) for number in range(ASKERS)]
        while not all(one.done() for one in asking):
            printed += asked_writer(writer, line)
        answers = [one.result() for one in asking]
    rest, _ = writer.communicate()
    expect(writer.returncode == 0, f"the writer ended with {writer.returncode}: {rest[-80:]}")
    for answer in answers:
        expect(answer == REFUSED, f"an asker beside the writer: {answer}")
    receipts.update(receipts_in(printed + rest))
    kept = look(program, folder, receipts, "a writer with askers beside it")
    print(f"a writer with {ASKERS} askers beside it: {answers.count(REFUSED)} refused; {kept}")


# Gives a run two records and a line that asks, and answers the three replies.
def asked_writer(writer, line):
    writer.stdin.write(line * 2 + b"0 head\n")
    writer.stdin.flush()
    return b"".join(writer.stdout.readline() for _ in range(3))


# Runs that append at once, without one that has the folder already.
def writers_at_once(program, folder, rounds):
    line, receipts = new_ledger(program, folder)
    served = refused = 0
    with ThreadPoolExecutor(ASKERS + 1) as pool:
        for _ in range(rounds):
            runs = list(pool.map(lambda _: run_script(program, folder, line * 5), range(ASKERS + 1)))
            for ran in runs:
                new = receipts_in(ran.stdout)
                refused += (ran.returncode, ran.stdout) == REFUSED
                served += ran.returncode == 0 and len(new) == 5
                expect(not set(new) & set(receipts), f"two receipts for one of the journals {sorted(new)}")
                receipts.update(new)
    expect(served + refused == rounds * (ASKERS + 1), f"{served} served, {refused} refused of {rounds * (ASKERS + 1)}")
    expect(served >= rounds, f"of {rounds} rounds only {served} runs were served")
    kept = look(program, folder, receipts, "writers at once")
    print(f"{ASKERS + 1} writers at once, {rounds} times: {served} served, {refused} refused; {kept}")


# Six ledgers of different names in one folder.
def inits_at_once(program, top, rounds):
    made = disk = exists = 0
    for turn in range(rounds):
        folder = os.path.join(top, f"inits{turn}")
        os.mkdir(folder)
        words = [[program, "init", folder, f"demo{n}", OPERATOR, REGULATOR] for n in range(6)]
        runs = [subprocess.Popen(each, stdin=subprocess.DEVNULL, stdout=subprocess.PIPE) for each in words]
        told = [(run.communicate()[0], run.returncode) for run in runs]
        ids = [printed.split()[1] for printed, status in told if status == 0]
        disk += told.count((REFUSED[1], 4))
        exists += told.count((b"fail 8 exists\n", 8))
        made += len(ids)
        head = run_script(program, folder, b"0 head\n")
        expect(len(ids) == 1 and head.stdout.split()[2:4] == [ids[0], b"1"], f"six inits at once: {told}, {head.stdout}")
    expect(made + disk + exists == 6 * rounds, f"six inits at once ended otherwise: {made}, {disk}, {exists}")
    print(f"six inits at once, {rounds} times: {made} ledgers, {disk} times fail 4 disk, {exists} times fail 8 exists")


def linked_files(program, folder):
    line, receipts = new_ledger(program, folder)
    a, b, refused = os.path.join(folder, "ledger.a"), os.path.join(folder, "ledger.b"), 0
    for link in (os.link, os.symlink):
        os.remove(b)
        link(a, b)
        before = bytes_of(folder)
        for words in (["run", folder], ["init", folder, "demo", OPERATOR, REGULATOR]):
            ran = subprocess.run([program, *words], input=line, capture_output=True)
            refused += (ran.returncode, ran.stdout) == REFUSED
            expect((ran.returncode, ran.stdout) == REFUSED, f"{words[0]} with {link.__name__}: {ran.returncode}, {ran.stdout}")
        expect(bytes_of(folder) == before, f"with {link.__name__} ledger.a changed")
    os.remove(b)
    receipts.update(receipts_in(run_script(program, folder, line).stdout))
    kept = look(program, folder, receipts, "ledger.b was a link")
    print(f"ledger.b a link to ledger.a, hard and symbolic: {refused} of 4 runs and inits refused; without it {kept}")


if __name__ == "__main__":
    sys.exit(main())
