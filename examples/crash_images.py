#!/usr/bin/env python3
"""Looks at the system calls of ledgerctl on its files, and opens what a crash at any of them may leave.

`init` and two runs are traced with strace. In the trace, before the first byte of each receipt is written to the standard
output, there have to be, on the receipt's file and in this order: the write of its block, a sync, the write of its gate,
a sync. The gate was shut until then, and the folder was synced after each file was opened. The first run is on the new
ledger, the second on one with the rest of a commit that was cut off, which is trimmed when it is opened.

Then crash images are made. A moment is drawn, the three files have what was synced by then, and each later write or cut took
place whole, in part or not at all: a front of it, some of its sectors, or any bytes in its range. The program opens each image,
and each receipt of which a byte was written before that moment is looked for by `get`, and for a time journal the entry that it
names in the notary's file. While `init` runs both files of the ledger may still be shut, until its line is written.

Prints what it saw, and ends with 1 where an order is broken, a receipt is missing or a pair doesn't open. That it can fail is
shown by --drop, which takes calls out of the trace, as if the program hadn't made them: `syncs` all syncs of the files,
`block-sync` those behind a block's write, `gate-sync` those behind a gate's, `folder-sync` those of the folder.
"""
import os
import random
import re
import shutil
import subprocess
import sys
import tempfile
from concurrent.futures import ThreadPoolExecutor
from dataclasses import dataclass, field

from common import OPERATOR, REGULATOR, built_program, leaf_of, made_ledger, missing_entries, receipts_in, record, run_script, stamps_in, words_of

CALLS = "openat,close,write,pwrite64,writev,pwritev,fsync,fdatasync,ftruncate,dup,dup2,dup3,rename,unlink"
FILES = ("ledger.a", "ledger.b", "notary")
DROPS = ("syncs", "block-sync", "gate-sync", "folder-sync")
SECTOR = 512


# One call: a `write` or `cut` at a place of a file, a `sync` of it, an `open` of it, a sync of the `folder`, or bytes that
# were written to the standard output (`out`).
@dataclass
class Call:
    kind: str
    file: str = ""
    at: int = 0
    data: bytes = b""


# What was traced of one command: the files before it, its calls, the receipts and stamps that it was to keep, and what it
# printed.
@dataclass
class Trace:
    name: str
    before: dict
    calls: list
    kept: dict
    kept_stamps: dict
    printed: list = field(default_factory=list)


def main():
    words = words_of(__doc__)
    words.add_argument("--images", type=int, default=300, help="how many crash images are opened (300)")
    words.add_argument("--blocks", type=int, default=24, help="how many blocks each run writes (24)")
    words.add_argument("--seed", type=int, default=1, help="of the records, the moments and the images (1)")
    words.add_argument("--drop", choices=DROPS, help="calls that are taken out of the trace")
    words = words.parse_args()
    if not shutil.which("strace"):
        sys.exit("this needs strace")
    program, chance = built_program(words.program), random.Random(words.seed)
    with tempfile.TemporaryDirectory(prefix="ledger-") as top:
        traces = traced_runs(program, os.path.join(top, "books"), words.blocks, chance)
        for trace in traces:
            trace.calls = left_after(trace.calls, words.drop)
        faults = [fault for trace in traces for fault in faults_of_order(trace)]
        lost = opened_images(program, top, traces, words.images, chance)
    for fault in faults[:5] + lost[:5]:
        print("FAULT:", fault)
    print(f"{len(faults)} faults of order, {len(lost)} images with a fault")
    return 1 if faults or lost else 0


# Makes a ledger and runs two scripts on it, each under strace. Before the second, the last block of the first run is left
# as a crash in its commit may leave it: whole behind a gate that is shut.
def traced_runs(program, folder, blocks, chance):
    os.mkdir(folder)
    first = traced(program, "init", folder, ["init", folder, "demo", OPERATOR, REGULATOR], b"", {}, {})
    lines = [record(program, made_ledger(program, tempfile.mkdtemp(dir=folder)), "5a" * n) for n in (1, 40, 1500)]
    second = traced(program, "run", folder, ["run", folder], script_of(blocks, lines, chance), {}, {})
    receipts, stamps = receipts_in(b"".join(second.printed)), stamps_in(b"".join(second.printed))
    last = max(receipts)
    cut_off(os.path.join(folder, FILES[0]))
    kept = {number: leaf for number, leaf in receipts.items() if block_of(second, number) != block_of(second, last)}
    third = traced(program, "run on a cut commit", folder, ["run", folder], script_of(blocks, lines, chance), kept, stamps)
    for trace in (first, second, third):
        count = len(receipts_in(b"".join(trace.printed)))
        writes = sum(call.kind == "write" for call in trace.calls)
        syncs = sum(call.kind == "sync" for call in trace.calls)
        print(f"{trace.name}: {count} receipts, {writes} writes and {syncs} syncs of the files")
    return [first, second, third]


# Lines that append, and a line that asks or anchors and so ends the block.
def script_of(blocks, lines, chance):
    ends = (b"0 head\n", b"0 anchor\n")
    return b"".join(chance.choice(lines) * chance.randint(1, 5) + chance.choice(ends) for _ in range(blocks))


# The number of the block of a journal, by its receipt.
def block_of(trace, number):
    for line in b"".join(trace.printed).splitlines():
        words = line.split(b" ")
        if words[1] == b"ok" and int(words[2]) == number:
            return int(words[4])
    return None


# Shuts the gate of the last block.
def cut_off(path):
    with open(path, "r+b") as file:
        content = file.read()
        file.seek(blocks_in(content)[-1][0])
        file.write(b"\0")


# The place of each block's gate and of the first byte behind the block, and its headers, as the format has them.
def blocks_in(content):
    found, at = [], 64 + int.from_bytes(content[18:26], "big")
    while content[at : at + 1] == b"\1":
        count = int.from_bytes(content[at + 1 : at + 5], "big")
        end = at + 45 + int.from_bytes(content[at + 5 : at + 13], "big")
        headers, place = [], at + 45
        for _ in range(count):
            header = content[place : place + 174]
            headers.append(header)
            who = int.from_bytes(content[place + 174 : place + 178], "big")
            place += 178 + int.from_bytes(header[106:110], "big") + who
        found.append((at, end, headers))
        at = end
    return found


# Runs a command under strace.
def traced(program, name, folder, words, script, kept, kept_stamps):
    before = contents(folder)
    log = os.path.join(folder, "trace")
    command = ["strace", "-f", "-xx", "-s", "4194304", "-e", f"trace={CALLS}", "-o", log, program, *words]
    ran = subprocess.run(command, input=script, capture_output=True)
    if ran.returncode != 0:
        sys.exit(f"{name} ended with status {ran.returncode}: {ran.stdout[-200:]} {ran.stderr[-200:]}")
    with open(log) as file:
        calls = calls_of(joined(file), folder)
    os.remove(log)
    trace = Trace(name, before, calls, kept, kept_stamps, [call.data for call in calls if call.kind == "out"])
    if b"".join(trace.printed) != ran.stdout:
        sys.exit(f"{name}: the trace doesn't have what was printed")
    return trace


def contents(folder):
    found = {}
    for name in FILES:
        path = os.path.join(folder, name)
        found[name] = b""
        if os.path.exists(path):
            with open(path, "rb") as file:
                found[name] = file.read()
    return found


# The lines of a trace; a call that another thread's stands in is put together where it ends.
def joined(lines):
    begun = {}
    for line in lines:
        pid, said = line.rstrip("\n").split(None, 1)
        if said.endswith("<unfinished ...>"):
            begun[pid] = said[: -len("<unfinished ...>")].rstrip()
            continue
        resumed = re.match(r"<\.\.\. \w+ resumed>", said)
        yield begun.pop(pid) + said[resumed.end() :] if resumed else said


# The calls on the two files, the folder and the standard output.
def calls_of(lines, folder):
    opened, calls = {1: "out"}, []
    for line in lines:
        found = re.match(r"(\w+)\((.*)\)\s+= (-?\d+)", line)
        if not found:
            continue
        name, said, answer = found.group(1), found.group(2), int(found.group(3))
        strings = [bytes.fromhex(text.replace("\\x", "")) for text in re.findall(r'"((?:\\x[0-9a-f]{2})*)"', said)]
        numbers = re.sub(r'"[^"]*"', "", said).split(",")
        if name == "openat":
            opened_file(os.path.realpath(strings[0].decode()), folder, answer, opened, calls)
            continue
        target = opened.get(int(numbers[0])) if numbers[0].strip().isdigit() else None
        if name == "close":
            opened.pop(int(numbers[0]), None)
        elif target and answer >= 0:
            calls.append(call_on(target, name, strings, numbers, answer))
    return calls


def opened_file(path, folder, answer, opened, calls):
    name = os.path.relpath(path, os.path.realpath(folder))
    if answer >= 0 and (name in FILES or name == "."):
        opened[answer] = name
        if name in FILES:
            calls.append(Call("open", name))


def call_on(target, name, strings, numbers, answer):
    if target == "out" and name == "write":
        return Call("out", data=strings[0][:answer])
    if name in ("fsync", "fdatasync"):
        return Call("folder") if target == "." else Call("sync", target)
    if name == "pwrite64" and target in FILES:
        return Call("write", target, int(numbers[3]), strings[0][:answer])
    if name == "ftruncate" and target in FILES:
        return Call("cut", target, int(numbers[1]))
    sys.exit(f"a call that wasn't looked for: {name} on {target}")


# The calls without those that are to be dropped.
def left_after(calls, drop):
    left, last = [], {}
    for call in calls:
        if call.kind == "write":
            last[call.file] = "gate-sync" if call.data == b"\1" else "block-sync"
        gone = call.kind == "folder" and drop == "folder-sync"
        if call.kind == "sync":
            gone = drop == "syncs" or drop is not None and drop == last.get(call.file)
        if not gone:
            left.append(call)
    return left


# What is wrong in the order of a trace: for each receipt the calls in front of its first byte are looked at.
def faults_of_order(trace):
    files, history, line_began, line, faults = dict(trace.before), [], 0, b"", []
    synced_folder = set()
    for index, call in enumerate(trace.calls):
        if call.kind == "write":
            files[call.file] = written(files[call.file], call.at, call.data)
        elif call.kind == "cut":
            files[call.file] = files[call.file][: call.at].ljust(call.at, b"\0")
        elif call.kind == "open":
            synced_folder.discard(call.file)
            history.append(call.file)
        elif call.kind == "folder":
            synced_folder.update(history)
        elif call.kind == "out":
            for piece in re.split(rb"(?<=\n)", call.data):
                line_began = line_began if line else index
                line += piece
                if line.endswith(b"\n"):
                    faults += faults_of_line(trace, line, line_began, files, synced_folder)
                    line = b""
    return faults


def faults_of_line(trace, line, began, files, synced_folder):
    words = line.split()
    if words[0] != b"ledger" and words[1] != b"ok":
        return
    said = line[:40].decode()
    for name in FILES:
        if name not in synced_folder:
            yield f"{trace.name}: no sync of the folder after {name} was opened, before '{said}'"
    number, leaf = (0, words[1]) if words[0] == b"ledger" else (int(words[2]), words[3])
    for start, end, headers in blocks_in(files[FILES[0]]):
        for header in headers:
            if int.from_bytes(header[2:10], "big") == number:
                if leaf_of(b"x whole " + header.hex().encode()) != leaf.decode():
                    yield f"{trace.name}: journal {number} in the file isn't that of '{said}'"
                gate = 0 if words[0] == b"ledger" else start
                yield from faults_of_commit(trace, said, began, gate, end)
                return
    yield f"{trace.name}: the file hasn't the journal of '{said}'"


# Before the call `began`: the block's write, a sync, the gate's write, a sync; and the gate was shut until then.
def faults_of_commit(trace, said, began, gate, end):
    calls = [call for call in trace.calls[:began] if call.file == FILES[0]]

    def last(kind, low, high, within):
        places = [n for n in within if calls[n].kind == kind and calls[n].at < high and calls[n].at + len(calls[n].data) > low]
        return places[-1] if places else None

    def sync_in(first, past):
        return any(calls[n].kind == "sync" for n in range(first + 1, past))

    block = last("write", gate + 1, end, range(len(calls)))
    opened = last("write", gate, gate + 1, range(len(calls)))
    if block is None or opened is None or block > opened or calls[opened].data != b"\1":
        yield f"{trace.name}: the block isn't written before its gate, before '{said}'"
        return
    if not sync_in(block, opened):
        yield f"{trace.name}: no sync between the block's write and its gate's, before '{said}'"
    if not sync_in(opened, len(calls)):
        yield f"{trace.name}: no sync between the gate's write and '{said}'"
    shut = last("write", gate, gate + 1, range(opened))
    if shut is not None and calls[shut].data[gate - calls[shut].at] == 1:
        yield f"{trace.name}: the gate was open before the block was synced, before '{said}'"


def written(content, at, data):
    return content[:at].ljust(at, b"\0") + data + content[at + len(data) :]


# Makes images at random moments, opens them, and answers what is wrong.
def opened_images(program, top, traces, images, chance):
    chosen = []
    for number in range(images):
        trace = traces[0] if number % 10 == 0 else chance.choice(traces[1:])
        moment = chance.randint(0, len(trace.calls))
        folder = os.path.join(top, f"image{number}")
        os.mkdir(folder)
        for name in FILES:
            with open(os.path.join(folder, name), "wb") as file:
                file.write(image_of(trace, moment, name, chance))
        chosen.append((program, folder, trace, moment))
    with ThreadPoolExecutor(os.cpu_count()) as pool:
        results = list(pool.map(lambda one: open_image(*one), chosen))
    receipts = sum(count for count, _, _ in results)
    shut = sum(is_shut for _, is_shut, _ in results)
    print(f"{images} crash images: {images - shut} opened, {shut} without a ledger yet; {receipts} receipts looked for")
    return [fault for _, _, fault in results if fault]


# What a crash may leave of a file: what was synced, and each later write or cut whole, in part or not at all.
def image_of(trace, moment, name, chance):
    calls = [call for call in trace.calls[:moment] if call.file == name and call.kind in ("write", "cut", "sync")]
    synced = max((n for n, call in enumerate(calls) if call.kind == "sync"), default=-1)
    content = trace.before[name]
    for number, call in enumerate(calls):
        whole = number <= synced
        if call.kind == "cut" and (whole or chance.random() < 0.5):
            content = content[: call.at].ljust(call.at, b"\0")
        elif call.kind == "write":
            content = written(content, call.at, call.data) if whole else partly(content, call, chance)
    return content


# A write that may not be on the disk yet.
def partly(content, call, chance):
    kind = chance.choice(("whole", "none", "front", "sectors", "torn"))
    if kind == "none":
        return content
    if kind == "whole":
        return written(content, call.at, call.data)
    if kind == "front":
        return written(content, call.at, call.data[: chance.randint(0, len(call.data))])
    size = max(len(content), call.at + len(call.data))
    image = bytearray(content.ljust(size, b"\0"))
    for at in range(call.at, call.at + len(call.data)):
        if kind == "torn":
            image[at] = chance.choice((image[at], call.data[at - call.at], chance.randrange(256)))
        elif at == call.at or at % SECTOR == 0:
            past = min(call.at + len(call.data), (at // SECTOR + 1) * SECTOR)
            if chance.random() < 0.5:
                image[at:past] = call.data[at - call.at : past - call.at]
    return bytes(image)


# Opens an image and looks for the receipts that were written before the moment. Answers how many these are,
# whether there is no ledger yet, and what is wrong.
def open_image(program, folder, trace, moment):
    printed = b"".join(call.data for call in trace.calls[:moment] if call.kind == "out")
    receipts = {**trace.kept, **receipts_in(printed)}
    stamps = {**trace.kept_stamps, **stamps_in(printed)}
    numbers = sorted(receipts)
    ran = run_script(program, folder, b"0 head\n" + b"".join(b"0 get %d\n" % number for number in numbers))
    entries = missing_entries(folder, stamps)
    shutil.rmtree(folder)
    where = f"{trace.name}, a crash after {moment} of {len(trace.calls)} calls"
    if trace.name == "init" and not printed and ran.stdout == b"fail 8 empty\n":
        return 0, True, None
    if ran.returncode != 0:
        return len(numbers), False, f"{where}: status {ran.returncode}, {ran.stdout[-120:]}"
    replies = ran.stdout.splitlines()[1:]
    lost = [number for number, reply in zip(numbers, replies) if leaf_of(reply) != receipts[number]]
    if entries:
        return len(numbers), False, f"{where}: {entries} entries of the notary are lost"
    return len(numbers), False, f"{where}: the journals {lost[:5]} are lost" if lost or len(replies) != len(numbers) else None


if __name__ == "__main__":
    sys.exit(main())
