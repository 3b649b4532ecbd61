#!/usr/bin/env python3
"""Lives of sets of survivors: random journals are kept, carried on and revived, while a ledger grows and gives up what they were.

LIVES times a ledger is made in a folder of its own, which is removed at the end. Some records are placed, of which one may be hidden, and
an anchor; then some journals in front of it are kept. In each of one to three steps more records and an anchor are placed, the set is
carried on to that anchor, all journals in front of it are purged, and more records are placed. A record that was kept may be hidden
meanwhile: the set has it as it was.

Beside each ledger stands a twin, a list of all its journals and of its notary's entries, from which nothing is ever purged. It spells sets
and proofs by the tables of docs/FORMATS.md alone, with RFC 6962's paths and extensions over all headers. What has to agree:

- The bytes of each set, kept or carried on, are those that the twin spells: the journals as `get` showed them when they were kept, the
  root in front of the point, and the paths that lead to it.
- What `revive` writes of each journal is the twin's: the journal as it was kept, and its proof and claim over as many journals, byte for
  byte. The twin has all time journals, and the ledger only those from its point on, so the twin takes the nearest of these as bounds.
  A journal in front of the point has no lower bound then, and its upper bound is the anchor at the point or a later one.
- A journal that isn't purged has the same proof by `prove`, which knows of no set: this also shows that the twin spells proofs right.
- A set and the one that it was carried on to give the same proofs. Once the ledger has purged behind a set's point, the set is refused
  with that point (21), and the carried one isn't.
- The auditor accepts each proof under the ledger's head and the notary's, and these are the twin's.

Prints what it saw, and ends with 1 where something is otherwise.
"""
import hashlib
import os
import random
import subprocess
import sys
import tempfile

from common import append_line, built_program, made_ledger, purge_line, run_script, words_of
from erased_runs import occult_line

TIME, RECORD = 3, 1
EMPTY = hashlib.sha256(b"").digest()


def main():
    parser = words_of(__doc__)
    parser.add_argument("lives", metavar="LIVES", nargs="?", type=int, default=200)
    parser.add_argument("seed", metavar="SEED", nargs="?", type=int, default=1)
    parser.add_argument("--auditor", metavar="PATH", help="auditctl as it was built (otherwise that of bin/auditctl)")
    words = parser.parse_args()
    programs = built_program(words.program), built_program(words.auditor, "auditctl")
    chance = random.Random(words.seed)
    seen, faults = dict.fromkeys(("sets", "carried", "revived", "purged", "hidden"), 0), []
    for number in range(words.lives):
        with tempfile.TemporaryDirectory(prefix="ledger-") as folder:
            life = Life(*programs, folder, chance, seen)
            try:
                life.live()
            except Fault as fault:
                faults.append(f"life {number}: {fault}")
    print(f"{words.lives} lives: {seen['sets']} sets kept, and {seen['carried']} carried on")
    print(f"{seen['revived']} proofs revived, {seen['purged']} of purged journals; {seen['hidden']} journals were hidden")
    print("\n".join(faults) if faults else "all agree with the twin")
    return 0 if seen["purged"] and not faults else 1


class Fault(Exception):
    """What isn't as it should be."""


def expect(holds, what):
    if not holds:
        raise Fault(what)


# ---- digests


def sha(data):
    return hashlib.sha256(data).digest()


def split(size):
    return 1 << (size - 1).bit_length() - 1


# The root over these leaf digests.
def root_of(leaves):
    if len(leaves) < 2:
        return leaves[0] if leaves else EMPTY
    k = split(len(leaves))
    return sha(b"\1" + root_of(leaves[:k]) + root_of(leaves[k:]))


# PATH of RFC 6962, section 2.1.1.
def path_of(n, leaves):
    if len(leaves) == 1:
        return []
    k = split(len(leaves))
    if n < k:
        return path_of(n, leaves[:k]) + [root_of(leaves[k:])]
    return path_of(n - k, leaves[k:]) + [root_of(leaves[:k])]


# SUBPROOF of section 2.1.2; PROOF begins where the first `m` leaves are known.
def extension_of(m, leaves, known=True):
    if m == len(leaves):
        return [] if known else [root_of(leaves)]
    k = split(len(leaves))
    if m <= k:
        return extension_of(m, leaves[:k], known) + [root_of(leaves[k:])]
    return extension_of(m - k, leaves[k:], False) + [root_of(leaves[:k])]


def big(number, width=8):
    return number.to_bytes(width, "big")


# Digests behind their number.
def counted(digests):
    return bytes([len(digests)]) + b"".join(digests)


# ---- the twin


class Header:
    """The fields of a header that bounds need."""

    def __init__(self, data):
        self.data, self.kind, self.jsn = data, data[1], int.from_bytes(data[2:10], "big")
        self.a, self.b, self.link = int.from_bytes(data[58:66], "big"), int.from_bytes(data[66:74], "big"), data[74:106]
        self.leaf = sha(b"\0" + data)

    def mark(self):
        return f"{self.jsn}:{self.a}:{self.b}"


class Twin:
    """All journals of a ledger, and all entries of its notary."""

    def __init__(self, ledger):
        self.ledger, self.headers, self.leaves, self.entries = ledger, [], [], []

    def add(self, header):
        expect(header.jsn == len(self.headers), f"journal {len(self.headers)} has the number {header.jsn}")
        self.headers.append(header)
        self.leaves.append(header.leaf)

    def root(self, size):
        return root_of(self.leaves[:size])

    def notary_root(self):
        return root_of(self.entry_leaves())

    def entry_leaves(self):
        return [sha(b"\0" + entry) for entry in self.entries]

    def entry_path(self, index):
        return counted(path_of(index, self.entry_leaves()))

    # The bytes of the set of some journals, of which these are the views, at a point.
    def set_of(self, views, point):
        front = b"LDGSURV1" + self.ledger + big(point) + self.root(point) + bytes([len(views)])
        return front + b"".join(view.record() + counted(path_of(view.number, self.leaves[:point])) for view in views)

    # The line with the claim and the proof of a journal, between the nearest time journals from the point on.
    def proof_line(self, n, point):
        times = [header for header in self.headers[point:] if header.kind == TIME]
        lower = max((time for time in times if time.jsn < n), key=lambda time: time.jsn, default=None)
        upper = min((time for time in times if time.jsn > n), key=lambda time: time.jsn, default=None)
        leaf = self.leaves[n]
        data = b"\1" + big(len(self.leaves)) + big(n) + leaf + counted(path_of(n, self.leaves)) + self.lower(lower) + self.upper(upper)
        if lower or upper:
            data += big(len(self.entries))
        data += b"".join(self.entry_path(bound.a) for bound in (lower, upper) if bound)
        marks = [bound.mark() if bound else "-" for bound in (lower, upper)]
        return " ".join(["proof", str(n), leaf.hex(), *marks, data.hex()])

    def lower(self, time):
        if not time:
            return b"\0"
        j = time.jsn
        return b"\1" + time.data + counted(path_of(j, self.leaves)) + self.root(j) + counted(extension_of(j, self.leaves))

    def upper(self, time):
        if not time:
            return b"\0"
        m = time.jsn
        return b"\1" + big(m) + big(time.a) + big(time.b) + time.link + self.root(m) + counted(extension_of(m, self.leaves))


class View:
    """A journal as `get` shows it."""

    def __init__(self, line):
        self.line, words = line, line.split()
        expect(words[0] in ("whole", "occulted"), f"a journal isn't shown: {line}")
        parts = [b"" if word == "-" else bytes.fromhex(word) for word in words[1:]]
        self.whole, self.who = words[0] == "whole", parts[-1]
        self.content, self.header = parts[1] if self.whole else b"", Header(parts[0])
        self.number = self.header.jsn

    # Its bytes as they stand in a set.
    def record(self):
        state = b"\0" + self.content if self.whole else b"\1"
        return self.header.data + state + big(len(self.who), 4) + self.who


# ---- a life


class Life:
    """A ledger from its first journal on, its twin, and the set that is carried along."""

    def __init__(self, program, auditor, folder, chance, seen):
        self.program, self.auditor, self.folder, self.chance, self.seen = program, auditor, folder, chance, seen
        self.twin = Twin(bytes.fromhex(made_ledger(program, folder)))
        self.point = 0
        self.follow(self.replies(["get 0", "head"]))

    def live(self):
        point = self.grow(16, 8)
        if self.chance.random() < 0.3:
            self.hide(point)
        self.views = self.views_of(sorted(self.chance.sample(range(point), self.chance.randint(1, min(point, 8)))))
        self.bytes = self.keep(point)
        for _ in range(self.chance.randint(1, 3)):
            self.step()

    # Goes on to a later anchor, and purges all that stands in front of it.
    def step(self):
        later = self.grow(12, 6)
        if self.chance.random() < 0.2:
            self.hide(later)
        carried = self.carry(later)
        expect(self.revived(self.bytes) == self.revived(carried), f"the set that is carried on to {later} gives other proofs")
        self.purge(later)
        self.refused(self.bytes, f"no 21 {later}")
        self.bytes = carried
        self.revived(carried)
        self.placed(self.records(9))
        self.revived(carried)

    # ---- lines

    # The replies to some lines, without their lanes and numbers.
    def replies(self, lines):
        ran = run_script(self.program, self.folder, "".join(f"0 {line}\n" for line in lines).encode())
        expect(ran.returncode == 0, f"status {ran.returncode} of run: {ran.stdout[-100:]}")
        return [line.split(" ", 1)[1] for line in ran.stdout.decode().splitlines()]

    # Places these lines, each of which makes a journal, and has the twin follow.
    def placed(self, lines):
        first = len(self.twin.headers)
        replies = self.replies([*lines, *(f"get {first + k}" for k in range(len(lines))), "head"])
        for receipt in replies[: len(lines)]:
            expect(receipt.startswith("ok "), f"a line is refused: {receipt}")
        self.follow(replies[len(lines) :])

    # Adds journals to the twin, which these views show, and the notary's entries, of which the head tells how many there are.
    def follow(self, replies):
        for view in replies[:-1]:
            self.twin.add(View(view).header)
        self.head = replies[-1].split()[1:]
        with open(os.path.join(self.folder, "notary"), "rb") as file:
            slots = file.read()
        self.twin.entries = [slots[73 * k + 1 : 73 * k + 73] for k in range(int(self.head[5]))]

    # Lines of up to so many records.
    def records(self, most):
        contents = [self.chance.randbytes(self.chance.randrange(40)) for _ in range(self.chance.randint(0, most))]
        return [verb_of(append_line(self.twin.ledger, content)) for content in contents]

    # Places records, an anchor, and more records, and answers the anchor's number.
    def grow(self, before, behind):
        front = self.records(before)
        number = len(self.twin.headers) + len(front)
        self.placed([*front, "anchor", *self.records(behind)])
        return number

    def purge(self, point):
        self.placed([verb_of(purge_line(self.twin.ledger, point, self.twin.root(point).hex()))])
        self.point = point

    # Hides one of the records in front of a journal, where one is left that isn't hidden.
    def hide(self, behind):
        shown = [view.header for view in self.views_of(range(self.point, behind)) if view.whole and view.header.kind == RECORD]
        if shown:
            target = self.chance.choice(shown)
            self.placed([verb_of(occult_line(self.twin.ledger, target.jsn, target.leaf.hex()))])
            self.seen["hidden"] += 1

    def views_of(self, numbers):
        return [View(reply) for reply in self.replies([f"get {number}" for number in numbers])]

    # ---- sets

    def ran(self, words, data=b""):
        done = subprocess.run([self.program, *words], input=data, capture_output=True)
        return done.returncode, done.stdout

    def keep(self, point):
        status, kept = self.ran(["keep", self.folder, str(point), ",".join(str(view.number) for view in self.views)])
        expect((status, kept) == (0, self.twin.set_of(self.views, point)), f"another set is kept at {point}, with status {status}")
        self.seen["sets"] += 1
        return kept

    def carry(self, point):
        status, carried = self.ran(["carry", self.folder, str(point)], self.bytes)
        expect((status, carried) == (0, self.twin.set_of(self.views, point)), f"another set is carried on to {point}, with status {status}")
        self.seen["carried"] += 1
        return carried

    # The lines that a set gives, which are the twin's, and are accepted.
    def revived(self, data):
        status, printed = self.ran(["revive", self.folder], data)
        expected = [line for view in self.views for line in (view.line, self.twin.proof_line(view.number, self.point))]
        expect((status, printed.decode().splitlines()) == (0, expected), f"the set gives other lines, with status {status}")
        kept = [view.number for view in self.views if view.number >= self.point]
        proofs = self.replies([f"prove {number}" for number in kept])
        expect(proofs == [line for line in expected[1::2] if int(line.split()[1]) in kept], "prove gives another proof")
        self.accepted(expected[1::2])
        self.seen["revived"] += len(self.views)
        self.seen["purged"] += len(self.views) - len(kept)
        return printed

    def refused(self, data, line):
        told = self.ran(["revive", self.folder], data)
        expect(told == (12, f"{line}\n".encode()), f"a set behind whose point was purged isn't refused so: {told}")

    # The auditor accepts these proofs under the heads that the ledger tells, which are the twin's.
    def accepted(self, proofs):
        twin, told, size = self.twin, self.head, len(self.twin.leaves)
        heads = [twin.ledger.hex(), str(size), twin.root(size).hex(), str(len(twin.entries)), twin.notary_root().hex()]
        expect([told[0], told[1], told[2], told[5], told[6]] == heads, f"the heads are others: {told}")
        trusted = [f"trust ledger {' '.join(heads[:3])}", f"trust notary {' '.join(heads[3:])}"]
        script = "\n".join(trusted + [line.replace("proof", "check", 1) for line in proofs]) + "\n"
        ran = subprocess.run([self.auditor, "script"], input=script.encode(), capture_output=True)
        answers = [line.split(" ", 1)[1] for line in ran.stdout.decode().splitlines()]
        expect(answers == ["yes"] * (2 + len(proofs)), f"the auditor says {answers}")


# A line without its lane and its newline.
def verb_of(line):
    return line.decode()[2:-1]


if __name__ == "__main__":
    sys.exit(main())
