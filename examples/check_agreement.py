#!/usr/bin/env python3
"""Compares check_dump.py and proofs.py, which are written from docs/FORMATS.md alone, with `auditctl` and `ledgerctl`, on changed texts.

Ledgers are made in folders of their own, which are removed at the end: with members, clues, numbers, anchors, hidden contents and purges,
under both schemes. Of their dumps, proofs, extensions, lineages and sets COUNT changed ones are made: bytes are changed, cut and put in,
and journals, approvals, entries, paths and claims are changed by their fields. Often the digests, signatures, roots and heads that hang on
a field are made right again, so that each check is reached. Both sides have to say the same: the same report of a dump, the same code and
fields of what is refused.

Prints how many texts of each kind were compared, how often each check and code came, and what differs. Ends with 1 where something
differs, or a check or a code that a kind has never came.
"""
import argparse
import collections
import json
import os
import random
import subprocess
import sys
import tempfile

import formats
import proofs
from check_dump import Given, report_of
from common import built_program
from formats import CLUE_OCCULT, FIELDS, NAMES, OCCULT, PURGE, RECORD, TIME, Dump, big, leaf_of, parts_of, peg_of, root_of

CLUES = ("-", "a", "b")
WIDTHS = dict(zip(NAMES, (1, 1, 8, 4, 32, 4, 8, 8, 8, 32, 4, 32, 32)))
WANTED = {
    "dumps": set(range(1, 11)),
    "proofs": {34, 35, 36, 37, 38, 39, 40, 41},
    "extensions": {34, 41, 43, 44},
    "lineages": {34, 35, 41, 54, 55},
    "sets": {1, 2, 8, 9, 13, 20, 21, 26, 31, 35, 52},
}


def main():
    parser = argparse.ArgumentParser(description=__doc__, formatter_class=argparse.RawDescriptionHelpFormatter)
    parser.add_argument("--program", metavar="PATH", help="ledgerctl as it was built (otherwise that of bin/ledgerctl)")
    parser.add_argument("--auditor", metavar="PATH", help="auditctl as it was built (otherwise that of bin/auditctl)")
    parser.add_argument("count", metavar="COUNT", nargs="?", type=int, default=2000, help="how many texts of each kind, half as many sets")
    parser.add_argument("seed", metavar="SEED", nargs="?", type=int, default=1)
    words = parser.parse_args()
    both = Both(built_program(words.program), built_program(words.auditor, "auditctl"), random.Random(words.seed))
    with tempfile.TemporaryDirectory(prefix="ledger-") as room:
        ledgers = [Grown(both, os.path.join(room, str(number)), number) for number in range(5)]
        for number in range(words.count):
            both.compare_dump(ledgers[number % len(ledgers)])
        for ledger in ledgers:
            both.compare_proofs(ledger, words.count // len(ledgers))
        for number in range(words.count):
            both.compare_lineage(ledgers[number % len(ledgers)])
        for number in range(max(1, words.count // 2)):
            both.compare_set(ledgers[number % len(ledgers)])
    return both.told()


# ---- ledgers


class Grown:
    """A ledger that was grown at random, with what it shows of itself. Every second one is purged, and the last is one of chains."""

    def __init__(self, both, folder, number):
        self.program, self.chance, self.folder = both.program, both.chance, folder
        self.front = ["chain"] if number == 4 else []
        self.secrets = [bytes([member + 1]) * 32 for member in range(4)]
        self.leaves = [formats.chain_leaves(secret, 32) for secret in self.secrets] if self.front else None
        self.used, self.numbers, self.owners, self.receipts, self.anchors = [0] * 4, 0, {}, {}, []
        os.mkdir(folder)
        made = self.ran(["init", folder, "demo", *(self.key(member).hex() for member in (0, 1))])
        self.id = bytes.fromhex(made.split()[1].decode())
        self.grow()
        if number % 2:
            self.purge(self.anchors[1])
            self.grow()
        self.show()

    def ran(self, words, script=b""):
        return subprocess.run([self.program, *self.front, *words], input=script, capture_output=True, check=True).stdout

    def key(self, member):
        if not self.front:
            return self.secrets[member]
        return formats.key_over(32, root_of(self.leaves[member]))

    def sign(self, member, message):
        if not self.front:
            return formats.tag_proof(self.secrets[member], message)
        self.used[member] += 1
        return formats.chain_proof(self.secrets[member], self.used[member] - 1, message, self.leaves[member])

    # The replies to lines; receipts of journals and anchors are kept.
    def replies(self, lines):
        out = self.ran(["run", self.folder], "".join(f"0 {line}\n" for line in lines).encode())
        words = [line.split()[1:] for line in out.decode().splitlines()]
        for receipt in (it for it in words if it[0] == "ok"):
            self.receipts[int(receipt[1])] = receipt[2]
            self.anchors += [int(receipt[1])] if len(receipt) == 8 else []
        return words

    # New members at first, then records and anchors. One of the records is hidden, and all of a clue.
    def grow(self):
        if not self.owners:
            self.replies([self.member(2), self.member(3)])
        for _ in range(2):
            lines = [self.record() for _ in range(self.chance.randint(2, 6))]
            owners = [int(line.split()[1]) for line in lines]
            first = int(self.replies([*lines, "anchor"])[0][1])
            self.owners.update(zip(range(first, first + len(lines)), owners))
        self.replies([self.occult(self.chance.choice(sorted(self.owners))), "anchor"])
        self.hide_clue(self.chance.choice(CLUES[1:]))

    def member(self, number):
        key = self.key(number)
        return f"member {number} {key.hex()} {self.sign(0, formats.member_request(self.id, number, key)).hex()}"

    def record(self):
        member, clue, content = self.chance.randrange(4), self.chance.choice(CLUES), self.chance.randbytes(self.chance.randrange(9))
        self.numbers += 1
        number = self.chance.choice((0, self.numbers))
        request = self.id, member, formats.clue_of(clue), len(content), formats.content_digest(content), number
        proof = self.sign(member, formats.record_request(*request)).hex()
        return f"append {member} {clue} {content.hex() or '-'} {proof} {number or ''}".strip()

    def occult(self, target):
        leaf = self.receipts[target]
        return f"occult {target} {leaf} {self.approvals((0, 1), formats.occult_request(self.id, target, bytes.fromhex(leaf)))}"

    # Where the clue has no record, or all are hidden already, the line is refused, and places nothing.
    def hide_clue(self, name):
        count = int(self.replies([f"clue {name}"])[0][1])
        message = formats.clue_occult_request(self.id, formats.clue_of(name), count)
        self.replies([f"occultclue {name} {count} {self.approvals((0, 1), message)}"])

    def approvals(self, members, message):
        return ",".join(f"{member}:{self.sign(member, message).hex()}" for member in members)

    def purge(self, point):
        root = self.replies([f"purge {point} {'0' * 64} -"])[0][2]
        message = formats.purge_request(self.id, point, bytes.fromhex(root))
        members = sorted({0} | {owner for number, owner in self.owners.items() if number < point})
        self.replies([f"purge {point} {root} {self.approvals(members, message)}"])
        self.owners = {number: owner for number, owner in self.owners.items() if number > point}

    # What it shows: dump, heads, proofs, extensions, lineages and sets.
    def show(self):
        self.dump = self.ran(["export", self.folder])
        self.parsed = Dump(self.dump)
        head = self.replies(["head"])[0]
        self.given = Given(self.id, int(head[2]), bytes.fromhex(head[3]), int(head[6]), bytes.fromhex(head[7]))
        kept = range(self.parsed.point, self.given.size)
        self.proofs = [words[1:] for words in self.replies([f"prove {number}" for number in kept])]
        asked = [f"extend ledger {size}" for size in kept if size] + [f"extend notary {size + 1}" for size in range(self.given.notary_size)]
        self.extensions = [words[1:] for words in self.replies(asked)]
        self.lineages = [(name, self.ran(["lineage", self.folder, name, "1"])) for name in self.clues()]
        anchors = [number for number in self.anchors if number > self.parsed.point]
        self.sets = [self.kept_set(point) for point in anchors]
        tree, roots = formats.tree_behind(self.parsed.base), {}
        for journal in self.parsed.journals:
            roots[tree.size] = tree.root()
            tree.add(journal.header.leaf())
        self.known = proofs.Ledger(self.id, self.given.size, self.parsed.point, roots)

    def clues(self):
        shown = {journal.header.clue for journal in self.parsed.journals}
        return [name for name in CLUES[1:] if formats.clue_of(name) in shown]

    def kept_set(self, point):
        numbers = sorted(self.chance.sample(range(self.parsed.point, point), min(3, point - self.parsed.point)))
        return self.ran(["keep", self.folder, str(point), ",".join(map(str, numbers))])


# ---- changes of bytes


# Bytes that are changed at one place.
def changed(data, chance):
    at = chance.randrange(len(data) + 1)
    kind = chance.choice(("byte", "byte", "byte", "bit", "cut", "put", "gone", "end"))
    if kind == "byte" or not data[at:]:
        return data[:at] + bytes([chance.choice((0, 1, 2, 6, 255, chance.randrange(256)))]) + data[at + 1 :]
    if kind == "bit":
        return data[:at] + bytes([data[at] ^ 1 << chance.randrange(8)]) + data[at + 1 :]
    if kind == "put":
        return data[:at] + chance.randbytes(chance.randint(1, 40)) + data[at:]
    if kind == "gone":
        return data[:at] + data[at + chance.randint(1, 40) :]
    return data[:at] if kind == "cut" else data + chance.randbytes(chance.randint(1, 3))


# A number near another one, or far away, in so many bytes.
def near(number, width, chance):
    return chance.choice((0, 1, 2, max(0, number - 1), number + 1, chance.randrange(12), 1 << 8 * width - 1)) % (1 << 8 * width)


# Digests of which one is changed, gone, put in, or stands elsewhere.
def shuffled(digests, chance):
    digests = list(digests)
    at, kind = chance.randrange(len(digests) + 1), chance.choice(("new", "gone", "put", "swap"))
    if kind == "new" and digests[at:]:
        digests[at] = chance.randbytes(32)
    elif kind == "gone" and digests[at:]:
        del digests[at]
    elif kind == "swap" and len(digests) > 1:
        digests.reverse()
    else:
        digests.insert(at, chance.randbytes(32))
    return digests


# ---- changes of dumps


class Draft:
    """A dump whose parts can be changed, and made right again as far as is wanted."""

    def __init__(self, ledger, chance):
        self.ledger, self.chance, dump = ledger, chance, ledger.parsed
        self.journals = [[dict(zip(NAMES, FIELDS.unpack(it.header.data))), it.content, it.who] for it in dump.journals]
        base = int.from_bytes(ledger.dump[40:48], "big")
        self.id, self.base, self.entries = dump.id, ledger.dump[48 : 48 + base], list(dump.tail.entries)
        self.size, self.root, self.notary_root, self.given = dump.tail.size, dump.tail.root, dump.tail.notary_root, ledger.given
        self.count = None

    def change(self):
        self.chance.choice((self.change_field,) * 6 + (self.change_parts, self.change_who, self.move, self.change_rest, self.change_rest))()

    def change_field(self):
        fields = self.chance.choice(self.journals)[0]
        name = self.chance.choice(NAMES)
        if WIDTHS[name] < 32:
            fields[name] = near(fields[name], WIDTHS[name], self.chance)
        else:
            other = self.chance.choice(self.journals)[0][name]
            fields[name] = self.chance.choice((formats.ZERO, other, self.chance.randbytes(32)))

    # A content is erased, or there, or another one.
    def change_parts(self):
        journal = self.chance.choice(self.journals)
        journal[1] = None if journal[1] and self.chance.random() < 0.4 else self.chance.randbytes(self.chance.randrange(5))
        if journal[1] is not None and self.chance.random() < 0.8:
            journal[0]["content_len"] = len(journal[1])

    # Approvals are missing, twice, in another order, or of another member.
    def change_who(self):
        journal = self.chance.choice([it for it in self.journals if it[2]] or self.journals)
        approvals = formats.approvals_in(journal[2])
        at, kind = self.chance.randrange(len(approvals) + 1), self.chance.choice(("gone", "twice", "turn", "other", "long"))
        if kind == "gone":
            approvals = approvals[:at] + approvals[at + 1 :]
        elif kind == "twice":
            approvals += approvals[:at]
        elif kind == "turn":
            approvals.reverse()
        elif kind == "other" and approvals[at:]:
            approvals[at] = self.chance.randrange(6), approvals[at][1]
        elif approvals:
            approvals[-1] = approvals[-1][0], approvals[-1][1] + b"\0"
        journal[2] = who_of(approvals)

    # A journal is gone, stands twice, or stands elsewhere.
    def move(self):
        at = self.chance.randrange(len(self.journals))
        journal = self.journals.pop(at)
        for _ in range(self.chance.randrange(3)):
            self.journals.insert(self.chance.randrange(len(self.journals) + 1), [dict(journal[0]), journal[1], journal[2]])
        if self.chance.random() < 0.5:
            for number, it in enumerate(self.journals, self.ledger.parsed.point):
                it[0]["jsn"] = number

    # The base, the entries, the head or what the auditor is given.
    def change_rest(self):
        chance, kind, purges = self.chance, self.chance.randrange(8), [it[0] for it in self.journals if it[0]["kind"] == PURGE]
        if kind == 0 and self.base:
            self.base = changed(self.base, chance)
        elif kind == 7 and purges:
            purges[-1]["link"] = chance.randbytes(32)
        elif kind in (1, 2):
            self.change_entries()
        elif kind == 3:
            self.id = chance.randbytes(32)
        elif kind == 4:
            self.size, self.count = near(self.size, 8, chance), near(len(self.journals), 8, chance) if chance.random() < 0.3 else None
        elif kind == 5:
            self.given = Given(*vars(self.given).values())
            self.given.notary_root = chance.randbytes(32)
        else:
            self.given = Given(*vars(self.given).values())
            self.given.id = chance.randbytes(32)

    def change_entries(self):
        chance, at = self.chance, self.chance.randrange(len(self.entries))
        entry, kind = self.entries[at], self.chance.randrange(5)
        if kind == 0:
            self.entries[at] = changed(entry, chance).ljust(72, b"\0")[:72]
        elif kind == 1:
            self.entries[at] = big(near(0, 8, chance)) + entry[8:]
        elif kind == 2:
            del self.entries[at]
        elif kind == 3:
            self.entries.insert(at, entry)
        else:
            self.entries.append(big(0) + entry[8:])

    # Makes right again what hangs on the parts: each of these at random, mostly.
    def mend(self):
        wanted = {name for name in ("digests", "links", "whos", "entries", "root", "given") if self.chance.random() < 0.85}
        if "root" in wanted and self.base and self.chance.random() < 0.5:
            self.size = self.ledger.parsed.point + len(self.journals)
        elif "root" in wanted and not self.base:
            self.size = len(self.journals)
        tree, roots, leaves, id = formats.tree_behind(self.ledger.parsed.base), {}, {}, self.id
        for fields, content, who in self.journals:
            roots[tree.size] = tree.root()
            self.mend_journal(wanted, fields, content, roots, leaves, id, tree.size)
            leaf = leaf_of(spelled(fields))
            leaves[tree.size] = leaf
            tree.add(leaf)
        if "root" in wanted:
            self.root, self.notary_root = tree.root(), root_of(map(leaf_of, self.entries))
        if "given" in wanted:
            self.given = Given(self.given.id, self.size, self.root, len(self.entries), self.notary_root)

    def mend_journal(self, wanted, fields, content, roots, leaves, id, number):
        journal = next(it for it in self.journals if it[0] is fields)
        if "digests" in wanted and content is not None:
            fields["content_digest"] = formats.content_digest(content)
        message = message_of(fields, roots, leaves, id)
        if "links" in wanted and fields["kind"] == RECORD:
            fields["link"] = message
        if "links" in wanted and fields["kind"] == OCCULT and fields["a"] in leaves:
            fields["link"] = leaves[fields["a"]]
            message = formats.occult_request(id, fields["a"], fields["link"])
        if "whos" in wanted and message and journal[2] and not self.ledger.front:
            members = [member for member, _ in formats.approvals_in(journal[2])]
            members = [fields["member"]] if fields["kind"] == RECORD else members
            journal[2] = who_of([(it, formats.tag_proof(self.ledger.secrets[it % 4], message)) for it in members])
        if "digests" in wanted:
            fields["who_digest"] = formats.who_digest(journal[2])
        if "entries" in wanted and fields["kind"] == TIME and fields["a"] < len(self.entries):
            entry = big(parts_of(self.entries[fields["a"]])[0]) + peg_of(id, number, roots[number]) + fields["link"]
            self.entries[fields["a"]] = entry

    def text(self):
        count = len(self.journals) if self.count is None else self.count
        journals = b"".join(journal_text(*it) for it in self.journals)
        front = b"LDGDUMP1" + self.id + big(len(self.base)) + self.base + big(count) + journals
        return front + big(self.size) + self.root + big(len(self.entries)) + b"".join(self.entries) + self.notary_root


def spelled(fields):
    return FIELDS.pack(*(fields[name] for name in NAMES))


def journal_text(fields, content, who):
    return spelled(fields) + (b"\1" if content is None else b"\0" + content) + big(len(who), 4) + who


def who_of(approvals):
    return b"".join(big(member, 4) + big(len(proof), 2) + proof for member, proof in approvals)


# The message that the fields of a journal make, where its kind has one.
def message_of(fields, roots, leaves, id):
    kind, a, link = fields["kind"], fields["a"], fields["link"]
    if kind == RECORD:
        return formats.record_request(id, fields["member"], fields["clue"], fields["content_len"], fields["content_digest"], a)
    if kind == formats.MEMBER:
        return formats.member_request(id, a & 0xFFFFFFFF, link)
    if kind == OCCULT:
        return formats.occult_request(id, a, link)
    if kind == CLUE_OCCULT:
        return formats.clue_occult_request(id, link, a & 0xFFFFFFFF)
    return formats.purge_request(id, a, roots[a]) if kind == PURGE and a in roots else None


# ---- changes of proofs


# Digests behind their number.
def counted(digests):
    return bytes([len(digests) % 256]) + b"".join(digests)


# The bytes of a proof by its parts.
def proof_text(proof):
    data = b"\1" + big(proof.size) + big(proof.n) + proof.leaf + counted(proof.path)
    lower, upper = proof.lower, proof.upper
    data += b"\1" + lower.header.data + counted(lower.path) + lower.before + counted(lower.digests) if lower else b"\0"
    if upper:
        data += b"\1" + big(upper.number) + big(upper.index) + big(upper.time) + upper.salt + upper.before + counted(upper.digests)
    else:
        data += b"\0"
    return data + (big(proof.notary_size) if proof.bounds else b"") + b"".join(map(counted, proof.entry_paths))


# Changes one part of a proof, and answers the claim that is made of it.
def change_proof(proof, chance, sizes):
    part = chance.choice([proof, *proof.bounds])
    name = chance.choice([name for name in vars(part) if name not in ("lower", "upper", "bounds", "claim")])
    value = getattr(part, name)
    if isinstance(value, formats.Header):
        fields = dict(zip(NAMES, FIELDS.unpack(value.data)))
        field = chance.choice(("jsn", "a", "b", "kind", "version", "member", "link"))
        fields[field] = chance.randbytes(32) if field == "link" else near(fields[field], WIDTHS[field], chance)
        value = formats.Header(spelled(fields))
        part.number, part.index, part.time = value.jsn, value.a, value.b
    elif isinstance(value, int):
        value = chance.choice([near(value, 8, chance), *sizes]) if "size" in name else near(value, 8, chance)
    elif isinstance(value, bytes):
        value = chance.randbytes(32)
    elif name == "entry_paths":
        value = [shuffled(path, chance) for path in value] or [[]]
    elif isinstance(value, list):
        value = shuffled(value, chance)
    setattr(part, name, value)


def claim_words(claim):
    n, leaf, lower, upper = claim
    return " ".join([str(n), leaf.hex(), *(":".join(map(str, it)) if it else "-" for it in (lower, upper))])


# A notary's list in which the time of one bound is lower than that of the one in front, with the proof under its head.
def crossed(ledger, proof):
    if not (proof.lower and proof.upper):
        return None
    entries = list(ledger.parsed.tail.entries) + [bytes(72)]
    proof.upper.time = proof.lower.time - 1
    entries[proof.upper.index] = big(proof.upper.time) + entries[proof.upper.index][8:]
    leaves = [leaf_of(entry) for entry in entries]
    proof.notary_size = len(entries)
    proof.entry_paths = [formats.path_of(bound.index, leaves) for bound in proof.bounds]
    return root_of(leaves)


# ---- both sides


class Both:
    """The two sides, and what they said."""

    def __init__(self, program, auditor, chance):
        self.program, self.auditor, self.chance = program, auditor, chance
        self.seen, self.faults = collections.defaultdict(collections.Counter), []

    def note(self, kind, code, own, told, what):
        self.seen[kind][code] += 1
        if own != told:
            self.faults.append(f"{kind}: {what}\n  here:   {own}\n  there:  {told}")

    def ran(self, ledger, words, data):
        done = subprocess.run([self.auditor, *ledger.front, *words], input=data, capture_output=True)
        return done.returncode, done.stdout.decode()

    def compare_dump(self, ledger):
        if self.chance.random() < 0.3:
            data, given = changed(ledger.dump, self.chance), ledger.given
        else:
            draft = Draft(ledger, self.chance)
            draft.change()
            draft.mend()
            data, given = draft.text(), draft.given
        report = report_of(data, given, formats.chain_key if ledger.front else formats.tag_key)
        words = ["dump", given.id.hex(), given.size, given.root.hex(), given.notary_size, given.notary_root.hex()]
        own = 10 if report["fault"] else 0, json.dumps(report, separators=(",", ":")) + "\n"
        code = report["fault"][0] if report["fault"] else 0
        self.note("dumps", code, own, self.ran(ledger, list(map(str, words)), data), f"{len(data)} bytes of {ledger.folder}")

    def compare_proofs(self, ledger, count):
        given = ledger.given
        heads, notary = {given.size: given.root}, {given.notary_size: given.notary_root}
        lines = [f"trust ledger {ledger.id.hex()} {given.size} {given.root.hex()}"]
        lines.append(f"trust notary {given.notary_size} {given.notary_root.hex()}")
        own, kinds = [[], []], ["heads", "heads"]
        for number in range(count):
            for line, answer in (self.proof_line(ledger, heads, notary), self.extension_line(ledger, heads, notary)):
                while isinstance(line, list):  # a head that is trusted in front of the line
                    lines.append(line[0])
                    own.append([])
                    kinds.append("heads")
                    line = line[1]
                lines.append(line)
                own.append(answer)
                kinds.append("extensions" if line.startswith("extend") else "proofs")
        _, told = self.ran(ledger, ["script"], ("\n".join(lines) + "\n").encode())
        for kind, answer, line, reply in zip(kinds, own, lines, told.splitlines()):
            said = " ".join(map(str, ["no", *answer])) if answer else "yes"
            self.note(kind, answer[0] if answer else 0, said, reply.split(" ", 1)[1], line[:120])
        if len(told.splitlines()) != len(lines):
            self.faults.append(f"proofs: {len(lines)} lines, {len(told.splitlines())} replies")

    def proof_line(self, ledger, heads, notary):
        chance, words = self.chance, self.chance.choice(ledger.proofs)
        data = bytes.fromhex(words[4])
        proof, front = proofs.Proof(data), None
        if chance.random() < 0.15:
            front = crossed(ledger, proof)
            if front:
                root, front = front, f"trust notary {proof.notary_size} {front.hex()}"
                if notary.setdefault(proof.notary_size, root) != root:
                    front = None
        if chance.random() < 0.6:
            change_proof(proof, chance, [*heads, *notary])
        data = proof_text(proof)
        if chance.random() < 0.25:
            data = changed(data, chance)
        claim = proof.claim()
        if chance.random() < 0.1:
            claim = (claim[0] + 1, *claim[1:])
        answer = proofs.refusal_of_proof(ledger.id, claim, data, heads, notary)
        line = f"check {claim_words(claim)} {data.hex() or '-'}"
        return ([front, line] if front else line), answer

    def extension_line(self, ledger, heads, notary):
        chance, words = self.chance, list(self.chance.choice(ledger.extensions))
        tree, m, size, root, data = words[0], int(words[1]), int(words[2]), bytes.fromhex(words[3]), bytes.fromhex(words[4].strip("-"))
        trusted, front = heads if tree == "ledger" else notary, None
        if chance.random() < 0.9 and m not in trusted:
            old = self.root_of_first(ledger, tree, m)
            front, trusted[m] = f"trust {tree} {ledger.id.hex() + ' ' if tree == 'ledger' else ''}{m} {old.hex()}", old
        kind = chance.randrange(6)
        if kind == 0:
            m = near(m, 8, chance)
        elif kind == 1:
            size = near(size, 8, chance)
        elif kind == 2:
            root = chance.randbytes(32)
        elif kind == 3:
            data = changed(data, chance)
        elif kind == 4:
            data = b"".join(shuffled([data[at : at + 32] for at in range(0, len(data), 32)], chance))
        answer = proofs.refusal_of_extension(m, size, root, data, trusted)
        if not answer:
            trusted[size] = root
        line = f"extend {tree} {m} {size} {root.hex()} {data.hex() or '-'}"
        return ([front, line] if front else line), answer

    def root_of_first(self, ledger, tree, m):
        if tree == "notary":
            return root_of(map(leaf_of, ledger.parsed.tail.entries[:m]))
        return ledger.known.roots[m] if m < ledger.given.size else ledger.given.root

    def compare_lineage(self, ledger):
        chance, (name, data) = self.chance, self.chance.choice(ledger.lineages)
        size, root = ledger.given.size, ledger.given.root
        told = proofs.Lineage(data)
        if chance.random() < 0.6:
            self.change_lineage(told)
            text = b"\1" + big(told.size) + told.clue + big(len(told.journals), 2)
            data = text + b"".join(h.data + bytes([len(path)]) + b"".join(path) for h, path in told.journals)
        if chance.random() < 0.3:
            data = changed(data, chance)
        name = chance.choice((name,) * 9 + CLUES)
        answer = proofs.refusal_of_lineage(name, size, root, data)
        headers = [] if answer else [header for header, _ in proofs.Lineage(data).journals]
        own = 10, " ".join(map(str, ["no", *answer]))
        if not answer:
            own = 0, f"yes {headers[0].clue_ord} {headers[-1].clue_ord} {len(headers)}"
        reply = self.ran(ledger, ["lineage", name, str(size), root.hex()], data)
        self.note("lineages", answer[0] if answer else 0, own, (reply[0], reply[1].rstrip("\n")), name)

    def change_lineage(self, told):
        chance, at = self.chance, self.chance.randrange(len(told.journals))
        header, path = told.journals[at]
        kind = chance.randrange(6)
        if kind == 0 and len(told.journals) > 1:
            del told.journals[at]
        elif kind == 1:
            told.journals.insert(at, told.journals[at])
        elif kind == 2:
            told.journals[at] = header, shuffled(path, chance)
        elif kind == 3:
            told.size = near(told.size, 8, chance)
        elif kind == 4:
            told.clue = chance.choice((formats.ZERO, formats.clue_of("a"), formats.clue_of("b")))
        else:
            fields = dict(zip(NAMES, FIELDS.unpack(header.data)))
            field = chance.choice(("clue_ord", "clue_prev", "jsn", "kind", "member", "clue"))
            fields[field] = formats.clue_of("b") if field == "clue" else near(fields[field], WIDTHS[field], chance)
            told.journals[at] = formats.Header(spelled(fields)), path

    def compare_set(self, ledger):
        chance, data = self.chance, self.chance.choice(ledger.sets)
        data = self.change_set(data) if chance.random() < 0.7 else changed(data, chance)
        answer = proofs.refusal_of_set(data, ledger.known)
        done = subprocess.run([self.program, *ledger.front, "revive", ledger.folder], input=data, capture_output=True)
        said = done.stdout.decode().splitlines()
        told = said[-1] if done.returncode == 12 else f"status {done.returncode}"
        own = " ".join(map(str, ["no", *answer])) if answer else "status 0"
        self.note("sets", answer[0] if answer else 0, own, told, f"{len(data)} bytes")

    # Changes of a set's front, of the order of its journals, and of a content.
    def change_set(self, data):
        chance, kind, kept = self.chance, self.chance.randrange(10), proofs.SurvivorSet(data)
        texts = [journal_bytes(*it) for it in kept.survivors]
        id, point, root, count = kept.id, kept.point, kept.root, len(texts)
        if kind == 0:
            id = chance.randbytes(32)
        elif kind == 1:
            point = chance.choice((near(point, 8, chance), 1 << 40))
        elif kind == 2:
            root = chance.randbytes(32)
        elif kind == 3:
            count = near(count, 1, chance)
        elif kind == 4:
            texts.reverse()
        elif kind in (5, 6):
            at, place = chance.randrange(len(texts)), chance.randrange(10)
            texts[at] = texts[at][:place] + bytes([near(texts[at][place], 1, chance)]) + texts[at][place + 1 :]
        else:
            at = chance.randrange(len(texts))
            journal, path = kept.survivors[at]
            if kind == 7:
                path = shuffled(path, chance)
            elif journal.content and chance.random() < 0.5:
                journal.content = bytes([journal.content[0] ^ 1]) + journal.content[1:]
            else:
                journal.who += b"\0"
            texts[at] = journal_bytes(journal, path)
        return b"LDGSURV1" + id + big(point) + root + bytes([count]) + b"".join(texts)

    def told(self):
        missing = []
        for kind, codes in WANTED.items():
            seen = self.seen[kind]
            print(f"{kind}: {seen.total()} compared; by code {', '.join(f'{code} {seen[code]}' for code in sorted(seen))}")
            missing += [f"{kind}: {code} never came" for code in sorted(codes - set(seen))]
        for fault in self.faults[:20]:
            print(fault)
        print("\n".join(missing) if missing else "each check and code came")
        print(f"{len(self.faults)} differ")
        return 1 if self.faults or missing else 0


def journal_bytes(journal, path):
    state = b"\1" if journal.content is None else b"\0" + journal.content
    return journal.header.data + state + big(len(journal.who), 4) + journal.who + bytes([len(path)]) + b"".join(path)


if __name__ == "__main__":
    sys.exit(main())
