#!/usr/bin/env python3
"""A second checker of a ledger's dump, written from docs/FORMATS.md alone: all ten checks of "A dump".

It reads the dump of standard input, holds it against a ledger's id, its head and its notary's, and writes the report that `auditctl dump`
writes. Who trusts neither program compares the two; `examples/check_agreement.py` does that for thousands of changed dumps. It takes the
whole dump into memory, and took 1.6 s for 20,207 journals under the scheme of tags.

Ends with 0 where the report has no fault, with 10 where it has one, and with 2 where the words are of no form.
"""
import argparse
import json
import sys

from formats import (
    CLUE_LIMIT,
    CLUE_OCCULT,
    GENESIS,
    JOURNAL_LIMIT,
    MEMBER,
    OCCULT,
    PURGE,
    RECORD,
    TIME,
    ZERO,
    Broken,
    Front,
    Reader,
    Tail,
    Tree,
    approvals_in,
    chain_key,
    clue_occult_request,
    content_digest,
    leaf_of,
    member_request,
    occult_request,
    parts_of,
    peg_of,
    purge_request,
    read_journal,
    record_request,
    root_of,
    tag_key,
    tree_behind,
    who_digest,
)


def main():
    parser = argparse.ArgumentParser(description=__doc__, formatter_class=argparse.RawDescriptionHelpFormatter)
    parser.add_argument("--chain", action="store_true", help="proofs are signatures by chains (otherwise tag proofs)")
    for name in ("id", "size", "root", "nsize", "nroot"):
        parser.add_argument(name, metavar=name.upper(), type=int if "size" in name else bytes.fromhex)
    words = parser.parse_args()
    given = Given(words.id, words.size, words.root, words.nsize, words.nroot)
    report = report_of(sys.stdin.buffer.read(), given, chain_key if words.chain else tag_key)
    print(json.dumps(report, separators=(",", ":")))
    return 10 if report["fault"] else 0


class Given:
    """What an auditor is given beside a dump: the ledger's id, its head, and its notary's."""

    def __init__(self, id, size, root, notary_size, notary_root):
        self.id, self.size, self.root, self.notary_size, self.notary_root = id, size, root, notary_size, notary_root


class Fault(Exception):
    """The first check that fails, and its place."""

    def __init__(self, check, place):
        super().__init__(check, place)
        self.told = [check, place]


# The report of any bytes; `shown_key` tells the key that a proof of a message shows.
def report_of(data, given, shown_key):
    audit, fault = Audit(given, shown_key), None
    try:
        audit.read(Reader(data))
    except Broken as broken:
        fault = [1, broken.at]
    except Fault as found:
        fault = found.told
    point = audit.base.point if audit.base else 0
    counts = {"kept": len(audit.journals), "occulted": len(audit.erased), "point": point, "size": point + len(audit.journals)}
    return {"fault": fault, **counts, "times": len(audit.times)}


class Audit:
    """A dump as it is read: what is known of the journals so far, and the checks of the next."""

    def __init__(self, given, shown_key):
        self.given, self.shown_key = given, shown_key
        self.base, self.id, self.first = None, None, 0
        self.journals, self.erased, self.times = [], set(), []
        self.keys, self.clues, self.clued, self.tree = [], {}, {}, Tree()
        self.point, self.reached, self.hidden, self.numbers = 0, False, set(), {}
        self.leaves, self.roots = [], {}

    def read(self, reader):
        front = Front(reader)
        self.id, self.base = front.id, front.base
        if self.base:
            self.first, self.keys, self.clues = self.base.point, list(self.base.keys), dict(self.base.clues)
            self.tree = tree_behind(self.base)
        for _ in range(reader.number(8)):
            self.take(read_journal(reader))
        self.check_whole(Tail(reader))

    # Checks 3 to 5 of the next journal, which is known from then on.
    def take(self, journal):
        header, number = journal.header, self.tree.size
        self.leaf = header.leaf()
        if header.jsn != number or number >= JOURNAL_LIMIT or not self.is_next(header):
            raise Fault(3, number)
        whole = journal.content is None or content_digest(journal.content) == header.content_digest
        if not whole or who_digest(journal.who) != header.who_digest:
            raise Fault(4, number)
        if header.kind == TIME:
            self.roots[number] = self.tree.root()
        if not self.is_placed(journal):
            raise Fault(5, number)
        self.note(journal)

    # ---- check 3

    def is_next(self, header):
        if self.base and not self.journals and header.kind != TIME:
            return False
        if header.kind == MEMBER:
            return header.a == len(self.keys)
        rules = {
            RECORD: self.is_next_record,
            OCCULT: self.is_next_occult,
            PURGE: self.is_next_purge,
            CLUE_OCCULT: self.is_next_clue_occult,
        }
        return header.kind in (GENESIS, TIME) or rules[header.kind](header)

    def is_next_record(self, header):
        if header.member >= len(self.keys):
            return False
        if header.clue != ZERO:
            count, last = self.clues.get(header.clue, (0, 0))
            if (header.clue_ord, header.clue_prev) != (count + 1, last) or (count == 0 and len(self.clues) >= CLUE_LIMIT):
                return False
        return header.a == 0 or self.numbers.get((header.member, header.a), -1) < self.point

    # Behind a base a target in front of it can't be looked at, and may be named as long as the purge to the base wasn't read.
    def is_next_occult(self, header):
        target = header.a
        if target in self.hidden:
            return False
        if target < self.first:
            return not self.reached
        named = self.journals[target - self.first].header
        return named.kind == RECORD and target >= self.point and header.link == self.leaves[target - self.first]

    # It names how many records its clue has, and hides one of those that are kept. Behind a base the latter is looked at only once the
    # purge to the base was read.
    def is_next_clue_occult(self, header):
        if header.a != self.clues.get(header.link, (0, 0))[0]:
            return False
        if self.base and not self.reached:
            return True
        return any(number >= self.point and number not in self.hidden for number in self.clued.get(header.link, ()))

    def is_next_purge(self, header):
        if header.a <= self.point:
            return False
        if header.a < self.first:
            return not self.reached
        return self.journals[header.a - self.first].header.kind == TIME

    # ---- check 5

    def is_placed(self, journal):
        header, kind = journal.header, journal.header.kind
        if kind in (GENESIS, TIME):
            return not journal.who
        try:
            approvals = approvals_in(journal.who)
        except Broken:
            return False
        if kind == RECORD:
            message = record_request(self.id, header.member, header.clue, header.content_len, header.content_digest, header.a)
            return header.link == message and self.is_one(approvals, header.member, message)
        if kind == MEMBER:
            return self.is_one(approvals, 0, member_request(self.id, header.a, header.link))
        return self.are_enough(header, approvals)

    def is_one(self, approvals, member, message):
        return len(approvals) == 1 and approvals[0][0] == member and self.shows(member, message, approvals[0][1])

    def shows(self, member, message, proof):
        return self.shown_key(message, proof) == self.keys[member]

    # The approvals of an occult of either kind or a purge. Of a purge in front of the base the root isn't known, and no key is looked at.
    def are_enough(self, header, approvals):
        members = [member for member, _ in approvals]
        if any(later <= earlier for earlier, later in zip(members, members[1:])) or any(member >= len(self.keys) for member in members):
            return False
        needed = {0} | self.owners(header.a) if header.kind == PURGE else {0, 1}
        message = self.message_of(header)
        looked_at = message is None or all(self.shows(member, message, proof) for member, proof in approvals)
        return looked_at and needed <= set(members)

    def message_of(self, header):
        if header.kind == OCCULT:
            return occult_request(self.id, header.a, header.link)
        if header.kind == CLUE_OCCULT:
            return clue_occult_request(self.id, header.link, header.a)
        return self.purge_message(header.a)

    def purge_message(self, point):
        return purge_request(self.id, point, self.roots[point]) if point >= self.first else None

    # The owners of the records in the dump from the point so far up to a new one.
    def owners(self, point):
        taken = self.journals[max(0, self.point - self.first) : max(0, point - self.first)]
        return {journal.header.member for journal in taken if journal.header.kind == RECORD}

    # ---- what is known

    def note(self, journal):
        header = journal.header
        if header.kind == GENESIS:
            self.keys = [journal.content[:32], journal.content[32:]]
        elif header.kind == RECORD:
            if header.clue != ZERO:
                self.clues[header.clue] = header.clue_ord, header.jsn
                self.clued.setdefault(header.clue, []).append(header.jsn)
            if header.a:
                self.numbers[header.member, header.a] = header.jsn
            if journal.content is None:
                self.erased.add(header.jsn)
        elif header.kind == MEMBER:
            self.keys.append(header.link)
        elif header.kind == TIME:
            self.times.append(header)
        elif header.kind == OCCULT:
            self.hidden.add(header.a)
        elif header.kind == CLUE_OCCULT:
            self.hidden.update(self.clued.get(header.link, ()))
        elif header.kind == PURGE:
            self.point, self.reached = header.a, self.reached or header.a == self.first
        self.journals.append(journal)
        self.leaves.append(self.leaf)
        self.tree.add(self.leaf)

    # ---- checks 2 and 6 to 10

    def check_whole(self, tail):
        given = self.given
        shown = self.base.id if self.base else self.leaves[0] if self.leaves else None
        if not self.id == given.id == shown:
            raise Fault(2, 0)
        for journal in self.journals:
            if (journal.content is None) != (journal.header.jsn in self.hidden):
                raise Fault(6, journal.header.jsn)
        if self.base and not any(self.makes_base(journal.header) for journal in self.journals):
            raise Fault(7, self.base.point)
        if not (self.tree.size, self.tree.root()) == (tail.size, tail.root) == (given.size, given.root):
            raise Fault(8, tail.size)
        self.check_times(tail.entries)
        times = [parts_of(entry)[0] for entry in tail.entries]
        root = root_of(map(leaf_of, tail.entries))
        if len(times) != given.notary_size or not root == tail.notary_root == given.notary_root or times != sorted(times):
            raise Fault(10, len(times))

    def makes_base(self, header):
        return header.kind == PURGE and header.a == self.base.point and header.link == self.base.digest

    def check_times(self, entries):
        for header in self.times:
            entry = header.b, peg_of(self.id, header.jsn, self.roots[header.jsn]), header.link
            if header.a >= len(entries) or parts_of(entries[header.a]) != entry:
                raise Fault(9, header.jsn)


if __name__ == "__main__":
    sys.exit(main())
