"""Journal proofs, extensions, lineages and sets of survivors, read and judged as docs/FORMATS.md says, without the programs.

Where the page names a code for what isn't accepted, the answer is that code with its fields, and else an empty list. It is written
from that page alone.
"""
from formats import (
    RECORD,
    TIME,
    Broken,
    Reader,
    big,
    check_layout,
    clue_of,
    content_digest,
    goes_on,
    leaf_of,
    led_to,
    peg_of,
    read_header,
    read_journal,
    who_digest,
)

# ---- journal proofs


class Lower:
    """The time journal in front: its header, and what shows it and the journals in front of it."""

    def __init__(self, reader):
        at = reader.at
        self.header = header_at_its_place(reader)
        if self.header.kind != TIME:
            raise Broken(at)
        self.path, self.before, self.digests = counted(reader), reader.take(32), counted(reader)
        self.number, self.index, self.time, self.salt = self.header.jsn, self.header.a, self.header.b, self.header.link

    # Whether it stands in front of journal n, and with all in front of it in the tree of this size and root.
    def stands(self, n, size, root):
        placed = led_to(self.header.leaf(), self.number, size, self.path) == root
        return self.number < n and placed and goes_on(self.number, self.before, size, root, self.digests)


class Upper:
    """The time journal behind: its number, its entry, and what shows the journals in front of it."""

    def __init__(self, reader):
        self.number, self.index, self.time = (reader.number(8) for _ in range(3))
        self.salt, self.before, self.digests = reader.take(32), reader.take(32), counted(reader)

    def stands(self, n, size, root):
        return n < self.number and goes_on(self.number, self.before, size, root, self.digests)


class Proof:
    """A journal proof, by its parts."""

    def __init__(self, data):
        if len(data) > 8192:
            raise Broken(8192)
        reader = Reader(data)
        reader.ruled(1, lambda version: version == 1)
        self.size, self.n, self.leaf, self.path = reader.number(8), reader.number(8), reader.take(32), counted(reader)
        self.lower = Lower(reader) if flag(reader) else None
        self.upper = Upper(reader) if flag(reader) else None
        self.bounds = [bound for bound in (self.lower, self.upper) if bound]
        self.notary_size = reader.number(8) if self.bounds else None
        self.entry_paths = [counted(reader) for _ in self.bounds]
        reader.end()

    # What it claims: the journal, its leaf digest and its bounds.
    def claim(self):
        return self.n, self.leaf, mark_of(self.lower), mark_of(self.upper)


def flag(reader):
    return reader.ruled(1, lambda flag: flag < 2)


def mark_of(bound):
    return bound and (bound.number, bound.index, bound.time)


# Digests behind their number.
def counted(reader):
    return reader.digests(reader.number(1))


# A header within a proof or a lineage: a field that breaks is told at the header's place.
def header_at_its_place(reader):
    at = reader.at
    try:
        return read_header(reader)
    except Broken as broken:
        raise (broken if broken.at == len(reader.data) else Broken(at)) from None


# Why bytes don't prove a claim, which has the form of `claim`, of the ledger with this id under trusted heads, roots by their sizes.
# Without heads of the notary the entries aren't looked at.
def refusal_of_proof(ledger, claim, data, heads, notary_heads=None):
    try:
        proof = Proof(data)
    except Broken as broken:
        return [41, broken.at]
    if proof.size not in heads:
        return [34, proof.size]
    if proof.bounds and notary_heads is not None and proof.notary_size not in notary_heads:
        return [34, proof.notary_size]
    if proof.claim() != claim:
        return [40]
    root = heads[proof.size]
    if led_to(proof.leaf, proof.n, proof.size, proof.path) != root:
        return [35]
    for code, bound in ((36, proof.lower), (37, proof.upper)):
        if bound and not bound.stands(proof.n, proof.size, root):
            return [code]
    if notary_heads is not None and not all(is_entered(ledger, proof, *it, notary_heads) for it in zip(proof.bounds, proof.entry_paths)):
        return [38]
    return [39] if [bound.time for bound in proof.bounds] != sorted(bound.time for bound in proof.bounds) else []


# Whether a bound's entry is in the notary's list.
def is_entered(ledger, proof, bound, path, notary_heads):
    entry = big(bound.time) + peg_of(ledger, bound.number, bound.before) + bound.salt
    return led_to(leaf_of(entry), bound.index, proof.notary_size, path) == notary_heads[proof.notary_size]


# ---- extensions


# Why the digests in these bytes don't make a head trusted, under trusted heads, roots by their sizes.
def refusal_of_extension(m, size, root, data, heads):
    if len(data) % 32:
        return [41, len(data)]
    if m not in heads:
        return [34, m]
    if not goes_on(m, heads[m], size, root, [data[at : at + 32] for at in range(0, len(data), 32)]):
        return [43]
    return [44, heads[size].hex()] if heads.get(size, root) != root else []


# ---- lineages


class Lineage:
    """A lineage: headers of one clue, with their paths under the tree of its size."""

    def __init__(self, data):
        reader = Reader(data)
        reader.ruled(1, lambda version: version == 1)
        self.size, self.clue = reader.number(8), reader.take(32)
        count = reader.ruled(2, lambda count: 1 <= count <= 1024)
        self.journals = [(header_at_its_place(reader), counted(reader)) for _ in range(count)]
        reader.end()


# Why bytes are no lineage of a clue's name under a head; where they are one, nothing.
def refusal_of_lineage(name, size, root, data):
    try:
        lineage = Lineage(data)
    except Broken as broken:
        return [41, broken.at]
    if lineage.size != size:
        return [34, lineage.size]
    headers, clue = [header for header, _ in lineage.journals], clue_of(name)
    if lineage.clue != clue or name == "-":
        return [54, 0]
    for place, header in enumerate(headers):
        if header.kind != RECORD or header.clue != clue:
            return [54, place]
    for place, (before, header) in enumerate(zip(headers, headers[1:]), 1):
        if header.clue_ord != before.clue_ord + 1 or header.clue_prev != before.jsn:
            return [55, place]
    return [] if all(led_to(header.leaf(), header.jsn, size, path) == root for header, path in lineage.journals) else [35]


# ---- sets of survivors


class SurvivorSet:
    """A set of survivors: journals, each with its path under the root in front of the point."""

    def __init__(self, data):
        reader = Reader(data)
        if reader.take(8) != b"LDGSURV1":
            raise Broken(0)
        self.id, self.point, self.root = reader.take(32), reader.number(8), reader.take(32)
        count = reader.ruled(1, lambda count: 1 <= count <= 64)
        self.survivors = []
        for _ in range(count):
            self.survivors.append((self.read_next(reader), counted(reader)))
        reader.end()

    # The next journal, whose number is above that of the one in front of it.
    def read_next(self, reader):
        at, front = reader.at, reader.data[reader.at : reader.at + 10]
        check_layout(front, at)
        if self.survivors and len(front) == 10 and int.from_bytes(front[2:], "big") <= self.survivors[-1][0].header.jsn:
            raise Broken(at + 2)
        return read_journal(reader)


class Ledger:
    """What is known of a ledger by which a set is judged: its id, its size, its point, and roots in front of journals."""

    def __init__(self, id, size, point, roots):
        self.id, self.size, self.point, self.roots = id, size, point, roots


# Why bytes are no set of a ledger's survivors.
def refusal_of_set(data, ledger):
    try:
        kept = SurvivorSet(data)
    except Broken as broken:
        return [broken.code, broken.told]
    if kept.id != ledger.id:
        return [52, ledger.id.hex()]
    if kept.point >= ledger.size:
        return [20, ledger.size]
    if kept.point < ledger.point:
        return [21, ledger.point]
    if kept.root != ledger.roots[kept.point]:
        return [26, ledger.roots[kept.point].hex()]
    return refusal_of_survivors(kept)


# The same of the journals themselves, by the root that the set names.
def refusal_of_survivors(kept):
    for journal, path in kept.survivors:
        header = journal.header
        if led_to(header.leaf(), header.jsn, kept.point, path) != kept.root:
            return [35]
        parts = [(header.content_digest, content_digest(journal.content))] if journal.content is not None else []
        for named, found in [*parts, (header.who_digest, who_digest(journal.who))]:
            if named != found:
                return [13, named.hex(), found.hex()]
    return []
