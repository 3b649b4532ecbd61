"""What docs/FORMATS.md says, in Python: digests, trees, requests, proofs of members, headers, bases and dumps.

The scripts beside it read and write these texts by it, without the programs. It is written from that page alone.
"""
import hashlib
import struct

ZERO = bytes(32)
EMPTY = hashlib.sha256(b"").digest()
GENESIS, RECORD, MEMBER, TIME, OCCULT, PURGE, CLUE_OCCULT = range(7)
HEADER_BYTES, ENTRY_BYTES, SLOT_BYTES, WHO_LIMIT = 174, 72, 73, 1_050_112
CONTENT_LIMIT, FIRST_CONTENT_LIMIT = 1_048_576, 65_536
JOURNAL_LIMIT, NOTARY_LIMIT, CLUE_LIMIT, MEMBER_LIMIT = 4_294_967_295, 16_777_216, 1_048_576, 256
COUNT_LIMIT = 4_294_967_295


# How bytes break, by the codes with which a set of survivors is refused.
SHORT, TRAILING, BAD_KIND, BAD_FIELD, OTHER_VERSION = 1, 2, 8, 9, 31


class Broken(Exception):
    """Bytes that don't have their form: the place at which they break, how, and what is told of it: that place, or what was found."""

    def __init__(self, at, code=BAD_FIELD, told=None):
        super().__init__(f"the bytes break at {at}")
        self.at, self.code, self.told = at, code, at if told is None else told


# ---- digests and requests


def sha(data):
    return hashlib.sha256(data).digest()


def big(number, width=8):
    return number.to_bytes(width, "big")


def leaf_of(data):
    return sha(b"\x00" + data)


def node_of(left, right):
    return sha(b"\x01" + left + right)


def content_digest(content):
    return sha(b"\x02" + content)


def who_digest(who):
    return sha(b"\x0a" + who)


# The clue of a name; `-` names none.
def clue_of(name):
    return ZERO if name == "-" else sha(b"\x0c" + name.encode())


def record_request(ledger, member, clue, length, digest, number=0):
    text = b"\x03" + ledger + big(member, 4) + clue + big(length, 4) + digest
    return sha(text + (big(number) if number else b""))


def occult_request(ledger, target, leaf):
    return sha(b"\x04" + ledger + big(target) + leaf)


def clue_occult_request(ledger, clue, count):
    return sha(b"\x0d" + ledger + clue + big(count, 4))


def purge_request(ledger, point, root):
    return sha(b"\x05" + ledger + big(point) + root)


def peg_of(ledger, size, root):
    return sha(b"\x06" + ledger + big(size) + root)


def member_request(ledger, number, key):
    return sha(b"\x08" + ledger + big(number, 4) + key)


# ---- the tree


# The greatest power of two below a size.
def split(size):
    return 1 << (size - 1).bit_length() - 1


class Tree:
    """A tree of RFC 6962 that grows: the roots of its whole subtrees, the greatest first."""

    def __init__(self, size=0, peaks=()):
        self.size, self.peaks = size, list(peaks)

    def add(self, leaf):
        size = self.size
        while size & 1:
            leaf = node_of(self.peaks.pop(), leaf)
            size >>= 1
        self.peaks.append(leaf)
        self.size += 1

    def root(self):
        root = self.peaks[-1] if self.peaks else EMPTY
        for peak in reversed(self.peaks[:-1]):
            root = node_of(peak, root)
        return root


def root_of(leaves):
    tree = Tree()
    for leaf in leaves:
        tree.add(leaf)
    return tree.root()


# The root to which leaf n of a tree of this size leads along a path, or None.
def led_to(leaf, n, size, path):
    if n >= size:
        return None
    sides = []
    while size > 1:
        half = split(size)
        sides.append(n >= half)
        n, size = (n - half, size - half) if n >= half else (n, half)
    if len(path) != len(sides):
        return None
    for digest, right in zip(path, reversed(sides)):
        leaf = node_of(digest, leaf) if right else node_of(leaf, digest)
    return leaf


# Whether these digests show that the tree of the new size and root goes on from the one over its first `m` leaves.
def goes_on(m, root, size, new_root, digests):
    if not 0 < m <= size:
        return False
    given = iter(digests)
    try:
        ends = old_and_new(m, size, True, root, given)
    except StopIteration:
        return False
    return ends == (root, new_root) and next(given, None) is None


# The roots of a subtree as it was with its first `m` leaves, and as it is. Where it is whole, `known` says that both are the old root.
def old_and_new(m, size, known, root, given):
    if m == size:
        whole = root if known else next(given)
        return whole, whole
    half = split(size)
    if m <= half:
        old, new = old_and_new(m, half, known, root, given)
        return old, node_of(new, next(given))
    old, new = old_and_new(m - half, size - half, False, root, given)
    left = next(given)
    return node_of(left, old), node_of(left, new)


# ---- proofs of members


def tag_proof(key, message):
    return key + sha(b"\x40" + key + message)


# The key that a proof shows under the scheme of tags, or None.
def tag_key(message, proof):
    return proof[:32] if len(proof) == 64 and proof == tag_proof(proof[:32], message) else None


# The 67 digits of a message: its own, and those of the sum of what they lack of 15.
def digits_of(message):
    digits = [digit for byte in message for digit in (byte >> 4, byte & 15)]
    lacking = sum(15 - digit for digit in digits)
    return digits + [lacking >> 8, lacking >> 4 & 15, lacking & 15]


# Where a chain's value leads from one place to another.
def stepped(chain, value, first, last):
    for place in range(first, last):
        value = sha(bytes([0x42, chain, place]) + value)
    return value


def chain_secret(seed, index, chain):
    return sha(b"\x44" + seed + big(index, 4) + bytes([chain]))


def one_time_key(seed, index):
    return root_of(leaf_of(stepped(chain, chain_secret(seed, index, chain), 0, 15)) for chain in range(67))


def key_over(size, root):
    return sha(b"\x41" + big(size, 4) + root)


# The leaves of a member's tree, over the one-time keys of a seed.
def chain_leaves(seed, size):
    return [leaf_of(one_time_key(seed, index)) for index in range(size)]


# The path of leaf n, from the leaf up.
def path_of(n, leaves):
    if len(leaves) == 1:
        return []
    half = split(len(leaves))
    if n < half:
        return path_of(n, leaves[:half]) + [root_of(leaves[half:])]
    return path_of(n - half, leaves[half:]) + [root_of(leaves[:half])]


# The signature of a message by a one-time key, of the tree over these leaves.
def chain_proof(seed, index, message, leaves):
    values = [stepped(chain, chain_secret(seed, index, chain), 0, digit) for chain, digit in enumerate(digits_of(message))]
    path = path_of(index, leaves)
    return big(len(leaves), 4) + big(index, 4) + b"".join(values) + bytes([len(path)]) + b"".join(path)


# The key that a proof shows under the scheme of chains, or None.
def chain_key(message, proof):
    if len(proof) < 2153 or len(proof) != 2153 + 32 * proof[2152]:
        return None
    size, index = struct.unpack(">II", proof[:8])
    if not (1 <= size <= 1024 and index < size):
        return None
    values = [proof[8 + 32 * chain : 40 + 32 * chain] for chain in range(67)]
    ends = [stepped(chain, value, digit, 15) for chain, (value, digit) in enumerate(zip(values, digits_of(message)))]
    path = [proof[at : at + 32] for at in range(2153, len(proof), 32)]
    root = led_to(leaf_of(root_of(map(leaf_of, ends))), index, size, path)
    return key_over(size, root) if root else None


# ---- reading


class Reader:
    """Bytes that are read from left to right. What isn't there breaks at their end."""

    def __init__(self, data, at=0):
        self.data, self.at = data, at

    def take(self, count):
        if self.at + count > len(self.data):
            raise Broken(len(self.data), SHORT)
        self.at += count
        return self.data[self.at - count : self.at]

    def number(self, width):
        return int.from_bytes(self.take(width), "big")

    def digests(self, count):
        return [self.take(32) for _ in range(count)]

    # A number that keeps a rule, or else breaks at its own place.
    def ruled(self, width, rule):
        at, number = self.at, self.number(width)
        if not rule(number):
            raise Broken(at)
        return number

    def end(self):
        if self.at < len(self.data):
            raise Broken(self.at, TRAILING)


# ---- headers

FIELDS = struct.Struct(">BBQI32sIQQQ32sI32s32s")
NAMES = "version kind jsn member clue clue_ord clue_prev a b link content_len content_digest who_digest".split()
OFFSETS = dict(zip(NAMES, (0, 1, 2, 10, 14, 46, 50, 58, 66, 74, 106, 110, 142)))


class Header:
    """A journal's header, by its fields; `data` has its 174 bytes."""

    __slots__ = ("data", *NAMES)

    def __init__(self, data):
        self.data = bytes(data)
        for name, value in zip(NAMES, FIELDS.unpack(self.data)):
            setattr(self, name, value)

    def leaf(self):
        return leaf_of(self.data)


# The fields that break their row or the rules on clues, in order. Fields that are cut off count as zeros here.
def wrong_fields(h):
    kind = h.kind
    yield "jsn", (h.jsn == 0) != (kind == GENESIS)
    yield "member", h.member >= MEMBER_LIMIT if kind == RECORD else h.member != 0
    yield "clue", kind != RECORD and h.clue != ZERO
    yield "clue_ord", (h.clue_ord == 0) != (h.clue == ZERO)
    yield "clue_prev", not 0 < h.clue_prev < h.jsn if h.clue_ord > 1 else h.clue_prev != 0
    yield "a", not a_fits(h)
    yield "b", kind != TIME and h.b != 0
    yield "link", kind == CLUE_OCCULT and h.link == ZERO
    yield "content_len", not length_fits(h)


def a_fits(h):
    if h.kind == RECORD:
        return h.a == 0 or h.version == 2
    rules = {
        GENESIS: h.a == 0,
        MEMBER: 2 <= h.a < MEMBER_LIMIT,
        TIME: h.a < NOTARY_LIMIT,
        OCCULT: h.a < h.jsn,
        PURGE: 0 < h.a < h.jsn,
        CLUE_OCCULT: 0 < h.a <= COUNT_LIMIT,
    }
    return rules[h.kind]


def length_fits(h):
    if h.kind == RECORD:
        return h.content_len <= (CONTENT_LIMIT if h.version == 2 else FIRST_CONTENT_LIMIT)
    return h.content_len == (64 if h.kind == GENESIS else 0)


# Whether version 2 carries a header of this kind with these fields, and version 1 doesn't.
def is_second(h):
    return h.kind == CLUE_OCCULT or h.kind == RECORD and (h.a != 0 or h.content_len > FIRST_CONTENT_LIMIT)


# The header that stands next. Its first break is at the field that breaks, or at the end of the bytes.
def read_header(reader):
    start = reader.at
    data = bytes(reader.data[start : start + HEADER_BYTES])
    h = Header(data.ljust(HEADER_BYTES, b"\0"))
    check_layout(data, start)
    if len(data) >= 2 and h.version == 2:
        if len(data) < OFFSETS["content_digest"]:
            raise Broken(len(reader.data), SHORT)
        if not is_second(h):
            raise Broken(start)
    if len(data) >= 2:
        check_fields(h, len(data), start)
    reader.take(HEADER_BYTES)
    return h


# Tells another version, and then a kind that the version hasn't, as far as they are there.
def check_layout(data, start):
    if data[:1] and data[0] not in (1, 2):
        raise Broken(start, OTHER_VERSION, data[0])
    if data[1:2] and data[1] > (PURGE if data[0] == 1 else CLUE_OCCULT):
        raise Broken(start + 1, BAD_KIND, data[1])


# Tells the first field that breaks its rule, as far as it is whole.
def check_fields(h, length, start):
    ends = dict(zip(NAMES, [*list(OFFSETS.values())[1:], HEADER_BYTES]))
    for name, wrong in wrong_fields(h):
        if ends[name] > length:
            return
        if wrong:
            raise Broken(start + OFFSETS[name])


# ---- journals, bases and dumps


class Journal:
    """A journal as a dump or a set has it; its content is None where that was erased."""

    __slots__ = ("header", "content", "who", "at")

    def __init__(self, header, content, who, at=0):
        self.header, self.content, self.who, self.at = header, content, who, at


def read_journal(reader):
    start = reader.at
    header = read_header(reader)
    erased = reader.ruled(1, lambda state: state == 0 or state == 1 and header.kind == RECORD)
    content = None if erased else bytes(reader.take(header.content_len))
    who = bytes(reader.take(reader.ruled(4, lambda length: length <= WHO_LIMIT)))
    return Journal(header, content, who, start)


# The approvals in a who, as pairs of a member's number and its proof. Bytes that aren't whole break.
def approvals_in(who):
    reader, found = Reader(who), []
    while reader.at < len(who):
        member, length = reader.number(4), reader.number(2)
        found.append((member, reader.take(length)))
    return found


class Base:
    """The pseudo-genesis that stands for the journals in front of a point."""

    def __init__(self, data):
        reader = Reader(data)
        reader.ruled(1, lambda version: version == 1)
        self.id = reader.take(32)
        self.point = point = reader.ruled(8, lambda point: 1 <= point < JOURNAL_LIMIT)
        self.blocks = reader.ruled(8, lambda blocks: 1 <= blocks <= point)
        self.peaks = reader.digests(point.bit_count())
        self.keys = reader.digests(reader.ruled(2, lambda members: 2 <= members <= MEMBER_LIMIT))
        self.clues = dict(self.read_clues(reader))
        reader.end()
        self.digest = sha(b"\x07" + data)

    # Each clue with how many journals it has, and the number of the last.
    def read_clues(self, reader):
        before = ZERO
        for _ in range(reader.ruled(4, lambda clues: clues <= CLUE_LIMIT)):
            at, clue = reader.at, reader.take(32)
            if clue <= before:
                raise Broken(at)
            before = clue
            count, last = (reader.ruled(width, lambda number: 1 <= number < self.point) for width in (4, 8))
            yield clue, (count, last)


class Front:
    """What stands in front of a dump's journals."""

    def __init__(self, reader):
        magic = bytes(reader.data[:8])
        if not b"LDGDUMP1".startswith(magic):
            raise Broken(0)
        reader.take(8)
        self.id = reader.take(32)
        self.base = self.read_base(reader.take(reader.number(8)))
        self.count = None

    def read_base(self, data):
        try:
            return Base(data) if data else None
        except Broken as broken:
            raise Broken(48 + broken.at) from None


class Tail:
    """What stands behind a dump's journals, up to its end."""

    def __init__(self, reader):
        self.size, self.root = reader.number(8), reader.take(32)
        count = reader.number(8)
        self.entries = [reader.take(ENTRY_BYTES) for _ in range(min(count, 1 + len(reader.data) // ENTRY_BYTES))]
        self.notary_root = reader.take(32)
        reader.end()


class Dump:
    """A whole dump: its front, its journals and its tail."""

    def __init__(self, data):
        reader = Reader(data)
        self.front = Front(reader)
        self.journals = [read_journal(reader) for _ in range(reader.number(8))]
        self.tail = Tail(reader)
        self.id, self.base = self.front.id, self.front.base
        self.point = self.base.point if self.base else 0


# A tree over the journals that a base stands for, or over none.
def tree_behind(base):
    return Tree(base.point, base.peaks) if base else Tree()


# The parts of a notary's entry: its time, its peg and its salt.
def parts_of(entry):
    return int.from_bytes(entry[:8], "big"), entry[8:40], entry[40:]
