#!/usr/bin/env python3
"""Writes a page that shows the dump of a ledger: one file without any other, for people who would rather look than read.

    examples/ledger_page.py [--chain] [--heads HEADS] [--report FILE] [--clue NAME].. DUMP > page.html

At the top stands the auditor's report. It is made here by check_dump.py: under the two trusted heads in HEADS (lines as `auditctl script`
takes them, which `auditor_day.sh` keeps), or else under the dump's own heads, which the page says. With --report the line of
`auditctl dump` stands beside it. Below come a line of time with a bar for the journals in front of each anchor, what was hidden and purged
and by whose approval, and all journals, which can be searched, and narrowed by kind, member and clue. A dump has the digests of clues
alone: each --clue NAME gives one its name. It doesn't tell where blocks end either; the spans are those between anchors.

A content is shown as text where it is text, and else in hexadecimal digits, the first 4,000 bytes of it. Markup in a record is shown as
text: the page runs one script, whose digest its policy names, and loads nothing. That of 20,207 journals has 4.8 MB, and a browser
showed it in 0.6 to 0.8 s.

Ends with 0, with 1 where the bytes are no dump, and with 2 where the words are of no form. A page is written whatever the report says.
"""
import argparse
import base64
import hashlib
import json
import os
import re
import sys
import unicodedata

from check_dump import Given, report_of
from formats import CLUE_OCCULT, OCCULT, RECORD, ZERO, Broken, Dump, approvals_in, chain_key, clue_of, tag_key

SHOWN = 4000
CHECKS = {
    1: "the bytes are no dump",
    2: "the dump is of another ledger",
    3: "a journal isn't the next one",
    4: "a content, or who placed it, was changed",
    5: "a journal wasn't placed by those who had to",
    6: "a content is missing that nothing hides, or is there and was to be hidden",
    7: "the base isn't the one that a purge made",
    8: "the journals don't have the head that is trusted",
    9: "a time isn't the notary's",
    10: "the notary's list isn't the one that is trusted",
}


def main():
    parser = argparse.ArgumentParser(description=__doc__, formatter_class=argparse.RawDescriptionHelpFormatter)
    parser.add_argument("--chain", action="store_true", help="proofs are signatures by chains (otherwise tag proofs)")
    parser.add_argument("--heads", metavar="HEADS", help="a file with the two trusted heads")
    parser.add_argument("--report", metavar="FILE", help="the report that auditctl dump wrote")
    parser.add_argument("--clue", metavar="NAME", action="append", default=[], help="the name of a clue, to be shown for its digest")
    parser.add_argument("dump", metavar="DUMP")
    words = parser.parse_args()
    with open(words.dump, "rb") as file:
        data = file.read()
    try:
        dump = Dump(data)
    except Broken as broken:
        print(f"ledger_page: {words.dump} is no dump: it breaks at byte {broken.at}", file=sys.stderr)
        return 1
    shown = shown_of(dump, {clue_of(name): name for name in words.clue})
    shown["report"] = audited(words, data, dump)
    sys.stdout.reconfigure(encoding="utf-8", newline="\n")
    sys.stdout.write(page_of(shown))
    return 0


# ---- the report


# The report, under which heads it was made, and what was wrong in words.
def audited(words, data, dump):
    tail = dump.tail
    given, from_elsewhere = Given(dump.id, tail.size, tail.root, len(tail.entries), tail.notary_root), False
    if words.heads:
        given, from_elsewhere = heads_in(words.heads), True
    report = report_of(data, given, chain_key if words.chain else tag_key)
    fault = report["fault"]
    told = {"line": json.dumps(report, separators=(",", ":")), "fault": None}
    if fault:
        told["fault"] = f"{CHECKS[fault[0]]} (check {fault[0]}, at {fault[1]})"
    if fault and fault[0] == 5 and not words.chain:
        told["fault"] += "; a ledger of chains is looked at with --chain"
    if words.report:
        with open(words.report) as file:
            told["other"] = file.read().strip()
    return {**told, "trusted": from_elsewhere, "scheme": "chains" if words.chain else "tags"}


def heads_in(file):
    text = open(file).read()
    ledger = re.search(r"^trust ledger (\w{64}) (\d+) (\w{64})$", text, re.MULTILINE)
    notary = re.search(r"^trust notary (\d+) (\w{64})$", text, re.MULTILINE)
    if not ledger or not notary:
        raise SystemExit(f"ledger_page: {file} has no two heads")
    id, size, root = ledger.groups()
    return Given(bytes.fromhex(id), int(size), bytes.fromhex(root), int(notary[1]), bytes.fromhex(notary[2]))


# ---- what is shown


# All that the page shows, as plain data.
def shown_of(dump, names):
    clues = Clues(names)
    journals = [row_of(journal, clues) for journal in dump.journals]
    tail = dump.tail
    return {
        "id": dump.id.hex(),
        "point": dump.point,
        "size": tail.size,
        "root": tail.root.hex(),
        "notarySize": len(tail.entries),
        "notaryRoot": tail.notary_root.hex(),
        "clues": clues.told,
        "journals": journals,
        "hidden": hidden_in(dump.journals),
    }


# Which journal hides which, the first where several do.
def hidden_in(journals):
    hidden, clued = {}, {}
    for header in (journal.header for journal in journals):
        if header.kind == OCCULT:
            hidden.setdefault(header.a, header.jsn)
        elif header.kind == CLUE_OCCULT:
            for number in clued.get(header.link, ()):
                hidden.setdefault(number, header.jsn)
        elif header.kind == RECORD and header.clue != ZERO:
            clued.setdefault(header.clue, []).append(header.jsn)
    return hidden


class Clues:
    """The clues of a dump, numbered as they come, with their names or the beginnings of their digests."""

    def __init__(self, names):
        self.names, self.numbers, self.told = names, {}, []

    def number(self, clue):
        if clue == ZERO:
            return -1
        if clue not in self.numbers:
            self.numbers[clue] = len(self.told)
            self.told.append(self.names.get(clue, clue.hex()[:12] + "…"))
        return self.numbers[clue]


# A journal as the page takes it: kind, member, clue or the one that it hides, a, b, leaf, link, length, content, its form, approvals, ordinal.
def row_of(journal, clues):
    header = journal.header
    text, form = content_of(journal)
    try:
        approvals = [member for member, _ in approvals_in(journal.who)]
    except Broken:
        approvals = [-1]
    clue = header.link if header.kind == CLUE_OCCULT else header.clue
    own = header.kind, header.member, clues.number(clue), header.a, header.b
    return [*map(exact, own), header.leaf().hex(), header.link.hex(), header.content_len, text, form, approvals, header.clue_ord]


# A number above 2^53 as a text, since a page's numbers end there.
def exact(number):
    return number if number < 1 << 53 else str(number)


# A content and its form: text, hexadecimal digits, erased, or none.
def content_of(journal):
    content, kind = journal.content, journal.header.kind
    if content is None:
        return "", "erased"
    if kind != RECORD or not content:
        return "", "empty" if kind == RECORD else "none"
    part = content[:SHOWN]
    try:
        text = part.decode() if len(content) <= SHOWN else part.decode(errors="ignore")
        if text and all(is_shown(letter) for letter in text):
            return text, "text"
    except UnicodeDecodeError:
        pass
    return part.hex(), "hex"


# Whether a letter shows itself: no control, no format that turns what stands beside it, no surrogate, nothing that isn't assigned.
def is_shown(letter):
    return letter in "\n\t\r" or unicodedata.category(letter) not in ("Cc", "Cf", "Cs", "Co", "Cn", "Zl", "Zp")


# ---- the page


def page_of(shown):
    script, style = SCRIPT.strip(), STYLE.strip()
    policy = f"default-src 'none'; script-src '{digest_of(script)}'; style-src '{digest_of(style)}'; base-uri 'none'; form-action 'none'"
    data = json.dumps(shown, separators=(",", ":")).replace("<", "\\u003c")
    page = PAGE.replace("@POLICY@", policy).replace("@STYLE@", style).replace("@SCRIPT@", script)
    return page.replace("@TITLE@", f"Ledger {shown['id'][:12]}").replace("@DATA@", data)


def digest_of(text):
    return "sha256-" + base64.b64encode(hashlib.sha256(text.encode()).digest()).decode()


def part_of(name):
    with open(os.path.join(os.path.dirname(os.path.realpath(__file__)), "ledger_page", name), encoding="utf-8") as file:
        return file.read()


PAGE, STYLE, SCRIPT = part_of("page.html"), part_of("page.css"), part_of("page.js")

if __name__ == "__main__":
    sys.exit(main())
