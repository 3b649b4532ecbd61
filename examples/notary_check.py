#!/usr/bin/env python3
"""Looks whether the notary's file of a folder is that of its ledger, and makes it again where it can be made.

A ledger opens beside any notary's file: one that was lost, is older, is another ledger's or has a changed bit ends with status 0 and no
word. But no proof with a bound in time is accepted then, and each further anchor makes it worse. So ask this behind each restore, and
before any line is sent. The ledger is exported, and each time journal that it keeps is held against the entry that it names: its
index, time, peg and salt. With --head the list is held against a head of the notary that somebody else kept.

With --remake FILE the notary's file is written anew, as FILE, which isn't there yet: from the time journals, where nothing was purged.
An entry that no journal names is taken from the list as it is, where that has one at its place which falls in with the times beside it.
Whether such an entry is the old one, --head tells. Entries behind the last one that a journal names can't be made. What was made is
held against --head, too. Then move DIR/notary away and FILE to its place.

Ends with 0 where all agree or the file was made, with 1 where something differs or can't be made, and with 2 where the ledger can't be
exported.
"""
import argparse
import os
import subprocess
import sys
import tempfile

from common import installed_program
from formats import SLOT_BYTES, TIME, Broken, Dump, big, leaf_of, parts_of, peg_of, root_of, tree_behind


def main():
    parser = argparse.ArgumentParser(description=__doc__, formatter_class=argparse.RawDescriptionHelpFormatter)
    parser.add_argument("--program", metavar="PATH", help="ledgerctl (otherwise the one in PATH, or else that of bin/ledgerctl)")
    parser.add_argument("--head", nargs=2, metavar=("NSIZE", "NROOT"), help="a head of the notary that somebody else kept")
    parser.add_argument("--remake", metavar="FILE", help="write the notary's file anew")
    parser.add_argument("folder", metavar="DIR")
    words = parser.parse_args()
    dump = exported(installed_program(words.program), words.folder)
    if dump is None:
        return 2
    named, entries = named_entries(dump), dump.tail.entries
    faults = differing(named, entries)
    print(f"{len(named)} time journals, {len(entries)} entries, {len(faults)} differ")
    for fault in faults[:20]:
        print(fault)
    if words.remake:
        return remade(words, dump, named)
    return 1 if faults or not leads_to(words.head, entries) else 0


# The dump of a ledger, or None where it can't be exported.
def exported(program, folder):
    with tempfile.TemporaryFile() as file:
        status = subprocess.run([program, "export", folder], stdin=subprocess.DEVNULL, stdout=file).returncode
        file.seek(0)
        data = file.read()
    try:
        if status == 0:
            return Dump(data)
    except Broken as broken:
        status = broken
    print(f"{folder} can't be exported: {status} {data[-200:].splitlines()[-1:]}")
    return None


# Of each time journal that is kept, its number and the entry that it names, with that entry's index.
def named_entries(dump):
    tree, named = tree_behind(dump.base), []
    for journal in dump.journals:
        header = journal.header
        if header.kind == TIME:
            entry = big(header.b) + peg_of(dump.id, header.jsn, tree.root()) + header.link
            named.append((header.jsn, header.a, entry))
        tree.add(header.leaf())
    return named


# A line for each time journal whose entry isn't the one in the list.
def differing(named, entries):
    faults = []
    for number, index, entry in named:
        if index >= len(entries):
            faults.append(f"journal {number}: the list has no entry {index}")
        elif entries[index] != entry:
            parts = zip(("time", "peg", "salt"), parts_of(entry), parts_of(entries[index]))
            faults.append(f"journal {number}: entry {index} has another {', '.join(name for name, own, found in parts if own != found)}")
    return faults


# Whether a list goes on from a head that was kept, where one is given.
def leads_to(head, entries):
    if not head:
        return True
    size, root = int(head[0]), bytes.fromhex(head[1])
    if size > len(entries):
        print(f"the list has {len(entries)} entries, and the head that was kept has {size}")
        return False
    same = root_of(map(leaf_of, entries[:size])) == root
    print(f"the first {size} entries have {'the root' if same else 'ANOTHER root than that'} of the head that was kept")
    return same


# Writes the file anew, and answers the status.
def remade(words, dump, named):
    entries = list_of(dump, named)
    if entries is None or not leads_to(words.head, entries):
        return 1
    with open(words.remake, "xb", opener=lambda path, flags: os.open(path, flags, 0o600)) as file:
        file.write(b"".join(b"\x01" + entry for entry in entries) + b"\x00")
        file.flush()
        os.fsync(file.fileno())
    left = differing(named, entries)
    print(f"{words.remake}: {len(entries)} entries, {len(entries) * SLOT_BYTES + 1} bytes; {len(left)} time journals differ from it")
    return 1 if left else 0


# The list that the time journals name, or None where it can't be made. Of two journals that name one index the first has it.
def list_of(dump, named):
    if dump.base:
        print(f"it can't be made: journals in front of {dump.point} were purged")
        return None
    made = {}
    for _, index, entry in named:
        made.setdefault(index, entry)
    entries, found = [], dump.tail.entries
    for index in range(max(made, default=-1) + 1):
        entry = made.get(index) or (found[index] if index < len(found) else None)
        if entry is None or (entries and entry[:8] < entries[-1][:8]):
            print(f"it can't be made: entry {index} is named by no journal, and isn't in the list, or falls behind the time in front of it")
            return None
        entries.append(entry)
    return entries


if __name__ == "__main__":
    sys.exit(main())
