#!/usr/bin/env python3
"""Writes docs/MODEL.md, every definition in plain words, from the comments in crates/*/specs.

usage: docs/model.py [--check]

Each public definition of a specification is a row: its name, and the comment right above it. Crates stand in the order of
crates.txt, files in that of their specs/Lib.antt, below the first comment of each. The page begins with docs/model_intro.md.
With --check nothing is written. Ends with 1 where a definition has no comment of its own, or one that begins with "..", and
with --check also where docs/MODEL.md isn't what would be written.
"""
import argparse
import re
import sys
from pathlib import Path

ROOT = Path(__file__).resolve().parent.parent
PAGE = ROOT / "docs" / "MODEL.md"

# A public definition, and the name of it; and what may stand between it and its comment.
PUBLIC = re.compile(r"(?:(?:abbrev|unfoldable) )*pub (?!mod |use )(?:(record|data) )?(\S+)")
FIXITY = re.compile(r"infix[lr]? ")
# Records of plain data show the names of their fields where these are no longer than this together.
MOST_FIELD_BYTES = 60


def main():
    words = argparse.ArgumentParser(description=__doc__, formatter_class=argparse.RawDescriptionHelpFormatter)
    words.add_argument("--check", action="store_true", help="write nothing, and tell whether the page is up to date")
    check = words.parse_args().check
    bare, page = [], (ROOT / "docs" / "model_intro.md").read_text()
    page += "\n" + ", ".join(f"[{crate.name}](#{crate.name})" for crate in crates()) + "\n"
    for crate in crates():
        page += section_of(crate, bare)
    for place in bare:
        print(f"no comment of its own: {place}")
    stale = not PAGE.exists() or PAGE.read_text() != page
    if check and stale:
        print(f"{PAGE.relative_to(ROOT)} isn't what {Path(__file__).name} writes")
    if not check:
        PAGE.write_text(page)
    sys.exit(1 if bare or (check and stale) else 0)


def crates():
    """The folders of all crates that have specifications, in the order of crates.txt."""
    lines = (ROOT / "crates.txt").read_text().splitlines()
    folders = [ROOT / "crates" / line.split(":")[0] for line in lines if line and not line.startswith("#")]
    return [folder for folder in folders if (folder / "specs" / "Lib.antt").exists()]


def section_of(crate, bare):
    """A crate's heading, purpose and files; definitions without a comment of their own are added to `bare`."""
    section = f"\n## {crate.name}\n\n{purpose_of(crate)}\n"
    for name in re.findall(r"^pub mod (\S+)$", (crate / "specs" / "Lib.antt").read_text(), re.MULTILINE):
        file = crate / "specs" / f"{name}.antt"
        rows = []
        lines = file.read_text().splitlines()
        for place, defined, words in definitions(lines):
            rows.append(f"| {code(defined)} | {escaped(words)} |\n")
            if not words or words.startswith(".."):
                bare.append(f"{file.relative_to(ROOT)}:{place}: {defined}")
        if rows:
            head = " ".join(comment_below(lines, 0))
            section += f"\n### {crate.name}/specs/{name}.antt\n\n{head}\n\n| Name | Meaning |\n|---|---|\n" + "".join(rows)
    return section


def purpose_of(crate):
    """The first sentence of the crate's own comment, or what the table of crates says of it."""
    lines = (crate / "src" / "lib.rt").read_text().splitlines()
    words = " ".join(line[4:] for line in lines if line.startswith("//! "))
    if words:
        return re.split(r"(?<=\.) (?=[A-Z`])", words)[0]
    table = (ROOT / "docs" / "ARCHITECTURE.md").read_text()
    return re.search(rf"^\| `{crate.name}` \| (.*) \|$", table, re.MULTILINE)[1]


def definitions(lines):
    """The number of the line, the name and the words of each public definition; what stands in a record is none."""
    within = None
    for at, line in enumerate(lines):
        depth = len(line) - len(line.lstrip())
        if line.strip() and within is not None and depth <= within:
            within = None
        found = PUBLIC.match(line.lstrip())
        if found and within is None:
            words = " ".join(comment_above(lines, at))
            if found[1]:
                within = depth
                words += fields_of(lines, at, depth) if words else ""
            yield at + 1, found[2], words


def comment_above(lines, at):
    """The comment that ends right above a line, without what stands before the definition to tell how it is written."""
    while at and FIXITY.match(lines[at - 1].lstrip()):
        at -= 1
    first = at
    while first and lines[first - 1].lstrip().startswith("--"):
        first -= 1
    return [line.lstrip()[2:].strip() for line in lines[first:at]]


def comment_below(lines, at):
    """The comment that begins at a line."""
    last = at
    while last < len(lines) and lines[last].startswith("--"):
        last += 1
    return [line[2:].strip() for line in lines[at:last]]


def fields_of(lines, at, depth):
    """The names of the fields of a record that has no arguments, where they are short."""
    if not re.match(r"\S+ : Type 0 where$", lines[at].split("record ")[-1]):
        return ""
    names = []
    for line in lines[at + 1:]:
        if line.strip() and len(line) - len(line.lstrip()) <= depth:
            break
        names += re.findall(r"^\s+(?:pub )?([^\s-]\S*) :", line)
    told = ", ".join(f"`{name}`" for name in names)
    return f" ({told})" if 0 < len(told) <= MOST_FIELD_BYTES else ""


def code(name):
    """A name as it stands in a cell of a table, an operator without the marks of its places."""
    return "`" + name.strip("◌").replace("|", "\\|") + "`"


def escaped(words):
    """Words as they stand in a cell of a table: what stands between backticks is left as it is, but for the bar."""
    parts = words.split("`")
    parts[::2] = [re.sub(r"([\\*\[\]<])", r"\\\1", part) for part in parts[::2]]
    return "`".join(parts).replace("|", "\\|")


main()
