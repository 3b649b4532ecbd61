#!/usr/bin/env python3
"""Runs the tours of README.md and docs/TOUR.md, one behind the other in one shell, and compares what they print with what stands there.

Digests, proofs and times may differ where an anchor's time comes in, so runs of 40 and more hexadecimal digits and times in
milliseconds are compared as such alone, and the sizes of files within 1 part in 20. Both tours are run twice, since they can be typed
again. With --write the pages are written anew with what was printed at the first turn. With --programs FOLDER the programs are
those that `bin/install` copied to FOLDER, and else those of bin, which are proved and built first where that is to be done.

Ends with 0 where all is as it stands there, with 1 where something is otherwise, and with 2 where the words are of no form.
"""
import argparse
import os
import re
import shlex
import subprocess
import sys

TOP = os.path.dirname(os.path.dirname(os.path.realpath(__file__)))
PAGES = ("README.md", "docs/TOUR.md")
MARK = "-- next command --"


def main():
    parser = argparse.ArgumentParser(description=__doc__, formatter_class=argparse.RawDescriptionHelpFormatter)
    parser.add_argument("--write", action="store_true", help="write the pages anew")
    parser.add_argument("--programs", metavar="FOLDER", help="where bin/install copied the programs to (otherwise bin)")
    words = parser.parse_args()
    texts = [open(os.path.join(TOP, page)).read() for page in PAGES]
    steps = [step for text in texts for block in blocks_of(text) for step in steps_of(block)]
    turns = [printed_by([command for command, _ in steps], words.programs) for _ in range(1 if words.write else 2)]
    if words.write:
        write(texts, turns[0])
        return 0
    faults = 0
    for turn, printed in enumerate(turns, 1):
        for (command, told), found in zip(steps, printed):
            if plain(told) != plain(found):
                faults += 1
                print(f"turn {turn}: {command}\n--- stands there\n{told}--- printed\n{found}")
    print(f"{len(steps)} commands, run {len(turns)} times: {faults} print otherwise")
    return 1 if faults else 0


def blocks_of(text):
    return re.findall(r"^```bash\n(.*?)^```$", text, re.MULTILINE | re.DOTALL)


# The commands of a block, each with what it prints.
def steps_of(block):
    steps = []
    for part in re.split(r"^\$ ", block, flags=re.MULTILINE)[1:]:
        command, _, told = re.match(r"((?:.*\\\n)*.*\n)()((?:.*\n)*)", part).groups()
        steps.append((command, told))
    return steps


# What commands print, one behind the other in one shell, with the programs of a folder in front of those of bin.
def printed_by(commands, programs):
    if programs:
        front = shlex.quote(os.path.realpath(programs))
        commands = [command.replace("PATH=$TOP/bin:", f"PATH={front}:", 1) for command in commands]
    script = "".join(f"{command}echo '{MARK}'\n" for command in commands)
    ran = subprocess.run(["bash"], input=script, stdout=subprocess.PIPE, stderr=subprocess.STDOUT, cwd=TOP, text=True)
    return ran.stdout.split(f"{MARK}\n")[:-1]


# A text without what may differ.
def plain(text):
    text = re.sub(r"[0-9a-f]{40,}", "DIGITS", re.sub(r"\b1[0-9]{12}\b", "TIME", text))
    return re.sub(r"^( *)(\d{4,}) ", lambda size: f"{size[1]}{round(int(size[2]) / 200)} ", text, flags=re.MULTILINE)


def write(texts, printed):
    found = iter(printed)
    for page, text in zip(PAGES, texts):
        for block in blocks_of(text):
            fresh = "".join(f"$ {command}{next(found)}" for command, _ in steps_of(block))
            text = text.replace(f"```bash\n{block}```", f"```bash\n{fresh}```", 1)
        with open(os.path.join(TOP, page), "w") as file:
            file.write(text)


if __name__ == "__main__":
    sys.exit(main())
