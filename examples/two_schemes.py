#!/usr/bin/env python3
"""Tries to forge a record on a ledger of chains, whose members' keys are public, by a tag proof made of such a key.

- A ledger of chains is made by `chain init`, so its folder has the file `chain`. A record is signed by chains, and one is forged
  from the operator's public key alone. With the word `chain` and without it the signed one is placed and the forged one refused (15).
- `chain init` where there is a ledger of tags is refused, and leaves no file `chain`: that ledger goes on with tag proofs.
- `chain init` whose line can't be written (status 3) has made the ledger: the file `chain` stays, and a forged record is refused.
- A folder that isn't there ends with `fail 4 disk`.
- Where the file `chain` is taken away, the word alone keeps the forged one out: without it the record is placed. That is the danger that
  stays, and this script tells it as what is so.

Prints what it saw, and ends with 1 where something is otherwise.
"""
import os
import shutil
import subprocess
import sys
import tempfile

from common import OPERATOR, REGULATOR, append_line, built_program, proof, words_of

SEED = "aa" * 32
faults = 0


# Counts what isn't as it should be, and tells it.
def expect(holds, what):
    global faults
    print("as it should be:" if holds else "FAULT:", what)
    faults += not holds


def ran(program, words, script=b""):
    done = subprocess.run([program, *words], input=script, capture_output=True)
    return done.returncode, done.stdout


# The message of a record, and the lines that bring it: one signed by chains, one with a tag proof by a public key.
def lines_of(program, ledger, key, content, index):
    asked = ["sign", ledger, OPERATOR, "append", "0", "-", content]
    message = ran(program, asked)[1].split()[0].decode()
    signed = ran(program, ["chainsign", SEED, "4", str(index), message])[1].split()[0].decode()
    forged = proof(bytes.fromhex(key), bytes.fromhex(message))
    return [f"0 append 0 - {content} {it}\n".encode() for it in (signed, forged)]


def verdicts(program, words, lines):
    status, printed = ran(program, words, b"".join(lines))
    return status, [b" ".join(line.split()[1:3]) for line in printed.splitlines()]


def main():
    words = words_of(__doc__).parse_args()
    program = built_program(words.program)
    with tempfile.TemporaryDirectory(prefix="ledger-") as top:
        sealed, plain, copied = (os.path.join(top, name) for name in ("sealed", "plain", "copied"))
        os.mkdir(sealed)
        key = ran(program, ["chainkey", SEED, "4"])[1].split()[0].decode()
        ledger = ran(program, ["chain", "init", sealed, "demo", key, REGULATOR])[1].split()[1].decode()
        expect(os.path.exists(os.path.join(sealed, "chain")), "chain init makes the file chain")
        for index, front in enumerate((["chain"], [])):
            lines = lines_of(program, ledger, key, f"0{index}", index)
            told = verdicts(program, [*front, "run", sealed], lines)
            expect(told == (0, [f"ok {index + 1}".encode(), b"no 15"]), f"the signed one is placed, the forged one refused: {' '.join([*front, 'run'])}")
        shutil.copytree(sealed, copied)
        os.remove(os.path.join(copied, "chain"))
        told = verdicts(program, ["run", copied], lines_of(program, ledger, key, "02", 2))
        expect(told == (0, [b"no 15", b"ok 3"]), "without the file and the word the forged one is placed")
        os.mkdir(plain)
        ledger = ran(program, ["init", plain, "demo", OPERATOR, REGULATOR])[1].split()[1].decode()
        expect(ran(program, ["chain", "init", plain, "demo", key, REGULATOR]) == (8, b"fail 8 exists\n"), "chain init on a ledger of tags is refused")
        expect(not os.path.exists(os.path.join(plain, "chain")), "and leaves no file chain")
        told = verdicts(program, ["run", plain], [append_line(bytes.fromhex(ledger), b"hi")])
        expect(told == (0, [b"ok 1"]), "the ledger of tags goes on")
        unwritten = os.path.join(top, "unwritten")
        os.mkdir(unwritten)
        with open("/dev/full", "wb") as full:
            status = subprocess.run([program, "chain", "init", unwritten, "demo", key, REGULATOR], stdout=full).returncode
        expect(status == 3 and os.path.exists(os.path.join(unwritten, "chain")), "init whose line can't be written leaves the file chain")
        ledger = ran(program, ["run", unwritten], b"0 head\n")[1].split()[2].decode()
        told = verdicts(program, ["run", unwritten], lines_of(program, ledger, key, "03", 3))
        expect(told == (0, [b"ok 1", b"no 15"]), "and its ledger takes signatures alone")
        expect(ran(program, ["chain", "run", os.path.join(top, "none")]) == (4, b"fail 4 disk\n"), "a folder that isn't there")
    return 1 if faults else 0


if __name__ == "__main__":
    sys.exit(main())
