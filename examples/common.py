"""What the scripts of this folder share: which program is tried, lines that append, and a look for receipts by `get`."""
import argparse
import hashlib
import os
import shutil
import subprocess
import sys

BIN = os.path.join(os.path.dirname(os.path.dirname(os.path.realpath(__file__))), "bin")
WRAPPER = os.path.join(BIN, "ledgerctl")
OPERATOR = "01" * 32
REGULATOR = "02" * 32
# Words with which a program ends with status 0 on an empty input.
TRIAL = {"ledgerctl": ["dry", "build", OPERATOR, REGULATOR], "auditctl": ["script"]}


# A parser of a script's words, with the text of its help and the word that names a program.
def words_of(text):
    parser = argparse.ArgumentParser(description=text, formatter_class=argparse.RawDescriptionHelpFormatter)
    parser.add_argument("--program", metavar="PATH", help="ledgerctl as it was built (otherwise that of bin/ledgerctl)")
    return parser


# The program itself. Where none was named, it is the one that bin/ledgerctl or bin/auditctl keeps, which is proved and built first.
def built_program(named, name="ledgerctl"):
    if named:
        return os.path.realpath(named)
    subprocess.run([os.path.join(BIN, name), *TRIAL[name]], stdin=subprocess.DEVNULL, stdout=subprocess.DEVNULL)
    return os.path.join(BIN, ".built", name)


# The program that was named or stands in PATH, or else the built one.
def installed_program(named, name="ledgerctl"):
    return named or shutil.which(name) or built_program(None, name)


# A program in C, compiled by cc in a folder, or None where it can't be compiled.
def compiled(text, folder):
    source, program = os.path.join(folder, "writer.c"), os.path.join(folder, "writer")
    with open(source, "w") as file:
        file.write(text)
    made = subprocess.run(["cc", "-O2", "-o", program, source], capture_output=True)
    return program if made.returncode == 0 else None


# Makes a ledger, and answers its id.
def made_ledger(program, folder):
    told = subprocess.run([program, "init", folder, "demo", OPERATOR, REGULATOR], capture_output=True, check=True)
    return told.stdout.split()[1].decode()


# A line that appends a record of the operator.
def record(program, ledger, content="6869"):
    words = [program, "sign", ledger, OPERATOR, "append", "0", "-", content]
    proof = subprocess.run(words, capture_output=True, check=True).stdout.split()[1].decode()
    return f"0 append 0 - {content} {proof}\n".encode()


# A key's proof of a message.
def proof(key, message):
    return (key + hashlib.sha256(b"\x40" + key + message).digest()).hex()


# The digest of a clue's name; `-` names none.
def clue_digest(name):
    return bytes(32) if name == "-" else hashlib.sha256(b"\x0c" + name.encode()).digest()


# The same line, made without the program, with a number where it isn't 0.
def append_line(ledger, content, number=0, clue="-"):
    key = bytes.fromhex(OPERATOR)
    digest = hashlib.sha256(b"\x02" + content).digest()
    request = b"\x03" + ledger + bytes(4) + clue_digest(clue) + len(content).to_bytes(4, "big") + digest
    message = hashlib.sha256(request + (number.to_bytes(8, "big") if number else b"")).digest()
    return f"0 append 0 {clue} {content.hex() or '-'} {proof(key, message)}{f' {number}' if number else ''}\n".encode()


# A line that purges all journals in front of a point over which this is the root, with the operator's approval.
def purge_line(ledger, point, root):
    message = hashlib.sha256(b"\x05" + ledger + point.to_bytes(8, "big") + bytes.fromhex(root)).digest()
    return f"0 purge {point} {root} 0:{proof(bytes.fromhex(OPERATOR), message)}\n".encode()


# The words of the next whole line that a run writes, which is added to what it printed.
def answer(run, printed):
    line = run.stdout.readline()
    if not line.endswith(b"\n"):
        raise EOFError
    printed.append(line)
    return line.split()


# How many of these contents stand in one of the two files of a ledger.
def searched(folder, contents):
    files = b"\0".join(open(os.path.join(folder, name), "rb").read() for name in ("ledger.a", "ledger.b"))
    return sum(content in files for content in contents)


# Runs a script on a ledger, and answers what was printed, with the status.
def run_script(program, folder, script):
    return subprocess.run([program, "run", folder], input=script, capture_output=True)


# The leaf digests of the journals of whole receipts, by their numbers.
def receipts_in(printed):
    found = {}
    for line in printed.split(b"\n")[:-1]:
        words = line.split(b" ")
        if len(words) > 3 and words[1] == b"ok":
            found[int(words[2])] = words[3].decode()
    return found


# The times of the time journals of whole receipts, by the places of their entries in the notary's list.
def stamps_in(printed):
    found = {}
    for line in printed.split(b"\n")[:-1]:
        words = line.split(b" ")
        if len(words) == 9 and words[1] == b"ok":
            found[int(words[7])] = int(words[8])
    return found


# How many of these entries the notary's file doesn't have, or has with another time.
def missing_entries(folder, stamps):
    with open(os.path.join(folder, "notary"), "rb") as file:
        slots = file.read()
    lost = 0
    for place, time in stamps.items():
        slot = slots[73 * place : 73 * place + 74]
        lost += len(slot) < 74 or slot[0] != 1 or int.from_bytes(slot[1:9], "big") != time
    return lost


# How many of these journals aren't there, or have another leaf digest; all where the ledger doesn't open.
def missing(program, folder, receipts):
    numbers = sorted(receipts)
    script = "".join(f"0 get {number}\n" for number in numbers)
    ran = run_script(program, folder, script.encode())
    replies = ran.stdout.split(b"\n")[:-1]
    if ran.returncode != 0 or len(replies) != len(numbers):
        print(f"the ledger doesn't open: status {ran.returncode}, {ran.stdout[-100:]}")
        return max(1, len(numbers))
    return sum(leaf_of(reply) != receipts[number] for number, reply in zip(numbers, replies))


# The leaf digest of the journal that a reply shows, whole or without its content.
def leaf_of(reply):
    words = reply.split(b" ")
    if len(words) < 3 or words[1] not in (b"whole", b"occulted"):
        return None
    return hashlib.sha256(b"\0" + bytes.fromhex(words[2].decode())).hexdigest()


# Runs a program from a small process of its own: what the system tells of a process's memory begins with that of the one which started it.
STARTER = """
import os, subprocess, sys, time
begin = time.perf_counter()
with open(sys.argv[1], "rb") as source, open(sys.argv[2], "wb") as sink:
    run = subprocess.Popen(sys.argv[3:], stdin=source, stdout=sink)
    _, status, used = os.wait4(run.pid, 0)
print(time.perf_counter() - begin, used.ru_maxrss, os.waitstatus_to_exitcode(status))
"""


# How long a program ran, how much memory it held at most, in KiB, and its status.
def timed(words, given, taken):
    told = subprocess.run([sys.executable, "-c", STARTER, given or os.devnull, taken, *words], capture_output=True, check=True)
    seconds, memory, status = told.stdout.split()
    return float(seconds), int(memory), int(status)
