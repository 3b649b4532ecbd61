#!/usr/bin/env python3
"""A member's client. It keeps a member's secret, receipts and heads in a file, and checks all that it is told itself.

It needs formats.py and proofs.py beside it and nothing else; the ledger's programs run elsewhere. What is sent goes through a command
that takes a script and gives replies, as `ledgerctl chain run books` does, here or behind ssh. FILE has the secret, so keep it as one.

    member.py FILE new                          draws a secret, and writes the member's public key (with --tags: its trial key; with
                                                --size N: of N one-time keys, and else of 1,024)
    member.py FILE join ID NUMBER COMMAND..     joins the ledger ID as member NUMBER, and sends lines through COMMAND
    member.py FILE append [--clue NAME]         sends the bytes of standard input as a numbered record, and keeps the receipt
    member.py FILE again                        sends all lines again as they were: each has to have its first receipt
    member.py FILE trust TREE SIZE ROOT         takes a head from somebody else; TREE is ledger or notary
    member.py FILE heads                        writes the heads that are kept, to be given to others: compare them often
    member.py FILE follow                       leads all heads on to the one of now
    member.py FILE check                        does so, and has each record proved and shown, and compares it with what was signed
    member.py FILE approve occult N LEAF        writes the member's approval; also `purge POINT ROOT`, `member NUMBER KEY` and
                                                `occultclue NAME COUNT`
    member.py FILE lineage NAME < LINEAGE       checks a lineage under a head that is kept
    member.py FILE set < SET                    checks a set of survivors, and that its root is of the ledger
    member.py FILE revived < LINES              checks what `ledgerctl revive` wrote, under the heads that are kept

Each line is kept before it is sent, with its number and, under the scheme of chains, with its one-time key, which signs nothing else.
So a line whose reply was lost is sent again as it was, and is told its record's first receipt.

Ends with 0 where all is as it should be, with 1 where something was refused or is missing, with 2 where the words are of no form, and
with 3 at an alarm: what was told speaks against what was told before. Then the lines and the replies stand in FILE.DATE: keep both
files, and show the heads and FILE.DATE to the others. FILE itself has the secret, and is shown to nobody.
"""
import argparse
import datetime
import json
import os
import re
import subprocess
import sys

import formats
import proofs
from formats import COUNT_LIMIT, RECORD, big, clue_of, content_digest, leaf_of, record_request, who_digest


class Refused(Exception):
    """Something was refused, or isn't there."""


class Alarm(Exception):
    """What was told speaks against what was told before."""


def main():
    words = parsed()
    member = Member(words.file)
    try:
        return words.does(member, words) or 0
    except Refused as refused:
        print(refused)
        return 1
    except formats.Broken as broken:
        print(f"this isn't what is wanted here, or isn't whole: {broken}")
        return 1
    except Alarm as alarm:
        print(f"ALARM: {alarm}")
        if member.said:
            print(f"kept: {member.file} and {member.keep_said()}")
        return 3


def parsed():
    parser = argparse.ArgumentParser(description=__doc__, formatter_class=argparse.RawDescriptionHelpFormatter)
    parser.add_argument("file", metavar="FILE")
    verbs = parser.add_subparsers(required=True, metavar="VERB")

    def verb(verb_name, does, among=verbs, **named):
        made = among.add_parser(verb_name)
        made.set_defaults(does=does)
        for word, options in named.items():
            made.add_argument(options.pop("flag", word), **options)

    verb("new", new, tags={"flag": "--tags", "action": "store_true"}, size={"flag": "--size", "type": int, "default": 1024})
    verb("join", join, id={"type": digest}, number={"type": int}, command={"nargs": argparse.REMAINDER})
    verb("append", append, clue={"flag": "--clue", "default": "-", "type": clue_or_none})
    verb("again", again)
    verb("trust", trust, tree={"choices": ("ledger", "notary")}, size={"type": int}, root={"type": digest})
    verb("heads", heads)
    verb("follow", follow)
    verb("check", check)
    requests = verbs.add_parser("approve").add_subparsers(required=True, metavar="REQUEST", dest="what")
    for what in ("occult", "purge", "member"):
        verb(what, approve, requests, n={"type": int}, root={"type": digest})
    verb("occultclue", approve_clue_occult, requests, name={"type": clue_name}, count={"type": count})
    verb("lineage", lineage, name={})
    verb("set", survivors)
    verb("revived", revived)
    return parser.parse_args()


def digest(word):
    if not re.fullmatch("[0-9a-fA-F]{64}", word):
        raise argparse.ArgumentTypeError("64 hexadecimal digits are wanted")
    return word.lower()


def clue_name(word):
    if word == "-" or " " in word or "\n" in word or not 1 <= len(word.encode()) <= 64:
        raise argparse.ArgumentTypeError("a clue's name is wanted, 1 to 64 bytes other than space and newline")
    return word


def clue_or_none(word):
    return word if word == "-" else clue_name(word)


def count(word):
    if not re.fullmatch("[1-9][0-9]{0,9}", word) or int(word) > COUNT_LIMIT:
        raise argparse.ArgumentTypeError("a number from 1 to 4294967295 is wanted")
    return int(word)


# ---- what is kept

# The forms of replies, by the verbs of their lines, beside that of a refusal. An even number of digits makes bytes.
NUMBER, DIGEST, BYTES, BOUND = "(0|[1-9][0-9]{0,19})", "[0-9a-f]{64}", "(-|([0-9a-f]{2})+)", "(-|[0-9]+:[0-9]+:[0-9]+)"
FORMS = {
    "append": f"ok {NUMBER} {DIGEST} {NUMBER} {NUMBER} {DIGEST}",
    "head": f"head {DIGEST} {NUMBER} {DIGEST} {NUMBER} {NUMBER} {NUMBER} {DIGEST}",
    "extend": f"extension (ledger|notary) {NUMBER} {NUMBER} {DIGEST} {BYTES}",
    "prove": f"proof {NUMBER} {DIGEST} {BOUND} {BOUND} {BYTES}",
    "get": f"whole {BYTES} {BYTES} {BYTES}|occulted {BYTES} {BYTES}",
}


class Member:
    """What a member keeps, and how it signs and sends."""

    def __init__(self, file):
        self.file, self.kept, self.said = file, {}, b""
        if os.path.exists(file):
            with open(file) as text:
                self.kept = json.load(text)

    # Writes the file anew. It is on the disk when this returns.
    def save(self):
        with open(self.file + ".new", "w", opener=lambda path, flags: os.open(path, flags, 0o600)) as text:
            json.dump(self.kept, text, indent=1)
            text.flush()
            os.fsync(text.fileno())
        os.replace(self.file + ".new", self.file)
        folder = os.open(os.path.dirname(os.path.abspath(self.file)), os.O_RDONLY)
        os.fsync(folder)
        os.close(folder)

    def id(self):
        if "ledger" not in self.kept:
            raise Refused("this member has joined no ledger")
        return bytes.fromhex(self.kept["ledger"])

    # The proof of a message. A one-time key is noted as used, on the disk, before its signature is there.
    def proof(self, message):
        secret = bytes.fromhex(self.kept["secret"])
        if self.kept["scheme"] == "tags":
            return formats.tag_proof(secret, message)
        index = self.kept["next"]
        if index >= len(self.kept["leaves"]):
            raise Refused("all one-time keys are used: make a new secret, and have its key admitted under a new number")
        self.kept["next"] = index + 1
        self.save()
        return formats.chain_proof(secret, index, message, [bytes.fromhex(leaf) for leaf in self.kept["leaves"]])

    # The replies to lines, as words without the lane and the number; None where a line has none.
    def send(self, lines):
        script = "".join(f"0 {line}\n" for line in lines).encode()
        try:
            done = subprocess.run(self.kept["command"], input=script, stdout=subprocess.PIPE)
        except OSError as error:
            raise Refused(f"the command can't be started, and nothing was sent: {error}") from None
        self.said = script + done.stdout
        told = [line.split(" ") for line in done.stdout.decode(errors="replace").split("\n")[:-1]]
        replies = {words[0]: words[1:] for words in told if words[0].startswith("0.")}
        if done.returncode:
            print(f"the command ended with status {done.returncode}: {' '.join(told[-1]) if told else 'no word'}")
        taken = [replies.get(f"0.{at}") for at in range(1, len(lines) + 1)]
        for line, words in zip(lines, taken):
            if words and not re.fullmatch(FORMS[line.split()[0]] + "|no [0-9]+( .*)?", " ".join(words)):
                raise Alarm(f"the reply to {line[:60]} has no form that there is: {' '.join(words)[:100]}")
        return taken

    # Keeps what was sent and told last, beside the file, as evidence.
    def keep_said(self):
        name = f"{self.file}.{datetime.datetime.now(datetime.timezone.utc):%Y%m%dT%H%M%S.%f}"
        with open(name, "wb", opener=lambda path, flags: os.open(path, flags, 0o600)) as kept:
            kept.write(self.said)
            kept.flush()
            os.fsync(kept.fileno())
        return name

    # The replies to lines that place nothing. One that is missing, as where a connection breaks, or a notary that failed (27) speaks
    # against nothing that was told.
    def ask(self, lines):
        replies = self.send(lines)
        if None in replies:
            raise Refused(f"{replies.count(None)} of {len(lines)} lines have no reply; ask again")
        if ["no", "27"] in replies:
            raise Refused("the notary failed; ask again")
        return replies

    # The heads of a tree, roots by their sizes.
    def heads(self, tree):
        return {int(size): bytes.fromhex(root) for size, root in self.kept["heads"][tree].items()}

    # Keeps a head. Another root of a size that is kept is a fork.
    def learn(self, tree, size, root):
        old = self.kept["heads"][tree].setdefault(str(size), root)
        if old != root:
            raise Alarm(f"two heads of the {tree} with the size {size}: {old} and {root}")


# ---- secrets and signatures


def new(member, words):
    if member.kept:
        raise Refused(f"{member.file} is there already")
    if not 1 <= words.size <= 1024:
        raise Refused("a key has 1 to 1,024 one-time keys")
    secret = os.urandom(32)
    member.kept = {"scheme": "tags" if words.tags else "chains", "secret": secret.hex(), "records": [], "approved": []}
    key = secret
    if not words.tags:
        leaves = formats.chain_leaves(secret, words.size)
        member.kept.update(next=0, leaves=[leaf.hex() for leaf in leaves])
        key = formats.key_over(words.size, formats.root_of(leaves))
    member.save()
    print(key.hex())


# The id of a ledger is its root over one journal, and so the first head that is trusted.
def join(member, words):
    if "ledger" in member.kept or "secret" not in member.kept or not words.command:
        raise Refused("a member with a secret joins one ledger once, and names the command that takes its lines")
    command = words.command[words.command[0] == "--" :]
    member.kept.update(ledger=words.id, member=words.number, command=command, number=1, heads={"ledger": {"1": words.id}, "notary": {}})
    member.save()


def approve(member, words):
    root = bytes.fromhex(words.root)
    message = {"occult": formats.occult_request, "purge": formats.purge_request, "member": formats.member_request}[words.what]
    message = message(member.id(), words.n, root)
    tell_reach(member, words.what, words.n, words.root, message)
    proof = approved(member, [words.what, words.n, words.root], message)
    print(proof if words.what == "member" else f"{member.kept['member']}:{proof}")


def approve_clue_occult(member, words):
    message = formats.clue_occult_request(member.id(), clue_of(words.name), words.count)
    tell_reach(member, words.what, words.name, words.count, message)
    print(f"{member.kept['member']}:{approved(member, [words.what, words.name, words.count], message)}")


# Tells on standard error what is signed, by its message as `ledgerctl sign` writes it, and which of the member's own records it reaches.
# The leaf of a record that the member has a receipt of has to be that one's.
def tell_reach(member, what, named, detail, message):
    receipts = [(record, record["receipt"]) for record in member.kept["records"] if "receipt" in record]
    reached = {
        "occult": lambda record, receipt: int(receipt[0]) == named,
        "occultclue": lambda record, receipt: record["clue"] == named,
        "purge": lambda record, receipt: int(receipt[0]) < named,
        "member": lambda record, receipt: False,
    }[what]
    own = [(record, receipt) for record, receipt in receipts if reached(record, receipt)]
    if what == "occult" and own and own[0][1][1] != detail:
        raise Refused(f"journal {named} has the leaf {own[0][1][1]} by its receipt: nothing is signed")
    listed = ", ".join(f"{record['number']} (journal {receipt[0]})" for record, receipt in own)
    print(f"signed: {what} {named} {detail}, with the message {message.hex()}", file=sys.stderr)
    print(f"own records that it reaches: {listed or 'none'}", file=sys.stderr)


# The proof of a request's message. That it was approved is kept before the proof is shown.
def approved(member, request, message):
    proof = member.proof(message).hex()
    member.kept["approved"].append(request)
    member.save()
    return proof


# ---- records


def append(member, words):
    member.id()
    content, kept = sys.stdin.buffer.read(), member.kept
    if len(content) > formats.CONTENT_LIMIT:
        raise Refused(f"a record has at most {formats.CONTENT_LIMIT} bytes, and this one {len(content)}: append its digest")
    number, clue = kept["number"], clue_of(words.clue)
    message = record_request(member.id(), kept["member"], clue, len(content), content_digest(content), number)
    kept["number"] += 1
    record = {"number": number, "clue": words.clue, "content": content.hex(), "message": message.hex()}
    record["proof"] = member.proof(message).hex()
    kept["records"].append(record)
    member.save()
    take_receipts(member, [record])


# The number of a purged record is free again, so its line would be placed anew: it isn't sent.
def again(member, words):
    member.id()
    now = member.ask(["head"])[0]
    if now[0] != "head":
        raise Refused(f"there is no head: {' '.join(now)}")
    point = int(now[5])
    take_receipts(member, [record for record in member.kept["records"] if int(record.get("receipt", [point])[0]) >= point])


def line_of(member, record):
    words = [member.kept["member"], record["clue"], record["content"] or "-", record["proof"], record["number"]]
    return " ".join(map(str, ["append", *words]))


# Sends the lines of records, and keeps the receipts. A record that has one has to be told the same.
def take_receipts(member, records):
    lost = refused = 0
    for record, words in zip(records, member.send([line_of(member, record) for record in records])):
        if not words or words[0] != "ok":
            lost, refused = (lost, refused + 1) if words else (lost + 1, refused)
            print(f"record {record['number']} has no receipt: {' '.join(words) if words else 'no reply'}")
            continue
        receipt = words[1:6]
        if record.setdefault("receipt", receipt) != receipt:
            raise Alarm(f"record {record['number']} was told {' '.join(record['receipt'])} and now {' '.join(receipt)}")
        member.learn("ledger", int(receipt[3]), receipt[4])
        print(f"record {record['number']} is journal {receipt[0]}")
    member.save()
    if refused:
        raise Refused(f"{refused} lines were refused; docs/FORMATS.md says under Replies what each code means, and what to do")
    if lost:
        raise Refused(f"{lost} lines have no reply, and may have been placed all the same; send them again (again)")


# ---- heads


def trust(member, words):
    member.id()
    member.learn(words.tree, words.size, words.root)
    member.save()


def heads(member, words):
    for tree, front in (("ledger", f"ledger {member.id().hex()}"), ("notary", "notary")):
        for size, root in sorted(member.heads(tree).items()):
            print(f"trust {front} {size} {root.hex()}")


def follow(member, words):
    lines = follow_lines(member)
    followed(member, lines, member.ask(lines))


# The lines by which all heads are led on.
def follow_lines(member):
    member.id()
    return ["head"] + [f"extend {tree} {size}" for tree in ("ledger", "notary") for size in sorted(member.heads(tree))]


# Checks the replies to them. The heads that led on give way to that of now; those in front of a purge stay.
def followed(member, lines, replies):
    now = replies[0]
    if now[0] != "head" or now[1] != member.kept["ledger"]:
        raise Alarm(f"this isn't the ledger: {' '.join(now)[:100]}")
    at = {"ledger": (int(now[2]), now[3]), "notary": (int(now[6]), now[7])}
    led = {"ledger": [], "notary": []}
    for line, words in zip(lines[1:], replies[1:]):
        tree, size = line.split()[1:]
        if leads_on(member, tree, int(size), words, at[tree]):
            led[tree].append(size)
    for tree, sizes in led.items():
        for size in sizes:
            del member.kept["heads"][tree][size]
        if sizes:
            member.learn(tree, *at[tree])
            print(f"the {tree} has the size {at[tree][0]} now, and goes on from the heads that were kept, {len(sizes)}")
    member.save()
    if not led["ledger"]:
        raise Refused("no head that was kept leads to this one, since they lie in front of a purge: ask others for theirs")
    if not member.kept["heads"]["notary"]:
        print("no head of the notary is trusted, so no time is checked: take one from somebody else (trust notary SIZE ROOT)")


def leads_on(member, tree, size, words, now):
    if words[:2] == ["no", "21"]:
        print(f"the head of the {tree} with the size {size} lies in front of a purge, and can't be led on")
        return False
    if words[0] != "extension":
        raise Alarm(f"no extension of the {tree} from {size}, which was told before: {' '.join(words)[:100]}")
    data = b"" if words[5] == "-" else bytes.fromhex(words[5])
    told = words[1], int(words[2]), (int(words[3]), words[4])
    if told != (tree, size, now) or proofs.refusal_of_extension(size, now[0], bytes.fromhex(now[1]), data, member.heads(tree)):
        kept = member.kept["heads"][tree][str(size)]
        raise Alarm(f"the {tree}'s head of size {now[0]}, {now[1]}, doesn't go on from the one of size {size} that was kept, {kept}")
    return True


# ---- looking at records again


def check(member, words):
    records = [record for record in member.kept["records"] if "receipt" in record]
    lines = follow_lines(member)
    asked = [f"{verb} {record['receipt'][0]}" for record in records for verb in ("prove", "get")]
    replies = member.ask(lines + asked)
    followed(member, lines, replies[: len(lines)])
    told = replies[len(lines) :]
    for record, proof, view in zip(records, told[::2], told[1::2]):
        print(f"record {record['number']}, journal {record['receipt'][0]}: {told_of(member, record, proof, view)}")
    waiting = len(member.kept["records"]) - len(records)
    if waiting:
        raise Refused(f"{waiting} lines have no receipt; send them again (again)")


# What is so of a record, by the replies to `prove` and `get`.
def told_of(member, record, proof, view):
    jsn, leaf = int(record["receipt"][0]), record["receipt"][1]
    if proof[:2] == ["no", "21"]:
        return purged(member, jsn, int(proof[2]))
    for verb, reply in (("proved", proof), ("shown", view)):
        if reply[0] == "no":
            raise Alarm(f"journal {jsn} isn't {verb}: {' '.join(reply)}")
    bounds = accepted(member, proof)
    if proof[2] != leaf:
        raise Alarm(f"journal {jsn} has the leaf {proof[2]}, and its receipt says {leaf}")
    header = shown(view, leaf)
    if not is_signed(member, record, header):
        raise Alarm(f"journal {jsn} isn't the record that was signed")
    return f"{view[0]}, {bounds}"


# A purge takes a member's record only with its approval.
def purged(member, jsn, point):
    if any(what == "purge" and n > jsn for what, n, _ in member.kept["approved"]):
        return f"purged, by a purge that this member approved; the ledger begins with {point}"
    raise Alarm(f"journal {jsn} is said to be purged, and this member approved no such purge")


# Checks a proof under the heads that are kept, and tells its bounds.
def accepted(member, words):
    claim = int(words[1]), bytes.fromhex(words[2]), mark(words[3]), mark(words[4])
    notary = member.heads("notary") or None
    refusal = proofs.refusal_of_proof(member.id(), claim, bytes.fromhex(words[5]), member.heads("ledger"), notary)
    if refusal:
        raise Alarm(f"the proof of journal {words[1]} isn't accepted: no {' '.join(map(str, refusal))}, {MEANINGS[refusal[0]]}")
    times = [moment(bound) if bound else "-" for bound in claim[2:]]
    return f"placed between {times[0]} and {times[1]}" + ("" if notary else ", by times that weren't checked")


def mark(word):
    return None if word == "-" else tuple(map(int, word.split(":")))


def moment(bound):
    try:
        return datetime.datetime.fromtimestamp(bound[2] / 1000, datetime.timezone.utc).strftime("%Y-%m-%d %H:%M:%S")
    except (ValueError, OverflowError):
        return str(bound[2])


# The header of a view, as `get` and `revive` show one, whose parts have the digests that it names.
def shown(view, leaf):
    parts = [b"" if word == "-" else bytes.fromhex(word) for word in view[1:]]
    header = formats.read_header(formats.Reader(parts[0]))
    whole = view[0] == "whole"
    named = (leaf_of(parts[0]).hex() == leaf, who_digest(parts[-1]) == header.who_digest)
    if not all(named) or whole and content_digest(parts[1]) != header.content_digest:
        raise Alarm(f"what is shown of journal {header.jsn} has other digests than were told")
    return header


def is_signed(member, record, header):
    content, proof = bytes.fromhex(record["content"]), bytes.fromhex(record["proof"])
    who = big(member.kept["member"], 4) + big(len(proof), 2) + proof
    told = header.kind, header.member, header.clue, header.a, header.link.hex(), header.content_digest, header.who_digest
    signed = RECORD, member.kept["member"], clue_of(record["clue"]), record["number"], record["message"]
    return told == (*signed, content_digest(content), who_digest(who)) and header.jsn == int(record["receipt"][0])


# Why a proof isn't accepted, by the codes of docs/FORMATS.md.
MEANINGS = {
    34: "it is under a head of that size, and none is kept",
    35: "the leaf doesn't lead to the head that is kept",
    36: "the time in front isn't of this ledger",
    37: "the time behind isn't of this ledger",
    38: "a time isn't in the notary's list under the head that is kept",
    39: "the time in front is later than the one behind",
    40: "it proves another number, leaf or bound than the reply says",
    41: "its bytes break there",
}


# ---- lineages and sets


def lineage(member, words):
    member.id()
    data, kept = sys.stdin.buffer.read(), member.heads("ledger")
    told = proofs.Lineage(data)
    size = told.size
    if told.clue != clue_of(words.name):
        raise Refused(f"the lineage is of another clue than {words.name}")
    if size not in kept:
        raise Refused(f"no head of size {size} is kept: follow the ledger, and ask for the lineage then")
    refusal = proofs.refusal_of_lineage(words.name, size, kept[size], data)
    if refusal:
        raise Alarm(f"the lineage isn't accepted: no {' '.join(map(str, refusal))}")
    headers = [header for header, _ in told.journals]
    print(f"records {headers[0].clue_ord} to {headers[-1].clue_ord} of {words.name}: journals {', '.join(str(h.jsn) for h in headers)}")


# The root that a set names is of the ledger where it is that of a head that is kept, or leads on to one.
def survivors(member, words):
    kept = proofs.SurvivorSet(sys.stdin.buffer.read())
    refusal = proofs.refusal_of_survivors(kept)
    if kept.id != member.id() or refusal:
        raise Alarm(f"the set is of another ledger, or isn't whole: no {' '.join(map(str, refusal))}")
    numbers = ", ".join(str(journal.header.jsn) for journal, _ in kept.survivors)
    if kept.point not in member.heads("ledger"):
        member.learn("ledger", kept.point, kept.root.hex())
        follow(member, words)
        if member.kept["heads"]["ledger"].pop(str(kept.point), None):
            member.save()
            raise Refused(f"journals {numbers} lead to the set's root, of which nothing shows any more that it is of the ledger")
    else:
        member.learn("ledger", kept.point, kept.root.hex())
    print(f"the set shows journals {numbers} in front of {kept.point}")


def revived(member, words):
    lines = [line.split(" ") for line in sys.stdin.read().split("\n")[:-1]]
    if not lines or lines[0][0] == "no" or len(lines) % 2:
        raise Refused(f"nothing was revived: {' '.join(lines[0]) if lines else 'no line'}")
    for view, proof in zip(lines[::2], lines[1::2]):
        header = shown(view, proof[2])
        print(f"journal {header.jsn}: {view[0]}, {accepted(member, proof)}")


if __name__ == "__main__":
    sys.exit(main())
