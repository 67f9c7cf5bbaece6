"""Changes the files of five worked releases, a proof of each version in each single token, and checks how `check` ends on each.

Usage: change_tokens.py PROGRAM EXAMPLES SEED
"""
import pathlib
import random
import re
import subprocess
import sys
import tempfile

sys.path.insert(0, str(pathlib.Path(__file__).resolve().parent.parent))
from first_version import first_version

# How often a byte of the files of each kind is changed, over all releases together, and which bytes half of them become:
# of the others most are in no text.
BYTE_CHANGES = 2000
TEXT_BYTES = b"\n\r\t \",-.0123456789<=>ABC#"

# After so many seconds a check is said to have no end.
SECONDS = 30

KEYWORDS = ("fh-proof limit near budget lines keep drop table records clean change gift step test contradictory bound bad line "
            "box given shared combine fail cover fix claims claim end").split()

VALID = re.compile(r"valid records (\d+) released (\d+)\n")
REJECTED = re.compile(r"fault: proof line (\d+) (Grammar|Head|Drop|Table|Cert|RowText|Claims)\n")
REFUSED = {3: re.compile(r"fault: rules line \d+ kind \d+ \w+\n"), 4: re.compile(r"fault: records kind \d+ \w+.*\n")}


class Failed(Exception):
    """A run that ended as it must not."""


class Release:
    """The files of one worked record, in a folder: the record is edited once, and its files are then changed."""

    def __init__(self, program, folder, name, rules, records):
        self.program, self.folder, self.name = program, pathlib.Path(folder), name
        self.write("rules", rules)
        self.write("records", records)
        status, printed = self.run("edit", "rules", "records", "released", "reasons", "proof")
        if status not in (0, 1):
            raise Failed(f"{name}: the edit ended with {status}: {printed}")
        self.bytes = {kind: (self.folder / kind).read_bytes() for kind in ("rules", "records", "released", "proof")}
        status, self.valid = self.check("proof", self.bytes["proof"])
        if status != 0:
            raise Failed(f"{name}: status {status} of the files as they were written: {self.valid}")

    def proofs(self):
        """The proof as the editor writes it, and the same of version 1, each with its version. Both are valid."""
        written = self.bytes["proof"].decode()
        for version, proof in ((2, written), (1, first_version(written))):
            self.judged("proof", proof.encode(), {0})
            yield version, proof

    def write(self, kind, content):
        (self.folder / kind).write_bytes(content)

    def run(self, command, *kinds):
        """Runs the program on the files of these kinds; the answer is its status and what it prints."""
        words = [word for kind in kinds for word in (f"--{kind}", kind)]
        run = subprocess.run([self.program, command, *words], capture_output=True, cwd=self.folder, timeout=SECONDS)
        return run.returncode, run.stdout.decode(errors="replace")

    def check(self, kind, content):
        """Checks the release with this content of the file of this kind, and puts the file back as it was."""
        self.write(kind, content)
        try:
            return self.run("check", "rules", "records", "released", "proof")
        except subprocess.TimeoutExpired:
            raise Failed(f"{self.name}: no end after {SECONDS} seconds; the {kind} file is {content}")
        finally:
            self.write(kind, self.bytes[kind])

    def judged(self, kind, content, allowed):
        """The status of the check of this content, which has to be one of these, and to be told as it is to be told."""
        status, printed = self.check(kind, content)
        lines = (content if kind == "proof" else self.bytes["proof"]).count(b"\n")
        if status not in allowed or not is_told(status, printed, self.valid, lines):
            raise Failed(f"{self.name}: status {status}, printed {printed!r}; the {kind} file is {content}")
        return status


def is_told(status, printed, valid, lines):
    """Whether this is printed of a check that ends so, where the proof has so many lines."""
    if status == 0:
        return printed == valid and VALID.fullmatch(printed)
    if status in REFUSED:
        return REFUSED[status].fullmatch(printed)
    told = REJECTED.fullmatch(printed)
    return told and (int(told[1]) <= lines + 1 if told[1] != "0" else told[2] == "RowText")


# ---- changes of a token

def other_numbers(word):
    number = int(word)
    negative = word[1:] if word.startswith("-") else "-" + word
    return [str(number + 1), str(number - 1), "0", negative, str(2**64), str(2**127)]


def other_paths(word):
    letters = "" if word == "-" else word
    flipped = [letters[:i] + ("C" if letters[i] == "K" else "K") + letters[i + 1:] for i in range(len(letters))]
    return flipped + [letters + "K", letters + "C", letters[:-1] or "-", "-"]


def others(word):
    """What stands in the place of a word."""
    if re.fullmatch(r"-?\d+", word):
        return other_numbers(word)
    if re.fullmatch(r"-|[KC]+", word):
        return other_paths(word)
    return [keyword for keyword in KEYWORDS if keyword != word]


def changed_lines(line):
    """The lines that come of a line where one word of it is another, is left out, or stands there twice."""
    words = line.split(" ")
    for place, word in enumerate(words):
        for texts in [[other] for other in others(word)] + [[], [word, word]]:
            yield " ".join(words[:place] + texts + words[place + 1:])


def changes(proof):
    """Each change of a proof: what is changed, and the lines that come of it."""
    lines = proof.splitlines()
    for place, line in enumerate(lines):
        before, behind = lines[:place], lines[place + 1:]
        for other in changed_lines(line):
            yield f"line {place + 1}: {line} -> {other}", before + [other] + behind
        yield f"line {place + 1}: {line} is left out", before + behind
        yield f"line {place + 1}: {line} stands there twice", before + [line, line] + behind
        if behind:
            yield f"lines {place + 1} and {place + 2}: {line} and {behind[0]} have changed places", before + [behind[0], line] + behind[1:]


def change_tokens(release, version, proof):
    """Checks the release with each change of its proof of this version; two changes that make the same text count once."""
    seen, accepted, rejected = {proof}, [], 0
    for what, lines in changes(proof):
        text = "".join(line + "\n" for line in lines)
        if text in seen:
            continue
        seen.add(text)
        if release.judged("proof", text.encode(), {0, 9}) == 0:
            accepted.append(what)
        else:
            rejected += 1
    count = len(accepted) + rejected
    print(f"{release.name}, version {version}: {release.valid.strip()}; {count} changes of the proof, {len(accepted)} valid, {rejected} rejected")
    print("".join(f"    {what}\n" for what in accepted), end="", flush=True)


# ---- changes of a byte

def change_bytes(releases, kind, dice):
    """Checks a release, drawn anew each time, with one byte of its file of this kind changed to another, drawn too."""
    seen = {}
    for _ in range(BYTE_CHANGES):
        release = dice.choice(releases)
        content = bytearray(release.bytes[kind])
        place = dice.randrange(len(content))
        content[place] = dice.choice([byte for byte in dice.choice([TEXT_BYTES, range(256)]) if byte != content[place]])
        status = release.judged(kind, bytes(content), {0, 9} if kind == "released" else {0, 3, 4, 9})
        seen[status] = seen.get(status, 0) + 1
    statuses = " ".join(f"{status}:{count}" for status, count in sorted(seen.items()))
    print(f"one byte of the {kind} file: {BYTE_CHANGES} changes, statuses {statuses}", flush=True)


# ---- the releases

def worked(examples):
    """The worked records: a name, the rules and the records."""
    yield "trade", (examples / "trade.rules").read_bytes(), b"Turnover,Costs,Profit\n100,60,400\n"
    yield "sum", b"number A\nnumber B\nA + B = 10\n", b"A,B\n3,4\n"
    yield "household", (examples / "household.rules").read_bytes(), b"Age,Status,Rel\nchild,married,spouse\n"
    yield "contradiction", b"number A\nA >= 5\nA <= 3\n", b"A\n4\n"
    conditions = b"if B in {x} then A >= 5\nif B in {x} then A <= 3\n"
    yield "conditions", b"number A\ncode B weight 3 in {x, y}\n" + conditions, b"A,B\n4,x\n6,x\n"


def main():
    program, examples, seed = sys.argv[1], pathlib.Path(sys.argv[2]), int(sys.argv[3])
    with tempfile.TemporaryDirectory() as folder:
        try:
            releases = []
            for name, rules, records in worked(examples):
                place = pathlib.Path(folder) / name
                place.mkdir()
                releases.append(Release(program, place, name, rules, records))
            for release in releases:
                for version, proof in release.proofs():
                    change_tokens(release, version, proof)
            for kind in ("rules", "records", "released"):
                change_bytes(releases, kind, random.Random(seed))
        except Failed as failure:
            print(failure)
            sys.exit(1)


main()
