"""Runs the program on hostile files and checks how each run ends.

Usage: attack.py PROGRAM EXAMPLES SEED [GROUP..]

The groups are words, little_memory, memory_a_byte, random_files, cut_files, changed_files, classes, panels, proofs, limits and hard_files; all of them where none is named.
"""
import os
import pathlib
import random
import re
import resource
import subprocess
import sys
import tempfile
import time

sys.path.insert(0, str(pathlib.Path(__file__).resolve().parent.parent))
from first_version import first_version

MOST_BYTES = 67108864
MOST_PROOF_BYTES = 536870912
STATUSES = set(range(10)) | {11}
RELEASED = {0, 1}

# Two seconds of the processor, and one more for each 4 MiB of input.
SECONDS = 2.0
SECONDS_A_BYTE = 1 / (4 << 20)

# Each wrong value costs a step of the search and a leaf of the certificate, however few bytes it has.
SECONDS_A_WRONG_VALUE = 5e-6

# The most memory that a run takes for a byte of the files that it reads, beyond what one takes that reads next to nothing; and pages that
# are counted by the kernel a little late.
MOST_BYTES_A_BYTE = 32
MEMORY_SLACK = 1 << 20

# Three kinds of file take more: a rule that is one sum, whose term of two bytes is held as 72; a box of `fail` steps, of seven bytes, each of
# which is held as a step and as the box that it proves; and a table of `given` lines, of eight bytes, each held as a step and as a line.
SUM_BYTES_A_BYTE = 40
FAIL_BYTES_A_BYTE = 36
GIVEN_BYTES_A_BYTE = 56

# What stands in the files that are written, before a run.
BEFORE = b"what stood here before\n"
WRITTEN = ("proof", "reasons", "released")
CHECKED = ("rules", "records", "released", "proof")

EDIT = ["edit", "--rules", "rules", "--records", "records", "--reasons", "reasons", "--released", "released", "--proof", "proof"]
CHECK = ["check", "--rules", "rules", "--records", "records", "--released", "released", "--proof", "proof"]
RULES = ["rules", "--rules", "rules"]
FILL = ["fill", "--rules", "rules", "--records", "records", "--released", "filled"]
FILL_AGAIN = ["fill", "--rules", "rules", "--records", "filled", "--released", "again"]
CLASSED = ["classed", *EDIT[1:], "--class", "Branch"]
PANEL = ["panel", "--rules", "rules", "--records", "records", "--last", "last", "--reasons", "reasons", "--released", "released", "--proof", "proof", "--key", "firm"]
PANEL_AGAIN = ["panel", "--rules", "rules", "--records", "again", "--last", "last", "--reasons", "reasons", "--released", "released", "--proof", "proof", "--key", "firm"]

# Of the small files that are changed in thousands of ways, every so many edits that end with 0 or 1 are checked too.
CHECK_EVERY = 4

SUMMARY = re.compile(r"records (\d+) clean (\d+) changed (\d+) unresolved (\d+) weight \d+\nclaims (\d+) given (\d+)\n")
PANELLED = re.compile(r"records (\d+) clean (\d+) changed (\d+) unresolved (\d+) weight \d+\n")
FILLED = re.compile(r"records (\d+) filled (\d+) blocked (\d+) stopped (\d+)\n")
REJECTED = re.compile(r"fault: proof line (\d+) (Grammar|Head|Drop|Table|Cert|RowText|Claims)\n")


def processor_seconds():
    """The seconds of the processor that all runs so far took."""
    used = resource.getrusage(resource.RUSAGE_CHILDREN)
    return used.ru_utime + used.ru_stime


# Prints the status of a run, the most memory that it had, and what it printed. It is a program of its own, since the kernel's count for a run
# begins at what the program has that starts it: here some 14 MB, below which nothing is seen.
MEASURE = """import resource, subprocess, sys
run = subprocess.run(sys.argv[1:], stdout=subprocess.PIPE, stderr=subprocess.DEVNULL)
print(run.returncode, resource.getrusage(resource.RUSAGE_CHILDREN).ru_maxrss * 1024, run.stdout[:60])"""


class Failed(Exception):
    """A run that ended as it must not."""


class Attack:
    """The program, a folder for its files, and the counts and the slowest run of the present group."""

    def __init__(self, program, folder):
        self.program = program
        self.folder = pathlib.Path(folder)
        self.begin("")

    def begin(self, group, check_every=1, fills=False):
        self.group, self.check_every, self.fills = group, check_every, fills
        self.count, self.checks, self.released, self.slowest, self.seen = 0, 0, 0, 0.0, {}

    def end(self):
        seen = " ".join(f"{status}:{count}" for status, count in sorted(self.seen.items()))
        print(f"{self.group}: {self.count} runs, {self.checks} of them checks, slowest {self.slowest:.2f} s, statuses {seen}", flush=True)

    def peak(self, words):
        """The most memory, in bytes, that a run with these words maps."""
        run = subprocess.Popen([self.program, *words], stdout=subprocess.DEVNULL, stderr=subprocess.DEVNULL, cwd=self.folder)
        most = 0
        while run.poll() is None:
            try:
                status = pathlib.Path(f"/proc/{run.pid}/status").read_text()
            except OSError:
                break
            most = max([most] + [int(size) << 10 for size in re.findall(r"VmPeak:\s*(\d+) kB", status)])
            time.sleep(0.002)
        run.wait()
        return most

    def resident(self, words, expected):
        """The most memory, in bytes, that a run with these words has at a time, and its first line; expected are the statuses that are right."""
        run = subprocess.run([sys.executable, "-c", MEASURE, self.program, *words], stdout=subprocess.PIPE, cwd=self.folder, check=True)
        status, most, printed = run.stdout.decode().split(" ", 2)
        self.count += 1
        self.checks += words[:1] == ["check"]
        self.seen[int(status)] = self.seen.get(int(status), 0) + 1
        if int(status) not in expected:
            raise Failed(f"{self.group}: status {status} in place of one of {sorted(expected)}; it printed {printed}")
        return int(most), f"status {status}"

    def least_memory(self):
        """Memory, in bytes, within which the program can at least be loaded and say that it was given no words."""
        memory = 1 << 20
        while subprocess.run([self.program], stdout=subprocess.DEVNULL, stderr=subprocess.DEVNULL,
                             preexec_fn=lambda: resource.setrlimit(resource.RLIMIT_AS, (memory, memory))).returncode != 2:
            memory = memory * 9 // 8
        return memory

    def words(self, words, expected, size=0, wrong_values=0, memory=None):
        """Runs the program with these words, and perhaps within so many bytes of memory; expected are the statuses that are right.
        The answer is the status and what is printed."""
        limit = None if memory is None else lambda: resource.setrlimit(resource.RLIMIT_AS, (memory, memory))
        begin = processor_seconds()
        allowed = SECONDS + size * SECONDS_A_BYTE + wrong_values * SECONDS_A_WRONG_VALUE
        try:
            run = subprocess.run([self.program, *words], stdout=subprocess.PIPE, stderr=subprocess.DEVNULL,
                                 cwd=self.folder, timeout=60 * allowed + 10, preexec_fn=limit)
        except subprocess.TimeoutExpired:
            raise Failed(f"{self.group}: no end after {60 * allowed + 10:.0f} seconds")
        seconds = processor_seconds() - begin
        self.count += 1
        self.checks += words[:1] == ["check"]
        self.slowest = max(self.slowest, seconds)
        self.seen[run.returncode] = self.seen.get(run.returncode, 0) + 1
        if run.returncode not in STATUSES:
            raise Failed(f"{self.group}: the program ended with {run.returncode}")
        if run.returncode not in expected:
            raise Failed(f"{self.group}: status {run.returncode} in place of one of {sorted(expected)}; it printed {run.stdout[:200]}")
        if seconds > allowed:
            raise Failed(f"{self.group}: {seconds:.2f} s for {size} bytes")
        return run.returncode, run.stdout.decode(errors="replace")

    def files(self, rules, records, expected, wrong_values=0):
        """Runs `edit` on these two files, and perhaps `check` on what it wrote; wrong_values is how many of their values have to change."""
        (self.folder / "rules").write_bytes(rules)
        (self.folder / "records").write_bytes(records)
        for name in WRITTEN:
            (self.folder / name).write_bytes(BEFORE)
        status, printed = self.words(EDIT, expected, len(rules) + len(records), wrong_values)
        for name in WRITTEN:
            left = (self.folder / name).read_bytes()
            if (left == BEFORE) == (status in RELEASED):
                raise Failed(f"{self.group}: status {status}, and the {name} file has {len(left)} bytes")
        for name, bytes_before in (("rules", rules), ("records", records)):
            if (self.folder / name).read_bytes() != bytes_before:
                raise Failed(f"{self.group}: the file {name} was changed")
        if status in RELEASED:
            if self.released % self.check_every == 0:
                self.check_edit(printed, expected & {7}, wrong_values)
            self.released += 1
        if self.fills:
            self.fill({status} if status not in RELEASED else RELEASED, len(rules) + len(records))
        return status

    def fill(self, expected, size):
        """Runs `fill` on the files as they stand, and where it wrote a file, once more on that one: nothing is left to be filled, and what could not be
        completed still can't be. It changes no other file."""
        (self.folder / "filled").write_bytes(BEFORE)
        before = [it for it in self.state() if it[0] != "filled"]
        status, printed = self.words(FILL, expected, size)
        if [it for it in self.state() if it[0] != "filled"] != before:
            raise Failed(f"{self.group}: `fill` changed another file")
        filled = (self.folder / "filled").read_bytes()
        if (filled == BEFORE) == (status in RELEASED):
            raise Failed(f"{self.group}: `fill` ended with {status}, and its file has {len(filled)} bytes")
        if status not in RELEASED:
            if printed.count("\n") != 1:
                raise Failed(f"{self.group}: `fill` ended with {status} and printed {printed[:200]!r}")
            return
        told = FILLED.fullmatch(printed)
        if not told or (status == 1) != (told[4] != "0"):
            raise Failed(f"{self.group}: `fill` ended with {status} and printed {printed!r}")
        if told[2] == "0":
            return
        (self.folder / "again").write_bytes(BEFORE)
        _, later = self.words(FILL_AGAIN, RELEASED, size)
        if later != f"records {told[1]} filled 0 blocked {told[3]} stopped {told[4]}\n" or (self.folder / "again").read_bytes() != filled:
            raise Failed(f"{self.group}: `fill` printed {printed!r}, and of what it wrote {later!r}")

    def classed(self, rules, records, expected):
        """Runs `classed` on these two files, and where it released something, `check` on that. The class field is told only where the rules were read."""
        for name, text in (("rules", rules), ("records", records)):
            (self.folder / name).write_bytes(text)
        for name in WRITTEN:
            (self.folder / name).write_bytes(BEFORE)
        status, printed = self.words(CLASSED, expected, len(rules) + len(records))
        for name in WRITTEN:
            if ((self.folder / name).read_bytes() == BEFORE) == (status in RELEASED):
                raise Failed(f"{self.group}: `classed` ended with {status}, and the {name} file has {self.size(name)} bytes")
        for name, text in (("rules", rules), ("records", records)):
            if (self.folder / name).read_bytes() != text:
                raise Failed(f"{self.group}: `classed` changed the file {name}")
        if status in RELEASED:
            self.check_edit(printed, set(), 0)
        elif printed.count("\n") != 1 or (status == 11) != (printed == "fault: class Branch\n"):
            raise Failed(f"{self.group}: `classed` ended with {status} and printed {printed[:200]!r}")
        if status == 11:
            self.rules(rules, {0})

    def panel(self, rules, records, last, expected):
        """Runs `panel` on these three files, and where it released something, once more on that: it is clean, each record beside its own last values."""
        for name, text in (("rules", rules), ("records", records), ("last", last)):
            (self.folder / name).write_bytes(text)
        for name in WRITTEN:
            (self.folder / name).write_bytes(BEFORE)
        size = len(rules) + len(records) + len(last)
        status, printed = self.words(PANEL, expected, size)
        for name in WRITTEN:
            if ((self.folder / name).read_bytes() == BEFORE) == (status in RELEASED):
                raise Failed(f"{self.group}: `panel` ended with {status}, and the {name} file has {self.size(name)} bytes")
        for name, text in (("rules", rules), ("records", records), ("last", last)):
            if (self.folder / name).read_bytes() != text:
                raise Failed(f"{self.group}: `panel` changed the file {name}")
        if status not in RELEASED:
            if printed.count("\n") != 1:
                raise Failed(f"{self.group}: `panel` ended with {status} and printed {printed[:200]!r}")
            return
        told = PANELLED.fullmatch(printed)
        if not told or (status == 1) != (told[4] != "0") or int(told[1]) != int(told[2]) + int(told[3]) + int(told[4]):
            raise Failed(f"{self.group}: `panel` ended with {status} and printed {printed!r}")
        proof = (self.folder / "proof").read_bytes()
        if not proof.startswith(b"fh-panel 1\nbudget 1000000\nlines ") or not proof.endswith(b"end\n"):
            raise Failed(f"{self.group}: the proof of a panel begins with {proof[:60]!r}")
        released = (self.folder / "released").read_bytes()
        (self.folder / "again").write_bytes(released)
        count = int(told[2]) + int(told[3])
        _, later = self.words(PANEL_AGAIN, {0}, size)
        if later != f"records {count} clean {count} changed 0 unresolved 0 weight 0\n" or (self.folder / "released").read_bytes() != released:
            raise Failed(f"{self.group}: `panel` printed {printed!r}, and of what it wrote {later!r}")

    def rules(self, rules, expected):
        """Runs `rules` on this rule file. It changes no file, and prints the lines where it ends with 0, and else one line."""
        (self.folder / "rules").write_bytes(rules)
        before = self.state()
        status, printed = self.words(RULES, expected, len(rules))
        if self.state() != before:
            raise Failed(f"{self.group}: `rules` changed a file")
        if status != 0 and printed.count("\n") != 1:
            raise Failed(f"{self.group}: `rules` ended with {status} and printed {printed[:200]!r}")
        return status

    def check_edit(self, summary, refused, wrong_values):
        """Runs `check` on what an edit wrote, which printed this summary. It is valid, but where a file that was written is longer than one that is read."""
        told = SUMMARY.fullmatch(summary)
        if not told:
            raise Failed(f"{self.group}: the edit printed {summary!r}")
        is_long = self.size("released") > MOST_BYTES or self.size("proof") > MOST_PROOF_BYTES
        status, printed = self.check({8 if is_long else 0} | refused, wrong_values)
        if status == 0 and printed != f"valid records {told[1]} released {int(told[2]) + int(told[3])}\n":
            raise Failed(f"{self.group}: the edit printed {summary!r}, and the check {printed!r}")

    def check(self, expected, wrong_values=0):
        """Runs `check` on the files as they stand. It changes none of them, and tells a line of the proof, or the one behind its last."""
        before = self.state()
        status, printed = self.words(CHECK, expected, sum(self.size(name) for name in CHECKED), wrong_values)
        if self.state() != before:
            raise Failed(f"{self.group}: the check changed a file")
        if status == 9:
            told = REJECTED.fullmatch(printed)
            if not told or int(told[1]) > (self.folder / "proof").read_bytes().count(b"\n") + 1:
                raise Failed(f"{self.group}: the check printed {printed!r}")
        return status, printed

    def proof(self, proof, expected):
        """Runs `check` with this proof file."""
        (self.folder / "proof").write_bytes(proof)
        self.check(expected)

    def size(self, name):
        return (self.folder / name).stat().st_size

    def state(self):
        return [(file.name, file.stat().st_size, file.stat().st_mtime_ns) for file in sorted(self.folder.iterdir())]


ANY = {0, 1, 3, 4}


def pairs(examples):
    """The example files, each rule file with the record file that goes with it."""
    for rules in sorted(examples.glob("*.rules")):
        records = rules.with_suffix(".csv")
        yield rules.read_bytes(), (records if records.exists() else examples / "wages.csv").read_bytes()


def random_files(attack, examples, dice):
    attack.begin("random bytes", CHECK_EVERY, fills=True)
    alphabets = [bytes(range(256)), b"number code weight scale in not if and then AB01.{},+-*<>=# \t\n\r",
                 b'AB,"\n\r 01-/.', bytes([0xEF, 0xBB, 0xBF, 10, 44, 34])]
    rules, records = next(iter(pairs(examples)))
    for _ in range(600):
        alphabet = dice.choice(alphabets)
        text = bytes(dice.choice(alphabet) for _ in range(dice.choice([1, 10, 100, 1000, 4000])))
        attack.files(text, records, ANY)
        attack.rules(text, {0, 3})
        attack.files(rules, text, ANY)
        attack.files(rules, records.split(b"\n")[0] + b"\n" + text, ANY)
    attack.end()


def cut_files(attack, examples, dice):
    attack.begin("cut off anywhere", CHECK_EVERY, fills=True)
    for rules, records in pairs(examples):
        for length in range(len(rules)):
            attack.files(rules[:length], records, ANY)
            attack.rules(rules[:length], {0, 3})
        for length in range(len(records)):
            attack.files(rules, records[:length], ANY)
    attack.end()


def changed_files(attack, examples, dice):
    attack.begin("one byte changed", CHECK_EVERY, fills=True)
    for rules, records in pairs(examples):
        for text, is_rules in ((rules, True), (records, False)):
            for place in range(len(text)):
                for byte in {0, 9, 10, 13, 34, 35, 44, 45, 48, 65, 239, 255, dice.randrange(256)}:
                    other = text[:place] + bytes([byte]) + text[place + 1:]
                    attack.files(*((other, records) if is_rules else (rules, other)), ANY)
                    if is_rules:
                        attack.rules(other, {0, 3})
    attack.end()


def classes(attack, examples, dice):
    """The two files of the example of classes, each cut off anywhere, with one byte changed, and its records replaced by random bytes."""
    attack.begin("classes")
    rules, records = ((examples / name).read_bytes() for name in ("classes.rules", "classes.csv"))
    attack.classed(rules, records, {0})
    for text, is_rules in ((rules, True), (records, False)):
        def tried(other):
            attack.classed(*((other, records) if is_rules else (rules, other)), ANY | {11} if is_rules else ANY)
        for length in range(len(text)):
            tried(text[:length])
        for place in range(len(text)):
            for byte in {0, 9, 10, 13, 34, 35, 44, 45, 48, 65, 239, 255, dice.randrange(256)}:
                tried(text[:place] + bytes([byte]) + text[place + 1:])
        for _ in range(300):
            tried(text.split(b"\n")[0] + b"\n" + bytes(dice.choice(b'Kern,fuelbakery56"\n ./x') for _ in range(dice.choice([10, 100, 1000]))))
    attack.end()


def panels(attack, examples, dice):
    """The three files of the panel that is an example, each cut off anywhere, with one byte changed, and replaced by random bytes."""
    attack.begin("panels")
    files = [(examples / name).read_bytes() for name in ("panel.rules", "panel.csv", "panel.last.csv")]
    attack.panel(*files, {1})
    for number, text in enumerate(files):
        def tried(other):
            attack.panel(*files[:number], other, *files[number + 1:], ANY)
        for length in range(len(text)):
            tried(text[:length])
        for place in range(len(text)):
            for byte in {0, 9, 10, 13, 34, 35, 44, 45, 48, 65, 239, 255, dice.randrange(256)}:
                tried(text[:place] + bytes([byte]) + text[place + 1:])
        for _ in range(300):
            tried(bytes(dice.choice(b'firm,Staff\n"7 \xef\xbb\xbf0') for _ in range(dice.choice([1, 10, 100, 1000]))))
            tried(text.split(b"\n")[0] + b"\n" + bytes(dice.choice(b'Miler,603"\n ./x') for _ in range(dice.choice([10, 100, 1000]))))
    attack.end()


def survey(names):
    return b"".join(b"number " + name + b"\n" for name in names)


def sheet(names, rows):
    return b",".join(names) + b"\n" + rows


def names_of(count):
    return [b"F%d" % number for number in range(count)]


def limits(attack, examples, dice):
    """Each limit, and one past it."""
    attack.begin("limits")
    plain, one = b"number A\nA >= 0\n", b"A\n1\n"

    def both(make_rules, make_records, limit, inside, past):
        attack.files(make_rules(limit), make_records(limit), {inside})
        attack.files(make_rules(limit + 1), make_records(limit + 1), {past})

    both(lambda n: plain + b"#" * (n - len(plain)), lambda n: one, MOST_BYTES, 0, 8)
    both(lambda n: plain, lambda n: b"A,B\n1," + b"x" * (n - 6), MOST_BYTES, 0, 8)
    both(lambda n: plain, lambda n: b"A\n" + b"1\n" * n, 200000, 0, 4)
    both(lambda n: plain, lambda n: sheet([b"A"] + names_of(n - 1), b"1" + b"," * (n - 1) + b"\n"), 256, 0, 4)
    both(lambda n: survey(names_of(n)), lambda n: sheet(names_of(n), b"1" + b",1" * (n - 1) + b"\n"), 64, 0, 3)
    both(lambda n: plain + b"A >= 0\n" * (n - 1), lambda n: one, 500, 0, 3)
    both(lambda n: survey([b"N" * n]), lambda n: b"N" * n + b"\n1\n", 32, 0, 3)
    both(lambda n: b"code C in {" + b", ".join(b"c%d" % c for c in range(n)) + b"}\n", lambda n: b"C\nc0\n", 64, 0, 3)
    both(lambda n: b"code C in {" + b"c" * n + b"}\n", lambda n: b"C\n" + b"c" * n + b"\n", 32, 0, 3)
    both(lambda n: b"number A weight %d\n" % n, lambda n: one, 1000, 0, 3)
    both(lambda n: b"number A scale %d\n" % n, lambda n: one, 10 ** 12, 0, 3)
    both(lambda n: b"number A\nA <= %d\n" % n, lambda n: one, 10 ** 15, 0, 3)
    both(lambda n: b"number A\n%d A >= 0\n" % n, lambda n: one, 10 ** 9, 0, 3)
    for name, most in (("released", MOST_BYTES), ("proof", MOST_PROOF_BYTES)):
        attack.files(plain, one, {0})
        os.truncate(attack.folder / name, most)
        attack.check({9})
        os.truncate(attack.folder / name, most + 1)
        attack.check({8})
    attack.end()


def hard_files(attack, examples, dice):
    """Large files of one kind of thing, at a quarter of the limit and near it."""
    attack.begin("large and hard")
    plain, one = b"number A\nA >= 0\n", b"A\n1\n"
    fields = survey(names_of(64))
    for size in (MOST_BYTES // 4, MOST_BYTES - 4096):
        sum_text = b"1" + b"+1" * (size // 2)
        attack.files(plain + sum_text + b" >= 0\n", one, {0, 3, 7})
        attack.files(plain + b"A >= " + b"9" * size + b"\n", one, {3, 7})
        attack.files(plain + b"if A >= 0" + b" and A >= 0" * (size // 11) + b" then A >= 0\n", one, {3, 7})
        attack.files(b"code C in {c" + b",c" * (size // 2) + b"}\n", one, {3, 7})
        attack.files(plain + b"\n" * size, one, {0, 7})
        attack.files(plain + b"\r" * size, one, {3, 7})
        attack.files(plain, b'A\n"' + b'""' * (size // 2), {0, 7})
        attack.files(plain, b"A" + b"," * size + b"\n", {4, 7})
        attack.files(plain, b"A\n" + b"\n" * size, {0, 7})
        attack.files(plain, b"A\n" + b"9" * size + b"\n", {0, 7})
        attack.files(plain, b"\xef\xbb\xbf" * (size // 3) + b"A\n1\n", {0, 4, 7})
    attack.files(fields, sheet(names_of(64), (b"," * 63 + b"\n") * 200000), {0, 7}, wrong_values=200000 * 64)
    attack.end()


# A proof of the change of B in the record 3,4,x to the rule A + B = 10, and the same with a table.
SUM_PROOF = b"""fh-proof 1
limit 1 near 5 budget 1000000
lines 1
keep
records 1
change 1 KCK 3
line KK 1
given 1
bound KC
bound C
claims 1
claim 1 0
end
"""
TABLE_PROOF = SUM_PROOF.replace(b"fh-proof 1", b"fh-proof 2").replace(b"given 1", b"shared 1").replace(b"keep\n", b"keep\ntable 1\ngiven 1\n")

PROOF_BYTES = b"\n 0129-KCbdx\x00\xff"
PROOF_WORDS = b"fh-proof limit near lines keep drop table records clean change claims end given shared combine bound line K C - 0 1 2 18446744073709551616 \n \n"


def proofs(attack, examples, dice):
    """Proof files of the examples, of both versions, that are random, cut off or changed in a byte; and large ones, of one kind of line."""
    attack.begin("proofs")
    for rules, records in pairs(examples):
        if attack.files(rules, records, ANY) not in RELEASED:
            continue
        proof = (attack.folder / "proof").read_bytes()
        for version in (proof, first_version(proof.decode()).encode()):
            attack.proof(version, {0})
            small_proofs(attack, version, dice)
    attack.files(b"number A\nnumber B\ncode C in {x, y}\nA + B = 10\n", b"A,B,C\n3,4,x\n", {0})
    for size in (MOST_BYTES // 4, 100 << 20):
        for proof, expected in large_proofs(size):
            attack.proof(proof, expected)
    attack.end()


def small_proofs(attack, proof, dice):
    """What comes of this proof where it is random, cut off, or changed in a byte or a number."""
    for _ in range(200):
        attack.proof(random_proof(dice, proof.splitlines(True)), {0, 9})
    for length in some(range(len(proof)), dice):
        attack.proof(proof[:length], {9})
    for place in some(range(len(proof)), dice):
        attack.proof(proof[:place] + bytes([dice.choice(PROOF_BYTES)]) + proof[place + 1:], {0, 9})
    for changed in some(list(with_other_numbers(proof)), dice):
        attack.proof(changed, {0, 9})


def with_other_numbers(proof):
    """The proof with each of its numbers in turn replaced by 0, 1, the greatest of 64 and of 128 bits, and the numbers beside it."""
    found = list(re.finditer(rb"\d+", proof))
    for number, match in enumerate(found):
        others = {b"0", b"1", b"%d" % (2 ** 64 - 1), b"%d" % (2 ** 127 - 1)}
        others |= {other.group() for other in found[max(number - 1, 0):number + 2]}
        for other in sorted(others - {match.group()}):
            yield proof[:match.start()] + other + proof[match.end():]


def some(places, dice):
    """All places, or a thousand of them where there are more."""
    return places if len(places) <= 1000 else sorted(dice.sample(places, 1000))


def random_proof(dice, lines):
    """Bytes, or words of the grammar, or lines of a proof behind its first four, or behind the count of its records, in no order."""
    count = dice.choice([1, 10, 100, 1000])
    records = 1 + next(place for place, line in enumerate(lines) if line.startswith(b"records "))
    return dice.choice([lambda: bytes(dice.randrange(256) for _ in range(count)),
                        lambda: b" ".join(dice.choice(PROOF_WORDS.split(b" ")) for _ in range(count)),
                        lambda: b"".join(lines[:dice.choice([4, records])] + [dice.choice(lines) for _ in range(count)])])()


def large_proofs(size):
    """The proof of the sum as it is, and then with many lines of one kind, or a long one, in the place of some of it; then the same with a table."""
    def many(text):
        return text * (size // len(text))

    def counted(head, text):
        return head + b" %d\n" % text.count(b"\n") + text

    def with_text(before, text):
        assert before in SUM_PROOF
        return SUM_PROOF.replace(before, text)

    def leaf(head, *steps):
        return with_text(b"line KK 1\ngiven 1\n", counted(head, b"".join(steps)))

    given, fail = b"given 1\n", b"given 1\nfail 1\n"
    yield SUM_PROOF, {0}
    yield leaf(b"line KK", many(given)), {0}
    yield leaf(b"line KK", given, many(b"combine 1 1 1 1 2\n")), {0}
    yield leaf(b"box KK", given, many(b"fail 1\n")), {0}
    yield leaf(b"box KK", fail, many(b"cover 3 2 2\n")), {0}
    yield leaf(b"box KK", fail, many(b"fix 3 2\n")), {9}
    yield leaf(b"line KK", given, b"cover 3" + many(b" 1") + b"\n"), {9}
    yield with_text(b"change 1 KCK 3\nline KK 1\ngiven 1\nbound KC\nbound C\n", counted(b"change 1 KCK", many(b"bound -\n"))), {9}
    yield with_text(b"bound C\n", b"bound " + many(b"C") + b"\n"), {9}
    yield with_text(given, b"given " + many(b"1") + b"\n"), {9}
    yield with_text(given, b"given" + many(b" ") + b"1\n"), {9}
    yield with_text(b"lines 1\nkeep\n", counted(b"lines", many(b"keep\n"))), {9}
    yield with_text(b"lines 1\n", b"lines 4000000000\n"), {9}
    yield with_text(b"claims 1\nclaim 1 0\n", counted(b"claims", many(b"claim 1 0\n"))), {9}
    yield SUM_PROOF + many(b"\n"), {9}

    def with_table(before, text):
        assert before in TABLE_PROOF
        return TABLE_PROOF.replace(before, text)

    def fewer(text):
        """A quarter as many, since the line of each step of a table is kept: some 300 bytes, and 16 more for each number field."""
        return text * (size // 4 // len(text))

    table = b"table 1\ngiven 1\n"
    yield TABLE_PROOF, {0}
    yield with_table(table, counted(b"table", fewer(given))), {0}
    yield with_table(table, counted(b"table", given + fewer(b"combine 1 1 1 1 2\n"))), {0}
    yield with_table(table, counted(b"table", given + fewer(b"combine 1 1 1 1 3\n"))), {9}
    yield with_table(b"line KK 1\nshared 1\n", counted(b"line KK", many(b"shared 1\n"))), {0}
    yield with_table(b"line KK 1\nshared 1\n", counted(b"box KK", b"shared 1\n" + many(b"fail 1\n"))), {0}
    yield with_table(b"shared 1\n", b"shared " + many(b"1") + b"\n"), {9}
    yield with_table(table, b"table 4000000000\ngiven 1\n"), {9}
    yield with_table(table, b"table " + many(b"1") + b"\ngiven 1\n"), {9}


def little_memory(attack, examples, dice):
    """Edits, checks and `rules` that may take a tenth, a half and nine tenths of the memory that they need beyond what the program takes
    before it has read a word."""
    attack.begin("little memory")
    rules = (examples / "business.rules").read_bytes()
    header, *rows = (examples / "business.csv").read_bytes().splitlines(True)
    records = header + b"".join(rows) * (2000 // len(rows))
    attack.files(rules, records, {0, 1})
    least = attack.least_memory()
    for words in (EDIT, CHECK, RULES):
        needed = max(attack.peak(words) - least, 0)
        for tenths in (1, 5, 9):
            attack.words(words, {0, 1, 7}, len(records) * 8, memory=least + needed * tenths // 10)
        attack.files(rules, records, {0, 1})
    attack.end()


def proof_bytes_a_byte(proof, middle):
    """What a check may take for each byte of a proof with these lines in its middle: more for boxes that fail, and for given lines in a table."""
    if b"fail 1\n" in middle:
        return FAIL_BYTES_A_BYTE
    return GIVEN_BYTES_A_BYTE if b"given 1\n" in middle and b"\nshared " in proof else MOST_BYTES_A_BYTE


def memory_a_byte(attack, examples, dice):
    """The most memory of runs on files that promise more than they have, and on large ones, for each byte that is read."""
    attack.begin("memory a byte")
    plain, one = b"number A\nA >= 0\n", b"A\n1\n"
    attack.files(plain, one, {0})
    fixed = {words[0]: attack.resident(words, {0})[0] for words in (EDIT, CHECK, RULES)}
    print("memory a byte: fixed " + ", ".join(f"{command} {memory >> 10} KiB" for command, memory in fixed.items()), flush=True)

    past = []

    def measured(name, words, status, files, allowed=MOST_BYTES_A_BYTE):
        for file, text in files.items():
            (attack.folder / file).write_bytes(text)
        read = sum(attack.size(file) for file in (CHECKED if words == CHECK else CHECKED[:2] if words == EDIT else CHECKED[:1]))
        most, said = attack.resident(words, status)
        taken = max(most - fixed[words[0]], 0)
        print(f"memory a byte: {words[0]}, {name}: {read} bytes, {most} at most, {taken / read:.2f} a byte; {said}", flush=True)
        if taken > read * allowed + MEMORY_SLACK:
            past.append(f"{words[0]}, {name}, {allowed}")

    size = MOST_BYTES - 4096
    long_rules = {
        "a line of additions": plain + b"1" + b"+1" * (size // 2) + b" >= 0\n",
        "a line of terms": plain + b"A" + b"+A" * (size // 2) + b" >= 0\n",
        "a line of digits": plain + b"A >= " + b"9" * size + b"\n",
        "a line of conditions": plain + b"if A >= 0" + b" and A >= 0" * (size // 11) + b" then A >= 0\n",
        "a list of codes": b"code C in {c" + b",c" * (size // 2) + b"}\n",
        "a long name": b"number " + b"N" * size + b"\n",
        "a comment": plain + b"#" * size + b"\n",
        "a list of names": b"".join(b"number N%d\n" % number for number in range(size // 16)),
        "empty lines": plain + b"\n" * size,
    }
    for name, text in long_rules.items():
        allowed = SUM_BYTES_A_BYTE if name in ("a line of additions", "a line of terms") else MOST_BYTES_A_BYTE
        measured(name, RULES, {0, 3, 7}, {"rules": text}, allowed)
        measured(name, EDIT, {0, 3, 7}, {"rules": text, "records": one}, allowed)
    columns = 200000
    long_records = {
        "a header of commas": b"A" + b"," * size + b"\n",
        "a header of one name": b"N" * size + b"\n",
        "a header of names": b",".join(b"N%d" % number for number in range(size // 10)) + b"\n",
        "a header of quoted names": b",".join(b'"N"' for _ in range(size // 4)) + b"\n",
        "a header of 200,000 columns": b"A" + b"," * (columns - 1) + b"\n",
        "a record of 200,000 columns": b"A\n1" + b"," * (columns - 1) + b"\n",
        "a record of commas": b"A\n1" + b"," * size + b"\n",
        "a quoted field": b'A,B\n1,"' + b"x" * size + b'"\n',
        "a quoted field that does not end": b'A\n"' + b"x" * size,
        "a quoted field of quotes": b'A\n"' + b'""' * (size // 2) + b'"\n',
        "a quoted field of line ends": b'A,B\n1,"' + b"\n" * size + b'"\n',
        "a field of digits": b"A\n" + b"9" * size + b"\n",
        "empty lines": b"A\n" + b"\n" * size,
        "byte order marks": b"\xef\xbb\xbf" * (size // 3) + b"A\n1\n",
    }
    for name, text in long_records.items():
        measured(name, EDIT, {0, 4, 7}, {"rules": plain, "records": text})
    attack.files(b"number A\nnumber B\ncode C in {x, y}\nA + B = 10\n", b"A,B,C\n3,4,x\n", {0})
    for count in (b"4000000000", b"%d" % (2 ** 64 - 1)):
        for proof, old in ((SUM_PROOF, b"lines 1"), (SUM_PROOF, b"records 1"), (SUM_PROOF, b"claims 1"), (SUM_PROOF, b"change 1 KCK 3"),
                           (SUM_PROOF, b"line KK 1"), (SUM_PROOF, b"keep"), (TABLE_PROOF, b"table 1")):
            promise = b"drop " + count if old == b"keep" else old.rsplit(b" ", 1)[0] + b" " + count
            measured(f"a proof that has `{promise.decode()}`", CHECK, {9}, {"proof": proof.replace(old, promise)})
    for proof, expected in large_proofs(MOST_BYTES // 4):
        middle = proof[len(proof) // 2:len(proof) // 2 + 24]
        measured(f"a proof with {middle} in its middle", CHECK, expected | {7}, {"proof": proof}, proof_bytes_a_byte(proof, middle))
    attack.end()
    if past:
        raise Failed(f"{attack.group}: more bytes a byte than may be: {'; '.join(past)}")


def words(attack, examples, dice):
    attack.begin("words and names")
    attack.files(b"number A\n", b"A\n1\n", {0})
    (attack.folder / "folder").mkdir()
    for good, options in ((RULES, [("--rules", 5)]), (EDIT, [("--rules", 5), ("--records", 5), ("--reasons", 6), ("--released", 6), ("--proof", 6)]),
                          (CHECK, [("--rules", 5), ("--records", 5), ("--released", 5), ("--proof", 5)]),
                          (FILL, [("--rules", 5), ("--records", 5), ("--released", 6)])):
        attack.words(good, {0})
        for length in range(len(good)):
            attack.words(good[:length], {2})
        for place in range(len(good)):
            for word in ("", "-", "--", "--rules", "edit", "check", "rules", "\u00e9", "x" * 100000):
                attack.words(good[:place] + [word] + good[place + 1:], STATUSES - {1})
            attack.words(good[:place] + [good[place]] + good[place:], {2})
        for option, status in options:
            place = good.index(option) + 1
            for name in ("missing/file", "folder", "rules/file"):
                attack.words(good[:place] + [name] + good[place + 1:], {status})
        attack.words(good + ["--help"], {2})
        attack.words(good + ["--proof", "another"], {2})
        attack.words([good[0].encode(), b"--rules", b"\xff"], {2})
    for budget, status in (("1", 1), ("2", 0), ("007", 0), ("1000000000", 0), ("0", 2), ("1000000001", 2), ("99999999999", 2), ("+5", 2), ("", 2), ("1e3", 2)):
        attack.words(EDIT + ["--budget", budget], {status})
        attack.words(FILL + ["--budget", budget], {status & 2})
    for option, most in (("--limit", 1000), ("--near", 64)):
        for word, status in (("1", 0), ("007", 0), (str(most), 0), ("0", 2), (str(most + 1), 2), ("99999999999", 2), ("+5", 2), ("", 2), ("1e3", 2)):
            attack.words(EDIT + ["--budget", "9", option, word], {status})
    for option in ("--budget", "--limit", "--near"):
        attack.words(CHECK + [option, "5"], {2})
        attack.words(RULES + [option, "5"], {2})
        attack.words(FILL + [option, "5"], {0 if option == "--budget" else 2})
    attack.words(CHECK + ["--reasons", "why"], {2})
    attack.classed(*((examples / name).read_bytes() for name in ("classes.rules", "classes.csv")), {0})
    for length in range(len(CLASSED)):
        attack.words(CLASSED[:length], {2})
    for name, status in (("Branch", 0), ("Staff", 11), ("branch", 11), ("", 11), ("nothing", 11)):
        attack.words(CLASSED[:-1] + [name], {status})
    for option, status in (("--rules", 5), ("--records", 5), ("--reasons", 6), ("--released", 6), ("--proof", 6)):
        place = CLASSED.index(option) + 1
        for name in ("missing/file", "folder", "rules/file"):
            attack.words(CLASSED[:place] + [name] + CLASSED[place + 1:], {status})
            attack.words(CLASSED[:place] + [name] + CLASSED[place + 1:-1] + ["Staff"], {5 if option == "--rules" else 11})
    for option in ("--class", "--key", "--last", "--rows"):
        attack.words(CLASSED + [option, "Branch"], {2})
    for option, most in (("--limit", 1000), ("--near", 64), ("--workers", 64)):
        for word, status in (("1", 0), (str(most), 0), ("0", 2), (str(most + 1), 2)):
            attack.words(CLASSED + [option, word], {status})
    attack.panel(*((examples / name).read_bytes() for name in ("panel.rules", "panel.csv", "panel.last.csv")), {1})
    attack.words(PANEL, {1})
    for length in range(len(PANEL)):
        attack.words(PANEL[:length], {2})
    for option, status in (("--rules", 5), ("--records", 5), ("--last", 5), ("--reasons", 6), ("--released", 6), ("--proof", 6), ("--key", 4)):
        place = PANEL.index(option) + 1
        for name in ("missing/file", "folder", "rules/file"):
            attack.words(PANEL[:place] + [name] + PANEL[place + 1:], {status})
    for option in ("--workers", "--limit", "--near", "--class"):
        attack.words(PANEL + [option, "5"], {2})
    for budget, status in (("1", 1), ("007", 1), ("1000000000", 1), ("0", 2), ("1000000001", 2), ("+5", 2), ("", 2)):
        attack.words(PANEL + ["--budget", budget], {status})
    attack.end()


def main():
    program, examples, seed = sys.argv[1], pathlib.Path(sys.argv[2]), int(sys.argv[3])
    groups = (words, little_memory, memory_a_byte, random_files, cut_files, changed_files, classes, panels, proofs, limits, hard_files)
    named = [group for group in groups if group.__name__ in sys.argv[4:]]
    with tempfile.TemporaryDirectory() as folder:
        attack = Attack(program, folder)
        try:
            for group in named or groups:
                group(attack, examples, random.Random(seed))
        except Failed as failure:
            kept = pathlib.Path(tempfile.mkdtemp(prefix="hostile-"))
            for file in attack.folder.iterdir():
                if file.is_file():
                    (kept / file.name).write_bytes(file.read_bytes())
            print(f"{failure}; the files of the run are in {kept}")
            sys.exit(1)


main()
