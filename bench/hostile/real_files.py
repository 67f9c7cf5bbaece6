"""Runs the program over real files that can't be read or written, and over two names of one file: refused where the names show it, printed where only the disk knows.

Usage: real_files.py PROGRAM
"""
import os
import pathlib
import shutil
import subprocess
import sys
import tempfile

RULES = b"number A\nnumber B\nA + B = 10\n"
RECORDS = b"A,B\n3,4\n6,4\n"
BEFORE = b"what stood here before\n"
SUMMARY = "records 2 clean 1 changed 1 unresolved 0 weight 1\nclaims 1 given 1\n"
VALID = "valid records 2 released 2\n"
READ = {"edit": ["rules", "records"], "check": ["rules", "records", "released", "proof"], "rules": ["rules"], "make": []}
STORED = {"edit": ["proof", "reasons", "released"], "check": [], "rules": [], "make": ["rules", "records"]}
NOBODY = 65534
LONG_NAME = "n" * 300


class Files:
    """The program, and a folder with files that an edit has to do with."""

    def __init__(self, program, folder):
        self.program, self.folder, self.count, self.user = program, pathlib.Path(folder), 0, []
        self.whole = {}
        self.renew()
        self.expect("edit", {}, 0, SUMMARY)
        self.whole = {name: self.read(name) for name in STORED["edit"]}
        self.expect("check", {}, 0, VALID)
        self.made = self.made_files()

    def made_files(self):
        self.expect("make", {"rules": "made.rules", "records": "made.records"}, 0, "made rows 100\n")
        return {"rules": self.read("made.rules"), "records": self.read("made.records")}

    def read(self, name):
        return (self.folder / name).read_bytes()

    def renew(self, before=None):
        """Puts the files that are read, and those that stood before under the names of the files that are stored."""
        for file in self.folder.iterdir():
            shutil.rmtree(file) if file.is_dir() and not file.is_symlink() else file.unlink()
        texts = {"rules": RULES, "records": RECORDS, **{name: BEFORE for name in STORED["edit"]}, **(before or {})}
        for name, text in texts.items():
            (self.folder / name).write_bytes(text)

    def words(self, command, names):
        options = READ[command] + STORED[command]
        return [command] + [word for name in options for word in ("--" + name, names.get(name, name))]

    def run(self, command, names, **how):
        self.count += 1
        how = {"stdout": subprocess.PIPE, **how}
        run = subprocess.run([*self.user, self.program, *self.words(command, names)], cwd=self.folder, stderr=subprocess.PIPE, timeout=120, **how)
        return run.returncode, (run.stdout or b"").decode()

    def expect(self, command, names, status, printed, **how):
        """Runs a command, which has to end so. Its other names are those of the options."""
        came = self.run(command, names, **how)
        if came != (status, printed):
            self.fail(f"{command} with {names}: {came} in place of {(status, printed)}")

    def fail(self, what):
        print(what)
        sys.exit(1)

    def unreadable(self, command, option, name):
        """The file of this option can't be read: nothing is stored."""
        before = {one: self.read(one) for one in STORED["edit"]}
        self.expect(command, {option: name}, 5, f"fault: read {name}\n")
        if before != {one: self.read(one) for one in STORED["edit"]}:
            self.fail(f"{command}: {option} could not be read, and a file is another")

    def unwritable(self, command, option, name, whole, before):
        """The file of this option can't be stored: those before it are, and the later ones are as they were."""
        names = {option: name} if command == "edit" else {"rules": "made.rules", "records": "made.records", option: name}
        self.expect(command, names, 6, f"fault: write {name}\n")
        place = STORED[command].index(option)
        for at, one in enumerate(STORED[command]):
            file = names.get(one, one)
            if at != place and self.read(file) != (whole[one] if at < place else before[one]):
                self.fail(f"{command}: {option} could not be written, and {file} holds {self.read(file)[:60]}")


def names_that_are_none(files):
    """Folders, names of nothing, names below a file, names that are too long."""
    old = {name: BEFORE for name in STORED["edit"]}
    for bad in ("folder", "folder/", "rules/below", LONG_NAME, "missing/file"):
        for command, options in READ.items():
            for option in options:
                files.renew(files.whole)
                (files.folder / "folder").mkdir()
                files.unreadable(command, option, bad)
        for option in STORED["edit"]:
            files.renew()
            (files.folder / "folder").mkdir()
            files.unwritable("edit", option, bad, files.whole, old)
        for option in STORED["make"]:
            files.renew({"made.rules": BEFORE, "made.records": BEFORE})
            (files.folder / "folder").mkdir()
            files.unwritable("make", option, bad, files.made, {"rules": BEFORE, "records": BEFORE})
    for command, options in READ.items():
        for option in options:
            files.renew(files.whole)
            files.unreadable(command, option, "missing")
    files.renew()
    files.expect("rules", {"rules": "/dev/null"}, 0, "")
    files.expect("rules", {"rules": "/dev/zero"}, 8, "fault: too long /dev/zero\n")
    files.expect("edit", {name: "/dev/null" if name == "reasons" else name for name in STORED["edit"]}, 0, SUMMARY)


def another_user(files):
    """Files that another user may not read or write, and a folder in which that user may store nothing."""
    if os.geteuid() != 0 or not shutil.which("setpriv"):
        print("left out: another user")
        return
    old = {name: BEFORE for name in STORED["edit"]}
    files.user = ["setpriv", f"--reuid={NOBODY}", f"--regid={NOBODY}", "--clear-groups"]
    files.folder.parent.chmod(0o755)
    for command, options in READ.items():
        for option in options:
            files.renew(files.whole)
            files.folder.chmod(0o755)
            (files.folder / option).chmod(0)
            files.unreadable(command, option, option)
    for option in STORED["edit"]:
        files.renew()
        files.folder.chmod(0o755)
        for one in STORED["edit"]:
            (files.folder / one).chmod(0o444 if one == option else 0o666)
        files.unwritable("edit", option, option, files.whole, old)
        if files.read(option) != BEFORE:
            files.fail(f"edit: {option} may not be written, and was")
    for option in STORED["edit"]:
        files.renew()
        files.folder.chmod(0o755)
        for one in STORED["edit"]:
            (files.folder / one).chmod(0o666)
        (files.folder / option).unlink()
        files.expect("edit", {}, 6, f"fault: write {option}\n")
        if (files.folder / option).exists():
            files.fail(f"edit: {option} was made in a folder where nothing may be")
    files.user = []


def full_disks(files):
    """A disk of 1 MiB, `/dev/full`, and output that is full, closed or read by nobody."""
    old = {name: BEFORE for name in STORED["edit"]}
    for option in STORED["edit"]:
        files.renew()
        files.unwritable("edit", option, "/dev/full", files.whole, old)
    for option in STORED["make"]:
        files.renew({"made.rules": BEFORE, "made.records": BEFORE})
        files.unwritable("make", option, "/dev/full", files.made, {"rules": BEFORE, "records": BEFORE})
    with open("/dev/full", "wb") as full:
        for command in ("edit", "check", "rules"):
            files.renew(files.whole)
            files.expect(command, {}, 6, "", stdout=full)
        files.renew()
        files.expect("edit", {}, 6, "", stdout=full)
        if {name: files.read(name) for name in STORED["edit"]} != files.whole:
            files.fail("edit: its summary could not be printed, and the files are not whole")
        files.expect("edit", {"rules": "missing"}, 5, "", stdout=full)
    files.renew()
    files.expect("edit", {}, 6, "", stdout=None, preexec_fn=lambda: os.close(1))
    reader, writer = os.pipe()
    os.close(reader)
    files.expect("edit", {}, 6, "", stdout=writer)
    os.close(writer)
    small_disk(files)


def small_disk(files):
    """A disk that has room for two pages, and files that are longer."""
    files.renew()
    disk = files.folder / "disk"
    disk.mkdir()
    if subprocess.run(["mount", "-t", "tmpfs", "-o", "size=1m", "tmpfs", str(disk)], stderr=subprocess.DEVNULL).returncode != 0:
        print("left out: a disk of 1 MiB")
        return
    try:
        (files.folder / "records").write_bytes(b"A,B\n" + b"6,4\n" * 5000)
        files.expect("edit", {}, 0, "records 5000 clean 5000 changed 0 unresolved 0 weight 0\nclaims 0 given 0\n")
        fill(disk / "other")
        whole = {name: files.read(name) for name in STORED["edit"]}
        for option in ("proof", "released"):
            for name in STORED["edit"]:
                (files.folder / name).write_bytes(BEFORE)
            name = f"disk/{option}"
            files.unwritable("edit", option, name, whole, {one: BEFORE for one in STORED["edit"]})
            held = files.read(name)
            if not whole[option].startswith(held) or len(held) == len(whole[option]):
                files.fail(f"edit: {option} on a full disk has {len(held)} bytes that are not its first")
            print(f"a full disk: {len(held)} of {len(whole[option])} bytes of {option} were stored")
            files.expect("check", {"released": name} if option == "released" else {"proof": name}, 9,
                         f"fault: proof line {0 if option == 'released' else held.count(10) + 1} {'RowText' if option == 'released' else 'Grammar'}\n")
            (files.folder / name).unlink()
    finally:
        subprocess.run(["umount", str(disk)], check=True)


def fill(file):
    """Makes a file of which the disk is full, but for two pages."""
    with open(file, "wb", buffering=0) as full:
        try:
            while True:
                full.write(bytes(4096))
        except OSError:
            full.truncate(full.tell() - 8192)


def two_names(files):
    """Two names of one command that lead to one file, as they show it: no file is read, and none is another then."""
    for command, options in READ.items():
        options = options + STORED[command]
        for first in options:
            for other in options:
                for way in ("", "./", ".//", "././"):
                    if first < other:
                        files.renew()
                        before = {name: files.read(name) for name in ("rules", "records", *STORED["edit"])}
                        files.expect(command, {other: way + first}, 2, "fault: usage\n")
                        if before != {name: files.read(name) for name in before}:
                            files.fail(f"{command}: {other} was {way}{first}, and a file is another")


def links(files):
    """Prints what comes of a file that a command names twice, as itself and by a link, which no name shows."""
    ways = {"hard link": lambda first: link(files, os.link, first), "symbolic link": lambda first: link(files, os.symlink, first)}
    for first, other in (("records", "released"), ("rules", "released"), ("rules", "proof"), ("proof", "reasons"), ("proof", "released"), ("reasons", "released")):
        for way, name in ways.items():
            files.renew()
            names = {other: name(first)}
            status = files.run("edit", names)[0]
            held = ", ".join(f"{one}: {content(files, files.read(names.get(one, one)))}" for one in ("rules", "records", *STORED["edit"]))
            checked, printed = files.run("check", names)
            print(f"edit, {other} is {first} by {way}: status {status}; {held}; then check {checked}, {printed.strip()}")
    for way, name in ways.items():
        files.renew()
        status = files.run("make", {"records": name("rules")})[0]
        print(f"make, records is rules by {way}: status {status}; it begins with {files.read('rules')[:20]}")


def link(files, make, first):
    make(files.folder / first, files.folder / "other")
    return "other"


def content(files, held):
    known = {BEFORE: "as before", RULES: "the rules", RECORDS: "the records", **{text: f"the {name}" for name, text in files.whole.items()}}
    return known.get(held, f"{len(held)} other bytes")


def main():
    with tempfile.TemporaryDirectory() as folder:
        (pathlib.Path(folder) / "files").mkdir()
        program = shutil.copy(sys.argv[1], f"{folder}/program")       # where any user may run it
        files = Files(program, f"{folder}/files")
        for group in (names_that_are_none, two_names, another_user, full_disks):
            group(files)
        print(f"{files.count} runs, each as it should be", flush=True)
        links(files)


main()
