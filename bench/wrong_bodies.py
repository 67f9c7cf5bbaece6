#!/usr/bin/env python3
"""Tries the wrong bodies of wrong_bodies/: each is an edit that the prover must refuse.

usage: [LOG=FILE] [RT_JOBS=N] bench/wrong_bodies.py [CRATE ..]      (default: all crates that have some)

How to read a line: the crate; how many wrong bodies it has; how many were refused at what a contract says, and how many only because a
proof names what the edit took away, which says little; how many the crate is still proved with; how many could not be tried, since the
text to change is not there or the new one does not compile. Below stand the names of the last two. The last line has the sums. The status
is 1 where one was not refused, or where a crate itself is not proved. Where LOG is set, what the prover says of each is appended to that file.

The crates, and those below them, are proved first, in the tree in which ./forxainde proves the program, where they are not proved there.
Wrong bodies of different functions are then tried together: a function's proof sees of the others nothing but their contracts, so that each
is refused, or not, as it would be alone. What is not refused so is tried alone, and what is not refused alone is tried over the whole crate.
A copy of the crate is checked each time, over what the checks before it proved of it; at the end the crate itself is checked over that too,
and where it is not proved so, nothing counts as refused.
"""

import os
import re
import shutil
import subprocess
import sys
import tempfile
from concurrent.futures import ThreadPoolExecutor, as_completed

sys.dont_write_bytecode = True

from starter import TOP, forxainde, load

FUNCTION = re.compile(r"^( *)(?:pub(?:\([^)]*\))? )?(?:unsafe )?fn (\w+)", re.M)


class Edit:
    """A wrong body: its name, the texts of the files that it changes, and the function that it changes, if it is just one."""

    def __init__(self, rt, crate, file):
        self.name = os.path.basename(file).removesuffix(".edit")
        self.texts, self.why = rt.read_edit(file, crate.folder)
        with open(file, encoding="utf-8") as text:
            self.pairs = pairs_of(text.read())
        self.function = function_of(crate, self.pairs) if self.texts else None

    def modules(self):
        """The modules whose functions the edit may change, as the prover names them; None where it may be any."""
        paths = [path for path, _, _ in self.pairs]
        if any(not path.startswith("src/") or path in ("src/lib.rt", "src/main.rt") for path in paths):
            return None
        return {module_of(path) for path in paths}


def pairs_of(text):
    """The file, the old text and the new one of each change that an edit makes."""
    path, old, pairs = "", "", []
    for line in text.split("\n"):
        if line.startswith("file: "):
            path = line.removeprefix("file: ").strip()
        elif line.startswith("old: "):
            old = line.removeprefix("old: ")
        elif line.startswith("new:"):
            pairs.append((path, old, line.removeprefix("new:").removeprefix(" ")))
    return pairs


def module_of(path):
    return path.removeprefix("src/").removesuffix(".rt").removesuffix("/mod").replace("/", "::")


def function_of(crate, pairs):
    """The module and the name of the function in whose body all changes lie, where its file has no other of that name. None where they may
    lie elsewhere, too."""
    found = set()
    for path, old, _ in pairs:
        if not path.startswith("src/") or path in ("src/lib.rt", "src/main.rt"):
            return None
        with open(f"{crate.folder}/{path}", encoding="utf-8") as file:
            text = file.read()
        place = text.find(old)
        if place < 0:
            return None  # (the change before made this text)
        heads = [it for it in FUNCTION.finditer(text) if it.start() <= place]
        if not heads:
            return None
        indent, name = heads[-1].groups()
        end = text.find(f"\n{indent}}}\n", heads[-1].start())
        if place > end or len(re.findall(rf"\bfn {name}\b", text)) != 1:
            return None
        found.add((module_of(path), name))
    return found.pop() if len(found) == 1 else None


def together(edits):
    """Groups of wrong bodies that are tried together: each of another function, and no two of one line."""
    groups = []
    for edit in edits:
        for group in groups:
            if edit.function not in [it.function for it in group] and not any(shared_lines(edit, it) for it in group):
                group.append(edit)
                break
        else:
            groups.append([edit])
    return groups


def shared_lines(edit, other):
    return {(path, old) for path, old, _ in edit.pairs} & {(path, old) for path, old, _ in other.pairs}


class Trial:
    """The checks of copies of one crate, over what they have proved of it."""

    def __init__(self, rt, crate, kept, log):
        self.rt, self.crate, self.kept, self.log = rt, crate, kept, log

    def check(self, pairs, modules):
        """Checks a copy with these changes: the functions of the modules, and those that they call; all where there are none."""
        with tempfile.TemporaryDirectory(prefix="wrong-body-") as room:
            for part in forxainde.PARTS:
                if os.path.isdir(f"{self.crate.folder}/{part}"):
                    shutil.copytree(f"{self.crate.folder}/{part}", f"{room}/{part}")
            for path, old, new in pairs:
                with open(f"{room}/{path}", encoding="utf-8") as file:
                    text = file.read()
                with open(f"{room}/{path}", "w", encoding="utf-8") as file:
                    file.write(text.replace(old, new))
            words = ["check", *self.crate.words(["--jobs", "1"], keeps=False), "--incremental", self.kept]
            words += [word for module in sorted(modules or ()) for word in ("--only", module)]
            how = {"cwd": room, "stdin": subprocess.DEVNULL, "stdout": subprocess.PIPE, "stderr": subprocess.STDOUT}
            ran = subprocess.run([*self.rt.rtlib.guarded(), self.rt.rtlib.RATTLE, *words], text=True, errors="replace", **how)
        if self.log:
            with open(self.log, "a", encoding="utf-8") as file:
                file.write(f"== {self.crate.name}: {pairs}\n{ran.stdout}\n")
        return ran

    def refused_together(self, group):
        """Those of a group that are refused at what a contract says: the functions that the prover can't prove, other than for want of
        one that they call."""
        ran = self.check([pair for it in group for pair in it.pairs], {it.function[0] for it in group})
        if ran.returncode != 1 or not re.search(r"^only=\d+ proved=\d+$", ran.stdout, re.M) or self.names_alone(ran.stdout):
            return []
        failed = re.findall(r"^fn (\S+): (?:not proved|no proof)(?!: it calls)", ran.stdout, re.M)
        return [it for it in group if any(self.is_of(it, path) for path in failed)]

    def is_of(self, edit, path):
        module, name = edit.function
        return re.fullmatch(rf"{self.crate.name}::{re.escape(module)}::(?:\w+::)?{name}", path) is not None

    def names_alone(self, said):
        """Whether some error is that a proof names what is gone."""
        return re.search(r"^(?:\./)?proofs/.*(?:has no field|is not in scope|has no `|was not admitted)", said, re.M) is not None

    def verdict(self, edit):
        """What comes of a wrong body alone: refused, named, proved, or why it was not tried."""
        modules = edit.modules()
        ran = self.check(edit.pairs, modules)
        if modules and ran.returncode == 0:
            ran = self.check(edit.pairs, None)
        unread = [line for line in ran.stdout.split("\n") if self.rt.unread(line, edit.texts)]
        if unread:
            return f"not tried: {unread[0][:160]}"
        if ran.returncode == 0:
            return "proved"
        if ran.returncode != 1 or not re.search(r"^(?:only=|logic=not-proved)", ran.stdout.rstrip("\n").split("\n")[-1]):
            return f"not tried: {ran.stdout[:160]}"
        told = [it for it in ran.stdout.split("\n") if re.match(r"(note: )?\S+:\d+:\d+:.*", it)]
        told = [it for it in told if ": error" in it or it.startswith("note: ")] or told
        return "named" if told and all(self.names_alone(it) for it in told) else "refused"

    def is_sound(self, edits):
        """Whether the crate itself is proved over what the checks have kept."""
        modules = [it.modules() for it in edits if it.texts]
        wanted = None if None in modules else set().union(*modules)
        return self.check([], wanted).returncode == 0


def try_crate(rt, crate, log):
    """Tries all wrong bodies of a crate; returns what came of each, by name."""
    folder = f"{TOP}/wrong_bodies/{crate.name}"
    edits = [Edit(rt, crate, f"{folder}/{name}") for name in sorted(os.listdir(folder)) if name.endswith(".edit")]
    found = {it.name: f"not tried: {it.why}" for it in edits if not it.texts}
    with tempfile.TemporaryDirectory(prefix="wrong-bodies-") as kept:
        trial = Trial(rt, crate, kept, log)
        for group in together([it for it in edits if it.function]):
            found.update({it.name: "refused" for it in trial.refused_together(group)})
        found.update({it.name: trial.verdict(it) for it in edits if it.name not in found})
        if not trial.is_sound(edits):
            return {it.name: f"not tried: {crate.name} is not proved over what was kept" for it in edits}
    return found


def counts_of(found):
    kinds = ["refused", "named", "proved"]
    counts = [sum(it == kind for it in found.values()) for kind in kinds]
    return [len(found), *counts, len(found) - sum(counts)]


def text_of(counts):
    return "{} wrong bodies, {} refused, {} only at a name, {} proved, {} not tried".format(*counts)


def main(names):
    names = names or sorted(it for it in os.listdir(f"{TOP}/wrong_bodies") if os.path.isdir(f"{TOP}/wrong_bodies/{it}"))
    forxainde.prove_crates(names)
    rt = load("rt", os.path.realpath(shutil.which("rt")))
    rt.rtlib.guarded()  # (its first call sets a signal's handler, which only the main thread may)
    crates = forxainde.crates_of_tree(rt.rtlib)
    sums = [0] * 5
    with forxainde.lock(), ThreadPoolExecutor(forxainde.processors()) as pool:
        tries = {pool.submit(try_crate, rt, crates[name], os.environ.get("LOG")): name for name in names}
        for tried in as_completed(tries):
            found = tried.result()
            sums = [a + b for a, b in zip(sums, counts_of(found))]
            print(f"{tries[tried]}: {text_of(counts_of(found))}", flush=True)
            for edit, what in found.items():
                if what not in ("refused", "named"):
                    print(f"    {edit}: {what}", flush=True)
    print(f"in all {text_of(sums)}")
    return sums[3] + sums[4] > 0


if __name__ == "__main__":
    try:
        sys.exit(main(sys.argv[1:]))
    except forxainde.NotBuilt as why:
        sys.exit(f"wrong_bodies: {why}")
