#!/usr/bin/env python3
"""Says what the proof of a crate spends its time on, module by module; or which functions of all crates cost most.

usage: bench/proof_times.py CRATE [N]      (the N slowest modules, or 20)
       bench/proof_times.py --all [N]      (the N functions with the most `Lts`, or 20)

How to read a line of a crate: seconds by the clock, and a module that Rattle made or that stands in proofs/ or specs/. Of a function, `Lts` is what is
made for the borrow checker, `Proof` its goals with the search for answers, `Answers` those that are written down, `Tie` how both hang
together. A module counts from when the one before it was written, so what is read meanwhile counts too. The last line has the sum.

The crates below are proved first, in the tree in which ./forxainde proves the program, where they are not proved there. The crate is then
checked from nothing, with one processor. Nothing of that is kept: what was checked before is not searched again, and would seem cheap.

How to read a line of all crates: kilobytes of what was made for the borrow checker, the crate and the function. A second goes with 30 to
100 of them. They are read, in seconds, out of what the tree holds of the crates that are proved there; nothing is checked. The last lines
have the sums of the crates.
"""

import collections
import glob
import os
import re
import subprocess
import sys
import tempfile
import time

sys.dont_write_bytecode = True

from starter import forxainde


def checked_modules(rt, crate, kept):
    """Checks the crate from nothing; returns the seconds that each module took."""
    words = ["check", *crate.words(["--jobs", "1"], keeps=False), "--incremental", kept]
    begun = time.time()
    silent = {"stdin": subprocess.DEVNULL, "stdout": subprocess.DEVNULL, "stderr": subprocess.DEVNULL}
    ran = subprocess.run([*rt.guarded(), rt.RATTLE, *words], cwd=crate.folder, **silent)
    if ran.returncode:
        raise forxainde.NotBuilt(f"{crate.name} is not proved: rt check says why")
    return seconds_of_modules(crate, begun, kept)


def seconds_of_modules(crate, begun, kept):
    """The seconds from when the module before was written, or the check was begun, until each module was, of what a check left in a
    folder."""
    files = [f"{folder}/{name}" for folder, _, names in os.walk(kept) for name in names if name.endswith(".oantt")]
    seconds, before = collections.Counter(), begun
    for when, file in sorted((os.stat(file).st_mtime, file) for file in files):
        seconds[name_of(file, crate)] += when - before
        before = when
    return seconds


def name_of(file, crate):
    """A module's name, of the name of its file."""
    name = re.sub(r"(\.decls)?\.oantt$", "", os.path.basename(file))
    return name.removeprefix(f"Rattle-{crate.name}-")


def borrow_sizes():
    """How many bytes were made for the borrow checker, by crate and function. (The kit writes the name of a module and the module on two
    lines, one behind the other.)"""
    found = {}
    for file in glob.glob(f"{forxainde.TREE}/crates/*/out/rlib/*.rlib/lang/antt/made.json"):
        crate = os.path.relpath(file, forxainde.TREE).split(os.sep)[1]
        with open(file, encoding="utf-8") as lines:
            for line in lines:
                name = re.match(r'"proofs/(.*)/Lts"$', line)
                if name:
                    found[crate, name[1].replace("/", ".")] = len(next(lines))
    return found


def main_of_all(number):
    with forxainde.lock():
        sizes = borrow_sizes()
    if not sizes:
        raise forxainde.NotBuilt("no crate is proved in the tree yet: ./forxainde --prove CRATE does it")
    sums = collections.Counter()
    for (crate, function), size in sorted(sizes.items(), key=lambda it: -it[1])[:number]:
        print(f"{size // 1000:7} {crate} {function}")
    for (crate, _), size in sizes.items():
        sums[crate] += size
    for crate, size in sums.most_common():
        print(f"{size // 1000:7} {crate} in all")


def main(name, number):
    with forxainde.lock(), tempfile.TemporaryDirectory(prefix="proof-times-") as kept:
        forxainde.copy_sources()
        rt = forxainde.load_rt()
        crates = forxainde.crates_of_tree(rt)
        if name not in crates:
            raise forxainde.NotBuilt(f"there is no crate {name}")
        below = [it.name for it in crates[name].deps]
        if below:
            forxainde.prove_what_is_left(rt, crates, below)
        seconds = checked_modules(rt, crates[name], kept)
    for module, each in seconds.most_common(number):
        print(f"{each:7.2f} {module}")
    print(f"{sum(seconds.values()):7.2f} in all")


if __name__ == "__main__":
    if len(sys.argv) not in (2, 3):
        sys.exit(__doc__)
    try:
        number = int(sys.argv[2]) if len(sys.argv) == 3 else 20
        if sys.argv[1] == "--all":
            main_of_all(number)
        else:
            main(sys.argv[1], number)
    except forxainde.NotBuilt as why:
        sys.exit(f"proof_times: {why}")
