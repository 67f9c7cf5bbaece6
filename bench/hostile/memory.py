"""Refuses memory to the program, and checks how each run ends and what stands then.

Usage: memory.py PROGRAM LIBRARY FOLDER [JOB..]
"""
import collections
import os
import pathlib
import resource
import subprocess
import sys

BEFORE = b"what stood here before\n"
STORED = ("proof", "reasons", "released")
EDIT = ["edit", "--rules", "rules", "--records", "records", "--released", "released", "--reasons", "reasons", "--proof", "proof"]
REFUSED = 7
STEP = 64 << 10

# Of each job the rules, the records, further words, and what is released.
JOBS = {
    "tie": ("number A\nnumber B\nA + B = 10\n", "A,B\n3,4\n", [], "A,B\n3,7\n"),
    "donor": ("number A\nnumber B\nA >= 1\nB >= 1\nB <= 9\n", "A,B\n5,4\n5,\n6,\n", ["--near", "1"], "A,B\n5,4\n5,4\n6,1\n"),
    "nearest": ("number Turnover weight 2\nnumber Costs\nnumber Profit\nTurnover >= 0\nCosts >= 0\nTurnover - Costs - Profit = 0\n10 Profit <= 6 Turnover\n",
                "Turnover,Costs,Profit\n200,120,80\n100,,400\n", [], "Turnover,Costs,Profit\n200,120,80\n100,40,60\n"),
    "workers": ("number A\nnumber B\nA >= 1\nB >= 1\nB <= 9\n", "A,B\n5,4\n5,\n", ["--near", "1", "--workers", "2"], "A,B\n5,4\n5,4\n"),
}

# Of several workers the requests of a run come in no fixed number. So many runs in a row that make none of this number are taken as the end.
LAST_RUNS = 3


class Job:
    """A job in a folder of its own, with what it prints and stores where no memory is refused."""

    def __init__(self, program, name, folder):
        rules, records, further, released = JOBS[name]
        self.program, self.name, self.folder = program, name, pathlib.Path(folder) / name
        self.folder.mkdir()
        (self.folder / "rules").write_text(rules)
        (self.folder / "records").write_text(records)
        self.words = [program, *EDIT, *further]
        self.whole = self.run()
        self.files = self.stored()
        if self.whole.returncode != 0 or self.files["released"] != released.encode():
            sys.exit(f"{name}: the job ends with {self.whole.returncode}, prints {self.whole.stdout} and releases {self.files['released']}")

    def run(self, limit=None, **variables):
        for file in STORED:
            (self.folder / file).write_bytes(BEFORE)
        limited = None if limit is None else lambda: resource.setrlimit(resource.RLIMIT_AS, (limit, limit))
        return subprocess.run(self.words, stdout=subprocess.PIPE, stderr=subprocess.PIPE, cwd=self.folder, timeout=60,
                              env={**os.environ, **variables}, preexec_fn=limited)

    def stored(self):
        return {file: (self.folder / file).read_bytes() for file in STORED}

    def standing(self, run, how):
        """How many files the run stored, which ended well; a run that did not ends the script."""
        files = self.stored()
        count = next((place for place, file in enumerate(STORED) if files[file] != self.files[file]), len(STORED))
        later = all(files[file] == BEFORE for file in STORED[count:])
        as_whole = (run.returncode, run.stdout) == (self.whole.returncode, self.whole.stdout) and count == len(STORED)
        if not later or not (as_whole or run.returncode == REFUSED):
            sys.exit(f"{self.name}, {how}: status {run.returncode}, printed {run.stdout} and {run.stderr[:300]}; files {files}")
        return count

    def each_request(self, library):
        """Refuses each request in turn."""
        seen, mark, number, unrefused = collections.Counter(), self.folder / "refused", 0, 0
        while unrefused < LAST_RUNS:
            number += 1
            mark.unlink(missing_ok=True)
            run = self.run(LD_PRELOAD=library, REFUSE=str(number), REFUSED=str(mark))
            seen[run.returncode, self.standing(run, f"request {number}")] += 1
            unrefused = 0 if mark.exists() else unrefused + 1
        self.tell("each request refused", number, seen)

    def each_limit(self):
        """Sets the limit of memory lower and lower."""
        seen, runs, limit = collections.Counter(), 0, self.most_mapped()
        while limit > self.least():
            run = self.run(limit=limit)
            runs += 1
            seen[run.returncode, self.standing(run, f"{limit} bytes")] += 1
            limit -= STEP
        self.tell("limits", runs, seen)

    def tell(self, how, runs, seen):
        sevens = sum(count for (status, _), count in seen.items() if status == REFUSED)
        stood = ", ".join(f"{count} with {files} files stored" for (status, files), count in sorted(seen.items()) if status == REFUSED)
        print(f"{self.name}, {how}: {runs} runs, {runs - sevens} as without, {sevens} refused ({stood})", flush=True)

    def most_mapped(self):
        """Memory, in bytes, within which the job ends as it does."""
        limit = 1 << 24
        while self.run(limit=limit).returncode != self.whole.returncode:
            limit = limit * 5 // 4
        return limit + 4 * STEP

    def least(self):
        """Memory, in bytes, within which the program can at least be loaded and say that it was given no words."""
        if not hasattr(self, "least_bytes"):
            limit = 1 << 20
            while subprocess.run([self.program], stdout=subprocess.DEVNULL, stderr=subprocess.DEVNULL,
                                 preexec_fn=lambda: resource.setrlimit(resource.RLIMIT_AS, (limit, limit))).returncode != 2:
                limit += STEP
            self.least_bytes = limit
        return self.least_bytes


def main():
    program, library, folder, *names = sys.argv[1:]
    for name in names or JOBS:
        job = Job(program, name, folder)
        job.each_request(library)
        job.each_limit()


main()
