"""Edits one survey again and again, by workers whose threads are stopped at random, and checks each release.

Usage: interleavings.py PROGRAM DELAYS SEED RUNS ROWS
"""
import collections
import os
import pathlib
import random
import subprocess
import sys
import tempfile

FILES = ["--rules", "rules", "--records", "records", "--released", "released", "--proof", "proof"]
WORKERS = range(2, 9)


class Edits:
    """The program in a folder with a made survey, and what one worker prints first of it."""

    def __init__(self, program, delays, folder, rows):
        self.program, self.delays, self.folder = program, delays, pathlib.Path(folder)
        if self.run(["make", "--rules", "rules", "--records", "records", "--rows", rows])[0] != 0:
            sys.exit("no survey was made")
        self.status, printed = self.edit(1, None)
        self.summary = printed[0]

    def run(self, words, delays=None):
        variables = {**os.environ, **({"LD_PRELOAD": self.delays, "DELAYS": str(delays)} if delays is not None else {})}
        run = subprocess.run([self.program, *words], cwd=self.folder, env=variables, stdout=subprocess.PIPE, stderr=subprocess.PIPE)
        return run.returncode, run.stdout.decode().splitlines()

    def edit(self, workers, delays):
        return self.run(["edit", *FILES, "--reasons", "reasons", "--workers", str(workers)], delays)

    def history(self):
        """What stands of the claims in the proof: they differ where the workers' steps came in another order."""
        proof = (self.folder / "proof").read_bytes()
        return hash(proof[proof.rindex(b"\nclaims "):])

    def checked(self, workers, delays):
        """Edits and checks once. Gives the history of claims, and what the second line of the summary says."""
        status, printed = self.edit(workers, delays)
        if status != self.status or printed[:1] != [self.summary]:
            sys.exit(f"by {workers} workers, delays of {delays}: status {status}, printed {printed}; one worker: {self.status}, {self.summary}")
        status, said = self.run(["check", *FILES])
        if status != 0:
            sys.exit(f"by {workers} workers, delays of {delays}: the check ends with {status}: {said}")
        return self.history(), printed[1]


def main():
    program, delays, seed, runs, rows = sys.argv[1:]
    dice, histories, claims = random.Random(int(seed)), set(), collections.Counter()
    with tempfile.TemporaryDirectory() as folder:
        edits = Edits(program, delays, folder, rows)
        for _ in range(int(runs)):
            history, told = edits.checked(dice.choice(WORKERS), dice.getrandbits(32))
            histories.add(history)
            claims[told] += 1
    print(f"{runs} edits of {rows} records, each with `{edits.summary}`, and each release valid; {len(histories)} histories of claims")
    for told, count in sorted(claims.items()):
        print(f"{count}: {told}")


main()
