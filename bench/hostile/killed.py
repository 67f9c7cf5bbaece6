"""Kills the program at random times, and checks what stands then.

Usage: killed.py PROGRAM SEED RUNS ROWS
"""
import collections
import os
import pathlib
import random
import subprocess
import sys
import tempfile
import time

STORED = ("proof", "reasons", "released")
FILES = ["--rules", "rules", "--records", "records", "--released", "released", "--proof", "proof"]
EDIT = ["edit", *FILES, "--reasons", "reasons", "--limit", "1000"]
CHECK = ["check", *FILES]
AGAIN_EVERY = 10


def seconds():
    return time.monotonic()


class Kills:
    """The program in a folder with the made survey, and the files and the times of a run that ended."""

    def __init__(self, program, folder, rows):
        self.program, self.folder = program, pathlib.Path(folder)
        if self.run(["make", "--rules", "rules", "--records", "records", "--rows", rows])[0] != 0:
            sys.exit("no survey was made")
        begin = seconds()
        run = self.begin(EDIT)
        self.wait_for_proof(run)
        self.until_stored = seconds() - begin
        self.status = run.wait()
        self.length = seconds() - begin
        self.whole = {name: (self.folder / name).read_bytes() for name in STORED}
        status, printed = self.run(CHECK)
        print(f"an edit that is not killed: {self.length:.3f} s, the last {self.length - self.until_stored:.3f} of them from the first byte of its "
              f"proof on, status {self.status}; check: {printed}", flush=True)
        if self.status not in (0, 1) or status != 0:
            sys.exit(1)

    def run(self, words):
        run = subprocess.run([self.program, *words], cwd=self.folder, stdout=subprocess.PIPE)
        return run.returncode, run.stdout.decode().strip()

    def begin(self, words):
        for name in STORED:
            (self.folder / name).unlink(missing_ok=True)
        return subprocess.Popen([self.program, *words], cwd=self.folder, stdout=subprocess.DEVNULL)

    def wait_for_proof(self, run):
        name = str(self.folder / "proof")
        while not os.path.exists(name) and run.poll() is None:
            pass

    def killed(self, dice, while_storing):
        """Kills a run at a time that is drawn, and tells what stands: `missing`, `some bytes` or `whole` of each file."""
        run = self.begin(EDIT)
        if while_storing:
            self.wait_for_proof(run)
        end = seconds() + dice.random() * (self.length - self.until_stored if while_storing else self.length)
        while seconds() < end:
            pass
        run.kill()
        ended = run.wait() == self.status
        state = []
        for name in STORED:
            file = self.folder / name
            held = file.read_bytes() if file.exists() else None
            if held is not None and not self.whole[name].startswith(held):
                sys.exit(f"the file {name} holds {len(held)} bytes that are not its first ones")
            state.append("missing" if held is None else "whole" if held == self.whole[name] else "some bytes")
        whole = next((place for place, one in enumerate(state) if one != "whole"), len(STORED))
        if any(one != "missing" for one in state[whole + 1:]):
            sys.exit(f"what stands is no first part of what is stored: {state}")
        if ended and whole < len(STORED):
            sys.exit(f"the run ended, and what stands is {state}")
        return state, ended

    def checked(self, state):
        """The status of a check of what stands, which has to be the right one."""
        status, printed = self.run(CHECK)
        is_whole = state[2] == "whole" or state[2] == "some bytes" and (self.folder / "released").read_bytes() + b"\n" == self.whole["released"]
        right = 0 if is_whole else 5 if "missing" in (state[0], state[2]) else 9
        if status != right:
            sys.exit(f"with {state} the check ends with {status}, and not {right}: {printed}")
        return status

    def again(self):
        """Makes the run once more, over what stands."""
        if self.run(EDIT)[0] != self.status or any((self.folder / name).read_bytes() != self.whole[name] for name in STORED):
            sys.exit("the same run, made again, gives other files")


def main():
    program, seed, runs, rows = sys.argv[1:]
    dice, stood, checks, ended = random.Random(int(seed)), collections.Counter(), collections.Counter(), 0
    with tempfile.TemporaryDirectory() as folder:
        kills = Kills(program, folder, rows)
        for number in range(int(runs)):
            state, before = kills.killed(dice, while_storing=number % 2 == 1)
            ended += before
            stood[", ".join(f"{name} {one}" for name, one in zip(STORED, state))] += 1
            checks[kills.checked(state)] += 1
            if number % AGAIN_EVERY == AGAIN_EVERY - 1:
                kills.again()
    print(f"{runs} runs, {ended} of which had ended before they were killed")
    for state, count in sorted(stood.items()):
        print(f"{count}: {state}")
    print("check: " + ", ".join(f"{count} with status {status}" for status, count in sorted(checks.items())))


main()
