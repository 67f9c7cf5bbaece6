#!/usr/bin/env python3
"""Writes down calls of `grind` as answers of goals at which the search before them fails, where that makes a crate's proof shorter.

usage: bench/find_answers.py CRATE [SECONDS]      (of functions whose goals take SECONDS or more, or 0.8)

At a goal without an answer the prover tries `search rules` first, and calls of `grind` behind it. A search that fails can take seconds; the
call that proves the goal, written down, saves them. Here the goals of each function that have no answer are tried with a short search, those
that it leaves with one call of `grind`, and what is left with another. The calls that prove a goal go into the function's Answers.antt, and
stay there where its goals then take at least 0.3 seconds less. Read what it wrote, and prove the crate, before you keep it.

How to read a line: a function, the seconds that its goals took before and take now, and the goals that have an answer now. A function for
which a try takes longer than the check of all of the crate did is left as it is, and named. The last line has the sums.

The crates below are proved first, in the tree in which ./forxainde proves the program, where they are not proved there.
"""

import collections
import contextlib
import os
import re
import shutil
import subprocess
import sys
import tempfile
import time

sys.dont_write_bytecode = True

from proof_times import seconds_of_modules
from starter import TOP, forxainde

CALLS = ("search rules depth 3", "grind (arith, common_steps)", "grind (arith, elements)")
HOME_OF = {
    "arith": "Rattle.std.proofs.Common",
    "rules": "Rattle.std.proofs.Common",
    "common_steps": "Rattle.std.proofs.lemmas.Grind",
    "elements": "Rattle.std.proofs.lemmas.Grind",
}
LEAST_GAIN = 0.3  # seconds
GOAL = re.compile(r"^pub (\S+) : goal\.\S+\n\1((?: \S+)*) = \?", re.M)


class Tried:
    """What a check of some functions came to: the seconds of each module, the goals whose answers were refused, what was proved."""

    def __init__(self, crate, begun, kept, said):
        self.seconds = seconds_of_modules(crate, begun, kept)
        self.refused = set(re.findall(r"^\./proofs/(.*)/Answers\.antt:\d+:\d+: error: `([^`]+)`", said, re.M))
        self.proved = set(re.findall(rf"^fn {crate.name}::(\S+): proved", said, re.M))

    def of_goals(self, function):
        """The seconds that a function's goals and answers took."""
        module = "proofs." + function.replace("::", ".")
        return self.seconds[f"{module}.Proof"] + self.seconds[f"{module}.Answers"]

    def proves(self, function, goal):
        """Whether the goal's answer was not refused, in a file of answers that was read."""
        refused = {name for path, name in self.refused if path == function.replace("::", "/")}
        return goal not in refused and (bool(refused) or function in self.proved)


class Finder:
    """The answers of one crate, tried in the tree's copy of its proofs."""

    def __init__(self, rt, crate):
        self.rt, self.crate = rt, crate
        self.words = crate.words(["--jobs", "1"], keeps=False)

    def check(self, functions, longest=None, kept=None):
        """Checks these functions, or all of the crate, and keeps in this folder what was checked. None where that takes longer than
        allowed."""
        if not kept:
            with tempfile.TemporaryDirectory(prefix="find-answers-") as kept:
                return self.check(functions, longest, kept)
        only = [word for function in functions for word in ("--only", function)]
        begun = time.time()
        words = [*self.rt.guarded(), self.rt.RATTLE, "check", *self.words, *only, "--incremental", kept]
        how = {"stdin": subprocess.DEVNULL, "stdout": subprocess.PIPE, "stderr": subprocess.STDOUT, "text": True, "errors": "replace"}
        with subprocess.Popen(words, cwd=self.crate.folder, **how) as ran:
            try:
                said, _ = ran.communicate(timeout=longest)
            except subprocess.TimeoutExpired:
                subprocess.run(["pkill", "-KILL", "-P", str(ran.pid)], check=False)
                ran.kill()
                return None
        if not re.search(r"^only=|^logic=proved" if functions else r"^logic=proved", said, re.M):
            raise forxainde.NotBuilt(f"{self.crate.name} is not checked: {said[-600:]}")
        return Tried(self.crate, begun, kept, said)

    def slow_functions(self, tried, least):
        """The functions whose goals took so long, the slowest first; none of a cycle of calls, and no closure."""
        names = [it.removeprefix("proofs.").removesuffix(".Proof") for it, _ in tried.seconds.most_common() if it.endswith(".Proof")]
        names = [it.replace(".", "::") for it in names if "+" not in it and "fn." not in it]
        return [it for it in names if tried.of_goals(it) >= least]

    def path(self, function, top=None):
        return f"{top or self.crate.folder}/proofs/{function.replace('::', '/')}/Answers.antt"

    def goals(self, functions, kept):
        """The goals of each function that have no answer: their names, and the parameters of their answers. The crate was checked, and
        what was checked stands in this folder."""
        with tempfile.TemporaryDirectory(prefix="find-answers-") as made:
            start = [word for function in functions for word in ("--start", function)]
            words = [*self.rt.guarded(), self.rt.RATTLE, "check", *self.words, *start, "--incremental", kept, "--generated", made]
            silent = {"stdin": subprocess.DEVNULL, "stdout": subprocess.DEVNULL, "stderr": subprocess.DEVNULL}
            subprocess.run(words, cwd=self.crate.folder, check=False, **silent)
            found = {}
            for function in functions:
                offered = forxainde.text_of(f"{made}/Rattle-{self.crate.name}-proofs/{function.replace('::', '/')}/AnswersOffered.antt")
                answered = forxainde.text_of(self.path(function)) or ""
                goals = GOAL.findall(offered or "")
                found[function] = [it for it in goals if not re.search(rf"^pub {re.escape(it[0])} ", answered, re.M)]
            return {function: goals for function, goals in found.items() if goals}

    def write(self, function, before, answers):
        """Writes a function's file of answers: those of before, None where there was no file, and these."""
        path = self.path(function)
        if answers:
            os.makedirs(os.path.dirname(path), exist_ok=True)
            with open(path, "w", encoding="utf-8") as file:
                file.write(with_answers(self.crate.name, function, before, answers))
        elif before is None:
            with contextlib.suppress(FileNotFoundError):
                os.remove(path)
        else:
            with open(path, "w", encoding="utf-8") as file:
                file.write(before)

    def try_call(self, call, left, before, longest):
        """Answers all goals that are left by one call; returns what came of it for each function, none where it took longer than so many
        seconds."""
        for function, goals in left.items():
            self.write(function, before[function], [(*goal, call) for goal in goals])
        tried = self.check(list(left), 2 * longest)
        if tried:
            return {function: tried for function in left}
        each = {function: self.check([function], longest) for function in left}
        return {function: tried for function, tried in each.items() if tried}

    def find(self, least):
        """Finds answers; returns for each function that keeps some the seconds before and now, and the goals."""
        with tempfile.TemporaryDirectory(prefix="find-answers-") as kept:
            whole = self.check([], kept=kept)
            left = self.goals(self.slow_functions(whole, least), kept)
        before = {function: forxainde.text_of(self.path(function)) for function in left}
        before = {function: text or None for function, text in before.items()}
        answers = collections.defaultdict(list)
        for call in CALLS:
            results = self.try_call(call, left, before, sum(whole.seconds.values())) if left else {}
            for function in [it for it in left if it not in results]:
                print(f"{function}: a try takes longer than the check of the crate did", flush=True)
                left.pop(function)
                answers.pop(function, None)
            for function, tried in results.items():
                found = [goal for goal in left[function] if tried.proves(function, goal[0])]
                if call.startswith("grind"):
                    answers[function] += [(*goal, call) for goal in found]
                left[function] = [goal for goal in left[function] if goal not in found]
            left = {function: goals for function, goals in left.items() if goals}
        for function, text in before.items():
            self.write(function, text, answers[function])
        return self.kept(whole, before, answers)

    def kept(self, whole, before, answers):
        """Takes away the answers that save too little, or do not prove their function; returns those that stay."""
        written = [function for function in before if answers[function]]
        now = self.check(written) if written else None
        stay = {}
        for function in written:
            seconds = whole.of_goals(function), now.of_goals(function)
            if function in now.proved and seconds[0] - seconds[1] >= LEAST_GAIN:
                stay[function] = *seconds, [goal for goal, _, _ in answers[function]]
            else:
                self.write(function, before[function], [])
        return stay


def with_answers(crate, function, before, answers):
    """A file of answers with these behind those that it had, and with the imports that they need."""
    goals = f"use Rattle.{crate}.proofs.{function.replace('::', '.')}.Goals as goal\n"
    head, _, rest = (before or goals).partition(goals)
    for word in sorted({it for _, _, call in answers for it in re.findall(r"\w+", call) if it in HOME_OF}):
        if re.search(rf"[{{ ]{word}[,}}]", head):
            continue
        home = f"use {HOME_OF[word]}.{{"
        if home in head and len(next(it for it in head.split("\n") if it.startswith(home))) + len(word) < 158:
            head = re.sub(rf"^({re.escape(home)}.*)}}$", rf"\1, {word}}}", head, count=1, flags=re.M)
        else:
            head += f"{home}{word}}}\n"
    new = "".join(f"\npub {goal} : goal.{goal}\n{goal}{parameters} = {call}\n" for goal, parameters, call in answers)
    return head + goals + rest.rstrip("\n") + ("\n" if rest.strip() else "") + new


def main(name, least):
    with forxainde.lock():
        forxainde.copy_sources()
        rt = forxainde.load_rt()
        crates = forxainde.crates_of_tree(rt)
        if name not in crates:
            raise forxainde.NotBuilt(f"there is no crate {name}")
        below = [it.name for it in crates[name].deps]
        if below:
            forxainde.prove_what_is_left(rt, crates, below)
        finder = Finder(rt, crates[name])
        stay = finder.find(least)
        for function, (before, now, goals) in stay.items():
            print(f"{function}: {before:.1f}, {now:.1f}: {' '.join(goals)}")
            kept = finder.path(function, f"{TOP}/crates/{name}")
            os.makedirs(os.path.dirname(kept), exist_ok=True)
            shutil.copy(finder.path(function), kept)
    print(f"in all: {sum(it[0] for it in stay.values()):.1f}, {sum(it[1] for it in stay.values()):.1f}")


if __name__ == "__main__":
    if len(sys.argv) not in (2, 3):
        sys.exit(__doc__)
    try:
        main(sys.argv[1], float(sys.argv[2]) if len(sys.argv) == 3 else 0.8)
    except forxainde.NotBuilt as why:
        sys.exit(f"find_answers: {why}")
