"""Writes a proof of version 2 as one of version 1: each leaf gets the steps of the lines that it names in the table.

Usage: first_version.py < PROOF      (a proof of version 1 stays as it is)
"""
import sys


def first_version(proof):
    """The text of version 1 that says the same as this text of a proof that is in order."""
    lines = iter(proof.splitlines())
    head, limits = next(lines), next(lines)
    if head == "fh-proof 1":
        return proof
    written = ["fh-proof 1", limits, *verdicts(lines)]
    table = [next(lines).split(" ") for _ in range(count_of(next(lines)))]
    for line in lines:
        words = line.split(" ")
        if words[0] in ("line", "box"):
            steps = [next(lines).split(" ") for _ in range(int(words[-1]))]
            own = leaf_steps(table, steps, words[0] == "line")
            written += [" ".join(words[:-1] + [str(len(own))]), *own]
        else:
            written.append(line)
    return "".join(line + "\n" for line in written)


def count_of(line):
    return int(line.split(" ")[-1])


def verdicts(lines):
    """The count of the rules' lines, and what is said of each."""
    head = next(lines)
    yield head
    for _ in range(count_of(head)):
        verdict = next(lines)
        yield verdict
        if verdict != "keep":
            yield from (next(lines) for _ in range(count_of(verdict)))


def leaf_steps(table, steps, is_line):
    """The steps of a leaf, without shared ones. The last step of a line leaf stays the last, be it there before."""
    own, places, new = [], {}, {}
    for number, step in enumerate(steps, 1):
        if step[0] == "shared":
            shared = int(step[1])
            if is_line and number == len(steps):
                places.pop(shared, None)
            take_in(table, shared, own, places)
            new[number] = places[shared]
        else:
            own.append(renumbered(step, new))
            new[number] = len(own)
    return own


def take_in(table, shared, own, places):
    """Puts a step of the table, behind all that it builds on, at the end of a leaf's steps, but for those that are there."""
    needed, left = set(), [shared]
    while left:
        place = left.pop()
        if place not in places and place not in needed:
            needed.add(place)
            left += parts_of(table[place - 1])
    for place in sorted(needed):
        own.append(renumbered(table[place - 1], places))
        places[place] = len(own)


def parts_of(step):
    return [int(step[1]), int(step[3])] if step[0] == "combine" else []


def renumbered(step, new):
    """The step, where the steps before it have these new numbers."""
    kind, *words = step
    named = {"given": (), "combine": (0, 2), "fail": (0,)}.get(kind, range(1, len(words)))
    return " ".join([kind] + [str(new[int(word)]) if place in named else word for place, word in enumerate(words)])


if __name__ == "__main__":
    sys.stdout.write(first_version(sys.stdin.read()))
