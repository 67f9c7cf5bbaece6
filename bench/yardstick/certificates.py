"""A plain checker of the certificates of `certificate_bench`, which it makes first.

Usage: certificates.py leaves DEPTH [broken] | steps COUNT [broken]

It prints the verdict, as the program does; the processor's seconds for making and checking the certificate go
to the standard error. It is a yardstick of a plain script, not of the best that can be done in Python: a path
is a list of truth values, changed fields being true, and a step is a tuple.
"""
import sys
import time


class Refused(Exception):
    """A leaf is at fault, from 0, and there a step, if it is one."""


def certificate(depth, count, broken):
    """The leaves of the full tree, each with so many steps; broken, the last step names no given line."""
    leaves = []
    last = 2**depth - 1
    for number in range(last + 1):
        path = [bool(number >> (depth - 1 - place) & 1) for place in range(depth)]
        steps = [("given", 0) for _ in range(count)]
        if broken and number == last:
            steps[-1] = ("given", 1)
        leaves.append((path, "line", steps))
    return leaves


def comes_next(before, path):
    """The one before without the changed fields at its end, its last kept one changed, and then kept ones."""
    kept = len(before) - 1
    while kept >= 0 and before[kept]:
        kept -= 1
    if kept < 0 or len(path) <= kept:
        return False
    return path[:kept] == before[:kept] and path[kept] and not any(path[kept + 1:])


def is_right(before, path, is_last, fields):
    may_stand = not any(path) if before is None else comes_next(before, path)
    return may_stand and (all(path) or not is_last) and len(path) <= fields


def proved(given, usable, steps):
    """What the steps prove, one by one, or the place of the first that is not valid."""
    known = []
    for place, (kind, line) in enumerate(steps):
        if kind != "given" or not (0 <= line < len(given)) or not usable[line]:
            return None, place
        known.append(given[line])
    return (known[-1], None) if known else (None, None)


def fails_at_kept(line, row, kept):
    """Only kept fields stand in the line, and it is false at the record's values there."""
    factors, constant = line
    total = constant
    for field, factor in enumerate(factors):
        if factor == 0:
            continue
        if field not in kept:
            return False
        total += factor * row[field]
    return total < 0


def check(given, usable, row, leaves):
    """Raises Refused at the first leaf that is at fault; all leaves here are of the kind `line`."""
    fields = len(row)
    if not leaves:
        raise Refused(0, None)
    before = None
    for number, (path, why, steps) in enumerate(leaves):
        if not is_right(before, path, number + 1 == len(leaves), fields):
            raise Refused(number, None)
        kept = {field for field, changed in enumerate(path) if not changed and row[field] is not None}
        line, fault = proved(given, usable, steps)
        if line is None or why != "line" or not fails_at_kept(line, row, kept):
            raise Refused(number, fault)
        before = path


def main():
    kind, number = sys.argv[1], int(sys.argv[2])
    broken = sys.argv[3:] == ["broken"]
    depth, count = (number, 1) if kind == "leaves" else (0, number)
    begin = time.process_time()
    fields = max(depth, 1)
    leaves = certificate(depth, count, broken)
    given = [([0] * fields, -1)]
    try:
        check(given, [True], [None] * fields, leaves)
        verdict = f"accepted {len(leaves)} leaves"
    except Refused as refused:
        leaf, step = refused.args
        verdict = f"refused leaf {leaf + 1} step {0 if step is None else step + 1}"
    print(verdict)
    print(f"{time.process_time() - begin:.3f}", file=sys.stderr)


main()
