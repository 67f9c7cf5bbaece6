"""The same fold of Fourier and Motzkin's elimination over the same generated edits, with Python's integers.

Usage: elimination.py FIELDS [codes]

It prints for each step its pairs and the lines that are left, and then the totals; the processor's seconds
for the fold alone go to the standard error. It is a yardstick of a plain script, not of the best that can be
done in Python: lines are tuples, and each new one is compared with all that are kept.
"""
import math
import sys
import time


def generated(numbers, coded):
    """For each ordered pair of fields x and y the line x - y + c >= 0, with a drawn set of codes and c."""
    lines, draw = [], 1
    for i in range(numbers):
        for j in range(numbers):
            if i == j:
                continue
            factors = [0] * numbers
            factors[i], factors[j] = 1, -1
            lines.append((1 + draw % 255 if coded else 255, tuple(factors), draw % 1000, False))
            draw = (75 * draw + 74) % 65537
    return lines


def holds_alone(line):
    return line[2] > 0 if line[3] else line[2] >= 0


def subsumes(a, b):
    if b[0] & ~a[0]:
        return False
    if not any(a[1]) and not holds_alone(a):
        return True
    return a[1] == b[1] and (a[2] < b[2] or (a[2] == b[2] and (a[3] or not b[3])))


def reduce(lines):
    kept = []
    for line in lines:
        if not any(line[1]) and holds_alone(line):
            continue
        if any(subsumes(a, line) for a in kept):
            continue
        kept = [b for b in kept if not subsumes(line, b)]
        kept.append(line)
    return kept


def combination(s, t, field):
    a, b = s[1][field], -t[1][field]
    common = math.gcd(a, b)
    m, n = b // common, a // common
    factors = [m * x + n * y for x, y in zip(s[1], t[1])]
    constant = m * s[2] + n * t[2]
    divisor = math.gcd(constant, *factors) or 1
    return (s[0] & t[0], tuple(x // divisor for x in factors), constant // divisor, s[3] or t[3])


def step(lines, field):
    derived = [line for line in lines if line[1][field] == 0]
    above = [line for line in lines if line[1][field] > 0]
    below = [line for line in lines if line[1][field] < 0]
    pairs = 0
    for s in above:
        for t in below:
            if s[0] & t[0]:
                pairs += 1
                derived.append(combination(s, t, field))
    return pairs, reduce(derived)


def main():
    count, coded = int(sys.argv[1]), sys.argv[2:] == ["codes"]
    edits = generated(20 if coded else 32, coded)
    lines = reduce(edits)
    begin = time.process_time()
    for field in range(count):
        pairs, lines = step(lines, field)
        print(f"field {field} pairs {pairs} lines {len(lines)}")
    seconds = time.process_time() - begin
    print(f"fields {count} edits {len(edits)} lines {len(lines)}")
    print(f"{seconds:.3f}", file=sys.stderr)


main()
