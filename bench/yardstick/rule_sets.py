#!/usr/bin/env python3
"""Writes a rule file of 500 rules over 64 fields in one of some shapes, of one line each, or two where it has conditions.

usage: rule_sets.py SHAPE RULES

    balances   numbers alone: each rule sets a sum of three fields to a constant; an equality is always kept
    sums       as balances, and the sum is at most the constant
    ratios     numbers alone: a multiple of one field is at most a multiple of another
    late       as ratios, and one of the two fields is always among the last 24
    codes      48 numbers and 16 codes: each rule sets a sum of two fields to a constant where two fields have some codes
    bounds     numbers alone: a lower bound on one field, so that most of the 500 lines follow from others

What is drawn is drawn by a generator of whole numbers of its own, so that each run of each machine writes the same file.
"""
import sys


class Draws:
    def __init__(self, start):
        self.state = start

    def below(self, count):
        self.state = (self.state * 6364136223846793005 + 1442695040888963407) % 2**64
        return (self.state >> 33) % count


def numbers(count):
    return [f"number N{i}" for i in range(count)]


def distinct(draws, count, below, first=0):
    found = []
    while len(found) < count:
        number = first + draws.below(below)
        if number not in found:
            found.append(number)
    return found


def compared(draws, sign):
    lines = numbers(64)
    for _ in range(500):
        a, b, c = distinct(draws, 3, 64)
        lines.append(f"{1 + draws.below(9)} N{a} + {1 + draws.below(9)} N{b} - {1 + draws.below(9)} N{c} {sign} {draws.below(1000)}")
    return lines


def balances(draws):
    return compared(draws, "=")


def sums(draws):
    return compared(draws, "<=")


def ratios(draws):
    lines = numbers(64)
    for _ in range(500):
        a, b = distinct(draws, 2, 64)
        lines.append(f"{1 + draws.below(9)} N{a} <= {1 + draws.below(9)} N{b}")
    return lines


def late(draws):
    lines = numbers(64)
    for _ in range(500):
        a, b = draws.below(40), 40 + draws.below(24)
        lines.append(f"{1 + draws.below(9)} N{a} <= {1 + draws.below(9)} N{b}")
    return lines


def codes(draws):
    lines = numbers(48) + [f"code C{i} in {{a, b, c, d}}" for i in range(16)]
    for _ in range(500):
        a, b = distinct(draws, 2, 48)
        c, d = distinct(draws, 2, 16)
        one, two = "abcd"[draws.below(4)], "abcd"[draws.below(4)]
        lines.append(f"if C{c} in {{{one}}} and C{d} in {{{two}}} then N{a} - {1 + draws.below(9)} N{b} = {draws.below(100)}")
    return lines


def bounds(draws):
    lines = numbers(64)
    for _ in range(500):
        a = draws.below(64)
        lines.append(f"N{a} >= {draws.below(1000)}")
    return lines


def main():
    shape, file = sys.argv[1:]
    shapes = {it.__name__: it for it in (balances, sums, ratios, late, codes, bounds)}
    with open(file, "w", encoding="ascii") as out:
        out.write("\n".join(shapes[shape](Draws(1))) + "\n")


main()
