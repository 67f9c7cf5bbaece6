#!/usr/bin/env python3
"""Edits small surveys that are drawn at random by imputation classes, and looks at who claims which donor.

usage: bench/class_claims.py PROGRAM [SEED [RUNS]]        (default: seed 1, 500 surveys)

Each survey has two numbers and two fields of codes, with rules between them and weights that are drawn, so that some records change the
class field; some have a code that is none, or no value. Of what `classed` wrote, by one worker and by four, these are looked at, from the
files alone: `check` accepts them; the records that changed claim once each; a record's class is that of its code, where it keeps the class
field and has one; each donor that it ranks is a clean record with that code, as many as there are up to `--near`, and a record without a
class ranks nobody; the claims come class by class, the records without one last, and with one worker in row order in each class; and each
is answered the first donor of its ranking with uses left. The last line counts the claims. The status is 1 where something else is found.
"""
import os
import random
import subprocess
import sys
import tempfile

CODES = ['a', 'b', 'c']
KINDS = ['u', 'v']


def survey(draw):
    """The lines of the rules."""
    weight = lambda: draw.choice([1, 1, 2, 3])
    lines = [f'code Reg weight {weight()} in {{{", ".join(CODES)}}}', f'number A weight {weight()} scale {draw.choice([1, 2, 5])}',
             f'code Kind weight {weight()} in {{{", ".join(KINDS)}}}', f'number B weight {weight()}', 'A >= 0', 'A <= 9', 'B <= 20']
    rules = ['if Reg in {a} then A <= 5', 'if Reg in {b, c} then A >= 2', 'B <= 2 A', 'B >= A', 'if Kind in {u} then B >= 4',
             'if Kind in {v} then Reg in {b, c}', 'if Reg in {c} then Kind in {u}']
    return lines + draw.sample(rules, draw.randint(1, 5))


def rows(draw):
    """The records, as texts in the order of the fields."""
    found = []
    for _ in range(draw.randint(0, 40)):
        found.append([draw.choice(CODES * 6 + ['', 'x']), draw.choice([str(draw.randint(0, 12))] * 9 + ['']),
                      draw.choice(KINDS * 6 + ['', 'w']), draw.choice([str(draw.randint(0, 22))] * 9 + [''])])
    return found


def told(proof):
    """What the proof says of each record, by its first line, and the claims as lists of numbers."""
    lines = proof.split('\n')
    at = next(i for i, line in enumerate(lines) if line.startswith('records '))
    heads = [line.split() for line in lines[at + 1:] if line.split()[:1] and line.split()[0] in ('clean', 'change', 'gift', 'budget', 'overflow', 'contradictory')]
    return heads, [[int(word) for word in line.split()[1:]] for line in lines if line.startswith('claim ')]


def class_of(head, row):
    """The number of the record's class, by the path of its change: numbers stand in it first. The last one has no donors."""
    return CODES.index(row[0]) if head[2][2] == 'K' and row[0] in CODES else len(CODES)


def look(heads, claims, records, limit, near, workers):
    """Finds what is wrong with the claims, if anything."""
    clean = {i for i, head in enumerate(heads, 1) if head[0] == 'clean'}
    changed = {i for i, head in enumerate(heads, 1) if head[0] in ('change', 'gift') and 'C' in head[2]}
    if sorted(claim[0] for claim in claims) != sorted(changed):
        return 'not each record that changed claims once'
    uses, before = {}, (-1, 0)
    for row, reply, *ranking in claims:
        own = class_of(heads[row - 1], records[row - 1])
        donors = {i for i in clean if own < len(CODES) and records[i - 1][0] == CODES[own]}
        if not set(ranking) <= donors or len(ranking) != min(near, len(donors)) or len(set(ranking)) != len(ranking):
            return f'record {row} ranks others than the donors of its class'
        if (own, row) < before if workers == 1 else own < before[0]:
            return f'record {row} claims out of order'
        before = (own, row)
        if reply != next((i for i in ranking if uses.get(i, 0) < limit), 0):
            return f'record {row} is answered another donor'
        uses[reply] = uses.get(reply, 0) + 1
    return None


def main():
    program, seed, runs = sys.argv[1], int((sys.argv[2:] or ['1'])[0]), int((sys.argv[3:] or ['500'])[0])
    draw, count, nobody, without = random.Random(seed), 0, 0, 0
    with tempfile.TemporaryDirectory() as room:
        file = {name: os.path.join(room, name) for name in ('rules', 'records', 'released', 'reasons', 'proof')}
        words = lambda *names: [word for name in names for word in (f'--{name}', file[name])]
        for run in range(runs):
            records, limit, near = rows(draw), draw.choice([1, 1, 2, 5]), draw.choice([1, 2, 5])
            with open(file['rules'], 'w') as out:
                out.write('\n'.join(survey(draw)) + '\n')
            with open(file['records'], 'w') as out:
                out.write(''.join(','.join(row) + '\n' for row in [['Reg', 'A', 'Kind', 'B'], *records]))
            for workers in (1, 4):
                edit = subprocess.run([program, 'classed', *words('rules', 'records', 'released', 'reasons', 'proof'), '--class', 'Reg', '--limit', str(limit),
                                       '--near', str(near), '--workers', str(workers)], capture_output=True, text=True)
                check = subprocess.run([program, 'check', *words('rules', 'records', 'released', 'proof')], capture_output=True, text=True)
                wrong = f'ended with {edit.returncode} and {check.returncode}: {edit.stdout}{check.stdout}' if edit.returncode > 1 or check.returncode else None
                if not wrong:
                    with open(file['proof']) as proof:
                        heads, claims = told(proof.read())
                    wrong = look(heads, claims, records, limit, near, workers)
                if wrong:
                    with open(file['rules']) as rules, open(file['records']) as held:
                        print(f'seed {seed}, survey {run}, {workers} workers: {wrong}\n{rules.read()}{held.read()}')
                    return 1
                count += len(claims)
                nobody += sum(claim[1] == 0 for claim in claims)
                without += sum(class_of(heads[claim[0] - 1], records[claim[0] - 1]) == len(CODES) for claim in claims)
    print(f'{runs} surveys, each by one worker and by four: {count} claims, {nobody} of them answered nobody, {without} of records without a class')
    return 0


if __name__ == '__main__':
    sys.exit(main())
