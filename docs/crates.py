#!/usr/bin/env python3
"""Keeps the table of crates and the picture of their layers true.

The table of architecture.md and crates.svg are made of crates.txt and of the first sentence of each crate's lib.rt or
main.rt. What a crate knows nothing of is written in the table by hand, and kept.

    docs/crates.py            writes both anew
    docs/crates.py --check    says whether they are true; the exit status is 1 where they are not
"""
import glob
import os
import re
import sys
from xml.sax.saxutils import escape

TOP = os.path.dirname(os.path.dirname(os.path.abspath(__file__)))
PAGE = os.path.join(TOP, 'docs', 'architecture.md')
PICTURE = os.path.join(TOP, 'docs', 'crates.svg')
PROGRAMS = ['edit_program', 'release_page']
# what a crate is filled with in the picture, by the programs that it is part of
FILLS = {'both': '#1f4e79', 'edit_program': '#1f4e79', 'release_page': '#2e6b4f', 'neither': '#5f6b76'}
HEAD = ('| Level | Crate | Does | Knows nothing of | Program | Code | Definitions | Proofs |\n'
        '|---|---|---|---|---|---|---|---|\n')
ROW = re.compile(r'^\| \d+ \| `(\w+)` \| (.*) \|$', re.M)
TABLE = re.compile(r'^\| Level \| Crate \|.*\n(?:\|.*\n)+', re.M)


def read(path):
    with open(path, encoding='utf-8') as it:
        return it.read()


def read_crates():
    """The crates in the order of crates.txt, each with the crates of this repository that it names."""
    named = {}
    for line in read(os.path.join(TOP, 'crates.txt')).split('\n'):
        if line and not line.startswith('#'):
            head, _, below = line.partition(':')
            named[head.split()[0]] = below.split('#')[0].split()
    return {name: [it for it in below if it in named] for name, below in named.items()}


def all_below(crates):
    """For each crate all that it stands on, itself or by others."""
    below = {}

    def find(name):
        if name not in below:
            below[name] = set(crates[name]).union(*map(find, crates[name]))
        return below[name]

    for name in crates:
        find(name)
    return below


def levels_of(crates, below):
    """For each crate one more than the greatest level of those that it stands on, and 0 where it stands on none."""
    levels = {}
    for name in sorted(crates, key=lambda it: len(below[it])):
        levels[name] = 1 + max((levels[it] for it in crates[name]), default=-1)
    return levels


def first_sentence(name):
    folder = os.path.join(TOP, 'crates', name, 'src')
    path = next(it for it in (f'{folder}/lib.rt', f'{folder}/main.rt') if os.path.exists(it))
    text = ' '.join(it[3:].strip() for it in read(path).split('\n') if it.startswith('//!'))
    sentences = re.split(r'(?<=\.) (?=[A-Z[])', text)
    # (two, where the first is a name)
    told = sentences[0] if len(sentences[0].split()) > 3 else ' '.join(sentences[:2])
    return re.sub(r'\[(`[^`]+`)\]', r'\1', told.rstrip('.'))


def program_of(name, below):
    """Which of the two programs the crate is, or is part of: `both`, the name of one, or `neither`."""
    programs = [it for it in PROGRAMS if name == it or name in below[it]]
    return 'both' if len(programs) == 2 else programs[0] if programs else 'neither'


def lines_of(name, folder, ending):
    files = glob.glob(os.path.join(TOP, 'crates', name, folder, '**', '*' + ending), recursive=True)
    return sum(read(it).count('\n') for it in files)


def table_of(crates, levels, below, unknown):
    rows = []
    for name in sorted(crates, key=lambda it: levels[it]):
        counts = [lines_of(name, 'src', '.rt'), lines_of(name, 'specs', '.antt'), lines_of(name, 'proofs', '.antt')]
        program = program_of(name, below)
        inside = f'`{program}`' if program in PROGRAMS else program
        cells = [str(levels[name]), f'`{name}`', first_sentence(name), unknown.get(name, ''), inside]
        rows.append('| ' + ' | '.join(cells + [f'{it:,}' for it in counts]) + ' |\n')
    return HEAD + ''.join(rows)


def picture_of(crates, levels, below):
    """A box for each crate, the lowest level at the bottom, coloured by the programs that it is part of. A line leads to
    each crate that it stands on and that none of the others stands on."""
    wide, high, gap, step = 150, 26, 10, 62
    tiers = {}
    for name in crates:
        tiers.setdefault(levels[name], []).append(name)
    width = max(len(it) for it in tiers.values()) * (wide + gap) + gap
    height = len(tiers) * step + gap
    place = {}
    for level, names in tiers.items():
        left = (width - len(names) * (wide + gap) + gap) // 2
        for number, name in enumerate(names):
            place[name] = (left + number * (wide + gap), height - (level + 1) * step + gap)
    parts = [f'<svg xmlns="http://www.w3.org/2000/svg" viewBox="0 0 {width} {height}" role="img" aria-labelledby="title">',
             '<title id="title">The crates in layers: each stands on those that its lines lead down to</title>',
             f'<rect width="{width}" height="{height}" fill="#ffffff"/>']
    for name in crates:
        direct = [it for it in crates[name] if not any(it in below[other] for other in crates[name])]
        for it in direct:
            (x, y), (u, v) = place[name], place[it]
            parts.append(f'<line x1="{x + wide // 2}" y1="{y + high}" x2="{u + wide // 2}" y2="{v}" stroke="#b0b8c0"/>')
    for name, (x, y) in place.items():
        fill = FILLS[program_of(name, below)]
        parts.append(f'<rect x="{x}" y="{y}" width="{wide}" height="{high}" rx="4" fill="{fill}"/>')
        parts.append(f'<text x="{x + wide // 2}" y="{y + 17}" font-family="sans-serif" font-size="13" fill="#ffffff" '
                     f'text-anchor="middle">{escape(name)}</text>')
    return '\n'.join(parts + ['</svg>', ''])


def main(words):
    crates = read_crates()
    below = all_below(crates)
    levels = levels_of(crates, below)
    page = read(PAGE)
    unknown = {name: cells.split(' | ')[1] for name, cells in ROW.findall(page)}
    made = {PAGE: TABLE.sub(lambda _: table_of(crates, levels, below, unknown), page, count=1),
            PICTURE: picture_of(crates, levels, below)}
    stale = [path for path, text in made.items() if not os.path.exists(path) or read(path) != text]
    if '--check' in words:
        for path in stale:
            print(f'{os.path.relpath(path, TOP)} is not true: run docs/crates.py')
        return 1 if stale else 0
    for path in stale:
        with open(path, 'w', encoding='utf-8') as it:
            it.write(made[path])
    return 0


if __name__ == '__main__':
    sys.exit(main(sys.argv[1:]))
