#!/usr/bin/env python3
"""Keeps the tables of reading-order.md true.

For each promise the page names calls, and for some of them which clauses carry it; this script follows these
clauses through the definitions that they cite, over all crates, and writes the table of the files in which
these stand: how many lines of each file are reached (definitions and the comments above them), of how many
lines. A line 'Read apart' names definitions that are read with another promise, and are not followed. The last row says how many of the lines are definitions, without the comments. Files come in an
order in which each stands behind those that its definitions cite. Where the page says how many lines of definitions one definition reaches, that number is written too.

    docs/reading-order.py            writes the tables anew
    docs/reading-order.py --check    says whether they are true; the exit status is 1 where they are not
    docs/reading-order.py --unread   lists the definitions outside specs/inner/ that no public contract reaches
"""
import os
import re
import sys

TOP = os.path.dirname(os.path.dirname(os.path.abspath(__file__)))
PAGE = os.path.join(TOP, 'docs', 'reading-order.md')
USE = re.compile(r'^\s*(?:ghost )?use (Rattle\.[\w.]+?)(?:\.\{([^}]*)\}| as (\w+))?;?\s*$', re.M)
HEAD = re.compile(r'^(?:(?:abbrev|unfoldable|record|data|pub)\s+)+(\S+)')
WORD = re.compile(r'[^\s(){}\[\].,;:∷λ→×=]+')
# A field, where it is declared, given in a record, or read: its name may be that of a definition too.
FIELD = re.compile(r'^  (?:pub )?\w+ :|(?<=[{;]) *\w+ =|^ +\w+ =(?= )|(?<=[\w)])\.\w+', re.M)
CALLS = re.compile(r'^Calls: (.*)$', re.M)
APART = re.compile(r'^Read apart: .*$', re.M)
DEFINITION = re.compile(r'`(\w+)` of `([\w/.]+)`')
REACHES = re.compile(r'(`(\w+)` of `([\w/.]+)`, .*? reaches )[\d,]+( lines)')
CALL = re.compile(r'`([\w:]+)`(?: \(([`\w, ]+)\))? of `([\w/.]+)`')


def page_of(name):
    """The definition file of a module such as Rattle.edit_model.specs.Points."""
    m = re.match(r'Rattle\.(\w+)\.specs\.(.+)$', name)
    if not m or m.group(2).startswith('declared'):
        return None
    path = os.path.join(TOP, 'crates', m.group(1), 'specs', *m.group(2).split('.')) + '.antt'
    return path if os.path.exists(path) else None


def imports(text):
    """The names that a file takes from definition files, and the names that it gives to whole ones."""
    names, aliases = {}, {}
    for m in USE.finditer(text):
        page = page_of(m.group(1))
        if page is None:
            continue
        if m.group(2) is None:
            aliases[m.group(3) or m.group(1).split('.')[-1]] = page
            continue
        for item in filter(None, (x.strip() for x in m.group(2).split(','))):
            name, _, other = item.partition(' as ')
            names[(other or name).strip()] = (page, name.strip())
    return names, aliases


class Page:
    """A definition file: its lines, its imports, and its definitions, each with the comment above it."""
    known = {}

    def __init__(self, path):
        text = open(path, encoding='utf-8').read()
        self.lines = text.count('\n')
        self.names, self.aliases = imports(text)
        self.definitions, self.owner = {}, {}
        name, comment = None, []
        for line in text.split('\n'):
            if line.startswith(('use ', 'pub use ')) or not line.strip():
                continue
            if line.startswith('--'):
                comment = [] if line.startswith('-- ----') else comment + [line]
                continue
            head = HEAD.match(line)
            if head and head.group(1) != name:
                name = head.group(1)
                self.definitions[name] = comment + [line]
                comment = []
            elif name:
                self.definitions[name] += comment + [line]
                comment = []
                made = re.match(r'^  ([A-Z]\w*) :', line)
                if made:
                    self.owner[made.group(1)] = name

    @classmethod
    def at(cls, path):
        if path not in cls.known:
            cls.known[path] = cls(path)
        return cls.known[path]

    def cited(self, path, name):
        """What the definition cites."""
        code = [line for line in self.definitions[name] if not line.lstrip().startswith('--')]
        return cited_in('\n'.join(code), self.names, self.aliases, path, self)


def cited_in(text, names, aliases, path=None, page=None):
    found, whole = set(), text
    text = FIELD.sub(' ', text)
    for word in WORD.findall(text):
        if page is not None and word in page.definitions:
            found.add((path, word))
        if page is not None and word in page.owner:
            found.add((path, page.owner[word]))
        if word in names:
            found.add(names[word])
    for name, target in names.items():
        if '◌' in name and (name.strip('◌') in text or name == '◌>>=◌' and '←' in text):
            found.add(target)
    for alias, target in aliases.items():
        for word in re.findall(r'\b' + re.escape(alias) + r'\.(\w+)', whole):
            found.add((target, word))
    return found


def reached(starts, apart=()):
    """All definitions that the starts reach, each with what it cites; those that are read apart are left out."""
    edges, todo = {}, list(starts)
    while todo:
        path, name = todo.pop()
        page = Page.at(path)
        name = page.owner.get(name, name)
        if (path, name) in edges or (path, name) in apart or name not in page.definitions:
            continue
        edges[(path, name)] = page.cited(path, name)
        todo += edges[(path, name)]
    return edges


def contract(text, start, chosen=None):
    """The clauses of the function that starts there; of some of these names, if names are given."""
    end = re.compile(r'^\s*\{\s*$|;\s*$|\{\}\s*$', re.M)
    stop = end.search(text, start)
    part = text[start:stop.end() if stop else len(text)]
    clauses = re.findall(r'(?:ensures|requires)([^{]*)\{((?:[^{}]|\{[^{}]*\})*)\}', part)
    missing = set(chosen or ()) - {name.strip() for name, _ in clauses}
    if missing:
        raise SystemExit(f'no clause {", ".join(sorted(missing))}')
    return '\n'.join(clause for name, clause in clauses if chosen is None or name.strip() in chosen)


def contract_starts(file, function, chosen):
    text = open(os.path.join(TOP, 'crates', *file.split('/')), encoding='utf-8').read()
    at = re.search(r'\bfn ' + function.split('::')[-1] + r'\b', text)
    if at is None:
        raise SystemExit(f'{file} has no function {function}')
    names, aliases = imports(text)
    return cited_in(contract(text, at.start(), chosen), names, aliases)


def crate_order():
    """The crates in the order in which crates.txt names them."""
    text = open(os.path.join(TOP, 'crates.txt'), encoding='utf-8').read()
    return re.findall(r'^(\w+)[^:\n#]*:', text, re.M)


def ordered(edges):
    """The files, crate by crate from the lowest up, each behind those that its definitions cite."""
    cites = {}
    for (path, _), cited in edges.items():
        cites.setdefault(path, set()).update(p for p, name in cited if (p, name) in edges and p != path)
    crates = crate_order()
    order, left = [], dict(cites)
    while left:
        free = [p for p, on in left.items() if not on & set(left)] or list(left)
        order.append(min(free, key=lambda p: (crates.index(os.path.relpath(p, TOP).split(os.sep)[1]), p)))
        left.pop(order[-1])
    return order


def table(starts, apart):
    edges = reached(starts, apart)
    rows = ['| File of `crates/` | Lines to read | of |', '|---|---|---|']
    total = plain = 0
    for path in ordered(edges):
        page = Page.at(path)
        reach = [line for p, name in edges if p == path for line in page.definitions[name]]
        lines = len(reach)
        total += lines
        plain += sum(not is_comment(line) for line in reach)
        name = os.path.relpath(path, os.path.join(TOP, 'crates'))
        rows.append(f'| `{name}` | {lines} | {page.lines} |')
    rows.append(f'| all | {total}, of them {plain} of definitions | |')
    return '\n'.join(rows)


def all_pages(inner):
    for folder, _, files in sorted(os.walk(os.path.join(TOP, 'crates'))):
        parts = os.path.relpath(folder, TOP).split(os.sep)
        if len(parts) > 2 and parts[2] == 'specs' and ('inner' in parts) == inner:
            yield from (os.path.join(folder, f) for f in sorted(files) if f.endswith('.antt') and f not in ('Lib.antt', 'inner.antt'))


def is_comment(line):
    return line.lstrip().startswith('--')


def defined(inner):
    """How many lines the definitions of all files have, without comments and imports."""
    return sum(not is_comment(line) for p in all_pages(inner) for lines in Page.at(p).definitions.values() for line in lines)


def counted():
    return f'All definitions of `specs/` have {defined(False):,} lines without their comments, and those of `specs/inner/`, which private contracts alone cite, {defined(True):,}.'


def reach_of(name, file):
    """How many lines the definitions have that a definition reaches, without comments."""
    edges = reached({(os.path.join(TOP, 'crates', *file.split('/')), name)})
    return sum(not is_comment(line) for path, reach in edges for line in Page.at(path).definitions[reach])


def written(text):
    """The page with its tables and its count."""
    parts = re.split(r'(?m)^(?=Calls: )', text)
    made = [parts[0]]
    for part in parts[1:]:
        starts = set()
        for function, clauses, file in CALL.findall(CALLS.match(part).group(1)):
            starts |= contract_starts(file, function, re.findall(r'\w+', clauses) or None)
        apart = {(os.path.join(TOP, 'crates', *file.split('/')), name) for name, file in DEFINITION.findall((APART.search(part) or [''])[0])}
        made.append(re.sub(r'(?ms)^\| File of.*?\n(?=\n|\Z)', lambda _: table(starts, apart) + '\n', part, count=1))
    page = REACHES.sub(lambda m: f'{m.group(1)}{reach_of(m.group(2), m.group(3)):,}{m.group(4)}', ''.join(made))
    return re.sub(r'(?m)^All definitions of `specs/` have .*$', lambda _: counted(), page)


def open_calls(text):
    """Where the public functions of a file start, and the methods of its traits and of impls of traits."""
    for at in re.finditer(r'^ *pub fn \w+', text, re.M):
        yield at.start()
    for block in re.finditer(r'^(?:pub trait|impl\b[^{;]*\bfor\b)[^{;]*\{.*?^\}', text, re.M | re.S):
        for at in re.finditer(r'^    fn \w+', block.group(0), re.M):
            yield block.start() + at.start()


def public_starts():
    """What the contracts of public calls, and the views and texts of types, cite."""
    starts = set()
    for folder, _, files in os.walk(os.path.join(TOP, 'crates')):
        if os.sep + 'src' not in folder or os.sep + 'out' + os.sep in folder or folder.endswith('tests'):
            continue
        for file in files:
            if not file.endswith('.rt') or file == 'tests.rt':
                continue
            text = open(os.path.join(folder, file), encoding='utf-8').read()
            names, aliases = imports(text)
            for at in open_calls(text):
                starts |= cited_in(contract(text, at), names, aliases)
            for line in re.findall(r'^\s*(?:pub )?ghost (?!use|invariant).*$', text, re.M):
                starts |= cited_in(line, names, aliases)
    return starts


def unread():
    edges = reached(public_starts())
    total = 0
    for path in all_pages(False):
        page = Page.at(path)
        names = [n for n in page.definitions if (path, n) not in edges]
        lines = sum(len(page.definitions[n]) for n in names)
        total += lines
        if names:
            print(f'{lines:4} {os.path.relpath(path, TOP)}: {" ".join(names)}')
    print(f'{total:4} lines')


def main():
    if sys.argv[1:] == ['--unread']:
        return unread()
    text = open(PAGE, encoding='utf-8').read()
    made = written(text)
    if sys.argv[1:] == ['--check']:
        print('the tables are true' if made == text else 'the tables are not true: run docs/reading-order.py')
        return sys.exit(0 if made == text else 1)
    open(PAGE, 'w', encoding='utf-8').write(made)


main()
