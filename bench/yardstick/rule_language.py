"""The rule language, the numerals of record files, print_rules, and the reading of record files, for the
generators. No elimination of any kind in here.

A Survey has .fields (list of Field) and .rules (list of Rule).
Field: name, weight, scale or None, codes or None.
Test: ('codes', field, negated, frozenset of code indices) or ('num', {field: factor}, constant, cmp).
Rule: conditions (list of Test), conclusion (Test).
"""
import csv, io, re
from fractions import Fraction

KINDS = {1: 'BadByte', 2: 'Syntax', 3: 'UnknownField', 4: 'DoubleField', 5: 'UnknownCode',
         6: 'DoubleCode', 7: 'NumberRange', 8: 'TooMany', 9: 'ConditionForm'}
WORDS = {'number', 'code', 'weight', 'scale', 'in', 'not', 'if', 'and', 'then'}


class RulesFault(Exception):
    def __init__(self, line, kind):
        Exception.__init__(self, 'line %d kind %d %s' % (line, kind, KINDS[kind]))
        self.line, self.kind = line, kind


class Field:
    def __init__(self, name, weight, scale=None, codes=None):
        self.name, self.weight, self.scale, self.codes = name, weight, scale, codes

    @property
    def is_num(self):
        return self.codes is None


class Rule:
    def __init__(self, conditions, conclusion):
        self.conditions, self.conclusion = conditions, conclusion


class Survey:
    def __init__(self, fields, rules):
        self.fields, self.rules = fields, rules
        self.index = {f.name: i for i, f in enumerate(fields)}


class _Syntax(Exception):
    pass


_PLAIN = re.compile(r'[ \t]*(?:(?P<name>[A-Za-z][A-Za-z0-9_]*)|(?P<num>[0-9]+(?:\.[0-9]+)?)'
                    r'|(?P<op>>=|<=|[><=+\-*{},]))')
_CODE = re.compile(r'[ \t]*(?:(?P<code>[A-Za-z0-9_.\-]+)|(?P<op>[{},]))')


def _tokens(text):
    """Tokens are the longest that can be read; inside braces, codes."""
    out, pos, braces, n = [], 0, False, len(text)
    while True:
        while pos < n and text[pos] in ' \t':
            pos += 1
        if pos >= n:
            return out
        m = (_CODE if braces else _PLAIN).match(text, pos)
        if not m:
            raise _Syntax()
        kind = m.lastgroup
        tok = m.group(kind)
        if kind == 'name' and len(tok) > 32 or kind == 'code' and len(tok) > 32:
            raise _Syntax()
        if kind == 'name' and tok in WORDS:
            kind = 'word'
        if kind == 'op' and tok == '{':
            braces = True
        if kind == 'op' and tok == '}':
            braces = False
        out.append((kind, tok))
        pos = m.end()


class _P:
    def __init__(self, toks):
        self.t, self.i = toks, 0

    def peek(self):
        return self.t[self.i] if self.i < len(self.t) else (None, None)

    def take(self, kind, tok=None):
        k, v = self.peek()
        if k != kind or (tok is not None and v != tok):
            raise _Syntax()
        self.i += 1
        return v

    def at(self, kind, tok=None):
        k, v = self.peek()
        return k == kind and (tok is None or v == tok)

    def lst(self):
        self.take('op', '{')
        out = [self.take('code')]
        while self.at('op', ','):
            self.i += 1
            out.append(self.take('code'))
        self.take('op', '}')
        return out

    def sum(self):
        """list of (sign, num text or None, name or None)"""
        out, sign = [], 1
        if self.at('op', '+') or self.at('op', '-'):
            sign = -1 if self.take('op') == '-' else 1
        out.append((sign,) + self.term())
        while self.at('op', '+') or self.at('op', '-'):
            sign = -1 if self.take('op') == '-' else 1
            out.append((sign,) + self.term())
        return out

    def term(self):
        if self.at('num'):
            n = self.take('num')
            if self.at('op', '*'):
                self.i += 1
                return n, self.take('name')
            if self.at('name'):
                return n, self.take('name')
            return n, None
        return None, self.take('name')

    def test(self):
        # NAME [not] in list | sum compare sum
        if self.at('name') and self.i + 1 < len(self.t) and self.t[self.i + 1] in (('word', 'in'), ('word', 'not')):
            name = self.take('name')
            neg = False
            if self.at('word', 'not'):
                self.i += 1
                neg = True
            self.take('word', 'in')
            return ('codes', name, neg, self.lst())
        left = self.sum()
        k, v = self.peek()
        if k != 'op' or v not in ('>=', '>', '<=', '<', '='):
            raise _Syntax()
        self.i += 1
        return ('num', left, v, self.sum())

    def end(self):
        if self.i != len(self.t):
            raise _Syntax()


def _parse(text):
    p = _P(_tokens(text))
    if p.at('word', 'number'):
        p.i += 1
        name, w, s = p.take('name'), None, None
        if p.at('word', 'weight'):
            p.i += 1
            w = p.take('num')
        if p.at('word', 'scale'):
            p.i += 1
            s = p.take('num')
        p.end()
        return ('dnum', name, w, s)
    if p.at('word', 'code'):
        p.i += 1
        name, w = p.take('name'), None
        if p.at('word', 'weight'):
            p.i += 1
            w = p.take('num')
        p.take('word', 'in')
        codes = p.lst()
        p.end()
        return ('dcode', name, w, codes)
    conds = []
    if p.at('word', 'if'):
        p.i += 1
        conds.append(p.test())
        while p.at('word', 'and'):
            p.i += 1
            conds.append(p.test())
        p.take('word', 'then')
    concl = p.test()
    p.end()
    return ('rule', conds, concl)


def _names(t):
    return [(t[1], False)] if t[0] == 'codes' else [(n, True) for part in (t[1], t[3]) for _, _, n in part if n is not None]


def _resolve(test, byname, fields, faults):
    if test[0] == 'codes':
        _, name, neg, codes = test
        f = byname.get(name)
        if len(set(codes)) != len(codes):
            faults.add(6)
        if f is None or fields[f].is_num:
            faults.add(3)
            return None
        have = fields[f].codes
        if any(c not in have for c in codes):
            faults.add(5)
            return None
        return ('codes', f, neg, frozenset(have.index(c) for c in codes))
    fac, con, ok = {}, 0, True
    for side, part in ((1, test[1]), (-1, test[3])):
        for sign, num, name in part:
            n = 1
            if num is not None:
                if '.' in num:
                    faults.add(7)
                    ok = False
                    continue
                n = int(num)
            if name is None:
                if n > 10**15:
                    faults.add(7)
                con += side * sign * n
            else:
                if n > 10**9:
                    faults.add(7)
                f = byname.get(name)
                if f is None or not fields[f].is_num:
                    faults.add(3)
                    ok = False
                    continue
                fac[f] = fac.get(f, 0) + side * sign * n
    if any(abs(v) > 10**9 for v in fac.values()) or abs(con) > 10**15:
        faults.add(7)
    if not ok:
        return None
    return ('num', {f: v for f, v in sorted(fac.items()) if v != 0}, con, test[2])


def read_rules(data):
    if isinstance(data, str):
        data = data.encode()
    if data.startswith(b'\xef\xbb\xbf'):
        data = data[3:]
    lines = data.split(b'\n')
    if lines and lines[-1] == b'':
        lines.pop()
    fields, byname, rules = [], {}, []
    for no, raw in enumerate(lines, 1):
        if raw.endswith(b'\r'):
            raw = raw[:-1]
        raw = raw.split(b'#', 1)[0]
        faults = set()
        if any(not (0x20 <= b <= 0x7E or b == 9) for b in raw):
            raise RulesFault(no, 1)
        text = raw.decode('ascii')
        if not text.strip(' \t'):
            continue
        try:
            st = _parse(text)
        except _Syntax:
            raise RulesFault(no, 2)
        if st[0] in ('dnum', 'dcode'):
            if st[1] in byname:
                faults.add(4)
            w = 1
            if st[2] is not None:
                if '.' in st[2] or not 1 <= int(st[2]) <= 1000:
                    faults.add(7)
                else:
                    w = int(st[2])
            if st[0] == 'dnum':
                s = 1
                if st[3] is not None:
                    if '.' in st[3] or not 1 <= int(st[3]) <= 10**12:
                        faults.add(7)
                    else:
                        s = int(st[3])
                f = Field(st[1], w, s, None)
            else:
                if len(set(st[3])) != len(st[3]):
                    faults.add(6)
                if len(st[3]) > 64:
                    faults.add(8)
                f = Field(st[1], w, None, list(st[3]))
            if len(fields) >= 64:
                faults.add(8)
            if faults:
                raise RulesFault(no, min(faults))
            byname[f.name] = len(fields)
            fields.append(f)
        else:
            conds = [_resolve(t, byname, fields, faults) for t in st[1]]
            concl = _resolve(st[2], byname, fields, faults)
            for t in st[1]:
                if t[0] == 'num' and (len(st[1]) > 1 or t[2] == '=' or st[2][0] == 'num'):
                    faults.add(9)
            if len(rules) >= 500:
                faults.add(8)
            if faults:
                raise RulesFault(no, min(faults))
            rules.append(Rule(conds, concl))
    return Survey(fields, rules)


def _ptest(sv, t):
    if t[0] == 'codes':
        f = sv.fields[t[1]]
        return '%s %sin {%s}' % (f.name, 'not ' if t[2] else '', ', '.join(c for i, c in enumerate(f.codes) if i in t[3]))
    parts = []
    for f, a in sorted(t[1].items()):
        mag = sv.fields[f].name if abs(a) == 1 else '%d %s' % (abs(a), sv.fields[f].name)
        parts.append((a < 0, mag))
    if t[2] != 0 or not parts:
        parts.append((t[2] < 0, str(abs(t[2]))))
    out = ''
    for i, (neg, mag) in enumerate(parts):
        out += ('-' if neg else '') + mag if i == 0 else (' - ' if neg else ' + ') + mag
    return '%s %s 0' % (out, t[3])


def print_rules(sv):
    out = []
    for f in sv.fields:
        if f.is_num:
            out.append('number %s weight %d scale %d' % (f.name, f.weight, f.scale))
        else:
            out.append('code %s weight %d in {%s}' % (f.name, f.weight, ', '.join(f.codes)))
    for r in sv.rules:
        s = ''
        if r.conditions:
            s = 'if ' + ' and '.join(_ptest(sv, t) for t in r.conditions) + ' then '
        out.append(s + _ptest(sv, r.conclusion))
    return ''.join(x + '\n' for x in out)


_N1 = re.compile(r'([+-]?)([0-9]*)(?:(\.)([0-9]*))?\Z')
_N2 = re.compile(r'([+-]?)([0-9]{1,21})/([0-9]{1,7})\Z')


def numeral(text):
    """The exact value of a numeral, or None."""
    t = text.strip(' \t')
    m = _N1.match(t)
    if m:
        s, a, b = m.group(1), m.group(2), m.group(4) or ''
        if len(a) <= 15 and len(b) <= 6 and len(a) + len(b) >= 1:
            v = Fraction(int(a + b), 10 ** len(b))
            return -v if s == '-' else v
        return None
    m = _N2.match(t)
    if m and 1 <= int(m.group(3)) <= 1000000:
        v = Fraction(int(m.group(2)), int(m.group(3)))
        return -v if m.group(1) == '-' else v
    return None


def read_records(sv, data):
    """-> (header, raw rows, rows of values). A value is a Fraction, a code's index, or None (Bad)."""
    if isinstance(data, bytes):
        data = data.decode('latin-1')
    while data.startswith('\xef\xbb\xbf'):
        data = data[3:]
    rows = [r for r in csv.reader(io.StringIO(data, newline=''), strict=False) if r]
    if not rows:
        raise ValueError('records kind 11 NoHeader')
    header = [h.strip(' \t') for h in rows[0]]
    col = []
    for f in sv.fields:
        if header.count(f.name) != 1:
            raise ValueError('records kind %s field %s' % (12 if f.name not in header else 13, f.name))
        col.append(header.index(f.name))
    vals = []
    for no, r in enumerate(rows[1:], 1):
        if len(r) != len(header):
            raise ValueError('records kind 14 row %d' % no)
        v = []
        for f, c in zip(sv.fields, col):
            if f.is_num:
                v.append(numeral(r[c]))
            else:
                t = r[c].strip(' \t')
                v.append(f.codes.index(t) if t in f.codes else None)
        vals.append(v)
    return header, rows[1:], vals


def test_true(t, row):
    if t[0] == 'codes':
        return (row[t[1]] in t[3]) != t[2]
    s = sum((a * row[f] for f, a in t[1].items()), Fraction(t[2]))
    c = t[3]
    return s >= 0 if c == '>=' else s > 0 if c == '>' else s <= 0 if c == '<=' else s < 0 if c == '<' else s == 0


def holds(rule, row):
    return any(not test_true(t, row) for t in rule.conditions) or test_true(rule.conclusion, row)


def is_clean(sv, row):
    return all(v is not None for v in row) and all(holds(r, row) for r in sv.rules)
