#!/usr/bin/env python3
"""Counts anew, from the files of an edit alone, what its page says, and compares that with the tables of the page.

usage: bench/page_counts.py RULES RECORDS RELEASED REASONS PAGE

Each table of the page is looked for by its caption, and each cell of it is compared. The bins of a histogram are taken from the page;
that each of their counts is right, that they are of equal width, and that all numbers are in one of them, but where a numerator is above
10^33 in size, is looked at. It prints the first difference of each table, and a last line that counts tables and cells. The status is 1
where something differs.
"""
import csv
import math
import os
import re
import sys
from collections import Counter
from fractions import Fraction
from html.parser import HTMLParser

sys.path.insert(0, os.path.join(os.path.dirname(os.path.abspath(__file__)), 'yardstick'))
import rule_language

HEADER = ['record', 'cause', 'field', 'before', 'after', 'donor', 'detail']
CAUSES = ['budget', 'overflow', 'contradictory', 'nolast', 'nocorrection']
# Numbers with a numerator above this, in size, are in no bin.
MOST_BINNED = 10 ** 33


class Tables(HTMLParser):
    """The tables of a page, by their captions, each a list of rows of texts. No other element may hold a table's text."""

    def __init__(self):
        super().__init__(convert_charrefs=True)
        self.tables, self.caption, self.text = {}, None, None

    def handle_starttag(self, tag, attributes):
        if tag in ('caption', 'th', 'td'):
            self.text = ''
        elif tag == 'tr':
            self.tables[self.caption].append([])

    def handle_data(self, text):
        if self.text is not None:
            self.text += text

    def handle_endtag(self, tag):
        if tag == 'caption':
            # (the totals of a field stand behind its values)
            self.caption = f'{self.caption}, totals' if self.text == 'Totals' else self.text
            if self.caption in self.tables:
                raise SystemExit(f'two tables have the caption {self.caption!r}')
            self.tables[self.caption] = []
        elif tag in ('th', 'td'):
            self.tables[self.caption][-1].append(self.text)
        if tag in ('caption', 'th', 'td'):
            self.text = None


def shown(text):
    """A text as a page shows it: controls, and bytes past ASCII of a text that is no UTF-8, are replaced. (Texts are bytes, read as latin-1.)"""
    try:
        text.encode('latin-1').decode('utf-8')
        readable = True
    except UnicodeDecodeError:
        readable = False
    is_lost = lambda c: c not in '\t\n' and (ord(c) < 32 or ord(c) == 127) or ord(c) > 127 and not readable
    return ''.join('\xef\xbf\xbd' if is_lost(c) else c for c in text)


def fraction_text(number):
    return str(number.numerator) if number.denominator == 1 else f'{number.numerator}/{number.denominator}'


def sum_text(numbers):
    """The sum, as the page says it: added one after the other, over the least common denominator, within 128 bits."""
    total = Fraction(0)
    for number in numbers:
        below = math.lcm(total.denominator, number.denominator)
        parts = [x.numerator * (below // x.denominator) for x in (total, number)]
        if max(map(abs, [*parts, sum(parts), below])) >= 2 ** 127:
            return 'past 128 bits'
        total += number
    return fraction_text(total)


def printed(text):
    """The number within 128 bits of which this text is the one printed spelling; None where it is that of none."""
    found = re.fullmatch('(-?[0-9]{1,39})(?:/([0-9]{1,39}))?', text)
    if not found or found[2] and not int(found[2]):
        return None
    number = Fraction(int(found[1]), int(found[2] or 1))
    is_small = max(abs(number.numerator), number.denominator) < 2 ** 127
    return number if is_small and fraction_text(number) == text else None


def bin_of(lows, width, number):
    """Which of the bins of this width, which begin at these numbers, has the number; None where none has it."""
    if abs(number.numerator) > MOST_BINNED or not lows or not lows[0] <= number < lows[-1] + width:
        return None
    return max(i for i, low in enumerate(lows) if low <= number)


class Edit:
    """The files of an edit, read by another reader than the program's."""

    def __init__(self, rules, records, released, reasons):
        read = lambda name: open(name, 'rb').read()
        self.survey = rule_language.read_rules(read(rules))
        header, self.texts, self.rows = rule_language.read_records(self.survey, read(records))
        new_header, self.new_texts, self.new_rows = rule_language.read_records(self.survey, read(released))
        self.columns = [header.index(field.name) for field in self.survey.fields]
        self.new_columns = [new_header.index(field.name) for field in self.survey.fields]
        for texts, row in zip(self.new_texts, self.new_rows):
            for f, field in enumerate(self.survey.fields):
                if field.is_num and row[f] is None:
                    row[f] = printed(texts[self.new_columns[f]])
        lines = list(csv.reader(open(reasons, encoding='latin-1', newline='')))
        assert lines[0] == HEADER, lines[0]
        self.changes = [line for line in lines[1:] if line[1] == 'changed']
        self.left_out = [line for line in lines[1:] if line[1] != 'changed']
        gone = {int(line[0]) for line in self.left_out}
        self.kept = [number for number in range(len(self.rows)) if number + 1 not in gone]
        assert len(self.kept) == len(self.new_rows), 'the released file has another number of rows'

    # ---- what each table of the page has to say, without its head

    def records(self):
        changed = len({line[0] for line in self.changes})
        causes = Counter(line[1] for line in self.left_out)
        counts = [('clean', len(self.rows) - changed - len(self.left_out)), ('changed', changed)]
        return [[name, str(count)] for name, count in counts + [(it, causes[it]) for it in CAUSES if causes[it]]]

    def fields(self):
        counts = [Counter(line[6] for line in self.changes if line[2] == field.name) for field in self.survey.fields]
        order = sorted(range(len(counts)), key=lambda f: -sum(counts[f].values()))
        return [[self.survey.fields[f].name, *(str(counts[f][how]) for how in ('donor', 'nearest', 'default')), str(sum(counts[f].values()))]
                for f in order]

    def rules(self):
        texts = rule_language.print_rules(self.survey).split('\n')[len(self.survey.fields):]
        counts = []
        for rule in self.survey.rules:
            reads = set()
            for test in [*rule.conditions, rule.conclusion]:
                reads |= {test[1]} if test[0] == 'codes' else set(test[1])
            untried = sum(any(row[f] is None for f in reads) for row in self.rows)
            broken = sum(all(row[f] is not None for f in reads) and not rule_language.holds(rule, row) for row in self.rows)
            counts.append((broken, untried))
        order = sorted(range(len(counts)), key=lambda i: -counts[i][0])
        return [[f'{i + 1}: {texts[i]}', str(counts[i][0]), str(counts[i][1]), str(sum(counts[i]))] for i in order]

    def weight_of(self):
        weights = {field.name: field.weight for field in self.survey.fields}
        total = Counter()
        for line in self.changes:
            total[int(line[0])] += weights[line[2]]
        return total

    def weights(self):
        return [[str(weight), str(count)] for weight, count in sorted(Counter(self.weight_of().values()).items())]

    def greatest(self):
        rows, weights, place = [], self.weight_of(), {number: k for k, number in enumerate(self.kept)}
        for number in sorted(weights, key=lambda n: (-weights[n], n))[:20]:
            for line in self.changes:
                if int(line[0]) == number:
                    f = self.survey.index[line[2]]
                    rows.append([str(number), str(weights[number]), line[2], self.texts[number - 1][self.columns[f]],
                                 self.new_texts[place[number - 1]][self.new_columns[f]]])
        return rows

    def donors(self):
        gave = Counter(donor for _, donor in {(line[0], line[5]) for line in self.changes if line[5]})
        return [[str(times), str(count)] for times, count in sorted(Counter(gave.values()).items())]

    def columns_of(self, f):
        return [self.rows[number][f] for number in self.kept], [row[f] for row in self.new_rows]

    def codes(self, f):
        before, after = map(Counter, self.columns_of(f))
        names = self.survey.fields[f].codes
        return [[name, str(before[c]), str(after[c])] for c, name in [*enumerate(names), (None, 'no value')]]

    def numbers(self, f):
        return [[x for x in column if x is not None] for column in self.columns_of(f)]

    def totals(self, f):
        before, after = self.columns_of(f)
        return [['sum', *map(sum_text, self.numbers(f))], ['no value', str(before.count(None)), str(after.count(None))]]

    def binned(self, f, lows):
        """For both columns how many numbers are in each of the bins that begin at these numbers, and in none of them (None)."""
        lows = [Fraction(low) for low in lows]
        widths = {b - a for a, b in zip(lows, lows[1:])}
        assert len(lows) <= 20 and len(widths) <= 1, f'bins of {self.survey.fields[f].name} are not of one width'
        columns = self.numbers(f)
        # (a bin that is alone has the least width)
        width = next(iter(widths), 1 if all(x.denominator == 1 for column in columns for x in column) else Fraction(1, 1000))
        return [Counter(bin_of(lows, width, x) for x in column) for column in columns]

    def beyond(self, f, lows):
        counts = [column[None] for column in self.binned(f, lows)]
        has_great = any(abs(x.numerator) > MOST_BINNED for column in self.numbers(f) for x in column)
        assert has_great or not any(counts), f'bins of {self.survey.fields[f].name} leave numbers out'
        return ['in no bin', *map(str, counts)]

    def bins(self, f, lows):
        """The counts over the bins that begin at these numbers."""
        before, after = self.binned(f, lows)
        return [[str(before[i]), str(after[i])] for i in range(len(lows))]


def main():
    *files, page = sys.argv[1:]
    if len(files) != 4:
        sys.exit(__doc__)
    edit, tables = Edit(*files), Tables()
    tables.feed(open(page, encoding='latin-1').read())
    found, wrong, cells = tables.tables, 0, 0
    wanted = [('Records by what became of them', edit.records()), ('Changes of each field', edit.fields()), ('Records that broke each rule', edit.rules()),
              ('Changed records by the weight of their changes', edit.weights()), ('The twenty records whose changes weigh most', edit.greatest()),
              ('Donors by how many records they gave to', edit.donors())]
    for f, field in enumerate(edit.survey.fields):
        caption = f'Values of {field.name}'
        if field.codes is not None:
            wanted.append((caption, edit.codes(f)))
            continue
        lows = [row[0] for row in found.get(caption, [[]])[1:]]
        wanted.append((caption, [[low, *counts] for low, counts in zip(lows, edit.bins(f, lows))]))
        wanted.append((f'{caption}, totals', [*edit.totals(f), edit.beyond(f, lows)]))
    for caption, rows in wanted:
        rows = [[shown(cell) for cell in row] for row in rows]
        if caption not in found:
            print(f'{caption}: the page has no such table')
            wrong += 1
            continue
        cells += sum(map(len, rows))
        if found[caption][1:] != rows:
            at = next((i for i, (a, b) in enumerate(zip(found[caption][1:], rows)) if a != b), min(len(rows), len(found[caption]) - 1))
            print(f'{caption}, row {at + 1}: the page has {found[caption][1:][at:at + 1]}, and the files {rows[at:at + 1]}')
            wrong += 1
    for caption in found.keys() - {caption for caption, _ in wanted}:
        print(f'{caption}: nobody asked for this table')
        wrong += 1
    print(f'tables {len(wanted)} cells {cells} wrong {wrong}')
    return 1 if wrong else 0


if __name__ == '__main__':
    sys.exit(main())
