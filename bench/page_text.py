#!/usr/bin/env python3
"""Writes the page of an edit by another hand than the program's, from docs/page.md, to be compared with the program's byte for byte.

usage: bench/page_text.py RULES RECORDS RELEASED REASONS STYLE >PAGE

STYLE is a page of the program's, of which the style sheet is taken. What is counted is counted by bench/page_counts.py.
"""
import sys

from page_counts import Edit, shown

TOP = 2 ** 64 - 1
COLOURS = ['first', 'second', 'third', 'fourth']


# ---- markup: texts are bytes, read as latin-1

def escaped(text):
    entities = {'&': '&amp;', '<': '&lt;', '>': '&gt;', '"': '&quot;', "'": '&#39;'}
    return ''.join(entities.get(c, c) for c in shown(text))


def given(attributes):
    return ''.join(f' {name}="{escaped(str(value))}"' for name, value in attributes)


def holds(tag, attributes, *inside):
    return f'<{tag}{given(attributes)}>{"".join(inside)}</{tag}>'


def void(tag, attributes):
    return f'<{tag}{given(attributes)} />'


def words(tag, attributes, text):
    return holds(tag, attributes, escaped(str(text)))


# ---- tables

def table(caption, columns, rows):
    """A table; a cell that is an int is a number, any other a text. The first cell of a row is its head."""
    head = holds('thead', [], holds('tr', [], *(words('th', [('scope', 'col')], column) for column in columns)))
    body = ''
    for first, *rest in rows:
        cells = [words('td', [('class', 'number')] if isinstance(cell, int) else [], cell) for cell in rest]
        body += holds('tr', [], words('th', [('scope', 'row')], first), *cells)
    return holds('div', [('class', 'table')], holds('table', [], words('caption', [], caption), head, holds('tbody', [], body)))


# ---- pictures

def total(parts):
    return min(sum(parts), TOP)


def scaled(most, greatest, value):
    return 0 if value == 0 else max(min(value * most // max(greatest, 1), most), 1)


def label(most, text):
    if len(text) <= most:
        return escaped(text)
    end = most - 1
    while end and 128 <= ord(text[end]) < 192:
        end -= 1
    return escaped(text[:end]) + '\xe2\x80\xa6'


def text_at(x, y, anchor):
    return [('x', x), ('y', y), ('text-anchor', anchor)]


def rectangle(series, x, y, width, height):
    return void('rect', [('class', COLOURS[series % 4]), ('x', x), ('y', y), ('width', width), ('height', height)])


def line(kind, x1, y1, x2, y2):
    return void('line', [('class', kind), ('x1', x1), ('y1', y1), ('x2', x2), ('y2', y2)])


def drawing(number, title, description, view, *inside):
    names = words('title', [('id', f'title-{number}')], title) + words('desc', [('id', f'description-{number}')], description)
    attributes = [('role', 'img'), ('aria-labelledby', f'title-{number} description-{number}'), ('viewBox', view)]
    return holds('svg', attributes, names, *inside)


def lying(number, title, description, greatest, bars):
    out = ''
    for place, (name, parts) in enumerate(bars):
        y, x, inside = 26 * place, 224, ''
        for series, part in enumerate(parts):
            width = scaled(480, max(greatest, total(parts)), part)
            inside += rectangle(series, x, y + 4, width, 18)
            x += width
        out += holds('g', [], words('title', [], name), holds('text', text_at(216, y + 18, 'end'), label(16, name)), holds('g', [], inside),
                     words('text', text_at(784, y + 18, 'end'), total(parts)))
    height = 26 * len(bars)
    return drawing(number, title, description, f'0 0 784 {height}', holds('g', [], out), line('axis', 224, 0, 224, height))


def upright(number, title, description, greatest, bins):
    pitch = min(max(640 // len(bins), 1), 80)
    width = max(pitch * 4 // 5 // max(max(len(parts) for _, parts in bins), 1), 1)
    step = 1 + (min(max(len(name) for name, _ in bins), 12) * 14 + 9) // pitch
    out = ''
    for place, (name, parts) in enumerate(bins):
        x = 88 + pitch * place
        bars = ''
        for series, part in enumerate(parts):
            height = scaled(240, greatest, part)
            bars += rectangle(series, x + width * series, 264 - height, width, height)
        tick = holds('text', text_at(x + pitch * 2 // 5, 288, 'middle'), label(12, name)) if place % step == 0 else ''
        out += holds('g', [], words('title', [], name), holds('g', [], bars), tick)
    level = lambda kind, count, y: holds('g', [], line(kind, 88, y, 784, y), words('text', text_at(80, y, 'end'), count))
    return drawing(number, title, description, '0 0 784 296', level('grid', greatest, 24), holds('g', [], out), level('axis', 0, 264))


def figure(draw, number, title, description, subject, series, bars):
    """A picture and the table of its numbers; bars are pairs of a name and its numbers."""
    reach = total if draw is lying else lambda parts: max(parts, default=0)
    if not bars:
        picture = words('p', [], 'nothing to show')
    else:
        key = lambda i: holds('svg', [('class', 'key'), ('viewBox', '0 0 16 16')], rectangle(i, 0, 0, 16, 16))
        picture = holds('p', [('class', 'legend')], *(holds('span', [], key(i), escaped(name)) for i, name in enumerate(series)))
        if len(bars) <= 64:
            picture += draw(number, title, description, max(reach(parts) for _, parts in bars), bars)
        else:
            first, rest = bars[:63], bars[63:]
            others = [min(sum(parts[i] for _, parts in rest), TOP) for i in range(max(len(parts) for _, parts in rest))]
            picture += words('p', [], 'The others are summed in one bar, which may not be to scale. The table has them one by one.')
            picture += draw(number, title, description, max(reach(parts) for _, parts in first), [*first, (f'{len(rest)} others', others)])
    totals = draw is lying and len(series) > 1
    rows = [[name, *parts, *([total(parts)] if totals else [])] for name, parts in bars]
    return holds('figure', [], words('figcaption', [], title), picture,
                 table(title, [subject, *series, *(['total'] if totals else [])], rows))


# ---- the page

def section(heading, note, *inside):
    return holds('section', [], words('h2', [], heading), words('p', [('class', 'note')], note), *inside)


def thousandths(number):
    return number.numerator * 1000 // number.denominator if abs(number.numerator) <= 10 ** 33 else None


def decimal(t):
    size = abs(t)
    rest = f'{size % 1000:03}'.rstrip('0')
    return ('-' if t < 0 else '') + str(size // 1000) + ('.' + rest if rest else '')


def bins_of(columns):
    """Where the bins begin, and their width: the least of 1, 2, 5, 10, .. thousandths, at least 1000 where all numbers are whole, of which
    20 reach over the least and the greatest number of each column, so far as these have thousandths."""
    columns = [[x for x in column if x is not None] for column in columns]
    numbers = [x for column in columns for x in column]
    marks = [t for column in columns if column for t in map(thousandths, (min(column), max(column))) if t is not None]
    if not marks:
        return None
    least, greatest = min(marks), max(marks)
    unit = 1000 if all(x.denominator == 1 for x in numbers) else 1
    for step in range(120):
        width = (1, 2, 5)[step % 3] * 10 ** (step // 3)
        if width >= unit and greatest // width - least // width + 1 <= 20:
            return least // width * width, width, greatest // width - least // width + 1


def values(edit, f, field):
    columns = edit.columns_of(f)
    heading, title = words('h3', [], field.name), f'Values of {field.name}'
    if field.codes is not None:
        bars = [(name, [int(before), int(after)]) for name, before, after in edit.codes(f)]
        said = 'Two upright bars for each code: how many values it had before, and how many it has after.'
        return heading + figure(upright, 10 + f, title, said, 'code', ['before', 'after'], bars)
    bins, bars, beyond = bins_of(columns), [], []
    for column in columns:
        marks = [thousandths(x) for x in column if x is not None]
        counts = [0] * (bins[2] if bins else 0)
        for t in marks:
            if bins and t is not None and 0 <= (t - bins[0]) // bins[1] < bins[2]:
                counts[(t - bins[0]) // bins[1]] += 1
        bars.append(counts)
        beyond.append(len(marks) - sum(counts))
    names = [decimal(bins[0] + i * bins[1]) for i in range(bins[2])] if bins else []
    said = 'Two upright bars for each bin: how many values were in it before, and how many are after. A bin is named by its lower end.'
    total, none = edit.totals(f)
    rows = [total, ['no value', *map(int, none[1:])], ['in no bin', *beyond]]
    return (heading + figure(upright, 10 + f, title, said, 'from', ['before', 'after'], [(n, [a, b]) for n, a, b in zip(names, *bars)])
            + table('Totals', ['', 'before', 'after'], rows))


def counted(rows, numbers=1):
    return [(row[0], [int(count) for count in row[1:1 + numbers]]) for row in rows]


def page(edit, style):
    records = counted(edit.records())
    clean, changed = records[0][1][0], records[1][1][0]
    summary = f'{len(edit.rows)} records: {clean} clean, {changed} changed, {len(edit.left_out)} left out.'
    head = holds('head', [], void('meta', [('charset', 'utf-8')]),
                 void('meta', [('name', 'viewport'), ('content', 'width=device-width, initial-scale=1')]),
                 words('title', [], 'What an edit changed'), style)
    greatest = [[int(row[0]), int(row[1]), *row[2:]] for row in edit.greatest()]
    main = holds(
        'main', [],
        section('Records', 'A record that is neither clean nor changed was left out, for the cause that is named.',
                figure(lying, 1, 'Records by what became of them',
                       'A bar for the clean records, one for the changed ones, and one for each cause by which records were left out.',
                       'record', ['records'], records)),
        section('Fields', 'A new value is that of a donor, or the nearest to it, or to 0, that the rules allow, or 0 or the first code.',
                figure(lying, 2, 'Changes of each field',
                       'A bar for each field, that with the most changes first, in parts by how the new values were found.',
                       'field', ['from a donor', 'nearest allowed', 'default'], counted(edit.fields(), 3))),
        section('Rules', 'A rule is not tried at a record without a value in a field that the rule reads, or where a number leaves 128 bits. '
                'All records count as they came.',
                figure(lying, 3, 'Records that broke each rule',
                       'A bar for each rule, that which most records broke first: how many broke it, and at how many it was not tried.',
                       'rule', ['broken', 'not tried'], counted(edit.rules(), 2))),
        section('Weights of changes', 'What the changes of a record weigh is the sum of the weights of its changed fields.',
                figure(upright, 4, 'Changed records by the weight of their changes',
                       'An upright bar for each weight that occurs: how many changed records have it.', 'weight', ['records'],
                       counted(edit.weights()))),
        section('Values before and after', 'The released records alone, as they came and as they were released.',
                *(values(edit, f, field) for f, field in enumerate(edit.survey.fields))),
        section('Greatest changes', 'A row for each changed field, with the bytes that were read and those that were released.',
                table('The twenty records whose changes weigh most', ['record', 'weight', 'field', 'before', 'after'], greatest)),
        section('Donors', 'A donor is a record that gave values to others.',
                figure(upright, 5, 'Donors by how many records they gave to',
                       'An upright bar for each number of records given to: how many donors gave to so many.', 'given to', ['donors'],
                       counted(edit.donors()))))
    header = holds('header', [], words('h1', [], 'What an edit changed'), words('p', [], summary))
    return f'<!DOCTYPE html>\n<html lang="en">\n{head}{holds("body", [], header, main)}\n</html>\n'


def main():
    *files, style = sys.argv[1:]
    if len(files) != 4:
        sys.exit(__doc__)
    text = open(style, encoding='latin-1', newline='').read()
    style = text[text.index('<style>'):text.index('</style>') + len('</style>')]
    sys.stdout.buffer.write(page(Edit(*files), style).encode('latin-1'))


if __name__ == '__main__':
    main()
