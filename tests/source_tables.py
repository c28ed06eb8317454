#!/usr/bin/env python3
"""The tables of source 000, and what document 01's rules make of them.

  source_tables.py              says whether tests/paper/expected.txt is what this program makes of tests/paper/tables.txt
  source_tables.py --write      writes it
  source_tables.py --scan FILE  says whether the tables are what FILE has, the scan of the paper as text

It shares nothing with the Rattle code and with the other programs of these tests but document 01, with document 02's thin
soils, modified index and trace rain, and the tables: a reading, one month of water, one month of spells and hindsight are
written here from the documents' words, over whole numbers and fractions. tests/station.py holds readings and their kinds,
months of thin soils, and both indexes, to the same reckoning, and tests/repairs.py repaired months: each repair is a run
over the corrected months, reckoned from its first.
"""
import functools
import os
import re
import sys
from fractions import Fraction

import stored

PAPER = os.path.join(stored.TOP, 'tests', 'paper')
TABLES = os.path.join(PAPER, 'tables.txt')
EXPECTED = os.path.join(PAPER, 'expected.txt')
MONTHS = 'Jan Feb Mar Apr May Jun Jul Aug Sep Oct Nov Dec'.split()


# ---- the paper's tables

class Table:
    """A table of tests/paper/tables.txt: its columns' names, and its rows as they stand, by year, month or both."""

    def __init__(self, columns):
        self.columns = columns
        self.keys = sum(name in ('year', 'month') for name in columns)
        self.rows = {}

    def add(self, cells):
        key = tuple(MONTHS.index(cell) + 1 if cell in MONTHS else int(cell) for cell in cells[:self.keys])
        assert len(cells) == len(self.columns) and key not in self.rows, cells
        self.rows[key if len(key) > 1 else key[0]] = dict(zip(self.columns[self.keys:], cells[self.keys:]))

    def of(self, when):
        """A month's row, its figures in hundredths, None where there is none."""
        return {name: None if cell == '-' else scaled(cell, 2) for name, cell in self.rows[when].items()}

    def month(self, when):
        """A month's figure in hundredths, in a table that has a row a year."""
        return self.of(when[0])[MONTHS[when[1] - 1]]

    def constants(self, month):
        """Alpha, beta, gamma, delta and K, in ten-thousandths."""
        return [scaled(self.rows[month][name], 4) for name in ('alpha', 'beta', 'gamma', 'delta', 'K')]


def read_tables():
    """The tables by their names, the words in the brackets."""
    found, name = {}, None
    with open(TABLES) as f:
        for line in f:
            heading = re.match(r'\[(.*?)\]', line)
            if line.startswith('#') or not line.strip():
                continue
            if heading:
                name = heading[1]
            elif name not in found:
                found[name] = Table(line.split())
            else:
                found[name].add(line.split())
    return found


def scaled(text, places):
    """'-.47' as -47 at two places: no float on the way."""
    sign, digits = (-1, text[1:]) if text.startswith('-') else (1, text)
    whole, _, part = digits.partition('.')
    assert len(part) <= places
    return sign * int((whole or '0') + part.ljust(places, '0'))


def months(year, month, count):
    return [(year + (month - 1 + i) // 12, (month - 1 + i) % 12 + 1) for i in range(count)]


PRINTED = read_tables()


# ---- document 01's rules

def nearest(n, d):
    """The nearest whole number to n / d, halves away from zero."""
    q = (2 * abs(n) + d) // (2 * d)
    return q if n >= 0 else -q


def binary32(decimal):
    """The binary32 number nearest to a decimal that is not negative, of two as near the even one."""
    x = Fraction(decimal)
    # what its last binary digit counts: of 24, or of less where it is small
    place = Fraction(2) ** max(-149, x.numerator.bit_length() - x.denominator.bit_length() - 24)
    if x >= place * 2 ** 24:
        place *= 2
    return round(x / place) * place


NONE, TRACE, MEASURED = range(3)


@functools.lru_cache(None)
def reading(word, unit):
    """What a station file has for a reading, in thousandths of an inch, and its kind: T is a trace, and so is a number
    above zero whose nearest thousandth is 0."""
    if word == 'T':
        return 0, TRACE
    x = binary32(word) * {'inches': 1000, 'millimetres': Fraction(5000, 127)}[unit]
    n = nearest(x.numerator, x.denominator)
    return n, MEASURED if n > 0 else TRACE if x > 0 else NONE


def water(capacity, surface, underlying, p, pe, alpha, beta, gamma, delta, k):
    m = {}
    if p < pe:
        m['Ls'] = min(surface, pe - p)
        m['Lu'] = min(underlying, nearest((pe - p - m['Ls']) * underlying, capacity))
        m['ET'] = p + m['Ls'] + m['Lu']
        first = second = m['RO'] = 0
    else:
        m['Ls'] = m['Lu'] = 0
        m['ET'] = pe
        holds = min(1000, capacity)
        first = min(p - pe, holds - surface)
        second = min(p - pe - first, capacity - holds - underlying)
        m['RO'] = p - pe - first - second
    m['R'] = first + second
    m['Ss'] = surface - m['Ls'] + first
    m['Su'] = underlying - m['Lu'] + second
    m['PR'] = capacity - surface - underlying
    m['PRO'] = surface + underlying
    pls = min(pe, surface)
    m['PL'] = pls + min(underlying, nearest((pe - pls) * underlying, capacity))
    n = alpha * pe + beta * m['PR'] + gamma * m['PRO'] - delta * m['PL']
    m['CAFEC'] = nearest(n, 10000)
    m['Z'] = nearest(k * (10000 * p - n), 100000000)
    m['parts'] = [nearest(x, 10000) for x in (alpha * pe, beta * m['PR'], gamma * m['PRO'], delta * m['PL'])]
    m['d'] = p - m['CAFEC']
    return m


def shown(row):
    """X3 if nonzero, else the larger in size of X1 and X2, X2 on a tie."""
    return row['X3'] or (row['X1'] if row['X1'] > -row['X2'] else row['X2'])


def step(run, z):
    """One month of spells: the figures after it, and with which of X1, X2, X3 it decides, or None."""
    row, decides = spells(run, z)
    return dict({'modified': shown(row)}, **row), decides


def spells(run, z):
    """The same, without the modified index but where a spell abates."""
    x1, x2, x3, v = run['X1'], run['X2'], run['X3'], run['V']

    def following(x):
        return nearest(2691 * x + 1000 * z, 3000)

    up, down = max(0, following(x1)), min(0, following(x2))
    percent = 0
    if abs(x3) > 500:
        side = 1 if x3 < 0 else -1
        u = side * z + 150
        total = u + side * v
        e = -2691 * side * x3 - 1500000
        if total <= 0:
            return {'X1': 0, 'X2': 0, 'X3': following(x3), 'V': 0, 'percent': 0}, 'X3'
        if 1000 * u < e:
            q, x3 = e + 1000 * side * v, following(x3)
            chance = min(99, max(1, nearest(100000 * total, q)))
            mixed = nearest((q - 1000 * total) * x3 + 1000 * total * (up if side > 0 else down), q)
            return {'X1': up, 'X2': down, 'X3': x3, 'V': side * total, 'percent': chance, 'modified': mixed}, None
        percent = 100
    none = {'X1': 0, 'X2': 0, 'V': 0, 'percent': percent}
    if up >= 1000:
        return dict(none, X3=up), 'X1'
    if down <= -1000:
        return dict(none, X3=down), 'X2'
    left = {'X1': up, 'X2': down, 'X3': 0, 'V': 0, 'percent': percent}
    return left, 'X2' if up == 0 else 'X1' if down == 0 else None


def series(run, anomalies):
    """The months' figures, with the index X that hindsight gives each, and whether it is settled."""
    rows = []
    for z in anomalies:
        run, decides = step(run, z)
        rows.append((run, decides))
    for i, (row, decides) in enumerate(rows):
        at = next((j for j in range(i, len(rows)) if rows[j][1]), None)
        row['settled'] = at is not None
        if at is None:
            row['X'] = shown(row)
        elif rows[at][1] == 'X3' or (at == i and row['X3'] != 0):
            row['X'] = row['X3']
        else:
            sides = ['X1' if r['X1'] else 'X2' for r, _ in rows[i:at] if (r['X1'] != 0) != (r['X2'] != 0)]
            row['X'] = row[sides[0] if sides else rows[at][1]]
    return [row for row, _ in rows]


# ---- the comparison

class Run:
    def __init__(self, name):
        self.name, self.lines, self.compared, self.agree, self.sign = name, [], 0, 0, 0

    def hold(self, when, figure, printed, ours, allowed):
        """`printed` in hundredths, `ours` in thousandths."""
        self.compared += 1
        if abs(10 * printed - ours) <= allowed:
            self.agree += 1
            return
        turned = abs(10 * printed + ours) <= allowed
        self.sign += turned
        line = '%s %d %d %s %s %s' % (self.name, *when, figure, amount(10 * printed), amount(ours))
        self.lines.append(line + (' sign' if turned else ''))

    def text(self):
        last = '%s: %d compared, %d agree, %d but for the sign' % (self.name, self.compared, self.agree, self.sign)
        return '\n'.join(self.lines + [last]) + '\n'


def amount(n):
    return '%s%d.%03d' % ('-' if n < 0 else '', abs(n) // 1000, abs(n) % 1000)


IOWA_MONTHS = months(1933, 1, 36)
YEARS_1932 = months(1932, 6, 36)
YEARS_1888 = months(1888, 4, 40)
FRESH = {'X1': 0, 'X2': 0, 'X3': 0, 'V': 0}


def iowa_water(chained):
    run = Run('table 1, chained' if chained else 'table 1, one month')
    allowed = 30 if chained else 10
    constants, d = PRINTED['table 3, central Iowa'], PRINTED['table 6, central Iowa']
    surface, underlying = 1000, 9000
    anomalies = []
    for when in IOWA_MONTHS:
        row = PRINTED['table 1, central Iowa'].of(when)
        m = water(10000, surface, underlying, 10 * row['P'], 10 * row['PE'], *constants.constants(when[1]))
        ours = dict(m, dSs=m['Ss'] - surface, dSu=m['Su'] - underlying, S=m['Ss'] + m['Su'], L=m['Ls'] + m['Lu'])
        for figure in 'dSs dSu Ss Su S PR R PL L ET RO'.split():
            run.hold(when, figure, row[figure], ours[figure], allowed)
        run.hold(when, 'd', d.month(when), m['d'], allowed)
        anomalies.append(m['Z'])
        surface, underlying = (m['Ss'], m['Su']) if chained else (10 * row['Ss'], 10 * row['Su'])
    return run, anomalies


def iowa_spells(anomalies):
    run = Run('1933 to 1935')
    x = PRINTED['table 16, central Iowa']
    for when, row in zip(IOWA_MONTHS, series(dict(FRESH, X3=10 * x.month((1932, 12))), anomalies)):
        run.hold(when, 'X', x.month(when), row['X'], 20)
    return run


def kansas_water(chained):
    run = Run('table 4, chained' if chained else 'table 4, one month')
    allowed = 30 if chained else 10
    constants = PRINTED['table 3, western Kansas']
    rows = [PRINTED['table 4, western Kansas'].of(when) for when in YEARS_1932]
    surface, underlying = 0, 10 * rows[0]['PRO']
    for i, (when, row) in enumerate(zip(YEARS_1932, rows)):
        m = water(6000, surface, underlying, 10 * row['P'], 10 * row['PE'], *constants.constants(when[1]))
        parts = zip(('alpha PE', 'beta PR', 'gamma PRO', 'delta PL'), ('alpha_PE', 'beta_PR', 'gamma_S', 'delta_PL'), m['parts'])
        ours = [('PR', row['PR'], m['PR']), ('PL', row['PL'], m['PL'])]
        ours += [(name, row[column], part) for name, column, part in parts]
        ours += [(name, row[name], m[name]) for name in ('CAFEC', 'd', 'Z')]
        if i + 1 < len(rows):
            ours.append(('S', rows[i + 1]['PRO'], m['Ss'] + m['Su']))
        for figure, printed, n in ours:
            run.hold(when, figure, printed, n, allowed)
        surface, underlying = m['Ss'], m['Su']
        if not chained and i + 1 < len(rows):
            surface = min(surface, 10 * rows[i + 1]['PRO'])
            underlying = 10 * rows[i + 1]['PRO'] - surface
    return run


def told(when):
    """What is printed of a month's spells, in hundredths, by figure."""
    text = PRINTED['text, western Kansas']
    found = text.of(when) if when in text.rows else {}
    return {**found, 'X': PRINTED['table 13, western Kansas'].month(when)}


def anomalies_1932():
    return [10 * PRINTED['table 4, western Kansas'].of(when)['Z'] for when in YEARS_1932]


def anomalies_1888():
    rows = [PRINTED['table 12, western Kansas'].of(when) for when in YEARS_1888]
    return [10 * (row['Z'] if row['restored'] is None else row['restored']) for row in rows]


def kansas_spells(name, when_all, start, anomalies):
    run = Run(name)
    for when, row in zip(when_all, series(start, anomalies)):
        printed = told(when)
        for figure in ('X1', 'X2', 'X3', 'percent', 'V', 'X'):
            ours = 10 * row[figure] if figure == 'percent' else row[figure]
            if printed.get(figure) is not None:
                run.hold(when, figure, printed[figure], ours, 10 if figure in ('percent', 'V') else 20)
    return run


def all_runs():
    one_month, _ = iowa_water(False)
    chained, anomalies = iowa_water(True)
    march = dict(FRESH, X1=10 * PRINTED['text, western Kansas'].of((1888, 3))['X1'])
    return [one_month, chained, iowa_spells(anomalies), kansas_water(False), kansas_water(True),
            kansas_spells('1932 to 1935', YEARS_1932, FRESH, anomalies_1932()),
            kansas_spells('1888 to 1891', YEARS_1888, march, anomalies_1888())]


def listing(runs):
    compared, agree, sign = (sum(getattr(run, name) for run in runs) for name in ('compared', 'agree', 'sign'))
    last = 'all: %d compared, %d agree, %d but for the sign, %d differ' % (compared, agree, sign, compared - agree - sign)
    return ''.join(run.text() for run in runs) + last + '\n'


# ---- the scan

def scanned(path):
    """The scan's tables: number, then part, year and month or what there is of them, then the figures as they stand."""
    found, table, part, year = {}, None, '', None
    with open(path) as f:
        for line in f:
            title = re.match(r'TABLE (\d+)', line)
            if title:
                table, part, year = found.setdefault(int(title[1]), {}), '', None
            cells = [cell for cell in re.sub(r'</?i>|[.-]{5}', ' ', line).split() if cell]
            if table is None or not cells:
                continue
            if line.strip() in ('WESTERN KANSAS', 'CENTRAL IOWA'):
                part = line.strip().lower()
            elif cells[0][:3] in MONTHS and len(cells) > 2:
                table.setdefault((part, year, MONTHS.index(cells[0][:3]) + 1), cells[1:])
            elif re.fullmatch(r'\d{4}', cells[0]):
                year = int(cells[0])
                table.setdefault((part, year), cells[1:])
    return found


def of_the_scan(name, scan):
    """How many rows of a table were held to the scan's; the columns that are left out of it stand first or last there."""
    number, place = re.fullmatch(r'table (\d+), (.*)', name).groups()
    for key, row in PRINTED[name].rows.items():
        part = place.lower() if number == '3' else ''
        year, month = key if isinstance(key, tuple) else (None, key) if number == '3' else (key, None)
        found = scan[int(number)].get((part, year) if month is None else (part, year, month))
        figures = list(row.values())[:1] if number == '12' else list(row.values())
        skipped = 1 if number == '1' else 0
        if found is None or found[skipped:skipped + len(figures)] != figures:
            sys.exit('%s, %s: the scan has %s' % (name, key, found))
    return len(PRINTED[name].rows)


def hold_to_scan(path):
    scan = scanned(path)
    names = [name for name in PRINTED if re.fullmatch(r'table \d+, (central Iowa|western Kansas)', name)]
    print('%d rows of %d tables are as the scan has them' % (sum(of_the_scan(name, scan) for name in names), len(names)))


def main(words):
    if words[:1] == ['--scan'] and len(words) == 2:
        return hold_to_scan(words[1])
    if words not in ([], ['--write']):
        sys.exit(__doc__)
    text = listing(all_runs())
    stored.settle({EXPECTED: text}, words == ['--write'])
    print('source tables: %s' % text.split('\n')[-2])


if __name__ == '__main__':
    main(sys.argv[1:])
