#!/usr/bin/env python3
"""The paper's constants worked out again by document 02's E10, beside those that it prints.

  round_trip.py              says whether tests/paper/round_trip.txt and tests/paper/constants.txt are what this program makes
  round_trip.py --write      writes them
  round_trip.py --record     prints the months of which the card's library must make tests/paper/constants.txt
  round_trip.py --scan FILE  says whether tests/paper/means.txt is what FILE has, the scan of the paper as text

1. Table 3's alpha to delta from table 2's means. 2. K from the D and K' of table 9, D from tables 5 and 6. 3. All sixty from
months: the paper's, which are too few, and months made from a seed, whose means are table 2's. What differs, docs/SOURCE.md
explains.

E10 is written here from its words, over whole numbers; equation (26), which is the paper's, needs a logarithm. The month of
water is that of source_tables.py.
"""
import math
import os
import re
import sys

import source_tables as source
import stored
from source_tables import MONTHS, nearest, scaled

MEANS = os.path.join(source.PAPER, 'means.txt')
TABLES_FOR_PEOPLE = os.path.join(source.PAPER, 'round_trip.txt')
CONSTANTS = os.path.join(source.PAPER, 'constants.txt')

SHARES = {'alpha': ('ET', 'PE'), 'beta': ('R', 'PR'), 'gamma': ('RO', 'S'), 'delta': ('L', 'PL')}
NAMES = [*SHARES, 'K']


# ---- the paper's means, sums and weights

def read_means():
    """The tables by their names, each with its cells as they stand, by figure and month."""
    found, columns = {}, None
    with open(MEANS) as f:
        for line in f:
            heading, words = re.match(r'\[(.*?)\]', line), line.split()
            if line.startswith('#') or not words:
                continue
            if heading:
                cells, columns = found.setdefault(heading[1], {}), None
            elif columns is None:
                columns = words[1:]
            else:
                for column, word in zip(columns, words[1:]):
                    cells[(column, words[0]) if words[0] in MONTHS else (words[0], column)] = word
    return found


PRINTED = read_means()


class Place:
    """A place whose means the paper prints: its tables 2 and 3, or its table 20."""

    def __init__(self, name, years, capacity, means, departures=None):
        self.name, self.years, self.capacity = name, years, capacity
        self.means = PRINTED['%s, %s' % (means, name)]
        self.weights = PRINTED['table 9, %s' % name]
        self.sums = departures and PRINTED['%s, sums, %s' % (departures, name)]
        self.departures = departures and source.PRINTED['%s, %s' % (departures, name)]

    def mean(self, figure, month):
        """In thousandths, a trace as 0."""
        word = self.means[figure, month]
        return 0 if word == 'T' else 10 * scaled(word, 2)

    def constant(self, name, month):
        """In ten-thousandths."""
        if (name, month) in self.means:
            return scaled(self.means[name, month], 4)
        return scaled(source.PRINTED['table 3, %s' % self.name].rows[MONTHS.index(month) + 1][name], 4)

    def departure(self, month):
        """D in thousandths: table 5's or 6's, from which the months are made."""
        return 10 * scaled(self.sums['D', month], 2)

    def first_weights(self):
        return [scaled(self.weights["K'", month], 4) for month in MONTHS]


KANSAS = Place('western Kansas', 71, 6000, 'table 2', 'table 5')
IOWA = Place('central Iowa', 27, 10000, 'table 2', 'table 6')
DAKOTA = Place('northwestern North Dakota', 30, 6000, 'table 20')


# ---- E10's arithmetic

def share(dividend, divisor):
    return nearest(10000 * dividend, divisor) if divisor else 0


def last_weights(departures, weights):
    """K of each month, None where the sum of D K' is 0."""
    total = sum(d * weight for d, weight in zip(departures, weights))
    return [nearest(176700000 * weight, total) for weight in weights] if total else None


class Row:
    """A month of water: P, its figures and potentials, and the storages that it leaves."""
    FIGURES = 'P PE ET R RO L PR S PL'.split()

    def __init__(self, capacity, surface, underlying, p, pe):
        m = source.water(capacity, surface, underlying, p, pe, 0, 0, 0, 0, 0)
        self.figures = dict(m, P=p, PE=pe, L=m['Ls'] + m['Lu'], S=m['PRO'])
        self.after = m['Ss'], m['Su']

    def n(self, shares):
        """N: CAFEC is the nearest to its ten-thousandth part."""
        pe, pr, pro, pl = (self.figures[name] for name in ('PE', 'PR', 'S', 'PL'))
        return shares[0] * pe + shares[1] * pr + shares[2] * pro - shares[3] * pl


def departure(rows, shares, rounded=True):
    """The mean size of P - CAFEC; of P - N / 10,000 where it is not to be rounded before."""
    if rounded:
        return nearest(sum(abs(row.figures['P'] - nearest(row.n(shares), 10000)) for row in rows), len(rows))
    return nearest(sum(abs(10000 * row.figures['P'] - row.n(shares)) for row in rows), 10000 * len(rows))


class WorkedOut:
    """What E10 answers: the number, and of each calendar month sums, constants and D."""

    def __init__(self, rows, calendar, weights, rounded=True):
        first = (13 - calendar) % 12
        self.years = max(0, len(rows) - first) // 12
        self.number = 18 if self.years < 10 else 0
        if self.number:
            return
        months = [rows[first + m:first + 12 * self.years:12] for m in range(12)]
        self.sums = [{name: sum(row.figures[name] for row in month) for name in Row.FIGURES} for month in months]
        shares = [[share(sums[a], sums[b]) for a, b in SHARES.values()] for sums in self.sums]
        self.departures = [departure(month, each, rounded) for month, each in zip(months, shares)]
        last = last_weights(self.departures, weights)
        if any(each[2] > 50000 for each in shares):
            self.number = 19
        elif last is None or max(last) > 100000:
            self.number = 20
        elif min(last) == 0:
            self.number = 21
        else:
            self.constants = [each + [k] for each, k in zip(shares, last)]

    def constant(self, name, month):
        return self.constants[MONTHS.index(month)][NAMES.index(name)]

    def lines(self, name):
        """The answer as tests/paper/constants.txt has it: of each month the five constants, D and the eight sums."""
        yield '%s: %d' % (name, self.number)
        if self.number == 0:
            for month, constants, d, sums in zip(MONTHS, self.constants, self.departures, self.sums):
                figures = [sums[figure] for pair in SHARES.values() for figure in pair]
                yield ' '.join(map(str, [month, *constants, d, *figures]))


# ---- 1. alpha to delta from means

def sums_with(word, years):
    """The sums in hundredths whose mean over so many years is printed as `word`, halves either way."""
    if word == 'T':
        return range(1, years // 2 + 1)
    mean = scaled(word, 2)
    return range(max(0, -(-(2 * mean - 1) * years // 2)), (2 * mean + 1) * years // 2 + 1)


def pairs(place, name, month):
    """The pairs of sums in hundredths that have the printed means and whose quotient is the printed coefficient."""
    dividends, divisors = (sums_with(place.means[figure, month], place.years) for figure in SHARES[name])
    return [(a, b) for b in divisors for a in dividends if share(a, b) == place.constant(name, month)]


def adding_up(place):
    """How many columns of table 2 add up to their printed sums, and in how many months S and PR make up the capacity."""
    columns = [column for row, column in place.means if row == 'sum' and place.means[row, column] != '-']
    right = [column for column in columns if sum(place.mean(column, month) for month in MONTHS) == 10 * scaled(place.means['sum', column], 2)]
    full = sum(place.mean('S', month) + place.mean('PR', month) == place.capacity for month in MONTHS)
    told = 'columns that add up to their printed sums: %d of %d; ' % (len(right), len(columns)) if columns else ''
    return told + 'S + PR is the capacity in %d of 12 months' % full


def of_means(place):
    lines, without, alone = ['%s, %d years' % (place.name, place.years)], [], []
    lines.append('month' + ''.join('%8s%8s%7s' % (name, 'means', 'pairs') for name in SHARES))
    for month in MONTHS:
        cells = []
        for name, (a, b) in SHARES.items():
            found = pairs(place, name, month)
            cells.append('%8d%8d%7d' % (place.constant(name, month), share(place.mean(a, month), place.mean(b, month)), len(found)))
            if not found:
                without.append('%s %s' % (month, name))
            if len(found) in (1, 2):
                alone.append('%s %s %s' % (month, name, ' or '.join('%s / %s' % tuple(source.amount(10 * n)[:-1] for n in pair) for pair in found)))
        lines.append('%-5s' % month + ''.join(cells))
    lines.append('%d of 48 are such a quotient; not: %s' % (48 - len(without), ', '.join(without) or 'none'))
    return lines + ['from one or two pairs alone: %s' % ('; '.join(alone) or 'none'), adding_up(place)]


# ---- 2. K from D and K'

def first_weight(figures, d):
    """K' by equation (26), in ten-thousandths, from means or sums and from D in inches."""
    demand, supply = (sum(figures[name] for name in names) for names in (('PE', 'R', 'RO'), ('P', 'L')))
    return round(10000 * (1.5 * math.log10((demand / supply + 2.8) / d) + 0.5))


def of_departures(place):
    """D of the scan's months, of the printed sums, and as printed; K' and K."""
    lines = ['%s, %d years' % (place.name, place.years)]
    lines.append("month  months    sums  table %s  table 9      K'    (26)  K by E10  table 9  table 3" % (5 if place is KANSAS else 6))
    printed = [10 * scaled(place.weights['D', month], 2) for month in MONTHS]
    last = last_weights(printed, place.first_weights())
    for m, month in enumerate(MONTHS):
        years = range(1958 - place.years, 1958)
        sizes = sum(abs(place.departures.month((year, m + 1))) for year in years)
        sums = sum(scaled(place.sums[side, month], 2) for side in ('above', 'below'))
        means = {name: place.mean(name, month) / 1000 for name in ('PE', 'R', 'RO', 'P', 'L')}
        figures = [nearest(10 * sizes, place.years), nearest(10 * sums, place.years), place.departure(month), printed[m],
                   place.first_weights()[m], first_weight(means, printed[m] / 1000), last[m],
                   scaled(place.weights['K', month], 4), place.constant('K', month)]
        lines.append('%-5s%8d%8d%9d%9d%8d%8d%10d%9d%9d' % (month, *figures))
    return lines


def of_table_9(name, cells):
    """How many of an area's K are as printed, and what the others are."""
    figures = {row: [scaled(cells[row, month], 2) for month in MONTHS] for row in ('D', "K'", 'K')}
    weights = [100 * weight for weight in figures["K'"]]
    total = sum(10 * d * weight for d, weight in zip(figures['D'], weights))
    others, beyond = [], 0
    for month, weight, k, printed in zip(MONTHS, weights, last_weights([10 * d for d in figures['D']], weights), figures['K']):
        if nearest(k, 100) == printed:
            continue
        # what K' of half a hundredth less and more gives
        low, high = (nearest(176700000 * (weight + half), total) for half in (-50, 50))
        inside = 100 * printed - 50 <= high and low <= 100 * printed + 50
        beyond += not inside
        others.append('%s %d for %d%s' % (month, k, 100 * printed, '' if inside else ' (beyond)'))
    head = "%s: sum of D K' %d.%04d, printed %s; %d of 12 K as printed" % (name, total // 10**7, total % 10**7 // 1000, cells["DK'", 'sum'], 12 - len(others))
    return head + ('; ' + ', '.join(others) if others else ''), 12 - len(others), beyond


def all_of_table_9():
    told = [of_table_9(name[len('table 9, '):], cells) for name, cells in PRINTED.items() if name.startswith('table 9, ')]
    as_printed, beyond = (sum(each[n] for each in told) for n in (1, 2))
    rest = 12 * len(told) - as_printed - beyond
    sums = [scaled(cells["DK'", 'sum'], 2) for name, cells in PRINTED.items() if name.startswith('table 9, ')]
    return [*(each[0] for each in told),
            "of %d K %d are as printed, %d within what K' to hundredths allows, %d beyond" % (12 * len(told), as_printed, rest, beyond),
            'mean of the %d printed sums: %s' % (len(sums), source.amount(nearest(10 * sum(sums), len(sums))))]


# ---- 3. months

class Draws:
    """Whole numbers from a seed: the upper half of a 64-bit linear congruence."""

    def __init__(self, seed):
        self.state = seed
        self.below(1)

    def below(self, n):
        self.state = (self.state * 6364136223846793005 + 1442695040888963407) % 2**64
        return (self.state >> 32) * n >> 32


def chance_below(mean, size):
    """With which chance, in ten-thousandths, an amount is below its mean."""
    return max(5500, -(-10000 * size // mean))


def amount(draws, mean, size, rank):
    """An amount with this mean whose mean size of departure from it is `size`: below the mean it lies evenly in one stretch,
    above it in another."""
    if mean == 0:
        return 0
    below = chance_below(mean, size)
    part = draws.below(10001) * size
    return mean - nearest(part, below) if rank < below else mean + nearest(part, 10000 - below)


class Record:
    """Months of a place, made from a seed."""

    def __init__(self, place, seed, years):
        draws, rank = Draws(seed), 0
        self.soil = place.capacity, place.mean('Ss', 'Jan'), place.mean('Su', 'Jan')
        storages, self.rows = self.soil[1:], []
        for month in MONTHS * years:
            if draws.below(10000) >= STAYS:
                rank = draws.below(10000)
            p = amount(draws, place.mean('P', month), P_PART * place.departure(month) // 100, rank)
            mean = place.mean('PE', month)
            pe = amount(draws, mean, min(PE_SIZE, 8 * mean // 10), draws.below(10000))
            self.rows.append(Row(place.capacity, *storages, p, pe))
            storages = self.rows[-1].after

    def worked_out(self, place, years, **rule):
        return WorkedOut(self.rows[:12 * years], 1, place.first_weights(), **rule)


SEED, SEEDS = 1965, range(1, 101)
FEW, ASKED = 9, (10, 30, 500)
# The mean size of P's departure from its mean, in hundredths of D: CAFEC's own spread comes to it. That of PE's, in
# thousandths, but at most 0.8 of the mean. The chance, in ten-thousandths, that P is drawn on the side of the month before.
P_PART, PE_SIZE, STAYS = 95, 300, 3000


def spread(values):
    """The standard deviation, nearest."""
    n = len(values)
    return (math.isqrt(4 * (n * sum(x * x for x in values) - sum(values)**2) // n**2) + 1) // 2


def spreads(place, records):
    """Of each constant and month the standard deviation over the records, at 10, 30 and the paper's years."""
    answers = [[record.worked_out(place, years) for years in (10, 30, place.years)] for record in records]
    return {(name, month): [spread([each[n].constant(name, month) for each in answers]) for n in range(3)] for name in NAMES for month in MONTHS}


def same_sign(departures):
    """Of how many pairs of months that follow one another, neither 0, both departures are above 0 or both below."""
    both = [a * b > 0 for a, b in zip(departures, departures[1:]) if a and b]
    return sum(both), len(both)


def own_weights(worked):
    """K' by equation (26) from a record's own sums."""
    return [first_weight(sums, d / 1000) for sums, d in zip(worked.sums, worked.departures)]


class Made:
    """A place's record with what E10 makes of it, and the tables that people read."""

    def __init__(self, place):
        self.place, self.record = place, Record(place, SEED, ASKED[-1])
        self.worked = {years: self.record.worked_out(place, years) for years in ASKED}
        records = [Record(place, seed, max(30, place.years)) for seed in SEEDS]
        self.spreads = spreads(place, records)
        self.rounding = [[each.worked_out(place, 10, rounded=rounded) for rounded in (True, False)] for each in records]

    def far(self):
        """The constants of which the longest record's differs from the printed one by more than two standard deviations of a
        record as long as the paper's."""
        longest = self.worked[ASKED[-1]]
        return [key for key in self.spreads if abs(longest.constant(*key) - self.place.constant(*key)) > 2 * self.spreads[key][2]]

    def table(self):
        place = self.place
        yield '%s, seed %d' % (place.name, SEED)
        yield 'constant  month  printed' + ''.join('%7d y' % years for years in ASKED) + '     sd 10    sd 30    sd %d' % place.years
        for name in NAMES:
            for month in MONTHS:
                worked = ''.join('%9d' % self.worked[years].constant(name, month) for years in ASKED)
                yield '%-8s  %-5s  %7d%s %9d%9d%9d' % (name, month, place.constant(name, month), worked, *self.spreads[name, month])

    def summary(self):
        """Of each constant the middle and the largest standard deviation, and K's in thousandths of the printed K."""
        place = self.place
        yield '%s: standard deviation at 10, 30 and %d years, of the twelve months the sixth smallest and the largest' % (place.name, place.years)
        for name in NAMES:
            lengths = [sorted(self.spreads[name, month][n] for month in MONTHS) for n in range(3)]
            yield '%-8s' % name + ''.join('%9d%7d' % (each[5], each[-1]) for each in lengths)
        parts = [nearest(1000 * self.spreads['K', 'Jan'][n], place.constant('K', 'Jan')) for n in range(3)]
        yield 'K of January in thousandths of the printed one: %d, %d, %d' % tuple(parts)

    def differences(self):
        """What is far from the printed constant, and in how many years its dividend is above 0."""
        place, longest, far = self.place, self.worked[ASKED[-1]], self.far()
        yield '%s: %d of 60 within two standard deviations' % (place.name, 60 - len(far))
        yield 'constant  month  printed  %4d y     sd %d   years' % (ASKED[-1], place.years)
        for name, month in far:
            dividend = SHARES[name][0] if name in SHARES else 'P'
            rows = self.record.rows[MONTHS.index(month)::12]
            years = sum(row.figures[dividend] > 0 for row in rows)
            yield '%-8s  %-5s  %7d%8d%10d%8d' % (name, month, place.constant(name, month), longest.constant(name, month), self.spreads[name, month][2], years)

    def weighing(self):
        """What K owes to D, to the weights and to the rounding of CAFEC."""
        place, longest = self.place, self.worked[ASKED[-1]]
        printed = sum(place.departure(month) * weight for month, weight in zip(MONTHS, place.first_weights()))
        made = sum(d * weight for d, weight in zip(longest.departures, place.first_weights()))
        own = last_weights(longest.departures, own_weights(longest))
        yield "%s, %d years: sum of D K' %d.%02d, of the printed D %d.%02d" % (place.name, ASKED[-1], *divmod(nearest(made, 100000), 100), *divmod(nearest(printed, 100000), 100))
        yield 'D                  ' + ' '.join('%6d' % d for d in longest.departures)
        yield 'D printed          ' + ' '.join('%6d' % place.departure(month) for month in MONTHS)
        yield "K by printed K'    " + ' '.join('%6d' % longest.constant('K', month) for month in MONTHS)
        yield "K by its own K'    " + ' '.join('%6d' % k for k in own)
        others = [max(abs(a[4] - b[4]) for a, b in zip(rounded.constants, unrounded.constants)) for rounded, unrounded in self.rounding]
        yield 'D from N and not from the rounded CAFEC, ten years: another K in %d of %d records, off by at most %d' % (sum(off > 0 for off in others), len(others), max(others))
        yield 'following months with P - CAFEC of one sign: %d of %d' % same_sign(self.signs())

    def signs(self):
        months = zip(self.record.rows, self.worked[ASKED[-1]].constants * ASKED[-1])
        return [row.figures['P'] - nearest(row.n(shares), 10000) for row, shares in months]


def table_months():
    """The months of tables 1 and 4, with their soils and calendar month: as they are chained in source_tables.py."""
    for place, name, whens, surface, underlying in ((IOWA, 'table 1', source.IOWA_MONTHS, 1000, 9000), (KANSAS, 'table 4', source.YEARS_1932, 0, 1330)):
        table = source.PRINTED['%s, %s' % (name, place.name)]
        months = [[10 * table.of(when)[figure] for figure in ('P', 'PE')] for when in whens]
        yield '%s, %s, %d months' % (place.name, name, len(months)), place, (place.capacity, surface, underlying), whens[0][1], months


def too_few():
    for name, place, (capacity, *storages), calendar, months in table_months():
        rows = []
        for p, pe in months:
            rows.append(Row(capacity, *storages, p, pe))
            storages = rows[-1].after
        yield name, WorkedOut(rows, calendar, place.first_weights())


# ---- what is stored, and what the card is given

def titled(title, *parts):
    return [title, *(line for part in parts for line in ['', *part])]


def for_people(made):
    few = ['%s: %d whole years, refused %d' % (name, worked.years, worked.number) for name, worked in too_few()]
    signs = [IOWA.departures.month(when) for when in source.months(1931, 1, 12 * IOWA.years)]
    few.append('central Iowa, table 6: following months with d of one sign: %d of %d' % same_sign(signs))
    parts = [
        titled("1. alpha to delta: as printed, from the printed means, and how many pairs of sums in hundredths with these means give it",
               *(of_means(place) for place in (KANSAS, IOWA, DAKOTA))),
        titled("2. D and K: D from the scan's months, from the printed sums, as printed; K' as printed and by equation (26); K",
               *(of_departures(place) for place in (KANSAS, IOWA)), all_of_table_9()),
        titled('3. From months: the tables, and months made from a seed, with the standard deviation over %d seeds' % len(SEEDS),
               few, *(list(part(each)) for part in (Made.table, Made.summary, Made.differences, Made.weighing) for each in made))]
    return '\n\n'.join('\n'.join(part) for part in parts) + '\n'


def for_the_card(made):
    lines = [line for name, worked in too_few() for line in worked.lines(name)]
    for each in made:
        for years in (FEW, *ASKED):
            lines += each.record.worked_out(each.place, years).lines('%s, %d years' % (each.place.name, years))
    return '\n'.join(lines) + '\n'


def started(soil, calendar, place):
    return ['start %d %d %d %d' % (*soil, calendar), 'weights ' + ' '.join(map(str, place.first_weights()))]


def record():
    """What tests/paper/constants.rs reads: runs, their months, and where the constants are asked for."""
    for name, place, soil, calendar, months in table_months():
        yield from started(soil, calendar, place)
        yield from ('add %d %d' % (p, pe) for p, pe in months)
        yield 'ask ' + name
    for place in (KANSAS, IOWA):
        made = Record(place, SEED, ASKED[-1])
        yield from started(made.soil, 1, place)
        for n, row in enumerate(made.rows, 1):
            yield 'add %d %d' % (row.figures['P'], row.figures['PE'])
            if n % 12 == 0 and n // 12 in (FEW, *ASKED):
                yield 'ask %s, %d years' % (place.name, n // 12)


# ---- the scan

def hold_to_scan(path):
    """Each row of the means is, in its order, the end of a line of the scan, after the table's title and the place's name."""
    with open(path) as f:
        scan = [(line.lower(), re.sub(r'</?i>|[.-]{5}|\$.*?\$', ' ', line).split()) for line in f]
    rows, at, head = 0, 0, False
    with open(MEANS) as f:
        for line in f:
            heading, words = re.match(r'\[table (\d+), (?:sums, )?(.*?)\]', line), [word for word in line.split()[1:] if word != '-']
            if heading:
                at = next(n for n, (text, _) in enumerate(scan) if text.startswith('table %s.' % heading[1]))
                at = next(n for n, (text, _) in enumerate(scan) if n >= at and heading[2].lower() in text)
            elif words and not line.startswith('#') and not head:
                at = next((n for n, (_, cells) in enumerate(scan) if n > at and cells[-len(words):] == words), None)
                if at is None:
                    sys.exit('the scan has no such row: %s' % line)
                rows += 1
            head = bool(heading)
    print('%d rows of means are as the scan has them' % rows)


def main(words):
    if words[:1] == ['--scan'] and len(words) == 2:
        return hold_to_scan(words[1])
    if words == ['--record']:
        return print('\n'.join(record()))
    if words not in ([], ['--write']):
        sys.exit(__doc__)
    made = [Made(place) for place in (KANSAS, IOWA)]
    stored.settle({TABLES_FOR_PEOPLE: for_people(made), CONSTANTS: for_the_card(made)}, words == ['--write'])
    far = sum(len(each.far()) for each in made)
    print('round trip: of 120 constants of %d years made from a seed %d are within two standard deviations of the paper' % (ASKED[-1], 120 - far))


if __name__ == '__main__':
    main(sys.argv[1:])
