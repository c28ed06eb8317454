#!/usr/bin/env python3
"""Runs the two station programs, host/station.c and host/station.rs, with --constants, on good, bad and damaged station
files with weights and with constants; and makes the sample that has weights.

  constants.py          says whether samples/thirty-years-station.txt is what this program makes, and runs the programs
  constants.py --write  writes it

Both must print the same on standard output and on standard error and end with the same status. What is printed of a file,
the years, the sums, D, K and the constants, or why they are refused, is asked whole: it is reckoned here from document 02's
words, over the month of water of tests/source_tables.py. Of a file that is no station file it is asked that the status is 1,
that standard output is empty, and that standard error is one closed line with the line and the column of the fault and the
words that tell it from the others. The constants that are printed are put into the file, which must then be one that the
programs add, with each month's P - CAFEC of the size that D is the mean of. It prints how many cases were run.

The programs are started as tests/station.py has it; over station_z.c months are added as a Z among the others.
"""
import os
import random
import sys
from collections import Counter

import round_trip
import running
import source_tables
import station
import stored
from station import CONSTANTS, DECEMBER, FIRST, JANUARY, MONTHS, MOST, agree, date, refused

CALENDAR = [b'January', b'February', b'March', b'April', b'May', b'June', b'July', b'August', b'September', b'October', b'November', b'December']
HEADING = b'constants alpha beta gamma delta K'
OPTION = ('--constants',)
COUNT = Counter()


# ---- the sample

SAMPLE = os.path.join(stored.TOP, 'samples', 'thirty-years-station.txt')
# Palmer's table 2, western Kansas: the means of P and of PE, January first, in hundredths of an inch; what the soil stores at
# the start of June; and the K' of his table 9.
MEAN_P, MEAN_PE = [[round_trip.KANSAS.mean(figure, month) // 10 for month in source_tables.MONTHS] for figure in ('P', 'PE')]
SOIL = (6000, *(round_trip.KANSAS.mean(figure, 'Jun') for figure in ('Ss', 'Su')))
WEIGHTS = round_trip.KANSAS.first_weights()
HEAD = """\
# A station file whose constants are lost: June 1930 to December 1960, thirty whole years and seven months before them.
# host/constants works the constants out of it.
#
# The months are made up. tests/constants.py draws them from a seed about the means of precipitation and PE that Palmer,
# Meteorological Drought (1965), has for western Kansas in table 2; the storages at the start are its means for June. The
# weights are the K' of his table 9, so that what is worked out comes near his constants for western Kansas, table 3.
#
# The format is that of western-kansas-station.txt, whose head has it, but that in the place of its constants stand
#
#   weights                              this word: the constants are lost, and first weights stand here
#   January 22500                        and so on to December, in whole ten-thousandths: 0 to 100000
#
# A weight of 0 is a number, but comes to no K. Only host/constants takes such a file: with the last thirteen lines that it
# prints in the place of the thirteen of the weights, the file is one for host/station.
"""


def drawn(seed, first, count):
    """So many months from one on, counted as station.date has them: each with its P and its PE, in hundredths. Nothing but
    random() is asked of the generator, which gives the same numbers always."""
    draw = random.Random(seed).random
    months, wet = [], draw()
    for when in range(first, first + count):
        wet = draw() if when % 12 == 0 else wet
        p = MEAN_P[when % 12] * 1.5 * (draw() ** 2 + draw() ** 2) * (0.7 + 0.6 * wet)
        months.append((when, int(p + 0.5), int(MEAN_PE[when % 12] * (0.8 + 0.4 * draw()) + 0.5)))
    return months


def inches(months):
    return [b'%s %d.%02d %d.%02d' % (date(when), *divmod(p, 100), *divmod(pe, 100)) for when, p, pe in months]


def weighted(weights):
    """A section of weights, in ten-thousandths."""
    return [b'weights'] + [b'%s %d' % pair for pair in zip(CALENDAR, weights)]


def joined(lines):
    return b''.join(line + b'\n' for line in lines)


def a_file(months, section, soil=SOIL, unit=b'inches'):
    lines = [b'%s %d' % pair for pair in zip((b'capacity', b'surface', b'underlying'), soil)]
    return joined(lines + section + [b'months ' + unit] + months + [b'end'])


THIRTY = a_file(inches(drawn(1931, 12 * 1930 + 5, 367)), weighted(WEIGHTS))
LINES = THIRTY.split(b'\n')[:-1]
END = len(LINES)
LAST = END - 1


# ---- what it should come to

def months_of(lines, soil):
    """The months of a file: of each its date, and its P, its figures and what the layers stored at its start, or None where
    it has dashes, and was added as a Z."""
    capacity, surface, underlying = soil
    unit = lines[MONTHS - 1][1].decode()
    months = []
    for when, *words in lines[FIRST - 1:-1]:
        m = None
        if words != [b'-', b'-']:
            p, pe = [source_tables.reading(word.decode(), unit)[0] for word in words]
            m = source_tables.water(capacity, surface, underlying, p, pe, 0, 0, 0, 0, 1)
            m.update(P=p, PE=pe, L=m['Ls'] + m['Lu'], soil=(capacity, surface, underlying))
            surface, underlying = m['Ss'], m['Su']
        months.append((12 * int(when[:4]) + int(when[5:]) - 1, m))
    return months


def share(sums, part, whole):
    return source_tables.nearest(10000 * sums[part], sums[whole]) if sums[whole] else 0


FIGURES = ('ET', 'PE', 'R', 'PR', 'RO', 'PRO', 'L', 'PL')
MEANING = {18: b'fewer than ten whole years, or one with a month without water', 19: b'a gamma worked out is outside its range',
           20: b'no departures to weigh, or a K worked out is outside its range', 21: b'a K of 0, by which a month counts for nothing'}


def refusal(number, words, before=b'the constants are'):
    return number, b'station: %s refused (%d: %s)%s\n' % (before, number, MEANING[number], words)


def expected(data):
    """0 and all that is printed of a good file, or the refusal's number and what is said."""
    kept = [(number, line) for number, line in enumerate(data.split(b'\n'), 1) if line and not line.startswith(b'#')]
    lines = [line.split() for _, line in kept]
    soil = [int(line[1]) for line in lines[:3]]
    lost = lines[CONSTANTS - 1] == [b'weights']
    words = [line[-1] for line in lines[JANUARY - 1:DECEMBER]]
    weights = [int(word) for word in words]
    months = months_of(lines, soil)
    first, last = -(-months[0][0] // 12), (months[-1][0] + 1) // 12 - 1
    years = max(0, last - first + 1)
    each = [[m for when, m in months if first <= when // 12 <= last and when % 12 == calendar] for calendar in range(12)]
    if years < 10 or any(None in rows for rows in each):
        why = b'ten are needed' if years < 10 else b'a month of them had no water'
        return refusal(18, b', %s to %s has %d whole year%s, January to December, and %s' % (date(months[0][0]), date(months[-1][0]), years, b'' if years == 1 else b's', why))
    sums = [{name: sum(m[name] for m in rows) for name in FIGURES} for rows in each]
    constants = [[share(s, part, whole) for part, whole in zip(FIGURES[::2], FIGURES[1::2])] for s in sums]
    sizes = [[abs(source_tables.water(*m['soil'], m['P'], m['PE'], *four, 1)['d']) for m in rows] for rows, four in zip(each, constants)]
    departures = [source_tables.nearest(sum(size), years) for size in sizes]
    for name, four, s in zip(CALENDAR, constants, sums):
        if four[2] > 50000:
            return refusal(19, b', 10000 x RO %d / PRO %d is %d, and gamma is 0 to 50000; the capacity may be too small' % (s['RO'], s['PRO'], four[2]), b'the gamma of %s is' % name)
    products = [d * weight for d, weight in zip(departures, weights)]
    total = sum(products)
    k = [source_tables.nearest(176700000 * weight, total) if total else 0 for weight in weights]
    if total == 0 or max(k) > 100000:
        return refusal(20, b', every D x weight is 0, or a K is above 100000: the years hardly differ, or a weight is very large beside the others')
    if 0 in k:
        at = weights.index(min(weights))
        column = kept[JANUARY - 1 + at][1].rindex(words[at]) + 1
        place = b'line %d, column %d: %s %s is' % (kept[JANUARY - 1 + at][0], column, b'weight' if lost else b'K', words[at])
        return refusal(21, b', the K of %s comes to 0: no weight is to be 0, or very small beside the others' % CALENDAR[at], place)
    text = [b'years %d %04d to %04d' % (years, first, last), b'month ' + ' '.join(FIGURES).encode()]
    text += [b' '.join([name] + [b'%d' % s[figure] for figure in FIGURES]) for name, s in zip(CALENDAR, sums)]
    text += [b'month D weight product'] + [b'%s %d %d %d' % row for row in zip(CALENDAR, departures, weights, products)] + [b'sum %d' % total]
    text += [HEADING] + [b'%s %d %d %d %d %d' % (name, *four, last) for name, four, last in zip(CALENDAR, constants, k)]
    return 0, joined(text)


def hold(name, data, seen=None, programs=station.PROGRAMS):
    """Runs both programs and holds them to that; what was expected."""
    out, err, status = printed = agree(name, OPTION, data, programs=programs)
    number, text = expected(data)
    if printed != ((text, b'', 0) if number == 0 else (b'', text, 1)):
        pair = next((pair for pair in zip((out + err).split(b'\n'), text.split(b'\n')) if pair[0] != pair[1]), ())
        sys.exit('constants: %s: status %d, %r; it should be %d, and of %r the second' % (name, status, err[:300], number, pair))
    COUNT['good' if number == 0 else 'refused'] += 1
    if seen is not None:
        seen[number] += 1
    return number, text


def with_section(data, section):
    """A file without comments with another section."""
    lines = data.split(b'\n')
    return b'\n'.join(lines[:CONSTANTS - 1] + section + lines[DECEMBER:])


def back(name, data, text):
    """The constants in the place of the section: the programs add the months, and the mean size of P - CAFEC is D."""
    lines = text.split(b'\n')[:-1]
    new = with_section(data, lines[-13:])
    out = station.good(name, (), new)
    years = range(*(int(word) + at for at, word in enumerate(lines[0].split()[2::2])))
    rows = [line.split() for line in out.split(b'\n')[1:out.split(b'\n').index(station.ROWS[0])]]
    for calendar, row in enumerate(lines[15:27]):
        sizes = [abs((0 if row[1] == b'T' else int(row[1])) - int(row[3])) for row in rows if int(row[0][:4]) in years and int(row[0][5:]) == calendar + 1]
        if int(row.split()[1]) != source_tables.nearest(sum(sizes), len(sizes)):
            sys.exit('constants: %s: %r, and the months are %r' % (name, row, sizes))
    hold(name + ', again', new)
    COUNT['back'] += 1


# ---- good files, and those whose constants are refused

# lines of the sample
STORED = [b'years 30 1931 to 1960', b'month ET PE R PR RO PRO L PL', b'month D weight product', HEADING]


def sample():
    data = THIRTY
    with open(SAMPLE, 'rb') as f:
        whole = f.read()
    number, text = hold('the sample', whole)
    lines = text.split(b'\n')
    if number or [lines[at] for at in (0, 1, 14, 28)] != STORED or len(lines) != 42 or hold('the sample without its comments', data) != (0, text):
        sys.exit('constants: the sample is not as stored: %r' % text)
    back('the sample', data, text)
    for name, changed in (('no line feed at the end', data[:-1]), ('comments between', b''.join(b'# \xff\0\t,\r\n#weights\n' + line + b'\n' for line in LINES)),
                          ('more spaces', joined(b'  ' + line.replace(b' ', b'     ') + b'   ' for line in LINES)),
                          ('zeros in front', data.replace(b' 22500', b' ' + b'0' * 99 + b'22500')), ('1,048,576 bytes', b'#' * (1048575 - len(data)) + b'\n' + data)):
        if agree(name, OPTION, changed) != (text, b'', 0):
            sys.exit('constants: %s: it should print what the sample does' % name)
        COUNT['good'] += 1
    for pieces in (7, 200):
        if agree('in pieces', OPTION, whole, running.printed, pieces) != (text, b'', 0):
            sys.exit('constants: the sample in %d pieces: it should print the same' % pieces)
        COUNT['good'] += 1


def millimetres(months):
    """The same months in millimetres."""
    return [b'%s %d.%03d %d.%03d' % (date(when), *divmod(254 * p, 1000), *divmod(254 * pe, 1000)) for when, p, pe in months]


SOILS = [SOIL, (6000, 0, 0), (6000, 1000, 5000), (30000, 1000, 29000), (30000, 0, 0), (1001, 1000, 1), (1000, 0, 0), (999, 999, 0), (400, 0, 0), (100, 100, 0)]


def some_weights(draw):
    return draw.choice(([draw.randrange(1, 100001) for _ in range(12)], [draw.randrange(9000, 11000) for _ in range(12)], [10000] * 12, WEIGHTS, [100000] * 12, [1] * 12))


def a_constant(draw):
    """A section of constants, of which only the K count."""
    return [HEADING] + [b'%s %d %d %d %d %d' % (name, draw.randrange(10001), draw.randrange(10001), draw.randrange(50001), draw.randrange(10001), draw.randrange(1, 100001)) for name in CALENDAR]


def random_files(seen):
    """Of each start month and soil; some too short, some too wet for their soil."""
    draw = random.Random(1965)
    for number in range(240):
        first, count = 12 * draw.randrange(1700, 2020) + number % 12, draw.choice((119, 120, 125, 130, 131, 132, 150, 240, 367))
        months = drawn(number, first, count)
        rainy = draw.choice((1, 1, 1, 2, 5))
        months = [(when, min(9999, p * rainy), pe) for when, p, pe in months]
        section = weighted(some_weights(draw)) if draw.random() < 0.7 else a_constant(draw)
        unit = draw.choice((b'inches', b'inches', b'millimetres'))
        data = a_file((inches if unit == b'inches' else millimetres)(months), section, SOILS[number // 12 % len(SOILS)], unit)
        name = 'record %d' % number
        result, text = hold(name, data, seen)
        if result == 0 and number % 3 == 0:
            back(name, data, text)


def of_readings(count, first, readings, section, **more):
    """So many months with these readings in turn."""
    return a_file([date(first + i) + b' ' + readings[i % len(readings)] for i in range(count)], section, **more)


def year_files(seen):
    """How many years are whole, at each start month."""
    equal = weighted([10000] * 12)
    for calendar in range(12):
        before = -calendar % 12
        for count, number in ((before + 120, 0), (before + 119, 18), (before + 121, 0), (before + 131, 0), (before + 132, 0), (before + 12, 18), (max(1, before), 18), (1, 18)):
            data = a_file(inches(drawn(calendar, 12 * 1900 + calendar, count)), equal)
            if hold('%d months from month %d' % (count, calendar + 1), data, seen)[0] != number:
                sys.exit('constants: %d months from month %d: it should be %d' % (count, calendar + 1, number))
    for first, count in ((0, 130), (11, 131), (12 * 9990, 120), (12 * 9989 + 7, 125), (0, MOST), (12 * 8999 + 11, MOST)):
        hold('%d months from %r' % (count, date(first)), a_file(inches(drawn(3, first, count)), equal), seen)


def changing(step):
    """Readings of three years in turn that differ by a step, in thousandths."""
    return [b'%d.%03d %d.%03d' % (*divmod(500 + step * (i % 5), 1000), *divmod(300 + step * (i % 7), 1000)) for i in range(36)]


def beside(others, calendar, weight):
    """The sample with a weight of one calendar month, and another for all others."""
    return with_section(THIRTY, weighted([others] * calendar + [weight] + [others] * (11 - calendar)))


def largest(calendar):
    """The largest weight that is not refused beside eleven of 100: its K is the last up to 100,000."""
    low, high = 100, 100000
    while high - low > 1:
        middle = (low + high) // 2
        low, high = (low, middle) if expected(beside(100, calendar, middle))[0] else (middle, high)
    return low


def particular_files(seen):
    """Ends of ranges, and what makes each refusal; each with the number that it comes to."""
    equal = weighted([10000] * 12)
    ten = 12 * 1950
    alone = [1] * 12
    cases = [
        ('PE of 0 throughout', of_readings(130, ten, (b'1.5 0', b'0.2 0', b'2.25 0'), equal, soil=(30000, 0, 0)), 0),
        ('PE of 0 throughout, a large soil and changing rain', of_readings(120, ten, (b'0 0', b'30 0', b'4 0', b'90 0', b'11 0'), equal, soil=(30000, 0, 0)), 0),
        ('no rain', of_readings(120, ten, (b'0 1', b'0 2', b'0 3'), equal, soil=(6000, 1000, 5000)), 20),
        ('nothing at all', of_readings(120, ten, (b'0 0',), equal), 20),
        ('each year alike', of_readings(360, ten, [b'%d.%d %d' % (i, 12 - i, i % 5) for i in range(12)], equal), 20),
        ('the most that falls', of_readings(120, ten, (b'100 0', b'0 100', b'100 100', b'0 0', b'50 50'), equal, soil=(30000, 0, 0)), 0),
        ('the most that falls, a thousand years', of_readings(MOST, 0, (b'100 0', b'0 100', b'0 0', b'100 100', b'50 0'), equal, soil=(30000, 1000, 29000)), 0),
        ('traces', of_readings(130, ten, (b'T 1', b'0.0003 0', b'5 2.5', b'T 0.0004', b'9 1'), equal), 0),
        ('gamma too large', of_readings(120, ten, (b'20 1', b'30 2', b'10 0', b'25 1', b'15 3'), equal, soil=(400, 0, 0)), 19),
        ('runoff from a soil that was empty', of_readings(120, ten, (b'100 0', b'0 100'), equal, soil=(1000, 0, 0)), 0),
        ('runoff from a soil that was empty but for a thousandth', of_readings(120, ten, (b'100 0', b'0 100'), equal, soil=(1000, 1, 0)), 19),
        ('all weights 0', with_section(THIRTY, weighted([0] * 12)), 20),
        ('one weight alone', with_section(THIRTY, weighted([100000] + [0] * 11)), 20),
        ('one weight large', with_section(THIRTY, weighted(alone[:5] + [100000] + alone[6:])), 20),
        ('all weights 1', with_section(THIRTY, weighted(alone)), 0),
        ('all weights 100000', with_section(THIRTY, weighted([100000] * 12)), 0),
        ('weights 1 to 12', with_section(THIRTY, weighted(range(1, 13))), 0),
        ('a weight of 0', with_section(THIRTY, weighted(WEIGHTS[:2] + [0] + WEIGHTS[3:])), 21),
        ('a weight of 0 written so', with_section(THIRTY, [b'weights'] + [b'%s %s' % (name, b'-0000' if name == b'June' else b'7') for name in CALENDAR]), 21),
        ('two weights of 0', with_section(THIRTY, weighted([5, 0, 5, 5, 5, 5, 0, 5, 5, 5, 5, 5])), 21),
        ('a small weight', with_section(THIRTY, weighted(11 * [100000] + [1])), 21),
        ('a small K', with_section(THIRTY, [HEADING] + [b'%s 0 0 0 0 %d' % (name, 1 if name == b'May' else 100000) for name in CALENDAR]), 21),
        ('constants as any', with_section(THIRTY, [HEADING] + [b'%s 10000 10000 50000 10000 10000' % name for name in CALENDAR]), 0),
        ('the station of western Kansas', station.GOOD, 18),
    ]
    # where gamma begins to be too large, and a K, and where one begins to be 0
    cases += [('a soil of %d' % capacity, of_readings(120, ten, (b'20 1', b'30 2', b'10 0', b'25 1', b'15 3'), equal, soil=(capacity, 0, 0)), None) for capacity in range(3600, 4600, 100)]
    cases += [('steps of %d' % step, of_readings(360, ten, changing(step), equal), 20 if step < 90 else 0) for step in range(70, 120, 10)]
    for calendar in range(12):
        cases += [('beside others %s %d' % (CALENDAR[calendar].decode(), weight), beside(100000, calendar, weight), 0 if weight > 2 else 21) for weight in (1, 2, 3)]
        most = largest(calendar)
        cases += [('beside others %s %d' % (CALENDAR[calendar].decode(), weight), beside(100, calendar, weight), 20 if weight > most else 0) for weight in (most, most + 1, 100000)]
    for name, data, number in cases:
        found, text = hold(name, data, seen)
        if number not in (None, found):
            sys.exit('constants: %s: %d, %r; it should be %d' % (name, found, text, number))
        if found == 0:
            back(name, data, text)


def z_files(seen):
    """Months that were added as a Z: one in the whole years is refused, and in a part year it is not."""
    if not all(station.WITH_Z):
        return
    whole = LINES.index(next(line for line in LINES if line.startswith(b'1931-01 ')))
    for at, number in ((FIRST - 1, 0), (whole - 1, 0), (whole, 18), (whole + 200, 18), (LAST - 1, 18)):
        data = joined(LINES[:at] + [LINES[at][:7] + b' - -'] + LINES[at + 1:])
        if hold('a Z in line %d' % (at + 1), data, seen, station.WITH_Z)[0] != number:
            sys.exit('constants: a Z in line %d: it should be %d' % (at + 1, number))
    hold('a Z after the whole years', THIRTY.replace(b'\nend\n', b'\n1961-01 - -\nend\n'), seen, station.WITH_Z)


def good_files():
    seen = Counter()
    sample()
    year_files(seen)
    random_files(seen)
    particular_files(seen)
    z_files(seen)
    if not all(seen[number] > 10 for number in (0, 18, 19, 20, 21)):
        sys.exit('constants: too few of a kind: %r' % seen)
    return seen


# ---- bad files

def changed(number, text):
    """The sample's file with another line in the place of this one; none where the text is None."""
    return joined(LINES[:number - 1] + ([] if text is None else [text]) + LINES[number:])


def inserted(number, *texts):
    return joined(LINES[:number - 1] + list(texts) + LINES[number - 1:])


SECTION = b'"%s" is not known here; expected: constants alpha beta gamma delta K, or weights\n'


def number_cases():
    """(name, bytes, line, column, words): words that are no weights, and weights out of their range."""
    for number in (JANUARY, JANUARY + 6, DECEMBER):
        name = CALENDAR[number - JANUARY]
        for word, at, words in station.NO_WHOLES:
            yield '%s %r' % (name.decode(), word[:50]), changed(number, name + b' ' + word), number, len(name) + 2 + at, words
        for word in (b'-1', b'100001', b'2147483647', b'-2147483648'):
            said = b'weight ' + word + b' is refused (3: a constant outside its range), weight is 0 to 100000\n'
            yield '%s %s' % (name.decode(), word.decode()), changed(number, b'%s  %s' % (name, word)), number, len(name) + 3, said
    bad = b'weight 100001 is refused (3: '
    yield 'two weights', joined(LINES[:CONSTANTS] + [name + b' 100001' for name in CALENDAR] + LINES[DECEMBER:]), JANUARY, 9, bad
    yield 'a weight and a month', changed(JANUARY + 1, b'February 100001').replace(LINES[FIRST - 1], b'1930-06 - 1'), JANUARY + 1, 10, bad
    yield 'a weight and too few years', joined(LINES[:JANUARY - 1] + [b'January 100001'] + LINES[JANUARY:FIRST] + [b'end']), JANUARY, 9, bad
    yield 'a weight and the capacity', changed(JANUARY, b'January 100001').replace(b'capacity 6000', b'capacity 99'), 1, 10, b'capacity 99 is refused (4: '
    for word in (b'99', b'30001'):
        yield 'capacity %s' % word.decode(), changed(1, b'capacity ' + word), 1, 10, b'capacity ' + word + b' is refused (4: capacity outside its range), capacity is 100 to 30000\n'
    yield 'surface 1001', changed(2, b'surface 1001'), 2, 9, b'surface 1001 is refused (5: '
    yield 'underlying 5001', changed(3, b'underlying 5001'), 3, 12, b'underlying 5001 is refused (5: '
    of_constants = with_section(THIRTY, [HEADING] + [b'%s 0 0 0 0 1' % name for name in CALENDAR])
    for word, why in ((b'0', b'21: a K of 0, by which a month counts for nothing'), (b'100001', b'3: a constant outside its range')):
        yield 'K %s' % word.decode(), of_constants.replace(b'May 0 0 0 0 1', b'May 0 0 0 0 ' + word), JANUARY + 4, 13, b'K %s is refused (%s), K is 1 to 100000\n' % (word, why)
    yield 'alpha 10001', of_constants.replace(b'May 0 ', b'May 10001 '), JANUARY + 4, 5, b'alpha 10001 is refused (3: a constant outside its range), alpha is 0 to 10000\n'


def section_cases():
    """The heading and the twelve lines: left out, twice, in another order, of the other kind."""
    like, weight = b'constants alpha beta gamma delta K', b' WEIGHT'
    yield 'no heading', changed(CONSTANTS, None), CONSTANTS, 1, SECTION % b'January'
    yield 'no section', joined(LINES[:CONSTANTS - 1] + LINES[DECEMBER:]), CONSTANTS, 1, SECTION % b'months'
    yield 'only the heading', joined(LINES[:CONSTANTS] + LINES[DECEMBER:]), JANUARY, 1, b'"months" is not known here; expected: January WEIGHT\n'
    yield 'an empty heading', changed(CONSTANTS, b''), CONSTANTS, None, b'it is empty; expected: ' + like + b', or weights\n'
    yield 'a heading of spaces', changed(CONSTANTS, b'   '), CONSTANTS, 4, b'the line ends after 0 words; expected: ' + like + b', or weights\n'
    for word in (b'weight', b'Weights', b'WEIGHTS', b'weights:', b"K'", b'constant', b'underlying', b'end', b'x' * 41):
        yield 'the heading %s' % word[:20].decode(), changed(CONSTANTS, word), CONSTANTS, 1, SECTION % (word if len(word) < 41 else word[:40] + b'..')
    yield 'a number in the heading', changed(CONSTANTS, b'weights 10000'), CONSTANTS, 9, b'a second word, "10000"; expected: weights\n'
    yield 'weights K', changed(CONSTANTS, b'weights K'), CONSTANTS, 9, b'a second word, "K"; expected: weights\n'
    yield 'a comma in the heading', changed(CONSTANTS, b'weights,'), CONSTANTS, 8, b'a comma in "weights,"; words are parted by spaces\n'
    yield 'a comment after the heading', changed(CONSTANTS, b"weights # K'"), CONSTANTS, 9, b'a # that does not begin its line'
    yield 'the heading of constants over weights', changed(CONSTANTS, HEADING), JANUARY, len(LINES[JANUARY - 1]) + 1, b'the line ends after 2 words; expected: January ALPHA BETA GAMMA DELTA K\n'
    yield 'half a heading of constants', changed(CONSTANTS, b'constants alpha beta'), CONSTANTS, 21, b'the line ends after 3 words; expected: ' + like + b'\n'
    yield 'constants in another order', changed(CONSTANTS, b'constants alpha gamma beta delta K'), CONSTANTS, 17, b'"gamma" is not known here; expected: ' + like + b'\n'
    five = [HEADING] + [b'%s 1 1 1 1 1' % name for name in CALENDAR]
    yield 'constants under the heading of weights', with_section(THIRTY, [b'weights'] + five[1:]), JANUARY, 11, b'a third word, "1"; expected: January WEIGHT\n'
    unit = b' is not known here; expected: months inches, or months millimetres\n'
    yield 'both, weights first', inserted(DECEMBER + 1, *five), DECEMBER + 1, 1, b'"constants"' + unit
    yield 'both, constants first', with_section(THIRTY, five + weighted(WEIGHTS)), DECEMBER + 1, 1, b'"weights"' + unit
    yield 'the weights twice', inserted(DECEMBER + 1, *weighted(WEIGHTS)), DECEMBER + 1, 1, b'"weights"' + unit
    yield 'the weights after the months', joined(LINES[:CONSTANTS - 1] + LINES[DECEMBER:LAST] + weighted(WEIGHTS) + [b'end']), CONSTANTS, 1, SECTION % b'months'
    order = b' was to follow; the weights stand from January to December\n'
    for at, name in enumerate(CALENDAR):
        number = JANUARY + at
        following = CALENDAR[at + 1] if at < 11 else None
        yield 'without %s' % name.decode(), changed(number, None), number, 1, following + b' here, and ' + name + order if following else b'"months" is not known here; expected: December WEIGHT\n'
        yield '%s twice' % name.decode(), inserted(number + 1, LINES[number - 1]), number + 1, 1, name + b' here, and ' + following + order if following else b'"December"' + unit
        yield '%s alone' % name.decode(), changed(number, name), number, len(name) + 1, b'the line ends after 1 word; expected: ' + name + weight + b'\n'
        yield '%s and two' % name.decode(), changed(number, name + b' 1 2'), number, len(name) + 4, b'a third word, "2"; expected: ' + name + weight + b'\n'
        yield '%s empty' % name.decode(), changed(number, b''), number, None, b'it is empty; expected: ' + name + weight + b'\n'
        yield '%s in small letters' % name.decode(), changed(number, name.lower() + b' 1'), number, 1, b'"' + name.lower() + b'" is not known here; expected: ' + name + weight + b'\n'
        yield '%s with a comma' % name.decode(), changed(number, name + b',10000'), number, len(name) + 1, b'a comma in "' + name + b',10000"; words are parted by spaces\n'
        yield '%s with a decimal comma' % name.decode(), changed(number, name + b' 1,25'), number, len(name) + 3, b'a comma in "1,25"; words are parted by spaces, and a whole number has digits only\n'
    yield 'turned round', joined(LINES[:CONSTANTS] + LINES[DECEMBER - 1:JANUARY - 2:-1] + LINES[DECEMBER:]), JANUARY, 1, b'December here, and January' + order
    for byte, words in station.NO_BYTES:
        for number in (CONSTANTS, JANUARY, DECEMBER):
            text = LINES[number - 1]
            yield 'line %d, bytes %r' % (number, byte), changed(number, text + byte), number, len(text) + 1, words


def month_cases():
    """Of the months what the other ways say, too: a reading that is missing or refused, a gap, a file cut short."""
    yield 'a missing month', changed(FIRST + 40, b'1933-10 - 1.5'), FIRST + 40, 9, b'precipitation is missing (8: reading missing); README.md, "Missing months", says what to do\n'
    yield 'a missing PE in a part year', changed(FIRST, b'1930-06 1.5 -'), FIRST, 13, b'PE is missing (8: reading missing)'
    yield 'too much', changed(LAST, b'1960-12 101 1'), LAST, 9, b'precipitation 101 is refused (9: reading not acceptable), inches are 0 to 100'
    yield 'a gap', changed(FIRST + 40, None), FIRST + 40, 1, b'1933-11 here, and 1933-10 was to follow'
    yield 'a decimal comma', changed(FIRST, b'1930-06 1,5 2'), FIRST, 10, b'a comma in "1,5"'
    yield '12,001 months', a_file(inches(drawn(1, 0, MOST + 1)), weighted(WEIGHTS)), FIRST + MOST, 1, b'1000-01 is refused (10: '
    cut = b'the file ends without its last line, end; it may be cut short\n'
    for count in list(range(CONSTANTS - 1, FIRST + 2)) + [LAST]:
        yield 'the first %d lines' % count, joined(LINES[:count]), count + 1, None, cut
    yield 'cut in a name', THIRTY[:THIRTY.index(b'uary')], JANUARY, 1, b'"Jan" is not known here; expected: January WEIGHT\n'
    yield 'cut after a name', THIRTY[:THIRTY.index(b' 22500')], JANUARY, 8, b'the line ends after 1 word; expected: January WEIGHT; the file ends here and may be cut short\n'
    yield 'cut in the heading', THIRTY[:THIRTY.index(b'ights')], CONSTANTS, 1, SECTION % b'we'
    yield 'after the end', THIRTY + b'# a\n', END + 1, 1, b'something after the last line, end; nothing may follow it\n'


def bad_files():
    seen = {}
    for group in (number_cases, section_cases, month_cases):
        for name, data, line, column, words in group():
            begins = b'station: line %d: ' % line if column is None else b'station: line %d, column %d: ' % (line, column)
            if seen.setdefault(data, begins) != begins:
                sys.exit('constants: %s: the table has it twice, and not alike' % name)
            refused(name, OPTION, agree(name, OPTION, data), 1, begins, words)
            COUNT['bad'] += 1
    refused('a byte too many', OPTION, agree('a byte too many', OPTION, b'#' * 1048577), 1, b'station: the file is larger than 1048576 bytes\n', b'')
    COUNT['bad'] += 1


def damages():
    """One byte of a file of ten years changed, left out or put in. What is still a station file is held to the reckoning."""
    draw = random.Random(17670)
    data = a_file(inches(drawn(8, 12 * 1951 - 2, 125)), weighted(WEIGHTS))
    section = data.index(b'months')
    for number in range(300):
        at, kind = draw.randrange(section if number % 2 else len(data)), draw.randrange(3)
        byte = bytes([draw.choice(b'0123456789.-+,;# \n\r\tTe') if draw.random() < 0.7 else draw.randrange(256)])
        new = byte if kind < 2 else b''
        old = b'' if kind == 1 else data[at:at + 1]
        name = '%r in the place of %r after %d bytes' % (new, old, at)
        damaged = data[:at] + new + data[at + len(old):]
        out, err, status = printed = agree(name, OPTION, damaged)
        if status and not err.startswith(b'station: the ') and b'(21: ' not in err:
            refused(name, OPTION, printed, 1, b'station: line ', b'')
        else:
            number, text = expected(damaged)
            if printed != ((text, b'', 0) if number == 0 else (b'', text, 1)):
                sys.exit('constants: %s: %r, %r; it should be %d, %r' % (name, out, err, number, text))
        COUNT['damaged, %s' % ('refused' if status else 'good')] += 1


def streams():
    """Arguments, and files that cannot be read or written."""
    for arguments in (OPTION + ('6',), OPTION + ('',), OPTION + OPTION, OPTION + ('--help',), OPTION + ('--repair', 'a'), OPTION + ('a', 'b', 'c'),
                      ('6',) + OPTION, ('--help',) + OPTION, ('--constants=1',), ('--constant',), ('--Constants',), ('-constants',), ('constants',), (' --constants',)):
        for data in (b'', THIRTY):
            refused('bad arguments', arguments, agree('bad arguments', arguments, data), 2, b'station: ', b'; expected: ')
            COUNT['arguments'] += 1
    refused('a file of repairs', (), agree('a file of repairs', ('--repair',) + OPTION, THIRTY), 2, b'station: the file of repairs cannot be read\n', b'')
    out, err, status = agree('help', ('--help',), b'')
    if err or status or not all(words in out for words in (b'station --constants <FILE\n', b'samples/thirty-years-station.txt', *STORED[1:])):
        sys.exit('constants: --help: status %d, %r, %r' % (status, out, err))
    COUNT['arguments'] += 2
    closed = b'station: standard output cannot be written\n'
    for change in ('>&-', '>/dev/full'):
        refused('output ' + change, OPTION, agree('output ' + change, OPTION, THIRTY, station.redirected, change), 3, closed, b'')
        refused('bad, output ' + change, OPTION, agree('bad, output ' + change, OPTION, station.GOOD, station.redirected, change), 1, b'station: the constants are refused (18: ', b'')
    refused('output not read', OPTION, agree('output not read', OPTION, THIRTY, station.unread, 0), 3, closed, b'')
    for change in ('</', '<&-'):
        refused('input ' + change, OPTION, agree('input ' + change, OPTION, b'', station.redirected, change), 2, b'station: standard input cannot be read\n', b'')
    COUNT['streams'] += 7


def main(words):
    if words not in ([], ['--write']):
        sys.exit(__doc__)
    stored.settle({SAMPLE: HEAD.encode() + THIRTY}, words == ['--write'])
    if words:
        return
    station.programs_are_there()
    seen = good_files()
    bad_files()
    damages()
    streams()
    print('constants: %d cases in C and in Rust, no difference: worked out %d, of these %d put back and added; refused by their years %d, a gamma %d, a K %d and a K of 0 %d; bad files %d; one byte damaged %d, of these %d still good; arguments %d; input or output %d' % (
        sum(COUNT.values()), COUNT['good'], COUNT['back'], *(seen[number] for number in (18, 19, 20, 21)), COUNT['bad'], COUNT['damaged, refused'] + COUNT['damaged, good'], COUNT['damaged, good'], COUNT['arguments'], COUNT['streams']))


if __name__ == '__main__':
    main(sys.argv[1:])
