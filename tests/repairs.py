#!/usr/bin/env python3
"""Runs the two station programs, host/station.c and host/station.rs, with --repair, on good, bad and damaged files of
repairs.

Both must print the same on standard output and on standard error and end with the same status. Of good files the whole
output is asked: a repair comes to what a fresh run over the corrected months comes to, by the reckoning of
tests/source_tables.py, and reports the months whose index or mark is another than in the run before. Of a bad file it is
asked that the status is 1, that standard output is empty, and that standard error is one closed line with the line and the
column of the fault and the words that tell it from the others. It prints how many cases were run.

The programs are started as tests/station.py has it; over station_z.c months are added as a Z among the others, and have no
reading to repair.
"""
import os
import random
import sys
import tempfile
from collections import Counter

import running
import station
from station import GOOD, LINES, FIRST, LAST, END, MONTHS, MOST, ROWS, WATER, agree, date, refused
from stored import TOP

with open(os.path.join(TOP, 'samples', 'western-kansas-repairs.txt'), 'rb') as sample:
    SAMPLE = sample.read()
# the sample without its comments: line 1 is the unit, 2 to 5 the months, 6 the end
REPAIRS = [text for text in SAMPLE.split(b'\n')[:-1] if not text.startswith(b'#')]
HEAD, OLDEST, LATEST, STOP = 1, 2, 5, 6
REPORT = b'month index_before index_after mark_before mark_after'

# of the sample what each repair changed; and of the report of the third, in which a drought ends that had not, some lines
CHANGED = [b'repair 1932-10 changed 32', b'repair 1933-08 changed 22', b'repair 1934-02 changed 22', b'repair 1935-03 changed 3']
THIRD = [REPORT, b'1933-08 -1738 1860 S S', b'1933-09 -1799 1428 S S', b'1934-02 -1059 1358 S S', b'1935-05 -3972 -3689 O O']

FORMS = (b'expected: digits, perhaps with a point, T for a trace, or = for the reading as recorded', b'expected: digits, perhaps with a point, or = for the reading as recorded')
NO_TRACES = (b'a trace of rain is written T, the reading as recorded =', b'a trace is of rain; PE is worked out and not observed: write 0, or = for the recorded one')
MISSING = b' is missing (8: reading missing); a repair has both readings, and = is the one that is recorded\n'
WORDS = b'YYYY-MM PRECIPITATION PE'


COUNT = Counter()


def joined(lines):
    return b''.join(line + b'\n' for line in lines)


WHOLE = joined(REPAIRS)


def told_with(repairs, how, *more):
    """What a function makes of the name of a file that holds these."""
    with tempfile.NamedTemporaryFile() as f:
        f.write(repairs)
        f.flush()
        return how(f.name, *more)


def ran(name, repairs, data=GOOD, programs=station.PROGRAMS, how=running.printed, more=(1,)):
    return told_with(repairs, lambda file: agree(name, ('--repair', file), data, how, *more, programs=programs))


def changed(number, text):
    """The file of repairs with another line in the place of this one; none where the text is None."""
    return joined(REPAIRS[:number - 1] + ([] if text is None else [text]) + REPAIRS[number:])


def inserted(number, *texts):
    return joined(REPAIRS[:number - 1] + list(texts) + REPAIRS[number - 1:])


def worded(number, place, word):
    """The file with another word at a place of a line, counted from 0; and the column where it begins."""
    words = REPAIRS[number - 1].split(b' ')
    words[place] = word
    return changed(number, b' '.join(words)), len(b' '.join(words[:place] + [b'']) if place else b'') + 1


# ---- what it should come to

def corrected(data, month):
    """A station file with new readings in a month."""
    when, *new = month.split()
    lines = data.split(b'\n')
    at = next(i for i, line in enumerate(lines) if line.startswith(when + b' '))
    old = lines[at].split(b' ')[1:]
    lines[at] = b' '.join([when] + [was if word == b'=' else word for was, word in zip(old, new)])
    return b'\n'.join(lines)


def shown(row):
    """Index and mark of a row."""
    words = row.split(b' ')
    return words[4], words[6]


def expected(data, months):
    """All that is printed of a station file without comments and of repairs, and of each repair what it reports."""
    text, reports = [], []
    before = station.reckoned(data)[1]
    for month in months:
        data = corrected(data, month)
        _, after, water = station.reckoned(data)
        pairs = [(new.split(b' ')[0], *shown(old), *shown(new)) for old, new in zip(before, after) if shown(old) != shown(new)]
        text += [b'repair %s changed %d' % (month.split()[0], len(pairs)), REPORT]
        text += [b' '.join((when, x, y, s, t)) for when, x, s, y, t in pairs]
        reports.append((month.split()[0], pairs))
        before = after
    return joined(text + ROWS[:1] + before + WATER[:1] + water), reports


def good(name, months, data=GOOD, unit=b'inches', programs=station.PROGRAMS, seen=None):
    """Holds what is printed to that; counts what the reports had."""
    out, err, status = ran(name, joined([b'repairs ' + unit] + months + [b'end']), data, programs)
    wanted, reports = expected(data, months)
    if err or status or out != wanted:
        pair = next((pair for pair in zip(out.split(b'\n'), wanted.split(b'\n')) if pair[0] != pair[1]), ())
        sys.exit('repairs: %s: status %d, %r, %r' % (name, status, err[:300], pair))
    COUNT['good'] += 1
    for when, pairs in reports if seen is not None else ():
        seen['none'] += not pairs
        for month, x, s, y, t in pairs:
            seen[s + t] += 1
            seen['before'] += month < when
            seen['turned'] += x.startswith(b'-') != y.startswith(b'-')


# ---- good files

def dates(data):
    return [line.split(b' ')[0] for line in data.split(b'\n')[FIRST - 1:data.split(b'\n').index(b'end')]]


def rained(draw, unit):
    """A word for precipitation, and one for PE."""
    most = 900 if unit == b'inches' else 22000
    number = b'%d.%02d' % divmod(draw.randrange(most), 100)
    p = draw.choice((number, number, number, b'0', b'T', b'0.0003', b'=', b'0.01'))
    pe = draw.choice((b'=', b'=', b'0', b'%d.%02d' % divmod(draw.randrange(most), 100)))
    return p + b' ' + pe


def some(draw, data, count, unit=b'inches'):
    """Repairs of so many months."""
    return [when + b' ' + rained(draw, unit) for when in sorted(draw.sample(dates(data), count))]


def stored():
    out, err, status = ran('the sample', SAMPLE, station.SAMPLE)
    lines = out.split(b'\n')
    at = [i for i, line in enumerate(lines) if line.startswith(b'repair ')]
    third = lines[at[2] + 1:at[3]] if len(at) == 4 else []
    if err or status or [lines[i] for i in at] != CHANGED or third[:3] + third[7:8] + third[-1:] != THIRD:
        sys.exit('repairs: the sample is not as stored: status %d, %r, %r' % (status, err, lines))
    good('the sample without its comments', REPAIRS[1:-1])
    for name, repairs in (('no line feed at the end', WHOLE[:-1]), ('comments between', b''.join(b'# \xff\0\t,\r\n#end\n#\n' + line + b'\n' for line in REPAIRS)),
                          ('more spaces', joined(b'  ' + line.replace(b' ', b'     ') + b'   ' for line in REPAIRS)),
                          ('zeros in front and behind', WHOLE.replace(b'0.93', b'0000.930' + b'0' * 99)), ('1,048,576 bytes', b'#' * (1048575 - len(WHOLE)) + b'\n' + WHOLE)):
        if ran(name, repairs) != (out, b'', 0):
            sys.exit('repairs: %s: it should print what the sample does' % name)
        COUNT['good'] += 1
    COUNT['good'] += 1
    # the rows are those of a station file that its keeper has put right
    data = GOOD
    for month in REPAIRS[1:-1]:
        data = corrected(data, month)
    if station.rows(station.good('the sample put right', (), data)) != station.rows(out):
        sys.exit('repairs: the station file put right comes to other rows')
    return out


def good_files():
    draw, seen = random.Random(1934), Counter()
    every = dates(GOOD)
    for when in every:
        for new in (b'0 =', b'T =', b'= 0', b'= =', b'9.5 =', rained(draw, b'inches'), rained(draw, b'inches')):
            good('%s %s' % (when.decode(), new.decode()), [when + b' ' + new], seen=seen)
    for number in (2, 3, 4, 12, 35, 36) * 12:
        good('%d months' % number, some(draw, GOOD, number), seen=seen)
    good('every month as it is', [when + b' = =' for when in every], seen=seen)
    metric = station.millimetres()
    for number in (1, 2, 4, 36):
        good('%d months in millimetres' % number, some(draw, metric, number, b'millimetres'), metric, b'millimetres', seen=seen)
    for soil in ((100, 0, 0), (999, 999, 0), (1001, 1000, 1)):
        good('the soil %d %d %d' % soil, some(draw, station.soiled(*soil), 6), station.soiled(*soil), seen=seen)
    # a trace that is kept is one still; one that was none, and one that is no more
    traces = station.traced(range(FIRST, END, 2))
    for number in (1, 4, 36) * 4:
        good('%d months, of which some were a trace' % number, some(draw, traces, number), traces, seen=seen)
    good('every month as it is, with traces', [when + b' = =' for when in every], traces, seen=seen)
    for length, first in ((1, (1700, 1)), (600, (0, 1)), (700, (9941, 9)), (MOST, (9000, 1))):
        data = station.months(length, first)
        good('of %d months' % length, some(draw, data, min(length, 3)), data, seen=seen)
    wanted = ('none', 'before', 'turned', b'SS', b'OO', b'SO', b'OS')
    if not all(seen[what] > 20 for what in wanted):
        sys.exit('repairs: too few of a kind: %r' % seen)
    return seen


def z_files():
    """Months that were added as a Z are reworked as such, and are not repaired."""
    if not all(station.WITH_Z):
        return
    draw = random.Random(17)
    for places in ((FIRST,), (LAST,), (FIRST + 1, FIRST + 2, FIRST + 8), range(FIRST + 1, END, 2)):
        data = joined(line.split(b' ')[0] + b' - -' if number in places else line for number, line in enumerate(LINES, 1))
        with_water = [when for number, when in enumerate(dates(GOOD), FIRST) if number not in places]
        for _ in range(6):
            months = [when + b' ' + rained(draw, b'inches') for when in sorted(draw.sample(with_water, draw.choice((1, 2, 9))))]
            good('a Z in lines %r' % (list(places),), months, data, programs=station.WITH_Z)
        for number in places:
            when = date(12 * 1932 + 5 + number - FIRST)
            for new in (b'1.5 =', b'= =', b'- 101'):
                repairs = joined([b'repairs inches', when + b' ' + new, b'end'])
                refused('a Z repaired', (), ran('a Z repaired', repairs, data, station.WITH_Z), 1, b'station: repairs, line 2: ', when + b' is refused (17: no water in that month)\n')
                COUNT['bad'] += 1


# ---- bad files

def number_cases():
    """(name, repairs, line, column, words): words that are no readings, in the first month and in the last."""
    more = [(b'==', 0, ()), (b'=5', 0, ()), (b'=.', 0, ()), (b'5=', 1, b'something after the number in "5="')]
    for word, at, words in station.NO_READINGS + more:
        for number in (OLDEST, LATEST):
            for place in (1, 2):
                repairs, column = worded(number, place, word)
                told = words.replace(b'in the line months', b'in the line repairs') if isinstance(words, bytes) else station.no_number(word, NO_TRACES if word == b't' else FORMS)[place - 1]
                yield 'line %d, word %d %r' % (number, place + 1, word[:50]), repairs, number, column + at, told
    for number in (OLDEST, LATEST):
        repairs, column = worded(number, 2, b'T')
        yield 'line %d, PE T' % number, repairs, number, column, station.no_number(b'T', NO_TRACES)[1]


def byte_cases():
    """Bytes that are no plain text: in front of a line, at its end and in it; line ends of other systems."""
    for byte, words in station.NO_BYTES:
        for number in (HEAD, OLDEST, LATEST, STOP):
            text = REPAIRS[number - 1]
            for at in (0, 1, len(text)):
                if byte != b'\xff\xfe' or (number, at) != (HEAD, 0):
                    yield 'line %d, bytes %r after %d others' % (number, byte, at), changed(number, text[:at] + byte + text[at:]), number, at + 1, words
    yield 'carriage returns', WHOLE.replace(b'\n', b'\r\n'), 1, 15, b'a carriage return; the file has CR LF line ends, and a line feed alone is expected'
    yield 'UTF-16', b'\xff\xfe' + WHOLE.decode().encode('utf-16-le'), 1, 1, b'a byte order mark of UTF-16; save the file as plain text (ASCII)'


def line_cases():
    """Each line: empty, of spaces, with each of its words left out, with one more, with a comment after it."""
    nth = (b'first', b'second', b'third', b'fourth')
    for number in (HEAD, OLDEST, OLDEST + 1, LATEST, STOP):
        text = REPAIRS[number - 1]
        words = text.split(b' ')
        like, other = (b'repairs inches', b'') if number == HEAD else (WORDS, b'' if number == OLDEST else b', or end')
        yield 'line %d empty' % number, changed(number, b''), number, None, b'it is empty; expected: ' + like + other + b'\n'
        yield 'line %d of spaces' % number, changed(number, b'   '), number, 4, b'the line ends after 0 words; expected: ' + like + other + b'\n'
        for count in range(1, len(words)):
            cut = b' '.join(words[:count])
            yield 'line %d, its first %d words' % (number, count), changed(number, cut), number, len(cut) + 1, b'the line ends after %d word%s; expected: %s\n' % (count, b'' if count == 1 else b's', like)
        yield 'line %d and a comment' % number, changed(number, text + b' # tilted'), number, len(text) + 2, b'a # that does not begin its line; a comment has a line of its own'
        more = b'; expected: ' + (b'end' if number == STOP else like) + b'\n'
        yield 'line %d and a word' % number, changed(number, text + b' 1'), number, len(text) + 2, b'a ' + nth[len(words)] + b' word, "1"' + more
        if number != STOP:
            yield 'line %d with commas' % number, changed(number, b','.join(words)), number, len(words[0]) + 1, b'a comma in "' + b','.join(words) + b'"; words are parted by spaces\n'


def order_cases():
    """The unit; months that the station file has not, out of order or twice."""
    yield 'without the unit', changed(HEAD, None), 1, 1, b'"1932-10" is not known here; expected: repairs inches\n'
    yield 'the unit twice', inserted(OLDEST, REPAIRS[0]), OLDEST, 1, b'"repairs" is no month (four digits, a minus, 01 to 12); expected: ' + WORDS
    for word in (b'months', b'Repairs', b'repair', b'repairs:', b'capacity', b'end'):
        yield 'the word %s' % word.decode(), worded(HEAD, 0, word)[0], 1, 1, b'"' + word + b'" is not known here; expected: repairs inches\n'
    for unit in (b'millimetres', b'mm', b'inch', b'Inches', b'1932-10', b'='):
        yield 'the unit %s' % unit.decode(), worded(HEAD, 1, unit)[0], 1, 9, b'"' + unit + b'" is not the station file\'s unit; expected: repairs inches\n'
    yield 'the station file', GOOD, 1, 1, b'"capacity" is not known here; expected: repairs inches\n'
    for word in station.NO_DATES:
        told = b'"' + (word if len(word) < 41 else word[:40] + b'..') + b'" is no month (four digits, a minus, 01 to 12); expected: ' + WORDS
        yield 'the first month %r' % word, worded(OLDEST, 0, word)[0], OLDEST, 1, told + b'\n'
        yield 'the last month %r' % word, worded(LATEST, 0, word)[0], LATEST, 1, told + b', or end\n'
    for word in (b'1932-05', b'1931-10', b'0000-01', b'1935-06', b'1936-01', b'9999-12'):
        told = word + b' is not in the station file, which has 1932-06 to 1935-05\n'
        yield 'the first month %s' % word.decode(), worded(OLDEST, 0, word)[0], OLDEST, 1, told
        yield 'the last month %s' % word.decode(), changed(LATEST, b' ' + word + b' 1 1'), LATEST, 2, told
    yield 'a month twice', inserted(LATEST, REPAIRS[LATEST - 2]), LATEST, 1, b'1934-02 here again; each month stands once\n'
    yield 'the first at the end', inserted(STOP, REPAIRS[OLDEST - 1]), STOP, 1, b'1932-10 here, after 1935-03; the months stand in order of time\n'
    yield 'one back', inserted(STOP, b'1935-02 1 1'), STOP, 1, b'1935-02 here, after 1935-03; the months stand in order of time\n'
    yield 'turned round', joined([REPAIRS[0]] + REPAIRS[-2:0:-1] + [b'end']), OLDEST + 1, 1, b'1934-02 here, after 1935-03; the months stand in order of time\n'


def end_cases():
    """Files that are cut short, or go on after their end."""
    cut = b'the file ends without its last line, end; it may be cut short\n'
    yield 'an empty file', b'', 1, None, b'the file is empty; expected: repairs inches\n'
    yield 'only comments', b'# a\n#\n', 3, None, b'the file has only comments; expected: repairs inches\n'
    yield 'no month', joined([REPAIRS[0], b' end']), 2, 2, b'end here, and no month before it; expected: ' + WORDS + b'\n'
    for count in range(1, STOP):
        yield 'the first %d lines' % count, joined(REPAIRS[:count]), count + 1, None, cut
        yield 'the first %d lines, not closed' % count, joined(REPAIRS[:count])[:-1], count, None, cut
        yield 'the first %d lines and a comment' % count, joined(REPAIRS[:count]) + b'# a\n', count + 2, None, cut
    yield 'cut after the precipitation', WHOLE[:-7], LATEST, 13, b'the line ends after 2 words; expected: ' + WORDS + b'; the file ends here and may be cut short\n'
    yield 'cut in the end', WHOLE[:-2], STOP, 1, b'"en" is no month (four digits, a minus, 01 to 12); expected: ' + WORDS + b', or end\n'
    after = b'something after the last line, end; nothing may follow it\n'
    for name, text in (('a month', REPAIRS[LATEST - 1]), ('a comment', b'# a'), ('a second end', b'end'), ('a zero byte', b'\0')):
        yield '%s after the end' % name, WHOLE + text, STOP + 1, 1, after
    yield 'an empty line after the end', WHOLE + b'\n', STOP + 1, None, b'it is empty; end is the last line, and nothing may follow it\n'
    yield 'two faults', changed(OLDEST, b'1932-10 abc T x'), OLDEST, 9, b'"abc" is no number'
    yield 'a fault of the format after one that the library would refuse', worded(OLDEST, 1, b'-')[0].replace(b'0.85 =', b'0.85 T'), LATEST, 14, b'"T" is no number'


def library_cases():
    """What the library refuses, at its place."""
    bad = b' is refused (9: reading not acceptable), inches are 0 to 100\n'
    for number in (OLDEST, LATEST):
        for place, name in ((1, b'precipitation'), (2, b'PE')):
            repairs, column = worded(number, place, b'-')
            yield 'line %d, %s missing' % (number, name.decode()), repairs, number, column, name + MISSING
            for word in (b'100.5', b'-0.01', b'-9.99', b'100.00001', b'9' * 39):
                repairs, column = worded(number, place, word)
                yield 'line %d, %s %s' % (number, name.decode(), word.decode()), repairs, number, column, name + b' ' + word + bad
    yield 'both missing', changed(OLDEST, b'1932-10 - -'), OLDEST, 9, b'precipitation' + MISSING
    yield 'kept and missing', changed(OLDEST, b'1932-10 = -'), OLDEST, 11, b'PE' + MISSING
    yield 'missing and kept', changed(OLDEST, b'1932-10 - ='), OLDEST, 9, b'precipitation' + MISSING
    yield 'kept and refused', changed(OLDEST, b'1932-10 = 101'), OLDEST, 11, b'PE 101' + bad
    yield 'refused and missing', changed(OLDEST, b'1932-10 101 -'), OLDEST, 9, b'precipitation 101' + bad
    yield 'missing and refused', changed(OLDEST, b'1932-10 - 101'), OLDEST, 9, b'precipitation' + MISSING
    yield 'the first of two months', worded(LATEST, 1, b'-')[0].replace(b'5.35', b'101'), OLDEST + 1, 14, b'PE 101' + bad


def bad_files():
    seen = {}
    for group in (number_cases, byte_cases, line_cases, order_cases, end_cases, library_cases):
        for name, repairs, line, column, words in group():
            begins = b'station: repairs, line %d: ' % line if column is None else b'station: repairs, line %d, column %d: ' % (line, column)
            if seen.setdefault(repairs, begins) != begins:
                sys.exit('repairs: %s: the table has it twice, and not alike' % name)
            refused(name, (), ran(name, repairs), 1, begins, words)
            COUNT['bad'] += 1
    metric = GOOD.replace(b'months inches', b'months millimetres')
    others = [
        ('too much in millimetres', WHOLE.replace(b'inches', b'millimetres').replace(b'6.10', b'2540.5'), metric, b'repairs, line 3, column 9: precipitation 2540.5 is refused (9: reading not acceptable), millimetres are 0 to 2540\n'),
        ('inches for millimetres', WHOLE, metric, b'repairs, line 1, column 9: "inches" is not the station file\'s unit; expected: repairs millimetres\n'),
        # the station file's format, then that of the repairs, then what the library refuses of either
        ('both files bad', b'x\n', b'y\n', b'line 1, column 1: "y" is not known here'),
        ('weights', WHOLE, GOOD.replace(b'constants alpha beta gamma delta K', b'weights'), b'line 4: weights and no constants; host/constants works the constants out of this file\n'),
        ('a month too many before a bad repair', b'x\n', station.months(MOST + 1), b'repairs, line 1, column 1: "x" is not known here'),
        ('a month too many', joined([b'repairs inches', b'1700-01 - -', b'end']), station.months(MOST + 1), b'line %d, column 1: 2700-01 is refused (10: ' % (FIRST + MOST)),
        ('a repair of every month, and more of them than a run holds', joined([b'repairs inches'] + [date(12 * 1700 + i) + b' = =' for i in range(MOST + 1)] + [b'end']), station.months(MOST + 1), b'line %d, column 1: 2700-01 is refused (10: ' % (FIRST + MOST)),
        ('a missing month before a bad repair', worded(OLDEST, 1, b'-')[0], GOOD.replace(b'1932-06 5.56', b'1932-06 -'), b'line %d, column 9: precipitation is missing (8: reading missing); README.md' % FIRST),
        ('a byte too many', b'#' * 1048577, GOOD, b'the file of repairs is larger than 1048576 bytes\n'),
        ('bytes too many in both', b'#' * 1048577, b'#' * 1048577, b'the file is larger than 1048576 bytes\n'),
    ]
    for name, repairs, data, words in others:
        refused(name, (), ran(name, repairs, data), 1, b'station: ' + words, b'')
        COUNT['bad'] += 1


def damages(right):
    """One byte of the file of repairs changed, left out or put in. A file that is still good prints the same, but where the
    byte belongs to a number or a =, or makes or unmakes a comment."""
    draw = random.Random(1965)
    for _ in range(200):
        at, kind = draw.randrange(len(WHOLE)), draw.randrange(3)
        byte = bytes([draw.choice(b'0123456789.-+,;#= \n\r\tTe') if draw.random() < 0.7 else draw.randrange(256)])
        new = byte if kind < 2 else b''
        old = b'' if kind == 1 else WHOLE[at:at + 1]
        name = '%r in the place of %r after %d bytes' % (new, old, at)
        out, err, status = printed = ran(name, WHOLE[:at] + new + WHOLE[at + len(old):])
        if status:
            refused(name, (), printed, 1, b'station: repairs, line ', b'')
        elif err or (out != right and not set(old + new) & set(b'0123456789.-#=T')):
            sys.exit('repairs: %s: %r, %r; it should print what the good file does, or refuse it' % (name, out[:200], err))
        COUNT['damaged, %s' % ('refused' if status else 'good')] += 1


def streams():
    """Arguments, and files that cannot be read or written."""
    for arguments in (('--repair',), ('--repair', 'a', 'b'), ('--repair', '--help', '6'), ('6', '--repair'), ('--help', '--repair'), ('--repair=a',), ('--repairs', 'a')):
        refused('bad arguments', arguments, agree('bad arguments', arguments, GOOD), 2, b'station: ', b'; expected: ')
        COUNT['arguments'] += 1
    for file in ('', '/there/is/none', TOP, '--help'):
        refused('no file', (file,), agree('no file', ('--repair', file), GOOD), 2, b'station: the file of repairs cannot be read\n', b'')
        COUNT['arguments'] += 1
    for change in ('</', '<&-'):
        refused('input ' + change, (), ran('input ' + change, WHOLE, b'', how=station.redirected, more=(change,)), 2, b'station: standard input cannot be read\n', b'')
        COUNT['streams'] += 1
    closed = b'station: standard output cannot be written\n'
    for name, data, repairs in (('the sample', GOOD, WHOLE), ('12,000 months', station.months(MOST), joined([b'repairs inches', b'1700-01 9 =', b'2000-01 9 =', b'end']))):
        for change in ('>&-', '>/dev/full'):
            refused(name + ' ' + change, (), ran(name, repairs, data, how=station.redirected, more=(change,)), 3, closed, b'')
            COUNT['streams'] += 1
        for some_read in (0, 1) if data != GOOD else (0,):
            refused(name + ', not read', (), ran(name, repairs, data, how=station.unread, more=(some_read,)), 3, closed, b'')
            COUNT['streams'] += 1
    # a file that can be read but once
    for words in station.PROGRAMS:
        out = station.redirected(words + ['--repair', '/dev/fd/3'], GOOD, '3<%s' % os.path.join(TOP, 'samples', 'western-kansas-repairs.txt'))
        if out != ran('the sample', SAMPLE):
            sys.exit('repairs: by descriptor: %r' % (out,))
        COUNT['streams'] += 1


def main():
    if sys.argv[1:]:
        sys.exit('repairs.py')
    station.programs_are_there()
    right = stored()
    seen = good_files()
    z_files()
    bad_files()
    damages(right)
    streams()
    cases = sum(COUNT.values())
    print('repairs: %d cases in C and in Rust, no difference: good files %d; bad files %d; one byte damaged %d, of these %d still good; arguments %d; input or output %d' % (
        cases, COUNT['good'], COUNT['bad'], COUNT['damaged, refused'] + COUNT['damaged, good'], COUNT['damaged, good'], COUNT['arguments'], COUNT['streams']))
    print('repairs: of the months reported %d were before the repaired one, %d changed their sign, %d were settled and are open, %d were open and are settled' % (
        seen['before'], seen['turned'], seen[b'SO'], seen[b'OS']))


if __name__ == '__main__':
    main()
