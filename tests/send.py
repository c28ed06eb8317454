#!/usr/bin/env python3
"""Runs the two station programs, host/station.c and host/station.rs, with --send, and host/receive.c on the files that they
write and on division files of every other kind.

The two must print the same on standard output and on standard error, end with the same status and leave the same files.
What they write is asked whole, byte for byte: it is made here of the tables that they print without --send, in whole
numbers, and so is which month is refused where one does not fit. host/receive.c must give back these hundredths, and a dash
for each month that is open or not of the record. Where anything fails it is asked that the folder is as it was, with no file
more. Of any other division file what host/receive.c prints is held to layout_reader.py, and what it says of a refusal is
asked whole. It prints how many cases were run, and how long a file of the published size takes, which may be a second.

The programs are started as tests/station.py has it; RECEIVE, from the environment, tells how host/receive.c is, and without
it target/host/receive is run.
"""
import os
import random
import re
import shlex
import shutil
import subprocess
import sys
import tempfile
import time
from collections import Counter

import constants
import division
import layout_reader
import layout_vectors
import running
import station
from division_file import Draw, line, places, value
from station import GOOD, MOST, SAMPLE, agree, date, refused
from stored import TOP

RECEIVE = shlex.split(os.environ.get('RECEIVE', '')) or [os.path.join(TOP, 'target', 'host', 'receive')]
# of each element what it is called where it is refused, and its number
ELEMENTS = {'index': (b'index', 5), 'z': (b'Z', 7), 'modified': (b'modified index', 8)}
FILES = [name + '.txt' for name in ELEMENTS]
MARK = -9999
OPTION = ('--send', '14', '07')
# other files of a folder, and those that are replaced
OTHERS = {'notes.txt': b'of the keeper\n', 'index': b'', 'INDEX.TXT': b'x'}
OLD = {name: b'of last year\n' + name.encode() for name in FILES}
COUNT = Counter()

with open(os.path.join(TOP, 'include', 'card.h')) as header:
    UNFIT = re.search(r'case CARD_UNFIT: return "(.*)";', header.read())[1].encode()


# ---- a folder

def filled(folder, before):
    """Puts files into a folder: bytes, None for a folder, or a text for a link to what it names."""
    for name, content in before.items():
        path = os.path.join(folder, name)
        if content is None:
            os.mkdir(path)
        elif isinstance(content, str):
            os.symlink(content, path)
        else:
            with open(path, 'wb') as f:
                f.write(content)


def held(folder):
    """All that a folder has, in the same terms."""
    found = []
    for entry in sorted(os.scandir(folder), key=lambda entry: entry.name):
        if entry.is_symlink():
            found.append((entry.name, os.readlink(entry.path)))
        elif entry.is_dir():
            found.append((entry.name, None))
        else:
            with open(entry.path, 'rb') as f:
                found.append((entry.name, f.read()))
    return found


def into(words, data, before, how=running.printed, *more):
    """What is printed, and what the folder has, where the last argument is a folder with these files."""
    with tempfile.TemporaryDirectory() as folder:
        filled(folder, before)
        return (*how(words + [folder], data, *(more or (1,))), held(folder))


def sent(name, data, before=OTHERS, option=OPTION, how=running.printed, more=(), programs=station.PROGRAMS):
    return agree(name, option, data, into, before, how, *more, programs=programs)


def unchanged(name, printed, before, status, begins, words=b''):
    """Holds what was printed to a refusal, and the folder to what it had."""
    *said, left = printed
    refused(name, OPTION, said, status, begins, words)
    if left != sorted(before.items()):
        sys.exit('send: %s: the folder has %r, and had %r' % (name, left, sorted(before.items())))


# ---- what it should come to

def hundredths(thousandths):
    return (abs(thousandths) + 5) // 10 * (-1 if thousandths < 0 else 1)


def months_of(out):
    """The tables as they are printed: the first month's date, and for each element what is sent of each month, in
    hundredths, or None where it is open."""
    lines = [text.split() for text in out.split(b'\n')]
    at = lines.index(station.ROWS[0].split())
    added, rows = lines[1:at], lines[at + 1:2 * at]
    if len(added) != len(rows) or [row[0] for row in added] != [row[0] for row in rows]:
        sys.exit('send: the tables are not of the same months: %r' % out[:300])
    first = 12 * int(rows[0][0][:4]) + int(rows[0][0][5:]) - 1
    return first, {'index': [hundredths(int(row[4])) if row[6] == b'S' else None for row in rows],
                   'z': [hundredths(int(row[4])) for row in added],
                   'modified': [hundredths(int(row[5])) for row in rows]}


def years_of(first, values):
    """Whole calendar years, from that of the first month to that of the last: each with twelve values, or None."""
    padded = [None] * (first % 12) + values
    padded += [None] * (-len(padded) % 12)
    return [(first // 12 + at // 12, padded[at:at + 12]) for at in range(0, len(padded), 12)]


def expected(data, out, state, division):
    """What --send says of a good file with these tables: 0, the line that is printed and the files; or 24 and what is said."""
    first, months = months_of(out)
    for element, values in months.items():
        for at, n in enumerate(values):
            if n is not None and (n == MARK or len(value(n)) > 7):
                when = date(first + at)
                number = next(number for number, text in enumerate(data.split(b'\n'), 1) if text.split()[:1] == [when])
                return 24, b'station: line %d: the %s of %s is refused (24: %s), it comes to %d hundredths, and -99999 to 999999 are sent but for -9999, the mark of a missing month\n' % (
                    number, ELEMENTS[element][0], when, UNFIT, n), {}
    files = {element + '.txt': b''.join(line(state, division, year, [MARK if n is None else n for n in values], ELEMENTS[element][1])[:94] + b'\n'
                                        for year, values in years_of(first, values)) for element, values in months.items()}
    years, count = years_of(first, months['z']), len(months['z'])
    settled = count - months['index'].count(None)
    told = b'years %d %04d to %04d index %d open %d z %d modified %d\n' % (len(years), years[0][0], years[-1][0], settled, count - settled, count, count)
    return 0, told, files


def received(element, state, division, data, pieces=1):
    return running.printed(RECEIVE + [element, state, division], data, pieces)


def rows_of(first, values):
    """What is printed of them when they are read back."""
    rows = [(year, ['-' if n is None else str(n) for n in twelve]) for year, twelve in years_of(first, values)]
    return ''.join('%d %s %d\n' % (year, ' '.join(words), 12 - words.count('-')) for year, words in rows).encode()


def hold(name, data, option=OPTION, before=OTHERS, programs=station.PROGRAMS):
    """Runs both programs on a good file, holds what they print and write to that, and reads it back; the number."""
    tables, err, status = running.printed(programs[0], data, 1)
    if err or status:
        sys.exit('send: %s: it is no good file: %r' % (name, err))
    number, told, files = expected(data, tables, int(option[1]), int(option[2]))
    out, err, status, left = sent(name, data, before, option, programs=programs)
    right = (b'', told, 1) if number else (told, b'', 0)
    if (out, err, status) != right or left != sorted({**before, **files}.items()):
        sys.exit('send: %s: status %d, %r, %r, %r; it should be %r and %r' % (name, status, out, err, left, right, files))
    first, months = months_of(tables)
    for element in ELEMENTS if number == 0 else ():
        rows = rows_of(first, months[element])
        if received(element, *option[1:], files[element + '.txt']) != (rows, b'', 0):
            sys.exit('send: %s: the %s is not read back: it should be %r' % (name, element, rows))
        COUNT['read back'] += 1
    COUNT['refused' if number else 'good'] += 1
    return number


# ---- good files, and those of which a value does not fit

def section(alpha, beta, gamma, delta, k):
    """The same constants for every month."""
    return [constants.HEADING] + [b'%s %d %d %d %d %d' % (name, alpha, beta, gamma, delta, k) for name in constants.CALENDAR]


def sample():
    """The sample, whole; in pieces; over files that are replaced, and a link, whose file stays."""
    _, _, files = expected(SAMPLE, running.printed(station.PROGRAMS[0], SAMPLE, 1)[0], 14, 7)
    first = files['index.txt'].split(b'\n')
    if first[0] != b'1407051932' + 5 * b' -99.99' + b'   1.05  -0.53  -1.22  -1.33  -1.52  -1.79  -1.83' or first[3][10:] != b'  -4.56  -4.60  -4.89  -5.46' + 8 * b' -99.99':
        sys.exit('send: the index of the sample is not as stored: %r' % first)
    for option in (OPTION, ('--send', '0', '0'), ('--send', '99', '99'), ('--send', '00', '9'), ('--send', '9', '10')):
        hold('the sample', SAMPLE, option)
    for name, before in (('old files', OLD), ('some old files', {'z.txt': b'old'}), ('an empty folder', {}), ('links', {'index.txt': 'notes.txt', 'z.txt': 'nowhere', 'notes.txt': b'x'})):
        hold(name, SAMPLE, before=before)
    for pieces in (7, 200):
        out, err, status, left = sent('in pieces', SAMPLE, more=(pieces,))
        if (err, status) != (b'', 0) or dict(left) != {**OTHERS, **files}:
            sys.exit('send: the sample in %d pieces: status %d, %r' % (pieces, status, err))
        COUNT['good'] += 1


def year_files():
    """Runs that start in every calendar month, of one month and of a few years; the first years and the last; the most that a
    run holds."""
    for calendar in range(12):
        for count in (1, 2, 11, 12, 13, 12 - calendar, 13 - calendar, 37):
            hold('%d months from month %d' % (count, calendar + 1), constants.a_file(constants.inches(constants.drawn(calendar, 12 * 1950 + calendar, count)), section(7099, 268, 251, 4332, 12800)))
    for count, first in ((1, (0, 1)), (30, (0, 1)), (14, (0, 12)), (30, (9997, 7)), (1, (9999, 12)), (MOST, (9000, 1)), (MOST, (1700, 6)), (MOST - 1, (0, 2))):
        hold('%d months from %04d-%02d' % (count, *first), station.months(count, first))


def random_files():
    draw = random.Random(1407)
    for number in range(120):
        first, count = 12 * draw.randrange(0, 9990) + number % 12, draw.choice((1, 5, 20, 36, 60, 119))
        months = [(when, min(9999, p * draw.choice((0, 1, 1, 2))), pe) for when, p, pe in constants.drawn(number, first, count)]
        unit = draw.choice((b'inches', b'millimetres'))
        written = (constants.inches if unit == b'inches' else constants.millimetres)(months)
        soil = constants.SOILS[number // 12 % len(constants.SOILS)]
        # with any constants Z can be a hundred times what it is with a station's own
        kind = draw.choice((section(7099, 268, 251, 4332, 12800), section(9000, 500, 100, 3000, draw.randrange(1, 100001)), constants.a_constant(draw)))
        option = ('--send', str(draw.randrange(100)), '%02d' % draw.randrange(100))
        hold('record %d' % number, constants.a_file(written, kind, soil, unit), option, {name: b'old' for name in FILES if draw.random() < 0.3})


def single(z):
    """A file of one dry month with this Z, in thousandths, from -1,300,000 to -10,000."""
    for k in range(100000, 0, -1):
        for size in range(-z * 10000 // k - 1, -z * 10000 // k + 2):
            # CAFEC is PE and what the empty soil could take up
            if (2 * size * k + 10000) // 20000 == -z and size >= 200:
                pe = min(100000, size - 100)
                soil = (size - pe, 0, 0)
                if 100 <= soil[0] <= 30000:
                    return constants.a_file([b'1950-05 0 %d.%03d' % divmod(pe, 1000)], section(10000, 10000, 0, 0, k), soil)
    return sys.exit('send: no month with a Z of %d' % z)


def fitting():
    """Values at the ends of what fits, and beside the mark, as Z and as the index, which is a third of it."""
    for z, number in ((-999984, 0), (-999990, 0), (-999994, 0), (-999995, 24), (-1000000, 24), (-99984, 0), (-99985, 24), (-99990, 24), (-99994, 24), (-99995, 0), (-300010, 0), (-299953, 0)):
        if hold('a Z of %d' % z, single(z)) != number:
            sys.exit('send: a Z of %d: it should be %d' % (z, number))
    for index, number in ((-99984, 0), (-99985, 24), (-99990, 24), (-99994, 24), (-99995, 0), (-333331, 0)):
        if hold('an index of %d' % index, single(3 * index)) != number:
            sys.exit('send: an index of %d: it should be %d' % (index, number))
    # a long dry time, in which the index is the first that does not fit
    for k in range(2000, 100001, 7000):
        months = [date(12 * 1950 + k // 1000 + i) + b' 0 100' for i in range(40)]
        if hold('forty dry months', constants.a_file(months, section(10000, 10000, 0, 0, k), (30000, 0, 0))) != (24 if k > 25000 else 0):
            sys.exit('send: forty dry months with K %d: it should be refused above 25000' % k)


def abating(rain):
    """Five dry months, and one of so much rain, in thousandths of an inch, in which the drought abates."""
    months = [date(12 * 1950 + i) + b' 0 100' for i in range(5)] + [b'1950-06 %d.%03d 0' % divmod(rain, 1000)]
    return constants.a_file(months, section(10000, 0, 0, 0, 10000), (6000, 0, 0))


def abating_files():
    """A month whose index is open: it may be anything, and the mark too, while its modified index may not."""
    def printed(rain):
        out = running.printed(station.PROGRAMS[0], abating(rain), 1)[0]
        row = next(row for row in reversed(out.split(b'month P PE ET')[0].split(b'\n')) if row).split()
        return int(row[4]), int(row[5]), row[6]

    for at, number in ((0, 0), (1, 24)):
        low, high = 1000, 99000
        while high - low > 1:
            middle = (low + high) // 2
            low, high = (middle, high) if printed(middle)[at] < -99989 else (low, middle)
        figures = printed(low)
        if hundredths(figures[at]) != MARK or hundredths(figures[1 - at]) == MARK or figures[2] != b'O':
            sys.exit('send: no open month with the mark: %r' % (figures,))
        if hold('an open month, %r' % (figures,), abating(low)) != number:
            sys.exit('send: an open month, %r: it should be %d' % (figures, number))


def z_files():
    """Months that were added as a Z are sent as the others are."""
    if all(station.WITH_Z):
        for number in (station.FIRST, station.FIRST + 7, station.LAST):
            hold('a Z in line %d' % number, station.changed(number, station.LINES[number - 1][:7] + b' - -'), programs=station.WITH_Z)


# ---- what fails

def bad_files():
    """A bad station file is told as without --send, and leaves the folder as it was."""
    cases = [case for group in (station.number_cases, station.byte_cases, station.line_cases, station.order_cases, station.library_cases) for case in list(group())[::23]]
    cases += [('weights', constants.THIRTY, constants.CONSTANTS, None, b'weights and no constants; host/constants works the constants out of this file\n'),
              ('nothing', b'', 1, None, b'the file is empty'), ('cut short', GOOD[:-4], station.END, None, b'it may be cut short\n')]
    for name, data, number, column, words in cases:
        begins = b'station: line %d: ' % number if column is None else b'station: line %d, column %d: ' % (number, column)
        unchanged(name, sent(name, data, OLD), OLD, 1, begins, words)
        COUNT['bad'] += 1


def bad_folders():
    """A folder that is none is a wrong argument; a name in it that is taken is output that cannot be written."""
    with tempfile.TemporaryDirectory() as folder:
        filled(folder, {'a file': b'', 'nowhere': 'there is none', 'inner': None})
        for name in ('', 'none', 'a file', 'nowhere', 'a file/', 'inner/none', 'x' * 300, 'x/' * 3000, 'a\nb', '\u00e9'):
            path = os.path.join(folder, name) if name else ''
            for data in (SAMPLE, b'', b'x'):
                shown = bytes(byte if 32 <= byte <= 126 else ord('?') for byte in path.encode())
                refused('the folder %r' % name[:40], OPTION, agree(name[:40], OPTION + (path,), data), 2, b'station: "%s%s" cannot be entered; expected: a FOLDER that is there\n' % (shown[:40], b'..' if len(shown) > 40 else b''), b'')
                COUNT['folders'] += 1
        if held(folder) != [('a file', b''), ('inner', None), ('nowhere', 'there is none')]:
            sys.exit('send: bad folders leave %r' % held(folder))
    no_file = b'station: %s cannot be written in the folder, and none of the three files is\n'
    for name in FILES:
        for more in ({}, {other: OLD[other] for other in FILES if other != name}):
            unchanged('%s is a folder' % name, sent(name, SAMPLE, {**more, name: None}), {**more, name: None}, 3, no_file % name.encode())
            COUNT['folders'] += 1
        for ending in ('.part', '.aside'):
            for content in (b'', b'mine', None, 'nowhere', 'notes.txt'):
                before = {**OLD, **OTHERS, name + ending: content}
                words = b'station: %s is in the folder already; if no other --send is at work there, remove it\n' % (name + ending).encode()
                unchanged(name + ending, sent(name + ending, SAMPLE, before), before, 3, words)
                COUNT['folders'] += 1


def limited(blocks):
    """A program that may write no larger file than so many blocks: a disk that is full."""
    def how(words, data, _):
        return station.redirected(words, data, '')

    def run(words, data, before, *_):
        return into(['sh', '-c', 'ulimit -f %d && exec "$@"' % blocks, 'sh'] + words, data, before, how)
    return run


def as_nobody(words, data, before, mode):
    """What is printed, and what the folder has, where it is another's and has this mode."""
    def nobody():
        os.setgroups([])
        os.setgid(65534)
        os.setuid(65534)

    with tempfile.TemporaryDirectory() as folder:
        filled(folder, before)
        os.chmod(folder, mode)
        done = subprocess.run(words + [folder], input=data, stdout=subprocess.PIPE, stderr=subprocess.PIPE, preexec_fn=nobody if os.geteuid() == 0 else None)
        os.chmod(folder, 0o700)
        name = folder.encode()
        return done.stdout, done.stderr.replace(name[:40] + b'..' * (len(name) > 40), b'FOLDER'), done.returncode, held(folder)


def unwritten():
    """A full disk, a folder that may not be written or entered, one in which a file is another's, and standard output."""
    no_file = b'station: %s cannot be written in the folder, and none of the three files is\n'
    long = station.months(600)
    for blocks in (0, 1):
        unchanged('full', agree('full', OPTION, long, limited(blocks), OLD), OLD, 3, no_file % b'index.txt')
        COUNT['unwritten'] += 1
    said = b'station: standard output cannot be written\n'
    for before in ({}, OLD, {'z.txt': b'old'}):
        for change in ('>&-', '>/dev/full'):
            unchanged('output ' + change, sent('output ' + change, SAMPLE, before, how=station.redirected, more=(change,)), before, 3, said)
        unchanged('output not read', sent('output not read', SAMPLE, before, how=station.unread, more=(0,)), before, 3, said)
        COUNT['unwritten'] += 3
    for change in ('</', '<&-'):
        unchanged('input ' + change, sent('input ' + change, b'', OLD, how=station.redirected, more=(change,)), OLD, 2, b'station: standard input cannot be read\n')
        COUNT['unwritten'] += 1
    # another's folder, where that other can run the programs; of one with the sticky bit only its own files are replaced
    try:
        tried = all(as_nobody(words + list(OPTION), SAMPLE, {}, 0o777)[2] == 0 for words in station.PROGRAMS)
    except OSError:
        tried = False
    cases = [('read only', 0o555, OLD, 3, no_file % b'index.txt'), ('not to be entered', 0o666, OLD, 2, b'station: "FOLDER" cannot be entered; expected: a FOLDER that is there\n')]
    if os.geteuid() == 0:
        cases += [('sticky', 0o1777, OLD, 3, no_file % b'index.txt'), ('sticky, the last', 0o1777, {'modified.txt': b'old'}, 3, no_file % b'modified.txt')]
    for name, mode, before, status, words in cases if tried else ():
        unchanged(name, agree(name, OPTION, SAMPLE, as_nobody, before, mode), before, status, words)
        COUNT['unwritten'] += 1


def arguments():
    for words in ((), ('14',), ('14', '7'), ('14', '7', '.', '.'), ('14', '7', '.', '--help'), ('--help',), ('--send',), ('6',)):
        refused('bad arguments', words, agree('bad arguments', ('--send',) + words, SAMPLE), 2, b'station: --send and %d arguments more; expected: --send, a STATE, a DIVISION and a FOLDER\n' % len(words), b'')
        COUNT['arguments'] += 1
    bad = sorted({word for pair in division.BAD_ARGUMENTS if len(pair) == 2 for word in pair} - {'1'}, key=repr) + ['123', '1 1', '1,', 'KS', '\u0661\u0662']
    for word in bad:
        for name, pair in (('STATE', (word, '7')), ('DIVISION', ('14', word))):
            option = ('--send', *pair)
            printed = sent('bad arguments', SAMPLE, OLD, option)
            unchanged('the argument %r' % word, printed, OLD, 2, b'station: "', b'" is no %s; expected: one or two digits\n' % name.encode())
            COUNT['arguments'] += 1
    for words in (('--Send',), ('-send',), ('send',), ('--send=1',), ('6', '--send'), ('--help', '--send'), ('--send ', '1', '1', '.')):
        refused('bad arguments', words, agree('bad arguments', words, SAMPLE), 2, b'station: ', b'; expected: ')
        COUNT['arguments'] += 1
    out, err, status = agree('help', ('--help',), b'')
    if err or status or not all(words in out for words in (b'station --send STATE DIVISION FOLDER <FILE\n', b'index.txt, z.txt and modified.txt', b'replaced', b'years COUNT FIRST to LAST index MONTHS open MONTHS z MONTHS modified MONTHS\n')):
        sys.exit('send: --help: status %d, %r, %r' % (status, out, err))


# ---- division files

def fault(text):
    """What is said of a line that is malformed, after its number."""
    if len(text) < 94:
        return b': it ends after column %d, and the layout has 94' % len(text)
    for begin, end in ((0, 2), (2, 4), (4, 6), (6, 10)):
        if not re.fullmatch(rb'[0-9]+', text[begin:end]):
            return b', column %d: %s' % (begin + 1, b'a byte order mark; save the file without it' if text[0] == 0xef else b'no digits')
    rain = text[4:6] == b'01'
    for month in range(12):
        column = 10 + 7 * month
        # the other eleven are good, so that the line is malformed where this one is
        if layout_reader.read(text[:10] + 11 * b'   0.00' + text[column:column + 7], 0, 0, None).number == layout_reader.MALFORMED:
            return b', column %d: month %d is %s, as the layout has them' % (column + 1, month + 1, b'neither -9.99 nor 0.00 to 100.00 inches' if rain else b'no number with two decimals')
    after = text[94:].lstrip(b' ')
    return b', column 95: ' + (b'a carriage return; the file has CR LF line ends, and the layout a line feed alone' if after[:1] == b'\r' else b'something after the last value that is no space')


def read_back(data, element, state, division):
    """What is printed of a division file, and what is said."""
    rows, due, number = [], None, 0
    for number, text in enumerate(layout_reader.lines(data), 1):
        if layout_reader.read(text, 0, 0, None).number == layout_reader.MALFORMED:
            return b'refused %d 14\n' % number, b'receive: line %d%s\n' % (number, fault(text))
        *place, year, values = layout_reader.fields(text)
        if place != [state, division, ELEMENTS[element][1]]:
            continue
        if due not in (None, year):
            return b'refused %d 16\n' % number, b'receive: line %d: the year is %d, and %d was to follow\n' % (number, year, due)
        due = year + 1
        words = ['-' if n == MARK else str(n) for n in (int(100 * n) for n in values)]
        rows.append('%d %s %d\n' % (year, ' '.join(words), 12 - words.count('-')))
    if not rows:
        named = {'index': b'the index, element 05', 'z': b'the Z, element 07', 'modified': b'the modified index, element 08'}[element]
        words = b'no line up to line %d is %s, of state %d, division %d' % (number, named, state, division) if number else b'the input is empty'
        return b'refused %d 15\n' % number, b'receive: ' + words + b'\n'
    return ''.join(rows).encode(), b''


def receive(name, element, arguments, data, pieces=1):
    """Holds what is printed of a division file to that; the refusal, or 0."""
    out, err, status = printed = received(element, *arguments, data, pieces)
    right = read_back(data, element, *map(int, arguments))
    if printed != (*right, 1 if right[1] else 0):
        sys.exit('send: receive %s of %s: status %d, %r, %r; it should be %r' % (element, name, status, out[:200], err[:300], [part[:300] for part in right]))
    number = int(right[0].split()[2]) if right[1] else 0
    COUNT['received', number] += 1
    return number


def with_element(data, number):
    """A division file of precipitation as one of another element."""
    return b'\n'.join(text[:4] + b'%02d' % number + text[6:] if text[4:6] == b'01' else text for text in data.split(b'\n'))


def division_files():
    """The files of division.py, as they are and of each element; values of every kind; and files that are drawn."""
    names = list(ELEMENTS)
    inputs = list(division.line_inputs()) + list(division.long_inputs())
    for at, (name, arguments, data) in enumerate(inputs):
        element = names[at % 3]
        receive(name, element, arguments, with_element(data, ELEMENTS[element][1]), 1 + 6 * (at % 2))
        if at % 4 == 0:
            receive(name + ', of rain', element, arguments, data)
    for at, text in enumerate(layout_vectors.VALUES):
        for number in (5, 7, 8, 1):
            good = line(1, 1, 1895, [0] * 12, number)
            element = names[at % 3]
            receive('%r' % text, element, ('1', '1'), layout_vectors.put(good, 10 + 7 * (at % 12), text, 7) + b'\n')
    for cut in (0, 1, 5, 6, 9, 10, 11, 17, 50, 87, 92, 93, 94, 95, 97):
        for element, (_, number) in ELEMENTS.items():
            receive('a line of %d bytes' % cut, element, ('1', '1'), line(1, 1, 1895, [0] * 12, number) + b'\n' + line(1, 1, 1896, [0] * 12, number)[:cut])
    # of a state and a division lines of all elements, one after the other, in the order of the years and in that of the elements
    mixed = [line(1, 1, year, [year * n - 13300 for n in range(12)], number) for year in range(1895, 1905) for number in (2, 5, 6, 7, 8)]
    for element in names:
        for order in (mixed, sorted(mixed)):
            if receive('all elements', element, ('1', '1'), b'\n'.join(order)) != 0:
                sys.exit('send: receive: all elements: they should be read')
    draw = Draw(1408)
    for seed in range(200):
        number = draw.among((5, 7, 8))
        name, arguments, data = division.drawn(seed)
        element = draw.among([element for element in names if ELEMENTS[element][1] == number] * 3 + names)
        receive(name, element, arguments, with_element(data.replace(b'  -9.99', b' -99.99') if draw.below(2) else data, number))


def bad_receives():
    """Arguments, and input and output that cannot be."""
    good = line(1, 1, 1895, [0] * 12, 5) + b'\n'
    digits = sorted({word for pair in division.BAD_ARGUMENTS if len(pair) == 2 for word in pair} - {'1'}, key=repr)
    cases = [((), b'0 arguments; expected: '), (('index',), b'1 arguments; expected: '), (('index', '1', '1', '1'), b'4 arguments; expected: ')]
    cases += [((word, '1', '1'), b'ELEMENT is index, z or modified\n') for word in ('', 'Index', 'INDEX', '05', 'pdsi', 'Z', 'modified index', 'inde', 'indexx', 'zz', '1', b'\xff', 'a\nb')]
    cases += [(('index', word, '1'), b'STATE is one or two digits, as 07\n') for word in digits] + [(('z', '1', word), b'DIVISION is one or two digits, as 07\n') for word in digits]
    for words, said in cases:
        for data in (b'', good):
            refused('receive', words, running.printed(RECEIVE + list(words), data, 1), 2, b'receive: ' + said, b'')
            COUNT['arguments'] += 1
    words = RECEIVE + ['index', '1', '1']
    for data in (good, b'', b'x\n', b'\n'.join(line(1, 1, year, [0] * 12, 5) for year in range(10000))):
        for change in ('>&-', '>/dev/full'):
            refused('receive', (change,), station.redirected(words, data, change), 3, b'receive: the output cannot be written\n', b'')
        refused('receive', (), station.unread(words, data, 0), 3, b'receive: the output cannot be written\n', b'')
        COUNT['unwritten'] += 3
    for change in ('</', '<&-'):
        refused('receive', (change,), station.redirected(words, b'', change), 2, b'receive: the input cannot be read\n', b'')
        COUNT['unwritten'] += 1


def published():
    """How long a file of the published size takes: 344 divisions of 131 years, 45,064 lines with four spaces at their end, of
    which the last division is asked for."""
    years = {1895 + at: [(37 * at + 211 * m) % 1300 - 650 for m in range(12)] for at in range(131)}
    bodies = [line(0, 0, year, twelve, 5)[4:] + b'\n' for year, twelve in years.items()]
    where = list(places(344))
    data = b''.join(b'%02d%02d' % place + body for place in where for body in bodies)
    rows = b''.join(b'%d %s 12\n' % (year, b' '.join(b'%d' % n for n in twelve)) for year, twelve in years.items())
    with tempfile.TemporaryFile() as f:
        f.write(data)
        times = []
        for _ in range(3):
            f.seek(0)
            began = time.perf_counter()
            out = subprocess.run(RECEIVE + ['index', *map(str, where[-1])], stdin=f, stdout=subprocess.PIPE).stdout
            times.append(time.perf_counter() - began)
            if out != rows or len(data) != 45064 * 99:
                sys.exit('send: the file of the published size is not read: %r' % out[:300])
    COUNT['received', 0] += 1
    if min(times) > 1:
        sys.exit('send: a file of the published size takes %.2f s to read, and may take 1' % min(times))
    return min(times)


def main():
    if sys.argv[1:]:
        sys.exit('send.py')
    station.programs_are_there()
    if shutil.which(RECEIVE[0]) is None:
        sys.exit('send: %s is not there; host/receive builds it' % RECEIVE[0])
    for step in (sample, year_files, random_files, fitting, abating_files, z_files, bad_files, bad_folders, unwritten, arguments, division_files, bad_receives):
        step()
    seconds = published()
    if not all(COUNT[kind] > 10 for kind in ('good', 'refused', ('received', 0), ('received', 14), ('received', 15), ('received', 16))):
        sys.exit('send: too few of a kind: %r' % COUNT)
    print('send: %d cases in C and in Rust, no difference: records sent %d, refused by a value %d; bad station files %d; bad folders %d; output or input %d; arguments %d' % (
        sum(COUNT[kind] for kind in ('good', 'refused', 'bad', 'folders', 'unwritten', 'arguments')), *(COUNT[kind] for kind in ('good', 'refused', 'bad', 'folders', 'unwritten', 'arguments'))))
    print('send: %d files read back, and %d division files: rows of %d; refused with 14, 15 and 16: %d, %d and %d; one of the published size in %.3f s' % (
        COUNT['read back'], sum(COUNT['received', number] for number in (0, 14, 15, 16)), *(COUNT['received', number] for number in (0, 14, 15, 16)), seconds))


if __name__ == '__main__':
    main()
