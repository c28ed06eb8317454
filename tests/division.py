#!/usr/bin/env python3
"""Runs the program `division` on good, bad and large division files and compares what it prints with layout_reader.py.

  division.py           says whether the stored sample is what this program makes, then runs the inputs
  division.py --write   writes the sample: crates/division/stdin and crates/division/stdout

Each input is given whole and, through a pipe, in pieces that cut lines anywhere. Of a refusal's text on standard error
only this is asked: one line, closed, with the refused line's number in it; the words themselves are asked of a few,
WORDS. It prints how many inputs were run.
"""
import re
import sys
from collections import Counter

import layout_reader
import layout_vectors
import running
import stored
from division_file import MISSING, Draw, file, line, published, rainfall

COMMAND = running.command('division')

# the sample's divisions and their climates; the figures are made up
SAMPLE = [(1, 1, (450, 2, 250)), (1, 2, (465, 2, 250)), (14, 7, (165, 5, 650))]
SHOWN = ('14', '7')
MONTHS = [703, 296, 836, 353, 396, 540, 392, 336, 73, 203, 144, 366]

# the years of a division's lines, one after the other
YEARS = [
    ('a gap', (1895, 1896, 1898)),
    ('a gap after the first', (1895, 1897)),
    ('a year twice', (1895, 1896, 1896, 1897)),
    ('the first twice', (1895, 1895)),
    ('going down', (1897, 1896, 1895)),
    ('down by one', (1895, 1896, 1895)),
    ('100 years on', (1895, 1995)),
    ('9999 alone', (9999,)),
    ('up to 9999', (9997, 9998, 9999)),
    ('9999 and 0000', (9998, 9999, 0)),
    ('9999 and 0001', (9999, 1)),
    ('9999 and 1000', (9999, 1000)),
    ('9999 twice', (9999, 9999)),
    ('0000 alone', (0,)),
    ('from 0000 on', (0, 1, 2)),
    ('0000 twice', (0, 0)),
    ('0000 and 0002', (0, 2)),
    ('0001 and 0000', (1, 0)),
    ('from 0009 on', (9, 10, 11)),
    ('from 0098 on', (98, 99, 100, 101)),
    ('from 0999 on', (999, 1000)),
]

# a name, and what is changed to what in a line of 1896
DAMAGES = [
    ('outside', b'   5.40', b' 100.01'),
    ('below zero', b'   5.40', b'  -0.01'),
    ('another mark', b'   5.40', b' -99.99'),
    ('a zero in front', b'   5.40', b'  05.40'),
    ('a plus', b'   5.40', b'  +5.40'),
    ('a tab', b'   5.40', b'\t  5.40'),
    ('a zero byte', b'   5.40', b'  \x005.40'),
    ('a byte above 127', b'   5.40', b'  \xff5.40'),
    ('asterisks', b'   5.40', b'*******'),
    ('a byte less', b'   5.40', b'  5.40'),
    ('a byte more', b'   5.40', b'    5.40'),
    ('no last digit', b'   3.66', b'   3.6 '),
    ('a byte after', b'    ', b'   x'),
    ('a letter in the year', b'1896', b'18x6'),
]


def sample():
    """Three divisions of six years, the last of eight months; November 2021 of the third is missing."""
    draw = Draw(1895)
    lines = []
    for state, division, climate in SAMPLE:
        for number in range(2019, 2025):
            months = rainfall(draw, climate)
            if number == 2024:
                months[8:] = [MISSING] * 4
            if (state, number) == (14, 2021):
                months[10] = MISSING
            lines.append(line(state, division, number, months))
    return lines


def files():
    data = joined(sample())
    rows, _ = layout_reader.century(data, *map(int, SHOWN))
    return {'stdin': data, 'stdout': rows}


def joined(lines):
    return b''.join(text + b'\n' for text in lines)


def year(number, months=MONTHS, state=1, division=1, element=1):
    """A good line: of division 0101 unless it is told otherwise."""
    return line(state, division, number, months, element)


def years(*numbers, **other):
    return [year(number, **other) for number in numbers]


def file_inputs():
    """(name, arguments, bytes): files as they are published, whole and cut."""
    lines = sample()
    data = joined(lines)
    yield "the sample, without the last line's feed", SHOWN, data[:-1]
    for name, arguments in (('the first', ('1', '1')), ('the second', ('01', '2')), ('the last', ('14', '07'))):
        yield 'the sample, %s division' % name, arguments, data
    for arguments in (('1', '3'), ('2', '1'), ('7', '14'), ('0', '0'), ('99', '99'), ('41', '7')):
        yield 'the sample, a division that is not there', arguments, data
    yield 'the sample by years', SHOWN, joined(sorted(lines, key=lambda text: text[6:10]))
    yield 'the sample turned round', SHOWN, joined(lines[::-1])
    yield 'the sample twice', SHOWN, data * 2
    yield 'one division only', SHOWN, joined(lines[12:])
    yield 'one line', ('1', '1'), joined(lines[:1])
    for cut in (0, 1, 4, 9, 10, 17, 50, 93, 94, 95, 97):
        yield 'the last line cut to %d bytes' % cut, SHOWN, data[:-99 + cut]
        yield 'the last line cut to %d bytes, of another division' % cut, ('1', '1'), data[:-99 + cut]
    full = published(1895)
    for name, arguments in (('first', ('1', '1')), ('middle', ('24', '4')), ('last', ('48', '7'))):
        yield 'the published size, the %s division' % name, arguments, full
    yield 'the published size, a division that is not there', ('48', '8'), full
    yield 'the published size, the last byte of the last value wrong', ('1', '1'), full[:-6] + b'x' + full[-5:]
    yield 'the published size, cut short', ('1', '1'), full[:-40]
    yield '70,000 lines of another division, then one', ('1', '1'), joined(years(1895, state=2)) * 70000 + joined(years(1895))
    yield '70,000 lines of another division, then a malformed one', ('1', '1'), joined(years(1895, state=2)) * 70000 + b'x'


def line_inputs():
    """Years, elements, line ends and damaged lines."""
    good = joined(years(1895, 1896, 1897))
    yield 'nothing', ('1', '1'), b''
    yield 'a line feed', ('1', '1'), b'\n'
    yield 'two line feeds', ('1', '1'), b'\n\n'
    yield 'a space', ('1', '1'), b' '
    yield 'good, not closed', ('1', '1'), good[:-1]
    yield 'good, not closed, no trailing spaces', ('1', '1'), good.rstrip()
    yield 'no trailing spaces', ('1', '1'), good.replace(b'    \n', b'\n')
    for at in range(4):
        lines = years(1895, 1896, 1897)
        yield 'a blank line before line %d' % (at + 1), ('1', '1'), joined(lines[:at] + [b''] + lines[at:])
        yield 'a line of spaces before line %d' % (at + 1), ('1', '1'), joined(lines[:at] + [b' ' * 98] + lines[at:])
    yield 'a blank line before lines of another division', ('1', '1'), b'\n' + joined(years(1895, state=2)) + good
    yield 'carriage returns', ('1', '1'), good.replace(b'\n', b'\r\n')
    yield 'carriage returns only', ('1', '1'), good.replace(b'\n', b'\r')
    yield 'carriage returns, of another division', ('2', '1'), good.replace(b'\n', b'\r\n')
    yield 'a carriage return at the end', ('1', '1'), good + b'\r'
    yield 'a carriage return in the last line', ('1', '1'), good[:-1] + b'\r\n'
    # missing months
    none = [MISSING] * 12
    yield 'a year of missing months', ('1', '1'), joined([year(1895), year(1896, none), year(1897)])
    yield 'only missing months', ('1', '1'), joined(years(1895, 1896, months=none))
    yield 'each month missing in a year of its own', ('1', '1'), joined(year(1895 + m, MONTHS[:m] + [MISSING] + MONTHS[m + 1:]) for m in range(12))
    yield 'each number of months to come', ('1', '1'), joined(year(1895 + m, MONTHS[:m] + [MISSING] * (12 - m)) for m in range(13))
    yield 'the ends of the range', ('1', '1'), joined([year(1895, [0] * 12), year(1896, [10000] * 12), year(1897, [1] * 12), year(1898, [9999] * 12)])
    yield 'zeros with a minus', ('1', '1'), joined([year(1895).replace(b'   0.73', b'  -0.00'), year(1896).replace(b'   0.73', b'   -.00')])
    yield 'no digit before the point', ('1', '1'), good.replace(b'   0.73', b'    .73')
    # the years
    for name, numbers in YEARS:
        yield 'years: ' + name, ('1', '1'), joined(years(*numbers))
        yield 'years: ' + name + ', other divisions in between', ('1', '1'), b''.join(joined([text] + years(1895, 7, state=2)) for text in years(*numbers))
    yield 'all years', ('1', '1'), joined(years(*range(10000), months=[10000] * 12))
    yield 'all years and 0000', ('1', '1'), joined(years(*range(10000), 0))
    yield 'a division in two parts', ('1', '1'), joined(years(1895, 1896) + years(1895, division=2) + years(1897, 1898))
    # other elements
    cold = [-2000, -1250, 310, 4420, 5610, 6790, 7240, 7050, 6120, 4880, 2990, -40]
    for element in (0, 2, 5, 10, 11, 99):
        mixed = [text for number in (1895, 1896) for text in (year(number, cold, element=element), year(number), year(number, element=element))]
        yield 'element %d in between' % element, ('1', '1'), joined(mixed)
        yield 'element %d only' % element, ('1', '1'), joined(years(1895, 1896, months=cold, element=element))
    # what is damaged, in a line of this division, of another and of another element
    for name, old, new in DAMAGES:
        for whose, place in (('this division', {}), ('another division', {'division': 2}), ('another state', {'state': 2}), ('another element', {'element': 2})):
            whole = year(1896, **place)
            bad = layout_vectors.put(whole, whole.rindex(old), new, len(old))
            lines = years(1895) + [bad] + years(1896 if place else 1897)
            yield '%s, in a line of %s' % (name, whose), ('1', '1'), joined(lines)
            yield '%s, in a line of %s, the last' % (name, whose), ('1', '1'), joined(lines[:2])
            yield '%s, in a line of %s, the first' % (name, whose), ('1', '1'), joined(lines[1:])
    yield 'the first of two faults', ('1', '1'), joined(years(1895, 1897) + [b'x'])
    yield 'the first of two faults, the other way round', ('1', '1'), joined(years(1895) + [b'x'] + years(1897))
    yield 'a byte order mark', ('1', '1'), b'\xef\xbb\xbf' + good
    yield 'a zero byte after the last line', ('1', '1'), good + b'\0'
    yield 'every byte once', ('1', '1'), bytes(range(256))
    yield 'no division file', ('1', '1'), b'# a heading\n' + good
    yield 'division 00 of state 00', ('0', '0'), joined(years(1895, 1896, state=0, division=0))
    yield 'division 00 of state 00, asked as 00', ('00', '00'), joined(years(1895, 1896, state=0, division=0))
    yield 'division 99 of state 99', ('99', '99'), good + joined(years(1895, 1896, state=99, division=99))
    yield 'state 10, division 1', ('10', '1'), joined(years(1895) + years(1895, division=10) + years(1896, state=10))
    yield 'state 1, division 10', ('1', '10'), joined(years(1895) + years(1896, division=10) + years(1895, state=10))


def long_inputs():
    """Lines of a million bytes."""
    million = 1000000
    first, second = years(1895, 1896)
    yield 'a million trailing spaces', ('1', '1'), joined([first + b' ' * million, second])
    yield 'a million trailing spaces, the last line, not closed', ('1', '1'), first + b'\n' + second + b' ' * million
    yield 'a million trailing spaces, of another division', ('1', '1'), joined([year(1895, state=2) + b' ' * million, first, second])
    yield 'a million trailing spaces and a letter', ('1', '1'), joined([first, second + b' ' * million + b'x'])
    yield 'a million trailing spaces and a carriage return', ('1', '1'), joined([first, second + b' ' * million + b'\r'])
    yield 'a million trailing zero bytes', ('1', '1'), joined([first, second + b'\0' * million])
    yield 'a million spaces', ('1', '1'), joined([first, b' ' * million, second])
    yield 'a million spaces before', ('1', '1'), joined([first, b' ' * million + second])
    yield 'a million digits', ('1', '1'), joined([first, b'0101011896' + b'1' * million])
    yield 'a million digits, not closed', ('1', '1'), first + b'\n' + b'7' * million
    yield 'a million letters', ('1', '1'), b'x' * million + b'\n' + first
    yield 'a million blank lines', ('1', '1'), b'\n' * million
    yield 'a million blank lines after good ones', ('1', '1'), joined([first, second]) + b'\n' * million


def drawn(seed):
    """A short file of a few divisions, damaged in no place or in one or two."""
    draw = Draw(seed)
    where = [(1, 1), (1, 2), (2, 1)][:1 + draw.below(3)]
    lines = list(file(seed, where, 1 + draw.below(8), draw.among((0, 999, 1895, 1895, 1895, 9993))))
    for _ in range(draw.among((0, 0, 1, 1, 2))):
        at = draw.below(len(lines))
        kind = draw.below(8)
        if kind == 0:
            lines.insert(at, lines[at])
        elif kind == 1 and len(lines) > 1:
            del lines[at]
        elif kind == 2:
            lines[at] = layout_vectors.put(lines[at], 5, b'2')
        elif kind == 3:
            lines[at] = lines[at].rstrip(b' ')
        else:
            lines[at] = layout_vectors.damaged(draw, lines[at], 1)
    return 'drawn %d' % seed, draw.among((('1', '1'), ('1', '1'), ('01', '02'), ('2', '1'))), joined(lines)[:draw.among((None, None, -1, -5, -8))]


# no two of one or two digits
BAD_ARGUMENTS = [
    # how many
    (), ('1',), ('01',), ('1 1',), ('--help',), ('1', '1', '1'), ('1', '1', ''), ('1', '1', '--'), ('1', '1', '1', '1'),
    # how long
    ('1', ''), ('', '1'), ('', ''), ('001', '1'), ('1', '001'), ('100', '1'), ('1', '100'), ('000', '000'), ('1', '257'), ('1', '4294967297'), ('4294967297', '1'),
    ('0' * 100 + '1', '1'), ('1', '1' * 100000),
    # of what
    ('+1', '1'), ('1', '+1'), ('-1', '1'), ('1', '-1'), ('-', '1'), ('1', '-'), ('--', '1'), ('-h', '1'),
    (' 1', '1'), ('1', ' 1'), ('1 ', '1'), ('1', '1 '), ('1', ' '), ('1', '1\n'), ('1\t', '1'),
    ('a', '1'), ('1', 'a'), ('1a', '1'), ('1', 'a1'), ('0x', '1'), ('1', '/1'), ('1', '1:'), ('1', '1.'), ('.1', '1'), ('1', '*'),
    (b'\xb2', '1'), ('1', b'\xff'), (b'\x80\x81', '1'), ('1', '\u0661'.encode()), ('\u00b9'.encode(), '1'),
]


# what is said on standard error of an input that is refused: the lines after a good one of 1895
WORDS = [
    ([b'x'], b'line 2: it ends after column 1, and the layout has 94'),
    ([b''], b'line 2: it ends after column 0, and the layout has 94'),
    ([year(1896)[:93]], b'line 2: it ends after column 93, and the layout has 94'),
    ([b'x' + year(1896)[1:]], b'line 2, column 1: no digits'),
    ([year(1896)[:9] + b'x' + year(1896)[10:]], b'line 2, column 7: no digits'),
    ([year(1896).replace(b'   7.03', b'   7,03')], b'line 2, column 11: month 1 is neither -9.99 nor 0.00 to 100.00 inches, as the layout has them'),
    ([year(1896), year(1897).replace(b'   3.66', b' 100.01')], b'line 3, column 88: month 12 is neither -9.99 nor 0.00 to 100.00 inches, as the layout has them'),
    ([year(1896) + b'\r'], b'line 2, column 95: a carriage return; the file has CR LF line ends, and the layout a line feed alone'),
    ([year(1896).rstrip() + b'\r'], b'line 2, column 95: a carriage return; the file has CR LF line ends, and the layout a line feed alone'),
    ([year(1896) + b'x'], b'line 2, column 95: something after the last value that is no space'),
    ([year(1896).replace(b'   7.03', b'   7.03,')], b'line 2, column 18: month 2 is neither -9.99 nor 0.00 to 100.00 inches, as the layout has them'),
    ([b'5.56,4.80'], b'line 2: it ends after column 9, and the layout has 94'),
    ([year(1897)], b'line 2: the year is 1897, and 1896 was to follow'),
    ([year(1895, state=2), year(1895)], b'line 3: the year is 1895, and 1896 was to follow'),
]
# and where no line is of state 48, division 10
NOWHERE = [([], b'the input is empty'), ([b'\xef\xbb\xbf' + year(1895)], b'line 1, column 1: a byte order mark; save the file without it'),
           ([b'state,division,year,january'], b'line 1: it ends after column 27, and the layout has 94'), ([year(1895)], b'no line up to line 1 is precipitation of state 48, division 10')]


def words():
    """The words of refusals."""
    asked = [(('1', '01'), [year(1895)] + lines, said) for lines, said in WORDS] + [(('48', '10'), lines, said) for lines, said in NOWHERE]
    for arguments, lines, said in asked:
        err = running.printed(COMMAND + list(arguments), joined(lines), 1)[1]
        if err != b'division: ' + said + b'\n':
            sys.exit('division: %r: it says %r, and not %r' % (lines, err, said))


def one_line(text):
    """Whether a text is one closed line with something in it."""
    return text.count(b'\n') == 1 and text.endswith(b'\n') and text.strip() != b''


def wrong(out, err, status, right, refused):
    """What is wrong with what was printed, or None."""
    if out != right:
        return 'it should print %r' % right[:200]
    if not refused:
        return None if (err, status) == (b'', 0) else 'standard error should be empty and the status 0'
    if not one_line(err):
        return 'standard error should have one line'
    number = right.split()[1]
    if number != b'0' and number not in re.findall(rb'[0-9]+', err):
        return 'standard error should name line %s' % number.decode()
    # no status is promised here, but that nothing broke
    return None if 0 <= status < 126 else 'it should end by itself'


def compared(name, arguments, data, pieces, right, refused):
    out, err, status = running.printed(COMMAND + list(arguments), data, pieces)
    fault = wrong(out, err, status, right, refused)
    if fault:
        shown = ' '.join(repr(word)[:40] for word in arguments)
        sys.exit('division: %s, arguments %s, in %d pieces: status %d, %r, %r; %s' % (name, shown, pieces, status, out[:200], err[:200], fault))


def run():
    """Every input, and all bad arguments, each with no input and with a good one."""
    inputs = list(file_inputs()) + list(line_inputs()) + list(long_inputs()) + [drawn(seed) for seed in range(120)]
    answers = Counter()
    for name, arguments, data in inputs:
        right, refused = layout_reader.century(data, *map(int, arguments))
        answers[int(right.split()[2]) if refused else 0] += 1
        for pieces in (1, 7):
            compared(name, arguments, data, pieces, right, refused)
    # a byte at a time
    single = [(name, arguments, data) for name, arguments, data in inputs if name in ('good, not closed', 'years: a gap', 'element 2 in between')]
    for name, arguments, data in single:
        compared(name, arguments, data, len(data), *layout_reader.century(data, *map(int, arguments)))
    data = joined(sample())
    for arguments in BAD_ARGUMENTS:
        for given in (b'', data):
            out, err, status = running.printed(COMMAND + list(arguments), given, 1)
            if out or not one_line(err) or not 0 <= status < 126:
                shown = ' '.join(repr(word)[:40] for word in arguments)
                sys.exit('division: arguments %s: status %d, %r, %r; it should print one line on standard error only' % (shown, status, out[:200], err[:200]))
    counts = ', '.join('%d with %d' % (answers[k], k) for k in sorted(answers) if k)
    print('division: %d inputs, each whole and in pieces, and %d bad arguments, no difference; rows: %d; refused: %s' % (len(inputs), len(BAD_ARGUMENTS), answers[0], counts))


def main():
    if sys.argv[1:] not in ([], ['--write']):
        sys.exit('division.py [--write]')
    stored.settle(stored.crate('division', files()), bool(sys.argv[1:]))
    if not sys.argv[1:]:
        words()
        run()


if __name__ == '__main__':
    main()
