#!/usr/bin/env python3
"""Runs the two station programs, host/station.c and host/station.rs, on good, bad and damaged station files.

Both must print the same on standard output and on standard error and end with the same status. Of a good file it is
asked that every month is as tests/source_tables.py reckons it, T where its precipitation was a trace. Of a bad file it is
asked that the status is 1, that standard output is empty, and that standard error is one closed line with the line and
the column of the fault and the words that tell it from the others. It prints how many cases were run. The same programs
with --repair are for tests/repairs.py, and with --constants for tests/constants.py.

How the programs are started is told by STATION_C and STATION_RUST, in words as the shell has them; without them
target/host/station-c and target/host/station-rust are run, as host/run builds them. STATION_Z_C and STATION_Z_RUST
tell the same of the two programs over station_z.c; without them what is printed of an added Z is not tried.
"""
import os
import random
import shlex
import shutil
import subprocess
import sys
from collections import Counter

import running
import source_tables
from stored import TOP

PROGRAMS = [shlex.split(os.environ.get(name, '')) or [os.path.join(TOP, 'target', 'host', file)]
            for name, file in (('STATION_C', 'station-c'), ('STATION_RUST', 'station-rust'))]
WITH_Z = [shlex.split(os.environ.get(name, '')) for name in ('STATION_Z_C', 'STATION_Z_RUST')]

with open(os.path.join(TOP, 'samples', 'western-kansas-station.txt'), 'rb') as sample:
    SAMPLE = sample.read()
# the sample without its comments: line 1 is the capacity, 5 to 16 the constants, 18 to 53 the months, 54 the end
LINES = [text for text in SAMPLE.split(b'\n')[:-1] if not text.startswith(b'#')]
GOOD = b''.join(text + b'\n' for text in LINES)
CONSTANTS, JANUARY, DECEMBER, MONTHS, FIRST, LAST, END = 4, 5, 16, 17, 18, 53, 54

# rows of the sample: the first two and the last two of each table, and all seasons of six
SINGLY = [b'month P PE CAFEC Z percent index modified settled',
          b'1932-06 5560 4800 3105 3142 0 1047 1047 1',
          b'1932-07 1780 7040 2936 -1595 100 -532 -532 1',
          b'1935-04 250 1570 2347 -3229 0 -5464 -5464 1',
          b'1935-05 4650 2520 2855 2477 20 -4076 -3101 0']
ROWS = [b'month X1 X2 X3 index modified mark',
        b'1932-06 0 0 1047 1047 1047 S',
        b'1932-07 0 -532 0 -532 -532 S',
        b'1935-04 0 0 -5464 -5464 -5464 S',
        b'1935-05 826 0 -4076 -4076 -3101 O']
WATER = [b'month P PE ET R L RO surface underlying',
         b'1932-06 5560 4800 4800 760 0 0 760 1330',
         b'1932-07 1780 7040 3538 0 1758 0 0 332',
         b'1935-04 250 1570 250 0 0 0 0 0',
         b'1935-05 4650 2520 2520 2130 0 0 1000 1130']
SEASONS = [b'season added settled index modified', b'1 6 6 -1793 -1793', b'2 6 5 -2140 -2005', b'3 6 3 -2617 -2181', b'4 6 10 -3755 -3755', b'5 6 6 -4968 -4968', b'6 6 5 -4076 -3101']

# what a run holds
MOST = 12000

# how the months are added: one by one, and in seasons
WAYS = [(), ('1',), ('6',), (str(MOST),)]

# How a reading is written, precipitation and PE; and what is said of a T where it is none.
FORMS = (b'expected: digits, perhaps with a point, T for a trace, or - for a missing reading', b'expected: digits, perhaps with a point, or - for a missing reading')
NO_TRACES = (b'a trace of rain is written T, a missing reading -', b'a trace is of rain; PE is worked out and not observed: write 0, or - where it is missing')


def no_number(word, words):
    """What is said of a word in the place of precipitation, and of PE."""
    return [b'"' + word + b'" is no number; ' + one for one in words]


# A word that is no reading: where in it the fault is told, and the words, or those of precipitation and those of PE.
NO_READINGS = [
    (b'5.56,4.80', 4, b'a comma in "5.56,4.80"; words are parted by spaces, and decimals begin with a point'),
    (b'1,53', 1, b'a comma in "1,53"; words are parted by spaces, and decimals begin with a point'),
    (b'1;53', 1, b'a semicolon in "1;53"; words are parted by spaces'),
    (b',', 0, b'a comma in ","'),
    (b'abc', 0, no_number(b'abc', FORMS)),
    (b't', 0, no_number(b't', NO_TRACES)),
    (b'M', 0, no_number(b'M', FORMS)),
    (b'TR', 0, no_number(b'TR', FORMS)),
    (b'Trace', 0, no_number(b'Trace', FORMS)),
    (b'T.', 0, no_number(b'T.', FORMS)),
    (b'T0', 0, no_number(b'T0', FORMS)),
    (b'-T', 0, no_number(b'-T', FORMS)),
    (b'"T"', 0, no_number(b'"T"', FORMS)),
    (b'T,4.80', 1, b'a comma in "T,4.80"; words are parted by spaces, and decimals begin with a point'),
    (b'+T', 0, b'a plus in "+T"'),
    (b'0T', 1, b'something after the number in "0T"'),
    (b'nan', 0, b'"nan" is no number'),
    (b'inf', 0, b'"inf" is no number'),
    (b'-inf', 0, b'"-inf" is no number'),
    (b'--', 0, b'"--" is no number'),
    (b'--5', 0, b'"--5" is no number'),
    (b'"5.56"', 0, b'""5.56"" is no number'),
    (b'(5)', 0, b'"(5)" is no number'),
    (b'end', 0, b'"end" is no number'),
    (b'62mm', 2, b'something after the number in "62mm"; digits and a point only, and the unit stands once, in the line months'),
    (b'5.56in', 4, b'something after the number in "5.56in"'),
    (b'5.56"', 4, b'something after the number in "5.56""'),
    (b'0.02T', 4, b'something after the number in "0.02T"'),
    (b'5.56*', 4, b'something after the number in "5.56*"'),
    (b'0x10', 1, b'something after the number in "0x10"'),
    (b'5-6', 1, b'something after the number in "5-6"'),
    (b'5-', 1, b'something after the number in "5-"'),
    (b'5e', 1, b'something after the number in "5e"'),
    (b'1_000', 1, b'something after the number in "1_000"'),
    (b'5f', 1, b'something after the number in "5f"'),
    (b'.5', 0, b'no digit before the point in ".5"; one half is written 0.5'),
    (b'-.5', 1, b'no digit before the point in "-.5"'),
    (b'.', 0, b'no digit before the point in "."'),
    (b'5.', 1, b'no digit after the point in "5."; write digits after it, or no point'),
    (b'5.mm', 1, b'no digit after the point in "5.mm"'),
    (b'5..6', 1, b'no digit after the point in "5..6"'),
    (b'5.5.6', 3, b'a second point in "5.5.6"; expected: digits, perhaps with a point'),
    (b'1.000.5', 5, b'a second point in "1.000.5"'),
    (b'+1', 0, b'a plus in "+1"; a number is written without one'),
    (b'+', 0, b'a plus in "+"'),
    (b'1e2', 1, b'an exponent in "1e2"; write the number out'),
    (b'1.5E-3', 3, b'an exponent in "1.5E-3"'),
    (b'1e+2', 1, b'an exponent in "1e+2"'),
    (b'x' * 40, 0, b'"' + b'x' * 40 + b'" is no number'),
    (b'x' * 41, 0, b'"' + b'x' * 40 + b'.." is no number'),
    (b'5' * 3000 + b'x', 3000, b'something after the number in "' + b'5' * 40 + b'.."'),
]

# a word that is no whole number
NO_WHOLES = [
    (b'6,000', 1, b'a comma in "6,000"; words are parted by spaces, and a whole number has digits only'),
    (b'6;0', 1, b'a semicolon in "6;0"'),
    (b'abc', 0, b'"abc" is no number; expected: a whole number of '),
    (b'T', 0, b'"T" is no number; expected: a whole number of '),
    (b'-', 0, b'"-" is no number; expected: a whole number of '),
    (b'--1', 0, b'"--1" is no number'),
    (b'nan', 0, b'"nan" is no number'),
    (b'60mm', 2, b'something after the number in "60mm"; expected: a whole number of '),
    (b'0x10', 1, b'something after the number in "0x10"'),
    (b'6.0', 1, b'a point in "6.0"; expected: a whole number of '),
    (b'6.', 1, b'a point in "6."'),
    (b'.6', 0, b'a point in ".6"'),
    (b'+6', 0, b'a plus in "+6"; a number is written without one'),
    (b'6e3', 1, b'an exponent in "6e3"; write the number out'),
    (b'2147483648', 0, b'"2147483648" is too large in size; whole numbers are -2147483648 to 2147483647'),
    (b'-2147483649', 0, b'"-2147483649" is too large in size'),
    (b'-21474836480', 0, b'"-21474836480" is too large in size'),
    (b'4294967296', 0, b'"4294967296" is too large in size'),
    (b'18446744073709551616', 0, b'"18446744073709551616" is too large in size'),
    (b'9' * 500, 0, b'"' + b'9' * 40 + b'.." is too large in size'),
]

# bytes that may not stand in a line
NO_BYTES = [
    (b'\t', b'a tab; words are parted by spaces'),
    (b'\0', b'byte 0, which is no plain text (ASCII)'),
    (b'\x0b', b'byte 11, '),
    (b'\x0c', b'byte 12, '),
    (b'\x1a', b'byte 26, '),
    (b'\x1f', b'byte 31, '),
    (b'\x7f', b'byte 127, '),
    (b'\xa0', b'byte 160, '),
    (b'\xc2\xa0', b'byte 194, '),
    (b'\xe2\x88\x92', b'byte 226, '),
    (b'\xff', b'byte 255, '),
    (b'\xff\xfe', b'byte 255, '),
    (b'\xef\xbb', b'byte 239, '),
    (b'\xef\xbb\xbf', b'a byte order mark; save the file without it'),
]

# words that are no month, in the place of 1935-05, the last, and of 1932-06, the first
NO_DATES = [b'T', b'1935-5', b'1935-00', b'1935-13', b'1935-99', b'1935/05', b'1935.05', b'193505', b'1935-05-01', b'935-05', b'01935-05', b'-935-05',
            b'05-1935', b'1935-', b'1935', b'5', b'May', b'May-35', b'1935-O5', b'1935-0x', b'1935-+5', b'+935-05', b'1935--5', b'END', b'End', b'ende', b'-', b'x' * 90]


def changed(number, text):
    """The good file with another line in the place of this one; none where the text is None."""
    lines = list(LINES)
    lines[number - 1:number] = [] if text is None else [text]
    return b''.join(line + b'\n' for line in lines)


def inserted(number, *texts):
    """The good file with lines before this one."""
    return b''.join(line + b'\n' for line in LINES[:number - 1] + list(texts) + LINES[number - 1:])


def worded(number, place, word):
    """The good file with another word at a place of a line, counted from 0; and the column where it begins."""
    words = LINES[number - 1].split(b' ')
    words[place] = word
    return changed(number, b' '.join(words)), len(b' '.join(words[:place] + [b'']) if place else b'') + 1


def date(when):
    return b'%04d-%02d' % (when // 12, when % 12 + 1)


def months(count, first=(1700, 1), readings=(b'0.02 0.21', b'4.91 5.41', b'1.04 0.40', b'0.74 7.90', b'2.39 0.00')):
    """The good file with so many other months."""
    when = 12 * first[0] + first[1] - 1
    lines = [date(when + i) + b' ' + readings[i % len(readings)] for i in range(count)]
    return b''.join(line + b'\n' for line in LINES[:MONTHS] + lines + [b'end'])


def number_cases():
    """(name, bytes, line, column, words): words that are no numbers, in the first month and in the last."""
    for word, at, words in NO_READINGS:
        for number in (FIRST, LAST):
            for place, name in ((1, 'precipitation'), (2, 'PE')):
                data, column = worded(number, place, word)
                told = words if isinstance(words, bytes) else words[place - 1]
                yield 'line %d, %s %r' % (number, name, word[:50]), data, number, column + at, told
    for number in (FIRST, LAST):
        data, column = worded(number, 2, b'T')
        yield 'line %d, PE T' % number, data, number, column, no_number(b'T', NO_TRACES)[1]
        yield 'line %d, T twice' % number, changed(number, LINES[number - 1][:8] + b'T T'), number, 11, no_number(b'T', NO_TRACES)[1]
    for word, at, words in NO_WHOLES:
        for number, place in ((1, 1), (2, 1), (3, 1), (JANUARY, 1), (JANUARY, 5), (JANUARY + 5, 3), (DECEMBER, 5)):
            data, column = worded(number, place, word)
            yield 'line %d, word %d %r' % (number, place + 1, word[:50]), data, number, column + at, words


def byte_cases():
    """Bytes that are no plain text: in front of a line, at its end and in it; line ends of other systems."""
    for byte, words in NO_BYTES:
        for number in (1, CONSTANTS, DECEMBER, MONTHS, FIRST, LAST, END):
            text = LINES[number - 1]
            for at in (0, 1, len(text)):
                if byte == b'\xff\xfe' and (number, at) == (1, 0):
                    continue
                yield 'line %d, bytes %r after %d others' % (number, byte, at), changed(number, text[:at] + byte + text[at:]), number, at + 1, words
    ends = b'a carriage return; the file has CR LF line ends, and a line feed alone is expected'
    yield 'carriage returns', GOOD.replace(b'\n', b'\r\n'), 1, 14, ends
    yield 'carriage returns, comments in front', b'# a\r\n# b\r\n' + GOOD.replace(b'\n', b'\r\n'), 3, 14, ends
    yield 'carriage returns, a byte order mark', b'\xef\xbb\xbf' + GOOD.replace(b'\n', b'\r\n'), 1, 1, b'a byte order mark; save the file without it'
    yield 'a byte order mark before a comment', b'\xef\xbb\xbf# a\n' + GOOD, 1, 1, b'a byte order mark; save the file without it'
    yield 'UTF-16', b'\xff\xfe' + GOOD.decode().encode('utf-16-le'), 1, 1, b'a byte order mark of UTF-16; save the file as plain text (ASCII)'
    yield 'UTF-16, the other way round', b'\xfe\xff' + GOOD.decode().encode('utf-16-be'), 1, 1, b'a byte order mark of UTF-16; save the file as plain text (ASCII)'
    yield 'UTF-16 without a mark', GOOD.decode().encode('utf-16-le'), 1, 2, b'byte 0, '
    for number in (MONTHS, FIRST, LAST, END):
        text = LINES[number - 1]
        yield 'line %d, a carriage return' % number, changed(number, text + b'\r'), number, len(text) + 1, ends
        yield 'line %d, a carriage return in it' % number, changed(number, text[:2] + b'\r' + text[2:]), number, 3, b'a carriage return; lines are closed by a line feed alone'
    yield 'the end, closed by a carriage return', GOOD[:-1] + b'\r', END, 4, ends
    yield 'carriage returns only', GOOD.replace(b'\n', b'\r'), 1, 14, b'a carriage return; lines are closed by a line feed alone'


def expected(number):
    """What the line should hold, as a message has it, and the other thing that it might be."""
    if number <= 3:
        return LINES[number - 1].split(b' ')[0] + b' THOUSANDTHS', b''
    if number == CONSTANTS:
        return b'constants alpha beta gamma delta K', b''
    if number <= DECEMBER:
        return LINES[number - 1].split(b' ')[0] + b' ALPHA BETA GAMMA DELTA K', b''
    if number == MONTHS:
        return b'months inches, or months millimetres', b''
    if number == FIRST:
        return b'YYYY-MM PRECIPITATION PE', b''
    return date(12 * 1932 + 5 + number - FIRST) + b' PRECIPITATION PE', b', or end'


def line_cases():
    """Each line: empty, of spaces, with each of its words left out, with one more, with another first word."""
    nth = (b'first', b'second', b'third', b'fourth', b'fifth', b'sixth', b'seventh')
    for number in (1, 2, 3, CONSTANTS, JANUARY, JANUARY + 6, DECEMBER, MONTHS, FIRST, FIRST + 1, LAST, END):
        text = LINES[number - 1]
        words = text.split(b' ')
        like, other = expected(number)
        yield 'line %d empty' % number, changed(number, b''), number, None, b'it is empty; expected: ' + like + other
        yield 'an empty line before line %d' % number, inserted(number, b''), number, None, b'it is empty; expected: ' + like + other
        yield 'line %d of spaces' % number, changed(number, b'   '), number, 4, b'the line ends after 0 words; expected: ' + like + other
        for count in range(1, len(words)):
            cut = b' '.join(words[:count])
            many = b'%d word%s' % (count, b'' if count == 1 else b's')
            yield 'line %d, its first %d words' % (number, count), changed(number, cut), number, len(cut) + 1, b'the line ends after ' + many + b'; expected: ' + like + b'\n'
            yield 'line %d, its first %d words and spaces' % (number, count), changed(number, cut + b'  '), number, len(cut) + 3, b'the line ends after ' + many + b'; expected: ' + like + b'\n'
        comment = b'a # that does not begin its line; a comment has a line of its own'
        yield 'line %d and a comment' % number, changed(number, text + b' # inches'), number, len(text) + 2, comment
        yield 'a space and a comment before line %d' % number, inserted(number, b' # inches'), number, 2, comment
        more = b'; expected: ' + (b'end' if number == END else like) + b'\n'
        for extra in (b'1', b'end', b'x' * 60):
            shown = extra if len(extra) < 41 else extra[:40] + b'..'
            yield 'line %d and %r' % (number, extra), changed(number, text + b' ' + extra), number, len(text) + 2, b'a ' + nth[len(words)] + b' word, "' + shown + b'"' + more
        if number < FIRST:
            for word in (b'xyz', b'end', words[0].swapcase(), words[0] + b':', b'"' + words[0] + b'"', words[0][:-1]):
                yield 'line %d, %r at its head' % (number, word), changed(number, b' '.join([b' ' + word] + words[1:])), number, 2, b'"' + word + b'" is not known here; expected: ' + like
            yield 'line %d with commas' % number, changed(number, b','.join(words)), number, len(words[0]) + 1, b'a comma in "' + b','.join(words)[:40]
        elif number < END:
            yield 'line %d with commas' % number, changed(number, b','.join(words)), number, 8, b'a comma in "' + b','.join(words) + b'"; words are parted by spaces\n'
            yield 'line %d with semicolons' % number, changed(number, b';'.join(words)), number, 8, b'a semicolon in "' + b';'.join(words) + b'"; words are parted by spaces\n'


def order_cases():
    """Lines in another order, or left out; the unit; the dates."""
    for number in (1, 2, 3, CONSTANTS, DECEMBER, MONTHS):
        following = LINES[number].split(b' ')[0]
        if number < DECEMBER:
            yield 'without line %d' % number, changed(number, None), number, 1, b'"' + following + b'" is not known here; expected: ' + expected(number)[0]
    yield 'without the line months', changed(MONTHS, None), MONTHS, 1, b'"1932-06" is not known here; expected: months inches, or months millimetres'
    yield 'without December', changed(DECEMBER, None), DECEMBER, 1, b'"months" is not known here; expected: December ALPHA BETA GAMMA DELTA K'
    yield 'without January', changed(JANUARY, None), JANUARY, 1, b'February here, and January was to follow; the constants stand from January to December'
    yield 'without July', changed(JANUARY + 6, None), JANUARY + 6, 1, b'August here, and July was to follow'
    yield 'January twice', inserted(JANUARY + 1, LINES[JANUARY - 1]), JANUARY + 1, 1, b'January here, and February was to follow'
    yield 'December twice', inserted(MONTHS, LINES[DECEMBER - 1]), MONTHS, 1, b'"December" is not known here; expected: months inches, or months millimetres'
    yield 'a capacity twice', inserted(2, LINES[0]), 2, 1, b'"capacity" is not known here; expected: surface THOUSANDTHS'
    yield 'constants in another order', changed(CONSTANTS, b'constants alpha gamma beta delta K'), CONSTANTS, 17, b'"gamma" is not known here; expected: constants alpha beta gamma delta K'
    yield 'a small k', changed(CONSTANTS, b'constants alpha beta gamma delta k'), CONSTANTS, 34, b'"k" is not known here'
    for unit in (b'mm', b'inch', b'in', b'Inches', b'millimeters', b'millimetre', b'cm', b'hundredths', b'1932-06', b'T', b'"'):
        yield 'months %s' % unit.decode(), changed(MONTHS, b'months ' + unit), MONTHS, 8, b'"' + unit + b'" is no unit; expected: months inches, or months millimetres'
    yield 'two units', changed(MONTHS, b'months inches millimetres'), MONTHS, 15, b'a third word, "millimetres"; expected: months inches, or months millimetres'
    for word in NO_DATES:
        shown = word if len(word) < 41 else word[:40] + b'..'
        words = b'"' + shown + b'" is no month (four digits, a minus, 01 to 12); expected: '
        yield 'the last month %r' % word, worded(LAST, 0, word)[0], LAST, 1, words + b'1935-05 PRECIPITATION PE, or end'
        yield 'the first month %r' % word, worded(FIRST, 0, word)[0], FIRST, 1, words + b'YYYY-MM PRECIPITATION PE'
    yield 'a month without its date', changed(LAST, b'4.65 2.52'), LAST, 1, b'"4.65" is no month'
    gap = b'; a month without readings is written '
    yield 'a gap before the last', changed(LAST - 1, None), LAST - 1, 1, b'1935-05 here, and 1935-04 was to follow' + gap + b'1935-04 - -'
    yield 'a gap after the first', changed(FIRST + 1, None), FIRST + 1, 1, b'1932-08 here, and 1932-07 was to follow' + gap + b'1932-07 - -'
    yield 'a gap over the year', changed(FIRST + 7, None), FIRST + 7, 1, b'1933-02 here, and 1933-01 was to follow' + gap + b'1933-01 - -'
    yield 'a year on', changed(LAST, b' 1936-05 4.65 2.52'), LAST, 2, b'1936-05 here, and 1935-05 was to follow' + gap + b'1935-05 - -'
    yield 'the first twice', inserted(FIRST, LINES[FIRST - 1]), FIRST + 1, 1, b'1932-06 here again, and 1932-07 was to follow; each month stands once'
    yield 'the last twice', inserted(END, LINES[LAST - 1]), END, 1, b'1935-05 here again, and 1935-06 was to follow; each month stands once'
    yield 'the first at the end', inserted(END, LINES[FIRST - 1]), END, 1, b'1932-06 here, and 1935-06 was to follow; the months stand in order of time'
    yield 'two back', inserted(END, LINES[LAST - 2]), END, 1, b'1935-04 here, and 1935-06 was to follow; the months stand in order of time'
    yield 'months turned round', b'\n'.join(LINES[:MONTHS] + LINES[LAST - 1:MONTHS - 1:-1] + [b'end', b'']), FIRST + 1, 1, b'1935-04 here, and 1935-06 was to follow; the months stand'
    last = months(2, (9999, 11))
    yield 'after 9999-12', last.replace(b'end', b'0000-01 1 1\nend'), FIRST + 2, 1, b'0000-01 here, and no month can follow 9999-12; expected: end'
    yield '10000-01', last.replace(b'end', b'10000-01 1 1\nend'), FIRST + 2, 1, b'"10000-01" is no month (four digits, a minus, 01 to 12); expected: end\n'
    yield 'an empty line after 9999-12', last.replace(b'end', b'\nend'), FIRST + 2, None, b'it is empty; expected: end\n'


def weights_cases():
    """Weights in the place of the constants, which only --constants takes (tests/constants.py), whatever follows them."""
    words = b'weights and no constants; host/constants works the constants out of this file\n'
    weights = [b'weights'] + [text.split(b' ')[0] + b' 10000' for text in LINES[CONSTANTS:DECEMBER]]
    yield 'weights', b''.join(line + b'\n' for line in LINES[:CONSTANTS - 1] + weights + LINES[DECEMBER:]), CONSTANTS, None, words
    yield 'the heading of weights', changed(CONSTANTS, b'  weights 1'), CONSTANTS, None, words
    yield 'weights and a comment', inserted(CONSTANTS, b'# lost', b'weights'), CONSTANTS + 1, None, words
    yield 'weights after the constants', inserted(MONTHS, *weights), MONTHS, 1, b'"weights" is not known here; expected: months inches, or months millimetres\n'


def end_cases():
    """Files that are cut short, or go on after their end."""
    cut = b'the file ends without its last line, end; it may be cut short'
    yield 'an empty file', b'', 1, None, b'the file is empty; expected: capacity THOUSANDTHS'
    yield 'a line feed', b'\n', 1, None, b'it is empty; expected: capacity THOUSANDTHS'
    yield 'a space', b' ', 1, 2, b'the line ends after 0 words; expected: capacity THOUSANDTHS'
    yield 'a byte order mark only', b'\xef\xbb\xbf', 1, 1, b'a byte order mark'
    yield 'only a comment', b'# a', 1, None, b'the file has only comments; expected: capacity THOUSANDTHS'
    yield 'only comments', b'# a\n#\n', 3, None, b'the file has only comments; expected: capacity THOUSANDTHS'
    yield 'the end only', b'end\n', 1, 1, b'"end" is not known here; expected: capacity THOUSANDTHS'
    yield 'no month', b''.join(line + b'\n' for line in LINES[:MONTHS] + [b' end']), FIRST, 2, b'end here, and no month before it; expected: YYYY-MM PRECIPITATION PE'
    for count in list(range(1, FIRST + 3)) + [LAST - 1, LAST]:
        data = b''.join(line + b'\n' for line in LINES[:count])
        yield 'the first %d lines' % count, data, count + 1, None, cut
        yield 'the first %d lines, not closed' % count, data[:-1], count, None, cut
        yield 'the first %d lines and a comment' % count, data + b'# a\n', count + 2, None, cut
    yield 'all but the end, a comment, not closed', changed(END, b'# end')[:-1], END, None, cut
    yield 'all but the last digit', GOOD[:-6], LAST, None, cut
    yield 'cut after a point', GOOD[:-7], LAST, 15, b'no digit after the point in "2."'
    yield 'cut after the precipitation', GOOD[:-10], LAST, 13, b'the line ends after 2 words; expected: 1935-05 PRECIPITATION PE; the file ends here and may be cut short\n'
    yield 'cut in the end', GOOD[:-2], END, 1, b'"en" is no month (four digits, a minus, 01 to 12); expected: 1935-06 PRECIPITATION PE, or end'
    yield 'cut in a name', GOOD[:GOOD.index(b'uary')], JANUARY, 1, b'"Jan" is not known here; expected: January ALPHA BETA GAMMA DELTA K'
    yield 'cut in the constants', GOOD[:GOOD.index(b' 4694')], JANUARY, 20, b'the line ends after 4 words; expected: January ALPHA BETA GAMMA DELTA K; the file ends here and may be cut short\n'
    after = b'something after the last line, end; nothing may follow it'
    for name, text in (('a month', LINES[LAST - 1]), ('a comment', b'# a'), ('a second end', b'end'), ('a space', b' '), ('a carriage return', b'\r'), ('a zero byte', b'\0')):
        yield '%s after the end' % name, GOOD + text + b'\n', END + 1, 1, after
        yield '%s after the end, not closed' % name, GOOD + text, END + 1, 1, after
    yield 'the file twice', GOOD + GOOD, END + 1, 1, after
    yield 'an empty line after the end', GOOD + b'\n', END + 1, None, b'it is empty; end is the last line, and nothing may follow it'
    yield 'the end with a number', changed(END, b'end 36'), END, 5, b'a second word, "36"; expected: end\n'
    yield 'a last month without its PE', changed(LAST, b'1935-05 4.65'), LAST, 13, b'the line ends after 2 words; expected: 1935-05 PRECIPITATION PE\n'
    # what comes first is told
    yield 'two faults', worded(FIRST, 1, b'abc')[0].replace(b'2.52', b'T'), FIRST, 9, b'"abc" is no number'
    yield 'two faults in a line', changed(FIRST, b'1932-06 abc T x'), FIRST, 9, b'"abc" is no number'
    yield 'a fault of the format after one that the library would refuse', worded(1, 1, b'1')[0].replace(b'2.52', b'T'), LAST, 14, b'"T" is no number'
    for count in (2401, MOST + 1):
        yield '%d months and a fault' % count, months(count).replace(b'end', b'x'), FIRST + count, 1, b'"x" is no month'
    yield '30,000 months and a fault', months(30000).replace(b'end', b'x'), FIRST + 30000, 1, b'"x" is no month'


def library_cases():
    """What the library refuses, at its place."""
    ranges = (b'0 to 10000', b'0 to 10000', b'0 to 50000', b'0 to 10000', b'1 to 100000')
    for number in (JANUARY, JANUARY + 5, DECEMBER):
        for place, (name, span, word) in enumerate(zip((b'alpha', b'beta', b'gamma', b'delta', b'K'), ranges, (b'10001', b'60000', b'50001', b'-1', b'100001'))):
            data, column = worded(number, place + 1, word)
            said = name + b' ' + word + b' is refused (3: a constant outside its range), ' + name + b' is ' + span
            yield 'line %d, %s %s' % (number, name.decode(), word.decode()), data, number, column, said
    zero_k = b'K 0 is refused (21: a K of 0, by which a month counts for nothing), K is 1 to 100000'
    for number in range(JANUARY, DECEMBER + 1):
        data, column = worded(number, 5, b'0')
        yield 'line %d, K 0' % number, data, number, column, zero_k
    data, column = worded(JANUARY + 2, 5, b'0')
    yield 'K 0 and a capacity', data.replace(b'capacity 6000', b'capacity 1'), JANUARY + 2, column, zero_k
    data, column = worded(DECEMBER, 5, b'100001')
    march = LINES[JANUARY + 1]
    yield 'K 0 in March and a December K', data.replace(march, march.rsplit(b' ', 1)[0] + b' 0'), DECEMBER, column, b'K 100001 is refused (3: a constant outside its range), K is 1 to 100000'
    two = worded(DECEMBER, 5, b'-2147483648')[0].replace(b'722', b'2147483647')
    yield 'two constants', two, JANUARY, 14, b'beta 2147483647 is refused (3: a constant outside its range)'
    yield 'a constant and all that comes after it', two.replace(b'capacity 6000', b'capacity 1').replace(b'5.56', b'-'), JANUARY, 14, b'beta 2147483647 is refused (3: '
    for word in (b'99', b'30001', b'-6000', b'0', b'1', b'2147483647'):
        yield 'capacity %s' % word.decode(), worded(1, 1, word)[0], 1, 10, b'capacity ' + word + b' is refused (4: capacity outside its range), capacity is 100 to 30000'
    storage = b' is refused (5: a start storage negative or above its layer), '
    surface, underlying = b'surface is 0 to 1000, or to capacity where that is less', b'underlying is 0 to capacity - 1000, or 0 where capacity is below 1000'
    for word in (b'-1', b'1001', b'99999'):
        yield 'surface %s' % word.decode(), worded(2, 1, word)[0], 2, 9, b'surface ' + word + storage + surface
    for word in (b'-1', b'5001', b'99999'):
        yield 'underlying %s' % word.decode(), worded(3, 1, word)[0], 3, 12, b'underlying ' + word + storage + underlying
    yield 'both storages', worded(2, 1, b'1001')[0].replace(b'1330', b'-5'), 2, 9, b'surface 1001 is refused (5: '
    for capacity, surface_word, underlying_word in ((100, 101, 0), (100, 1000, 0), (999, 1000, 0), (1000, 1001, 0), (1001, 1001, 1)):
        yield 'capacity %d, surface %d' % (capacity, surface_word), soiled(capacity, surface_word, underlying_word), 2, 9, b'surface %d' % surface_word + storage + surface
    for capacity, surface_word, underlying_word in ((100, 0, 1), (100, 0, 100), (999, 999, 1), (1000, 1000, 1), (1001, 0, 2)):
        yield 'capacity %d, underlying %d' % (capacity, underlying_word), soiled(capacity, surface_word, underlying_word), 3, 12, b'underlying %d' % underlying_word + storage + underlying
    yield 'a thin soil in deep storages', worded(1, 1, b'100')[0], 3, 12, b'underlying 1330' + storage + underlying
    missing = b' is missing (8: reading missing); README.md, "Missing months", says what to do'
    bad = b' is refused (9: reading not acceptable), inches are 0 to 100, and a missing reading is written -'
    for number in (FIRST, FIRST + 5, FIRST + 6, LAST):
        for place, name in ((1, b'precipitation'), (2, b'PE')):
            data, column = worded(number, place, b'-')
            yield 'line %d, %s missing' % (number, name.decode()), data, number, column, name + missing
            for word in (b'100.5', b'-0.01', b'-0.0003', b'-9.99', b'100.00001', b'9' * 39, b'1' + b'0' * 60):
                data, column = worded(number, place, word)
                shown = word if len(word) < 41 else word[:40] + b'..'
                yield 'line %d, %s %s' % (number, name.decode(), shown.decode()), data, number, column, name + b' ' + shown + bad
    yield 'both missing', changed(FIRST + 3, b'1932-09 - -'), FIRST + 3, 9, b'precipitation' + missing
    yield 'refused and missing', changed(FIRST + 3, b'1932-09 101 -'), FIRST + 3, 9, b'precipitation 101' + bad
    yield 'missing and refused', changed(FIRST + 3, b'1932-09 - 101'), FIRST + 3, 9, b'precipitation' + missing
    yield 'the first of two months', worded(LAST, 1, b'-')[0].replace(b'0.53', b'101'), FIRST + 5, 14, b'PE 101' + bad
    metric = GOOD.replace(b'months inches', b'months millimetres')
    yield 'millimetres', metric.replace(b'2.52', b'2540.5'), LAST, 14, b'PE 2540.5 is refused (9: reading not acceptable), millimetres are 0 to 2540, and a missing reading is written -'
    full = b' is refused (10: months already equal the column length), a run holds %d' % MOST
    yield '12,001 months', months(MOST + 1), FIRST + MOST, 1, b'2700-01' + full
    yield '12,002 months', months(MOST + 2), FIRST + MOST, 1, b'2700-01' + full
    yield '12,001 months up to 9999-12', months(MOST + 1, (8999, 12)), FIRST + MOST, 1, b'9999-12' + full
    yield '60,000 months', months(60000, (0, 1), (b'1 1',)), FIRST + MOST, 1, b'1000-01' + full
    for count, last in ((2401, b'1900-01'), (MOST + 1, b'2700-01')):
        yield '%d months, the last one missing' % count, months(count).replace(last + b' 0.02', last + b' -'), FIRST + count - 1, 9, b'precipitation' + missing
    for count, last in ((2400, b'1899-12'), (MOST, b'2699-12')):
        yield '%d months, the last one missing' % count, months(count).replace(last + b' 2.39 0.00', last + b' 2.39 -'), FIRST + count - 1, 14, b'PE' + missing


def millimetres():
    """The good file, each reading times 25.4."""
    lines = [LINES[MONTHS - 1].replace(b'inches', b'millimetres')]
    for text in LINES[FIRST - 1:LAST]:
        when, *readings = text.split(b' ')
        thousandths = [254 * int(word.replace(b'.', b'')) for word in readings]
        lines.append(b' '.join([when] + [b'%d.%03d' % divmod(n, 1000) for n in thousandths]))
    return b'\n'.join(LINES[:MONTHS - 1] + lines + [b'end', b''])


def padded(size):
    """The good file behind a comment, so many bytes together."""
    return b'#' * (size - len(GOOD) - 1) + b'\n' + GOOD


def soiled(capacity, surface, underlying):
    """The good file with another soil."""
    return b''.join(b'%s %d\n' % pair for pair in zip((b'capacity', b'surface', b'underlying'), (capacity, surface, underlying))) + b''.join(text + b'\n' for text in LINES[3:])


def reckoned(data):
    """A file like the good one, without comments, by the reckoning of tests/source_tables.py: of each month its row as it was
    added, but for how many months it settled, its row in the end, and that of its water. A month of dashes is one that was
    added as a Z of 0."""
    lines = data.split(b'\n')
    capacity, surface, underlying = [int(text.split(b' ')[1]) for text in lines[:3]]
    constants = [[int(word) for word in text.split(b' ')[1:]] for text in lines[JANUARY - 1:DECEMBER]]
    unit = lines[MONTHS - 1].split(b' ')[1].decode()
    added, water, anomalies = [], [], []
    for text in lines[FIRST - 1:lines.index(b'end')]:
        when, *readings = text.split(b' ')
        month, fell, z = b'0 0 0', b'- - - - - -', 0
        if readings != [b'-', b'-']:
            (p, kind), (pe, _) = [source_tables.reading(word.decode(), unit) for word in readings]
            m = source_tables.water(capacity, surface, underlying, p, pe, *constants[int(when[5:]) - 1])
            rain = b'T' if kind == source_tables.TRACE else b'%d' % p
            month, z = b'%s %d %d' % (rain, pe, m['CAFEC']), m['Z']
            fell = b'%s %d %d %d %d %d' % (rain, pe, m['ET'], m['R'], m['Ls'] + m['Lu'], m['RO'])
            surface, underlying = m['Ss'], m['Su']
        added.append((when, month))
        anomalies.append(z)
        water.append(b'%s %s %d %d' % (when, fell, surface, underlying))
    spells = source_tables.series(source_tables.FRESH, anomalies)
    first = [b'%s %s %d %d %d %d' % (*month, z, f['percent'], source_tables.shown(f), f['modified']) for month, z, f in zip(added, anomalies, spells)]
    rows = [b'%s %d %d %d %d %d %s' % (when, *(f[name] for name in ('X1', 'X2', 'X3', 'X', 'modified')), b'S' if f['settled'] else b'O') for (when, _), f in zip(added, spells)]
    return first, rows, water


def check_months(name, data, out):
    """Holds what was printed of single months to that reckoning."""
    added, rows, water = reckoned(data)
    lines = out.split(b'\n')
    at = len(added) + 1
    first = [line.rsplit(b' ', 1)[0] for line in lines[1:at]]
    for got, wanted in ((first, added), (lines[at:2 * at], ROWS[:1] + rows), (lines[2 * at:], WATER[:1] + water + [b''])):
        if got != wanted:
            at = next((i for i, pair in enumerate(zip(got, wanted)) if pair[0] != pair[1]), min(len(got), len(wanted)))
            sys.exit('station: %s: the months are not those of tests/source_tables.py: %r, and not %r' % (name, got[at:at + 1], wanted[at:at + 1]))


def thin_files(count):
    """Soils at and beside an inch, and the thinnest."""
    for soil in ((100, 0, 0), (100, 100, 0), (101, 50, 0), (999, 999, 0), (1000, 0, 0), (1000, 1000, 0), (1001, 1000, 1), (1001, 0, 0)):
        name = 'the soil %d %d %d' % soil
        check_months(name, soiled(*soil), good(name, (), soiled(*soil)))
        count['good'] += 1


# A word for precipitation, by unit, and what is printed of it: at the ends of what is a trace, and where binary32 ends.
TRACES = [
    (b'inches', [(b'T', b'T'), (b'0', b'0'), (b'0.000000', b'0'), (b'-0', b'0'), (b'-0.0', b'0'), (b'0.0001', b'T'), (b'0.0003', b'T'),
                 (b'0.0004', b'T'), (b'0.0004999', b'T'), (b'0.00049999997', b'T'), (b'0.00049999999', b'T'), (b'0.000499999996', b'1'),
                 (b'0.0005', b'1'), (b'0.00050', b'1'), (b'0.001', b'1'), (b'0.01', b'10')]),
    (b'millimetres', [(b'T', b'T'), (b'0', b'0'), (b'-0.0', b'0'), (b'0.0005', b'T'), (b'0.001', b'T'), (b'0.01', b'T'), (b'0.0126', b'T'),
                      (b'0.0126999998', b'T'), (b'0.0127', b'T'), (b'0.0127003', b'1'), (b'0.0128', b'1'), (b'0.013', b'1'), (b'0.1', b'4')]),
]
SMALLEST = [(b'0.' + b'0' * 37 + b'1', b'T'), (b'0.' + b'0' * 44 + b'1', b'T'), (b'0.' + b'0' * 45 + b'8', b'T'), (b'0.' + b'0' * 45 + b'7', b'0'),
            (b'0.' + b'0' * 60 + b'1', b'0'), (b'-0.' + b'0' * 60 + b'1', b'0'), (b'0.' + b'0' * 2000, b'0')]


def without_traces(out):
    """What is printed, with 0 for each T of precipitation."""
    return b'\n'.join(line[:8] + b'0' + line[9:] if line[7:10] == b' T ' else line for line in out.split(b'\n'))


def rained(unit, words):
    """The good file with these for the precipitation of its first months, in a unit; their PE is a trace, none and some in turn."""
    lines = [date(12 * 1932 + 5 + i) + b' ' + word + (b' 0.0003', b' 0', b' 2.52')[i % 3] for i, word in enumerate(words)]
    return b'\n'.join(LINES[:MONTHS - 1] + [b'months ' + unit] + lines + LINES[FIRST - 1 + len(words):])


def traced(places):
    """The good file with T for the precipitation of these lines."""
    words = [text.split(b' ') for text in LINES]
    lines = [b' '.join([one[0], b'T', one[2]]) if number in places else b' '.join(one) for number, one in enumerate(words, 1)]
    return b''.join(line + b'\n' for line in lines)


def trace_files(count):
    """T, and decimals beside the largest trace and the smallest number, in both units. In a season each is what 0 is."""
    for unit, words in TRACES:
        for table in (words, SMALLEST, words[::-1], SMALLEST[::-1]):
            given, wanted = [list(part) for part in zip(*table)]
            name, data = 'traces in %s' % unit.decode(), rained(unit, given)
            out = good(name, (), data)
            check_months(name, data, out)
            lines = out.split(b'\n')
            for at in (1, 1 + 2 * (END - FIRST + 1)):
                got = [line.split(b' ')[1] for line in lines[at:at + len(wanted)]]
                if got != wanted:
                    sys.exit('station: %s: P is %r, and should be %r' % (name, got, wanted))
            # all but the T is as with 0; in seasons the T too
            dry = rained(unit, [b'0' if word == b'T' else text for text, word in table])
            for arguments in WAYS:
                out = good(name, arguments, data)
                if arguments == ():
                    out = without_traces(out)
                if out != good(name, arguments, dry):
                    sys.exit('station: %s, arguments %r: a trace comes to something else than 0' % (name, arguments))
                count['good'] += 1
    for places in ((FIRST,), (LAST,), (FIRST + 3, FIRST + 4, FIRST + 30), range(FIRST, END), range(FIRST, END, 2), range(FIRST + 1, END, 2)):
        data = traced(places)
        name = 'T in lines %r' % (list(places),)
        out = good(name, (), data)
        check_months(name, data, out)
        if out.count(b' T ') != 2 * len(places):
            sys.exit('station: %s: %d of them are printed' % (name, out.count(b' T ')))
        for arguments in WAYS[1:]:
            if rows(good(name, arguments, data)) != without_traces(rows(out)):
                sys.exit('station: %s, arguments %r: the rows are not those of single months' % (name, arguments))
            count['good'] += 1


def z_files(count):
    """Months that had no water, among others, first and last, and traces among them; and with these programs, too, the good
    file."""
    if not all(WITH_Z):
        return
    dashes = [text.split(b' ')[0] + b' - -' for text in LINES]
    for places in ((), (FIRST,), (LAST,), (FIRST + 1, FIRST + 2, FIRST + 8), range(FIRST, END), range(FIRST, END, 2), range(FIRST + 1, END, 2)):
        for traces in ((), range(FIRST, END, 3)):
            lines = traced(traces).split(b'\n')
            data = b''.join((dashes if number in places else lines)[number - 1] + b'\n' for number in range(1, END + 1))
            name = 'a Z of 0 in lines %r, T in lines %r' % (list(places), list(traces))
            out, err, status = agree(name, (), data, programs=WITH_Z)
            if err or status:
                sys.exit('station: %s: status %d, %r' % (name, status, err))
            check_months(name, data, out)
            count['good'] += 1


def same_cases():
    """(name, bytes): files that print what the good one prints."""
    yield 'the sample', SAMPLE
    yield 'the sample without its comments', GOOD
    yield 'no line feed at the end', GOOD[:-1]
    yield 'comments between', b''.join(b'# \xff\0\t,\r\n#end\n#\n' + line + b'\n' for line in LINES)
    yield 'more spaces', b''.join(b'  ' + line.replace(b' ', b'     ') + b'   \n' for line in LINES)
    yield 'more spaces, no line feed at the end', GOOD[:-1] + b'   '
    yield 'zeros in front and behind', GOOD.replace(b' 6000', b' ' + b'0' * 99 + b'6000').replace(b'5.56', b'0005.560' + b'0' * 99).replace(b'0.00', b'-0.0').replace(b' 0\n', b' -0\n')
    yield 'no decimals', GOOD.replace(b'0.00', b'0')
    yield 'millimetres', millimetres()
    yield '1,048,576 bytes', padded(1048576)


def agree(name, arguments, data, how=running.printed, *more, programs=PROGRAMS):
    """What both print, and the status, which must be the same."""
    first, second = [how(words + list(arguments), data, *(more or (1,))) for words in programs]
    if first != second:
        sys.exit('station: %s, arguments %r: in C %r, in Rust %r' % (name, arguments, [part if isinstance(part, int) else part[:300] for part in first], [part if isinstance(part, int) else part[:300] for part in second]))
    return first


def refused(name, arguments, printed, status, begins, words):
    """Holds what was printed to a status that is not 0 and to one line on standard error."""
    out, err, ended = printed
    one = err.endswith(b'\n') and err.count(b'\n') == 1 and all(32 <= byte <= 126 for byte in err[:-1])
    if ended != status or out or not one or not err.startswith(begins) or words not in err:
        sys.exit('station: %s, arguments %r: status %d, %r, %r; it should be %d, nothing and %r with %r' % (name, arguments, ended, out[:200], err[:300], status, begins, words))


def bad_files(count):
    seen = {}
    for group, ways in ((number_cases, WAYS[:1]), (byte_cases, WAYS[:1]), (line_cases, WAYS[:1]), (order_cases, WAYS[:1]), (weights_cases, WAYS), (end_cases, WAYS[::2]), (library_cases, WAYS)):
        for name, data, line, column, words in group():
            begins = b'station: line %d: ' % line if column is None else b'station: line %d, column %d: ' % (line, column)
            # the same file is told in the same words, whatever it is called
            if seen.setdefault(data, begins) != begins:
                sys.exit('station: %s: the table has it twice, and not alike' % name)
            for arguments in ways:
                refused(name, arguments, agree(name, arguments, data), 1, begins, words)
                count['bad'] += 1
    count['different'] = len(seen)
    for name, data in (('a byte too many', padded(1048577)), ('2 million bytes', b'\n' * 2000000)):
        refused(name, (), agree(name, (), data), 1, b'station: the file is larger than 1048576 bytes\n', b'')
        count['bad'] += 1
        count['different'] += 1


def rows(out):
    return out[out.index(ROWS[0]):]


def good(name, arguments, data, pieces=1):
    out, err, status = agree(name, arguments, data, running.printed, pieces)
    if err or status:
        sys.exit('station: %s, arguments %r: status %d, %r; it is good' % (name, arguments, status, err[:300]))
    return out


def good_files(count):
    """Of each, the rows are the same however the months are added."""
    singly = {arguments: good('the sample', arguments, SAMPLE) for arguments in WAYS}
    lines = singly[()].split(b'\n')
    tables = [lines[at:at + 3] + lines[at + 35:at + 37] for at in (0, 37, 74)]
    if tables != [SINGLY, ROWS, WATER] or lines[111:] != [b'']:
        sys.exit('station: the rows of the sample are not the stored ones: %r' % lines)
    check_months('the sample', GOOD, singly[()])
    if singly['6',].split(b'\n')[:7] != SEASONS:
        sys.exit('station: the seasons of the sample are not the stored ones: %r' % singly['6',])
    for name, data in same_cases():
        for arguments in WAYS:
            if good(name, arguments, data) != singly[arguments]:
                sys.exit('station: %s, arguments %r: it should print what the sample does' % (name, arguments))
            count['good'] += 1
    ordinary = [(length, (1700, 1)) for length in (1, 2399, 2400, 2401)]
    for length, first in ordinary + [(30, (0, 1)), (30, (9997, 7)), (MOST - 1, (0, 1)), (MOST, (9000, 1))]:
        name, data = '%d months from %04d-%02d' % (length, *first), months(length, first)
        whole = good(name, (), data)
        last = whole.split(b'\n')[-2]
        check_months(name, data, whole)
        if whole.count(b'\n') != 3 * length + 3 or not last.startswith(date(12 * first[0] + first[1] + length - 2)):
            sys.exit('station: %s: %d lines, the last %r' % (name, whole.count(b'\n'), last))
        for arguments in WAYS + [('7',), ('0006',), ('2399',), ('2400',), ('2401',), (str(MOST - 1),)]:
            if rows(good(name, arguments, data)) != rows(whole):
                sys.exit('station: %s, arguments %r: the rows are not those of single months' % (name, arguments))
            count['good'] += 1
    thin_files(count)
    trace_files(count)
    z_files(count)
    for pieces in (7, 200):
        if good('the sample in pieces', (), SAMPLE, pieces) != singly[()]:
            sys.exit('station: the sample in %d pieces: it should print the same' % pieces)
        count['good'] += 1
    return singly[()]


def damages(count, right):
    """One byte of the good file changed, left out or put in. A file that is still good prints the same, but where the
    byte belongs to a number, or makes or unmakes a comment."""
    draw = random.Random(1965)
    for _ in range(400):
        at, kind = draw.randrange(len(GOOD)), draw.randrange(3)
        byte = bytes([draw.choice(b'0123456789.-+,;# \n\r\tTe') if draw.random() < 0.7 else draw.randrange(256)])
        new = byte if kind < 2 else b''
        old = b'' if kind == 1 else GOOD[at:at + 1]
        name = '%r in the place of %r after %d bytes' % (new, old, at)
        out, err, status = printed = agree(name, (), GOOD[:at] + new + GOOD[at + len(old):])
        if status:
            refused(name, (), printed, 1, b'station: line ', b'')
        elif err or (out != right and not set(old + new) & set(b'0123456789.-#')):
            sys.exit('station: %s: %r, %r; it should print what the good file does, or refuse it' % (name, out[:200], err))
        count['damaged, %s' % ('refused' if status else 'good')] += 1


NO_ARGUMENTS = [('6x',), ('+6',), (' 6',), ('6 ',), ('',), ('0',), ('00',), ('-6',), (str(MOST + 1),), ('99999999999999999999999',), ('18446744073709551617',), ('4294967297',),
                ('6.0',), ('0x6',), ('6,',), ('6\n',), ('six',), ('-',), ('--',), ('-h',), ('--help=1',), ('--HELP',), ('\u0666',), (b'\xff\n\t',), ('x' * 100,), ('1' * 100000,),
                ('6', '6'), ('', ''), ('--help', '6'), ('6', '--help'), ('6', '6', '6')]


def arguments_cases(count):
    for arguments in NO_ARGUMENTS:
        for data in (b'', GOOD, b'\xff'):
            refused('bad arguments', arguments, agree('bad arguments', arguments, data), 2, b'station: ', b'; expected: ')
            count['arguments'] += 1
    for data in (b'', GOOD):
        out, err, status = agree('help', ('--help',), data)
        tables = (SINGLY[0], ROWS[0], WATER[0], SEASONS[0])
        if err or status or not all(words in out for words in (b'[MONTHS] <FILE', b'--repair REPAIRS <FILE', b'--constants <FILE', b'samples/western-kansas-station.txt', b'samples/western-kansas-repairs.txt', b'README.md', b'1 to %d' % MOST, b'Status: 0 ', b'T for a month', *tables)):
            sys.exit('station: --help: status %d, %r, %r' % (status, out, err))
        count['arguments'] += 1


def redirected(words, data, change):
    """What is printed where the shell changes where input comes from or output goes to."""
    done = subprocess.run(['sh', '-c', 'exec "$@" ' + change, 'sh'] + words, input=data, stdout=subprocess.PIPE, stderr=subprocess.PIPE)
    return done.stdout, done.stderr, done.returncode


def unread(words, data, some):
    """What is printed into a pipe of which nobody reads more than so many bytes: none, and it is closed before the program begins."""
    end, into = os.pipe()
    if not some:
        os.close(end)
    with subprocess.Popen(words, stdin=subprocess.PIPE, stdout=into, stderr=subprocess.PIPE) as program:
        os.close(into)
        running.given(program.stdin, data, 1)
        if some:
            os.read(end, some)
            os.close(end)
        err = program.stderr.read()
        return b'', err, program.wait()


def streams(count):
    """Output that cannot be written, input that cannot be read."""
    closed = b'station: standard output cannot be written\n'
    for arguments in WAYS + [('--help',)]:
        for name, data in (('the sample', SAMPLE), ('12,000 months', months(MOST))):
            for change in ('>&-', '>/dev/full'):
                refused(name + ' ' + change, arguments, agree(name + ' ' + change, arguments, data, redirected, change), 3, closed, b'')
                count['streams'] += 1
            refused(name + ', not read', arguments, agree(name + ', not read', arguments, data, unread, 0), 3, closed, b'')
            count['streams'] += 1
    refused('12,000 months, read a little', (), agree('12,000 months, read a little', (), months(MOST), unread, 1), 3, closed, b'')
    for change in ('</', '<&-', '</ >&-'):
        refused('input ' + change, (), agree('input ' + change, (), b'', redirected, change), 2, b'station: standard input cannot be read\n', b'')
    refused('an endless input', (), agree('an endless input', (), b'', redirected, '</dev/zero'), 1, b'station: the file is larger than 1048576 bytes\n', b'')
    for change in ('2>&-', '2>/dev/full'):
        if agree('a bad file ' + change, (), b'', redirected, change) != (b'', b'', 1):
            sys.exit('station: a bad file %s: the status should be 1' % change)
    refused('a bad file, output closed', (), agree('a bad file, output closed', (), b'x\n', redirected, '>&-'), 1, b'station: line 1, column 1: "x"', b'')
    count['streams'] += 8


def programs_are_there():
    for words in PROGRAMS + [words for words in WITH_Z if words]:
        if shutil.which(words[0]) is None:
            sys.exit('station: %s is not there; host/run builds it' % words[0])


def main():
    if sys.argv[1:]:
        sys.exit('station.py')
    programs_are_there()
    count = Counter()
    right = good_files(count)
    bad_files(count)
    damages(count, right)
    arguments_cases(count)
    streams(count)
    cases = sum(number for name, number in count.items() if name != 'different')
    print('station: %d cases in C and in Rust, no difference: good files %d; bad files %d, %d different ones; one byte damaged %d, of these %d still good; arguments %d; input or output %d' % (
        cases, count['good'], count['bad'], count['different'], count['damaged, refused'] + count['damaged, good'], count['damaged, good'], count['arguments'], count['streams']))


if __name__ == '__main__':
    main()
