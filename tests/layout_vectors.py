#!/usr/bin/env python3
"""Outside vectors for the reader of a division file's line: what is asked for, a line, and the answer.

  layout_vectors.py                              says whether the stored files are what this program makes
  layout_vectors.py --write                      writes them: crates/layout_vectors/stdin and crates/layout_vectors/stdout
  layout_vectors.py --names                      prints each case's number in the files, its name and its refusal
  layout_vectors.py --more N SEED                runs N more cases, drawn from the seed, through the program and compares

A line of stdin: state, division and year asked for, in two, two and four digits, then '|', then the line as it is. A
line of stdout: the refusal or 0, twelve amounts in thousandths, the set of months present, how many they are, the
first missing month. The answers are those of layout_reader.py.
"""
import sys
from collections import Counter
from itertools import combinations

import layout_reader
import running
import stored
from division_file import Draw, value

SEED, DRAWN, MORE = 1895, 200, 160
# the program has room for 262,144 bytes
AT_ONCE = 500

# the line that is damaged: state 01, division 01, precipitation, 1895
HEAD = b'0101011895'
ASKED = (1, 1, 1895)
MONTHS = [value(n) for n in (703, 296, 836, 353, 396, 540, 392, 336, 73, 203, 144, 366)]
TAIL = b'    '
GOOD = HEAD + b''.join(MONTHS) + TAIL
MARK = b'  -9.99'
# a fault of a value stands in the first field, in a middle one and in the last
FIELDS = (0, 5, 11)
# where a field begins, and where the last one ends
BOUNDARIES = [0, 2, 4, 6] + list(range(10, 95, 7))

# seven bytes each; what they are is for the reader to say
VALUES = [
    # amounts and the ends of the range
    b'   0.00', b'   0.01', b'   0.10', b'   7.03', b'  10.00', b'  99.99', b' 100.00', b' 100.01', b' 100.10', b' 101.00',
    b' 999.99', b'1000.00', b'9999.99',
    # no digit before the point
    b'    .73', b'    .00', b'    .99', b'   -.05', b'   -.00', b'   -.99', b'  - .05', b'  -0.05', b' -  .73', b'-   .00',
    # the mark, its neighbours, and what looks like it
    b'  -9.99', b'  -9.98', b'  -9.90', b'  -9.09', b'  -9.00', b'  -8.99', b'  -0.99', b'   9.99', b' -10.00',
    b' -99.99', b' -99.90', b'-999.99', b'-100.00', b' -9.990', b'-9.9900', b' -9.99 ', b'-9.99  ', b' - 9.99', b'-  9.99', b' -09.99',
    b'-009.99', b'  -9,99', b'  9.99-', b' -9 .99', b'- -9.99',
    # zero with a minus, and a little below it
    b'  -0.00', b'  -0.01', b'  -0.10', b' -00.00', b'-000.00', b'  --.00',
    # zeros in front
    b'  07.03', b' 007.03', b'0007.03', b'  00.00', b' 000.00', b'0000.00', b'  00.73', b' 0 0.00', b'0  0.00', b'0   .00', b' 099.99',
    b'0100.00', b' -07.03', b' -00.01', b'-010.00',
    # one place to the left, to the right, more
    b'  7.03 ', b' 7.03  ', b'7.03   ', b'    7.0', b'     7.', b'      7', b'      .', b' .73   ', b'   .73 ', b'     .7',
    b' 100.0 ', b'100.00 ', b'  100.0',
    # the point: none, two, in another place, or only that
    b'   7 03', b'    703', b'7030000', b'   7..3', b'   ..03', b'  7..03', b'   7.0.', b'  7.003', b'    7.3', b'   70.3',
    b'7.03.03', b'  .7.03', b'   7,03', b'   7:03', b'   7-03', b'   7/03', b'.......', b'    ...', b'    .. ',
    # the digits after it
    b'   7.0 ', b'   7. 3', b'   7.  ', b'   7.-3', b'   7.0-', b'   7.+3', b'    .  ', b'   7.0x', b'   7.x3', b'   7./3', b'   7.:3',
    b'   7.0:',
    # blanks and other bytes among the digits before it
    b'1  7.03', b' 1 7.03', b'  1 .03', b'1   .03', b'  1-.03', b' 1-7.03', b'1 -7.03', b'   /.03', b'   :.03', b'  1/.03', b'  1:.03',
    b'  /1.03', b'  :1.03', b'   ,.03', b'1,00.00',
    # other signs, and tabs and what else may pass for a blank
    b'  +7.03', b'  +9.99', b'   +.73', b' +-7.03', b' -+7.03', b'  ~7.03', b'  \xad7.03', b'\xe2\x88\x927.03', b'\xe2\x88\x929.99', b'\t\t\t7.03',
    b'  \t7.03', b'\t  7.03', b' \t-9.99', b'\t  -.05', b'\t   .73', b'  \x0b7.03', b'  \x0c7.03', b'  \r7.03', b'  \xa07.03', b'\xa0\xa0\xa07.03', b'\0\0\x007.03',
    # letters, asterisks, nothing, and bytes above 127
    b'  7.0E0', b' 7.0E+0', b'  7.0D0', b'  0x7.0', b'    NaN', b'      M', b'     -M', b'      T', b'   O.03',
    b'   l.00', b'*******', b'   *.**', b'   7.0*', b'  *7.03', b'       ', b'0000000', b'1234567', b'9999999', b'-------', b'   -   ',
    b'    -  ', b'\0\0\0\0\0\0\0', b'\xff\xff\xff\xff\xff\xff\xff', b'   \xb7.03', b'   \xb2.03', b'   7\xae03', b'   7.\xb03', b'   7.0\xb3', b'\x80  7.03',
    b'  \xd9\xa1.03',
]

# bytes beside the ones that are right, and those that other readers let pass
ODD = b'\x00\t\x1f !+-./09:Ee\x80\xa0\xad\xae\xb0\xff'


def line(months, head=HEAD, tail=TAIL):
    return head + b''.join(months) + tail


def having(changes, months=MONTHS):
    """The months with some of them replaced."""
    return [changes.get(month, old) for month, old in enumerate(months)]


def put(text, at, new, width=1):
    """A text with the bytes from a place on replaced."""
    return text[:at] + new + text[at + width:]


def heads():
    """Each of the ten bytes of the header: no digit, and another digit."""
    for at in range(10):
        for byte in (b' ', b'-', b'/', b':', bytes([HEAD[at] + 128])):
            yield 'header byte %d is %r' % (at + 1, byte), ASKED, put(GOOD, at, byte)
        for step in (1, 9):
            digit = b'%d' % ((HEAD[at] - 48 + step) % 10)
            yield 'header byte %d is another digit' % (at + 1), ASKED, put(GOOD, at, digit)
    for head in (b'          ', b' 101011895', b' 1 1 11895', b'1 1 1 1895', b'01010118 5', b'0101 11895', b'+101011895', b'010101-895', b'01010 1895', b'**********'):
        yield 'header %r' % head, ASKED, line(MONTHS, head)
    # the numbers asked for at their ends, and what has the same digits elsewhere
    for asked in ((0, 0, 0), (0, 0, 9999), (99, 99, 9999), (99, 99, 0), (48, 10, 2024), (10, 1, 1000), (1, 10, 1)):
        head = b'%02d%02d01%04d' % asked
        yield 'asked and found %r' % (asked,), asked, line(MONTHS, head)
        yield 'asked %r, found another' % (asked,), asked, GOOD
        yield 'found %r, asked another' % (asked,), ASKED, line(MONTHS, head)
    yield 'state and division exchanged', (2, 3, 1895), line(MONTHS, b'0302011895')
    yield 'division and element exchanged', (1, 2, 1895), line(MONTHS, b'0101021895')
    yield 'the year turned round', ASKED, line(MONTHS, b'0101015981')


def shifts():
    """The columns from each field boundary on moved by one; and each byte dropped or doubled."""
    for at in BOUNDARIES:
        for new in (b' ', b'0'):
            yield 'right by %r from column %d on' % (new, at + 1), ASKED, GOOD[:at] + new + GOOD[at:]
            yield 'right by %r from column %d on, as long as before' % (new, at + 1), ASKED, (GOOD[:at] + new + GOOD[at:])[:94]
        yield 'left from column %d on' % (at + 1), ASKED, GOOD[:max(at - 1, 0)] + GOOD[max(at, 1):]
        yield 'left from column %d on, no trailing spaces' % (at + 1), ASKED, (GOOD[:max(at - 1, 0)] + GOOD[max(at, 1):]).rstrip(b' ')
    for start, end in zip(BOUNDARIES, BOUNDARIES[1:]):
        part = GOOD[start:end]
        yield 'columns %d to %d turned left' % (start + 1, end), ASKED, put(GOOD, start, part[1:] + part[:1], len(part))
        yield 'columns %d to %d turned right' % (start + 1, end), ASKED, put(GOOD, start, part[-1:] + part[:-1], len(part))
    for at in range(len(GOOD)):
        yield 'byte %d dropped' % (at + 1), ASKED, put(GOOD, at, b'')
        yield 'byte %d doubled' % (at + 1), ASKED, put(GOOD, at, GOOD[at:at + 1] * 2)


def values():
    """Each value of the table in the first field, a middle one and the last; a minus in every place, and two of them."""
    for text in VALUES:
        assert len(text) == 7, text
        for month in FIELDS:
            yield 'value %r in month %d' % (text, month + 1), ASKED, line(having({month: text}))
    for month in FIELDS:
        for base in (b'   7.03', b' 100.00', b'       '):
            for at in range(7):
                yield 'a minus in place %d of %r, month %d' % (at + 1, base, month + 1), ASKED, line(having({month: put(base, at, b'-')}))
    for month, (first, second) in zip(FIELDS * 7, combinations(range(7), 2)):
        text = put(put(b'   9.99', first, b'-'), second, b'-')
        yield 'a minus in places %d and %d, month %d' % (first + 1, second + 1, month + 1), ASKED, line(having({month: text}))
    # a byte that is wrong, or that is not, in each kind of place
    kinds = {'a digit of the year': 8, 'the blank before the units': 12, 'the units': 13, 'the point': 14, 'the hundredths': 93, 'column 95': 94}
    for kind, at in kinds.items():
        for byte in ODD:
            yield '%s is byte %d' % (kind, byte), ASKED, put(GOOD, at, bytes([byte]))


def lengths():
    """How long the line is, and what stands after column 94 and before column 1."""
    for count in (0, 1, 4, 300):
        yield '%d trailing spaces' % count, ASKED, line(MONTHS, tail=b' ' * count)
        for byte in (b'\r', b'x') if count == 300 else (b'\r', b'x', b'0', b'\x00', b'\xa0', b'\t', b'.', b'-'):
            yield '%d trailing spaces and %r' % (count, byte), ASKED, line(MONTHS, tail=b' ' * count + byte)
    for tail in (b'x   ', b' x  ', b'  x ', b'   x', b'\r   ', b'0   ', b'   7.03', b'   7.03    ', b'  -9.99', b'\r\r'):
        yield 'after column 94: %r' % tail, ASKED, line(MONTHS, tail=tail)
    for length in (0, 1, 2, 6, 9, 10, 11, 16, 17, 18, 50, 87, 88, 91, 92, 93, 94, 95):
        yield 'the first %d characters' % length, ASKED, GOOD[:length]
        yield 'the first %d characters, and spaces to 98' % length, ASKED, GOOD[:length].ljust(98)
        yield 'the first %d characters, and zeros to 94' % length, ASKED, GOOD[:length].ljust(94, b'0')
    for count in (1, 4, 84, 94, 98):
        yield '%d spaces before' % count, ASKED, b' ' * count + GOOD
        yield 'only %d spaces' % count, ASKED, b' ' * count
        yield 'only %d zero bytes' % count, ASKED, b'\x00' * count
    yield '94 digits', ASKED, b'0101011895' + b'1' * 84
    yield '94 zeros', (0, 0, 0), b'0' * 94
    yield '94 asterisks', ASKED, b'*' * 94
    yield 'the values are asterisks', ASKED, line([b'*******'] * 12)
    yield 'the values are blank', ASKED, line([b'       '] * 12)
    yield 'eleven values', ASKED, line(MONTHS[:11])
    yield 'thirteen values', ASKED, line(MONTHS + MONTHS[:1])
    yield 'values of six columns', ASKED, line([text[1:] for text in MONTHS], tail=b' ' * 16)
    yield 'values of eight columns', ASKED, line([b' ' + text for text in MONTHS])
    yield 'values with one blank between', ASKED, HEAD + b' ' + b' '.join(text.strip() for text in MONTHS)
    yield 'values with commas', ASKED, HEAD + b','.join(text.strip() for text in MONTHS)
    yield 'a byte order mark', ASKED, b'\xef\xbb\xbf' + GOOD
    yield 'two lines in one', ASKED, GOOD + GOOD
    yield 'two lines in one, a carriage return between', ASKED, GOOD + b'\r' + GOOD
    yield 'the bar again', ASKED, b'|' + GOOD
    yield 'every byte but a line feed', ASKED, bytes(byte for byte in range(256) if byte != 10)


def missing():
    """Missing months, in good lines."""
    edges = [value(n) for n in (0, 1, 9, 10, 99, 100, 101, 999, 1000, 1001, 9999, 10000)]
    none = [MONTHS, edges] + [[text] * 12 for text in (b' 100.00', b'   0.00', b'   -.00', b'    .73')]
    for months in none:
        yield 'none missing', ASKED, line(months)
    for month in range(12):
        yield 'month %d missing' % (month + 1), ASKED, line(having({month: MARK}))
        yield 'all but month %d missing' % (month + 1), ASKED, line(having({month: MONTHS[month]}, [MARK] * 12))
    for k in range(1, 12):
        yield 'the first %d missing' % k, ASKED, line([MARK] * k + MONTHS[k:])
        yield 'the last %d missing' % k, ASKED, line(MONTHS[:12 - k] + [MARK] * k)
    yield 'all missing', ASKED, line([MARK] * 12)
    yield 'all missing, another year', (1, 1, 1896), line([MARK] * 12)
    for months in ((0, 11), (1, 3, 5, 7, 9, 11), (0, 2, 4, 6, 8, 10), (4, 5), (5, 6), (3, 4, 5, 6, 7, 8), (0, 1, 10, 11), (2, 7), (1, 2, 3, 9), (6, 8, 9)):
        yield 'missing: %r' % (months,), ASKED, line(having({month: MARK for month in months}))
        yield 'missing: %r, and zeros beside them' % (months,), ASKED, line(having({month: MARK for month in months}, [b'  -0.00'] * 12))
    for month in FIELDS:
        others = [other for other in range(12) if other != month]
        for text in (b' 100.01', b'  -9.98', b'  -0.01', b' -9.99 ', b'   9,99'):
            yield '%r in month %d, all others missing' % (text, month + 1), ASKED, line(having({other: MARK for other in others} | {month: text}))


def faults():
    """Every set of faults, to show which is named: 14 before 15 before 16. Each value's fault in three fields."""
    kinds = ('malformed', 'outside', 'state', 'division', 'element', 'year')
    for size in range(len(kinds) + 1):
        for chosen in combinations(kinds, size):
            head = b''.join(b'02' if part in chosen else b'01' for part in ('state', 'division', 'element')) + (b'1896' if 'year' in chosen else b'1895')
            for month in FIELDS if 'malformed' in chosen or 'outside' in chosen else (0,):
                changes = {}
                if 'malformed' in chosen:
                    changes[month] = b'  07.03'
                if 'outside' in chosen:
                    changes[(month + 1) % 12 if 'malformed' in chosen else month] = b' -20.00'
                yield 'faults: %s; month %d' % (', '.join(chosen) or 'none', month + 1), ASKED, line(having(changes), head)
    # other ways to be malformed, and lines of another state, division, element or year
    for head in (b'0201011895', b'0102011895', b'0101021895', b'0101001895', b'0101101895', b'0101011896', b'4899012024'):
        full = line(MONTHS, head)
        yield 'header %r' % head, ASKED, full
        yield 'header %r, a carriage return' % head, ASKED, line(MONTHS, head, b'\r')
        yield 'header %r, no last byte' % head, ASKED, full[:93]
        yield 'header %r, a byte after the spaces' % head, ASKED, full + b'x'
        yield 'header %r, and nothing after' % head, ASKED, head
        yield 'header %r, a letter in the year' % head, ASKED, put(full, 9, b'x')
        yield 'header %r, a letter in the state' % head, ASKED, put(full, 0, b'x')
        yield 'header %r, above the range' % head, ASKED, line(having({11: b' 100.01'}), head)
        yield 'header %r, all missing' % head, ASKED, line([MARK] * 12, head)
    # other elements: temperatures and indices, which go below zero and have marks of their own
    for element in (b'02', b'05'):
        for month in FIELDS:
            for text in (b' -20.00', b'  -9.99', b' -99.99', b' -99.90', b'9999.99', b' 100.01', b'   -.05', b'  -0.00', b' -07.03', b'*******', b'  +1.00'):
                yield 'element %r, %r in month %d' % (element, text, month + 1), ASKED, line(having({month: text}), b'0101' + element + b'1895')
    degrees = [value(n) for n in (-2000, -1250, 310, 4420, 5610, 6790, 7240, 7050, 6120, 4880, 2990, -40)]
    index = [value(n) for n in (-120, -212, -305, 44, 51, -610, -700, -5, 0, 100, 250, -9999)]
    for head in (b'010102', b'010105', b'010101', b'020105'):
        for year in (b'1895', b'1896'):
            yield 'degrees, header %r' % (head + year), ASKED, line(degrees, head + year)
            yield 'an index, header %r' % (head + year), ASKED, line(index, head + year)


def drawn_line(draw):
    """A line with nothing wrong but, at times, what it is of; and what is asked for."""
    asked = draw.among((0, 1, 1, 1, 4, 14, 48, 99)), draw.among((1, 1, 1, 2, 7, 10)), draw.among((0, 999, 1895, 1895, 1895, 1999, 2024, 9999))
    state, division, year = asked
    element = 1
    other = draw.below(12)
    if other == 0:
        state = (state + draw.among((1, 10, 99))) % 100
    elif other == 1:
        division = (division + draw.among((1, 10, 99))) % 100
    elif other == 2:
        element = draw.among((0, 2, 5, 10, 11))
    elif other < 6:
        year = (year + draw.among((1, 1, 10, 100, 1000, 9999))) % 10000
    months = [value(draw.below(draw.among((100, 1200, 1200, 10001)))) for _ in range(12)]
    for _ in range(draw.among((0, 0, 0, 1, 3))):
        months[draw.below(12)] = draw.among((MARK, MARK, MARK, b' 100.00', b'    .73', b'   0.00', b'  -0.00', b'   -.00'))
    if draw.below(6) == 0:
        been = draw.below(12)
        months[been:] = [MARK] * (12 - been)
    return asked, line(months, b'%02d%02d%02d%04d' % (state, division, element, year), b' ' * draw.among((0, 1, 4, 4, 4, 5)))


def drawn_byte(draw):
    """A digit, a space, a point, a minus, or now and then any byte but a line feed."""
    byte = draw.among(b'0123456789   ..--') if draw.below(6) else draw.below(255)
    return bytes([byte if byte != 10 else 255])


def damaged(draw, text, edits):
    """So many bytes replaced, inserted or dropped: in the header, anywhere, in one field, or about the end."""
    lo, hi = draw.among(((0, 10), (0, 94), (0, 94), (10, 94), (86, 99)))
    if draw.below(3) == 0:
        lo = 10 + 7 * draw.below(12)
        hi = lo + 7
    for _ in range(edits):
        at = min(lo + draw.below(hi - lo), len(text))
        kind = draw.below(6)
        if kind < 4:
            text = put(text, at, drawn_byte(draw))
        elif kind == 4:
            text = put(text, at, drawn_byte(draw), 0)
        else:
            text = put(text, at, b'')
    return text


def more(count, seed):
    """So many cases, most of them good but for one small damage or none."""
    draw = Draw(seed)
    for number in range(count):
        asked, text = drawn_line(draw)
        kind = draw.below(12)
        if kind < 5:
            text = damaged(draw, text, 1)
        elif kind == 5:
            text = damaged(draw, text, 2 + draw.below(2))
        elif kind == 6:
            text = put(text, 10 + 7 * draw.below(12), draw.among(VALUES), 7)
        yield 'more %d' % number, asked, text


def drawn(count, seed):
    """So many cases with one to three bytes damaged."""
    draw = Draw(seed)
    for number in range(count):
        asked, text = drawn_line(draw)
        yield 'drawn %d' % number, asked, damaged(draw, text, 1 + draw.below(3))


def cases():
    """(name, what is asked for, line) for each vector; what two parts have in common, once."""
    seen = set()
    for part in ([('nothing wrong', ASKED, GOOD)], heads(), shifts(), values(), lengths(), missing(), faults(), drawn(DRAWN, SEED), more(MORE, SEED)):
        for case in part:
            if case[1:] not in seen:
                seen.add(case[1:])
                yield case


def answered(asked, text):
    answer = layout_reader.read(text, *asked)
    return ' '.join(map(str, (answer.number, *answer.amounts, answer.present, answer.count, answer.missing)))


def files(vectors):
    """What is given and what is answered, as bytes."""
    given = b''.join(b'%02d%02d%04d|' % asked + text + b'\n' for _, asked, text in vectors)
    return given, ''.join(answered(asked, text) + '\n' for _, asked, text in vectors).encode()


def summary(made):
    """How many vectors, how many bytes, and how many of each refusal."""
    given, answers = made
    counts = Counter(int(row.split()[0]) for row in answers.splitlines())
    return '%d vectors, %d bytes; answered: %s' % (sum(counts.values()), len(given), ', '.join('%d with %d' % (counts[k], k) for k in sorted(counts)))


def run(vectors):
    """Gives them to the program, which takes so many at a time, and compares."""
    for at in range(0, len(vectors), AT_ONCE):
        given, answers = files(vectors[at:at + AT_ONCE])
        out, errors, status = running.printed(running.command('layout_vectors'), given, 1)
        if (out, errors, status) != (answers, b'', 0):
            for (name, asked, text), said, wanted in zip(vectors[at:], out.splitlines(), answers.splitlines()):
                if said != wanted:
                    sys.exit('layout_vectors: %s, asked for %s, %r: it answers %r, and not %r' % (name, asked, text, said, wanted))
            sys.exit('layout_vectors: other answers than lines, or something on standard error: %r' % errors)


def main():
    given = sys.argv[1:]
    if given[:1] == ['--more'] and len(given) == 3:
        vectors = list(more(int(given[1]), int(given[2])))
        run(vectors)
        print(summary(files(vectors)) + '; no difference')
        return
    if given not in ([], ['--write'], ['--names']):
        sys.exit('layout_vectors.py [--write | --names | --more N SEED]')
    vectors = list(cases())
    if given == ['--names']:
        for number, (name, asked, text) in enumerate(vectors, 1):
            print('%d: %s: %d' % (number, name, layout_reader.read(text, *asked).number))
        return
    made = files(vectors)
    stored.settle(stored.crate('layout_vectors', dict(zip(('stdin', 'stdout'), made))), given == ['--write'])
    print(summary(made))


if __name__ == '__main__':
    main()
