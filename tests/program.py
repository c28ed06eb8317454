#!/usr/bin/env python3
"""Runs the program on good, bad and large inputs and compares what it prints with what the outline says.

The lines are judged and the rows worked out here, by source_tables.py's reading of the outline. Each input is given
whole and, through a pipe, in pieces that cut lines anywhere. What is said of a refused line on standard error is held to
a table, WORDS, and for every other input to its form: the line's number, what was read, what the number means. It prints
how many inputs were run.
"""
import random
import re
import sys

import running
import sample
import source_tables as source

COMMAND = running.command('palmer')


def expected(data):
    """What the program prints for these bytes."""
    lines = data.split(b'\n')
    if lines[-1] == b'':
        lines.pop()
    anomalies = []
    for number, line in enumerate(lines, 1):
        refusal, z = judged(line)
        if refusal == 0 and number > 2400:
            refusal = 10
        if refusal:
            return 'refused %d %d\n' % (number, refusal)
        anomalies.append(z)
    return ''.join(row + '\n' for row in sample.rows(anomalies))


def judged(line):
    """0 and a line's Z, or why it is refused."""
    if not re.fullmatch(rb'-?[0-9]+', line):
        return 13, 0
    digits = line.lstrip(b'-').lstrip(b'0') or b'0'
    if len(digits) > 7 or int(digits) > 4000000:
        return 12, 0
    return 0, -int(digits) if line.startswith(b'-') else int(digits)


def ordinary(count, seed):
    draw = random.Random(seed)
    return b''.join(b'%d\n' % draw.randint(-3000, 3000) for _ in range(count))


# the outline's own, and lines that tempt: a name, and the bytes
INPUTS = [
    ("the outline's", b'-3000\n1040\n0\n'),
    ('no line feed at the end', b'-3000\n1040\n0'),
    ('empty', b''),
    ('a blank line alone', b'\n'),
    ('a blank line between', b'1\n\n2\n'),
    ('a blank line at the end', b'1\n2\n\n'),
    ('a lone minus', b'1\n-\n2\n'),
    ('a lone minus at the end of input', b'1\n-'),
    ('two minus signs', b'--1\n'),
    ('a minus after a digit', b'1-\n'),
    ('a plus', b'+1\n'),
    ('a space before', b' 1\n'),
    ('a space after', b'1 \n'),
    ('a tab', b'1\t\n'),
    ('a carriage return', b'1\r\n2\r\n'),
    ('a carriage return alone', b'\r'),
    ('a point', b'1.0\n'),
    ('a letter', b'1e3\n'),
    ('bytes above 127', b'\xff\n'),
    ('digits of another script', '\u0661\n'.encode()),
    ('a superscript', '1\u00b2\n'.encode()),
    ('a byte order mark', b'\xef\xbb\xbf1\n'),
    ('zero bytes', b'\0'),
    ('a zero byte after a digit', b'1\0\n'),
    ('the ends of the range', b'4000000\n-4000000\n'),
    ('past the range', b'4000001\n'),
    ('past the range below', b'0\n-4000001\n'),
    ('zeros in front', b'000000000000000000004000000\n-0000000000000000000000\n'),
    ('zeros in front, past the range', b'0000000000004000001\n'),
    ('2 to the 32', b'4294967296\n'),
    ('2 to the 32 and 5', b'4294967301\n'),
    ('2 to the 64', b'18446744073709551616\n'),
    ('minus 2 to the 64', b'-18446744073709551616\n'),
    ('minus zero', b'-0\n'),
    ('the first refusal of several', b'1\nx\n4000001\n'),
    ('a byte that ends a good number late', b'1234567x\n'),
    ('past the range and no number', b'99999999999x\n'),
    ('every byte once', bytes(range(256))),
    ('2,400 lines', ordinary(2400, 1)),
    ('2,400 lines, the last not closed', ordinary(2400, 2)[:-1]),
    ('2,401 lines', ordinary(2401, 3)),
    ('2,401 lines, the last not closed', ordinary(2401, 4)[:-1]),
    ('2,400 lines and a blank one', ordinary(2400, 5) + b'\n'),
    ('2,400 lines and one past the range', ordinary(2400, 6) + b'4000001\n'),
    ('2,400 lines and one that is no number', ordinary(2400, 7) + b'x'),
    ('2,400 lines of the longest rows', b'4000000\n-4000000\n' * 1200),
    ('2,400 months that stay open', b'12\n-3\n' + b'0\n' * 2398),
    ('a million digits', b'1\n' + b'7' * 1000000 + b'\n'),
    ('a million digits, not closed', b'-' + b'9' * 1000000),
    ('a million zeros and a number', b'0' * 1000000 + b'42\n-7\n'),
    ('a million digits and a letter', b'8' * 1000000 + b'x\n'),
    ('a million blank lines', b'\n' * 1000000),
    ('a refusal in the last line of many', ordinary(2399, 8) + b'1-1\n'),
]


# what the refusals' numbers mean, and what was expected
MEANS = {
    10: b'expected at most 2400 lines; 10 means: months already equal the column length\n',
    12: b'expected -4000000 to 4000000; 12 means: Z outside its range\n',
    13: b'expected a whole number of thousandths, as -3000 or 1040; 13 means: a line is not a whole number\n',
}

# what is said of an input, up to what was expected
WORDS = [
    (b'5.56,4.80\n', b'line 1, column 2: a point: a number is in whole thousandths, as 1040 for 1.04; read "5.56,4.80"'),
    (b'abc\n', b'line 1, column 1: a header, or another word: the file has numbers alone; read "abc"'),
    (b'0\nabc\n', b'line 2, column 1: a letter; read "abc"'),
    (b'0\nT\n', b'line 2, column 1: a letter; read "T"'),
    (b'1,53\n', b'line 1, column 2: a comma: a line has one number, in whole thousandths; read "1,53"'),
    (b'62mm\n', b'line 1, column 3: a letter; read "62mm"'),
    (b'1\r\n2\r\n', b'line 1, column 2: a carriage return at the end: the lines end in CR LF, and a line feed alone is taken; read "1?"'),
    (b'\r\n', b'line 1, column 1: a carriage return at the end: the lines end in CR LF, and a line feed alone is taken; read "?"'),
    (b'1\r2\r', b'line 1, column 2: a carriage return; read "1?2?"'),
    (b'\xef\xbb\xbf1\n', b'line 1, column 1: a byte order mark: save the file without it; read "???1"'),
    (b'\xff\xfe1\0\n\0', b'line 1, column 1: a byte order mark of UTF-16: save the file as plain text; read "??1?"'),
    (b'0\n\xef\xbb\xbf1\n', b'line 2, column 1: a byte above 127, which is no plain text; read "???1"'),
    (b'Z\n1\n', b'line 1, column 1: a header, or another word: the file has numbers alone; read "Z"'),
    (b'"month","z"\n', b'line 1, column 1: a header, or another word: the file has numbers alone; read ""month","z""'),
    (b'# Z\n', b'line 1, column 1: a header, or another word: the file has numbers alone; read "# Z"'),
    (b'1;5\n', b'line 1, column 2: a semicolon: a line has one number and nothing beside it; read "1;5"'),
    (b'0\n"1"\n', b'line 2, column 1: a quote mark; read ""1""'),
    (b'1932-06,1.5\n', b'line 1, column 5: a minus that is not in front: a line has one number and no date; read "1932-06,1.5"'),
    (b'06/1932 15\n', b'line 1, column 3: a date: a line has one number and nothing beside it; read "06/1932 15"'),
    (b'1\n# Z\n', b'line 2, column 1: no digit; read "# Z"'),
    (b'1040 \n', b'line 1, column 5: a space after the number; read "1040 "'),
    (b'1040   \n', b'line 1, column 5: a space after the number; read "1040   "'),
    (b' 1040\n', b'line 1, column 1: a space before the number; read " 1040"'),
    (b'1 040\n', b'line 1, column 2: a space: a line has one number; read "1 040"'),
    (b' \n', b'line 1, column 1: a space before the number; read " "'),
    (b'1\t2\n', b'line 1, column 2: a tab; read "1?2"'),
    (b'\t1\n', b'line 1, column 1: a tab; read "?1"'),
    (b'+1\n', b'line 1, column 1: a plus sign: a number above 0 has none; read "+1"'),
    (b'0\n1+1\n', b'line 2, column 2: a plus sign: a number above 0 has none; read "1+1"'),
    (b'.5\n', b'line 1, column 1: a point: a number is in whole thousandths, as 1040 for 1.04; read ".5"'),
    (b',5\n', b'line 1, column 1: a comma: a line has one number, in whole thousandths; read ",5"'),
    (b'--1\n', b'line 1, column 2: a minus that is not in front: a line has one number and no date; read "--1"'),
    (b'1-2\n', b'line 1, column 2: a minus that is not in front: a line has one number and no date; read "1-2"'),
    ('\u22121\n'.encode(), b'line 1, column 1: a byte above 127, which is no plain text; read "???1"'),
    ('\uff11\n'.encode(), b'line 1, column 1: a byte above 127, which is no plain text; read "???"'),
    (b'\xfe\xff\0001', b'line 1, column 1: a byte order mark of UTF-16: save the file as plain text; read "???1"'),
    (b'1\n' + '\u22121\n'.encode(), b'line 2, column 1: a byte above 127, which is no plain text; read "???1"'),
    (b'1\0\n', b'line 1, column 2: no digit; read "1?"'),
    (b'1\n\n', b'line 2: it is blank; read ""'),
    (b'\n', b'line 1: it is blank; read ""'),
    (b'1\n-\n', b'line 2, column 2: no digit after the minus; read "-"'),
    (b'-', b'line 1, column 2: no digit after the minus; read "-"'),
    (b'4000001\n', b'line 1: outside the range of Z; read "4000001"'),
    (b'0\n-4000001', b'line 2: outside the range of Z; read "-4000001"'),
    (b'7' * 40 + b'\n', b'line 1: outside the range of Z; read "' + b'7' * 40 + b'"'),
    (b'7' * 41 + b'\n', b'line 1: outside the range of Z; read "' + b'7' * 40 + b'.."'),
    (b'0' * 39 + b'x\n', b'line 1, column 40: a letter; read "' + b'0' * 39 + b'x"'),
    (b'0' * 40 + b'x\n', b'line 1: past column 40 something that is no digit; read "' + b'0' * 40 + b'.."'),
    (b'0' * 39 + b'\r\n', b'line 1, column 40: a carriage return at the end: the lines end in CR LF, and a line feed alone is taken; read "' + b'0' * 39 + b'?"'),
    (ordinary(2400, 9) + b'12\n', b'line 2401: a month too many; read "12"'),
    (ordinary(2400, 9) + b'\n', b'line 2401: it is blank; read ""'),
]


def shown(data):
    """A line's start as it is quoted."""
    return bytes(b if 32 <= b <= 126 else ord('?') for b in data[:40]) + (b'..' if len(data) > 40 else b'')


def is_said(err, data, refusal):
    """Whether what is said of a refused line has its number, its start, and what the refusal's number means."""
    _, number, name = refusal.split()
    line = data.split(b'\n')[int(number) - 1]
    form = rb'palmer: line %s(, column [0-9]+)?: [^\n]*; read "%s"; %s' % (number.encode(), re.escape(shown(line)), re.escape(MEANS[int(name)]))
    return re.fullmatch(form, err) is not None


def words():
    """What is said of the inputs of the table, given whole, in pieces and a byte at a time."""
    for data, said in WORDS:
        number = int(expected(data).split()[2])
        right = b'palmer: ' + said + b'; ' + MEANS[number]
        for pieces in (1, 7, len(data) if len(data) < 100 else 3):
            err = running.printed(COMMAND, data, pieces)[1]
            if err != right:
                sys.exit('program: %r, in %d pieces: it says %r, and not %r' % (data[-50:], pieces, err, right))


def drawn(seed):
    """A short input of bytes that often make lines, and sometimes spoil them."""
    draw = random.Random(seed)
    lines = []
    for _ in range(draw.randint(0, 30)):
        size = 10 ** (9 if draw.random() < 0.02 else draw.randint(1, 6))
        line = b'%d' % draw.randint(-size, size)
        if draw.random() < 0.04:
            at = draw.randint(0, len(line))
            line = line[:at] + bytes([draw.choice(b'-+ \r\t0xX\0\x80\xff')]) + line[at:]
        lines.append(line)
    return b'\n'.join(lines) + draw.choice([b'', b'\n'])


def main():
    inputs = INPUTS + [('drawn %d' % i, drawn(i)) for i in range(40)]
    refused = {}
    for name, data in inputs:
        right = expected(data)
        if right.startswith('refused'):
            number = int(right.split()[2])
            refused[number] = refused.get(number, 0) + 1
        for pieces in (1, 7):
            out, err, status = running.printed(COMMAND, data, pieces)
            if (out, status) != (right.encode(), 0):
                sys.exit('program: %s, in %d pieces: status %d, %r; it should print %r' % (name, pieces, status, (out + err)[:200], right[:200]))
            if not (is_said(err, data, right) if right.startswith('refused') else err == b''):
                sys.exit('program: %s, in %d pieces: it says %r' % (name, pieces, err[:300]))
    words()
    counts = ', '.join('%d with %d' % (refused[k], k) for k in sorted(refused))
    print('program: %d inputs, each whole and in pieces, no difference; refused: %s; words of %d' % (len(inputs), counts, len(WORDS)))


if __name__ == '__main__':
    main()
