#!/usr/bin/env python3
"""Runs the wrappers of host/ as a person would: bad input, wrong arguments, files from any folder, output that cannot be
written. Asks for each the status, the words on standard error and what is on standard output.

Status: 0 done, 1 refused or bad input, 2 wrong arguments or unreadable input, 3 output that could not be written. It
prints how many cases were run.
"""
import os
import re
import subprocess
import sys
import tempfile

from stored import TOP

TOP = os.path.realpath(TOP)
HOST = os.path.join(TOP, 'host')
COUNT = 0


def kept(*path):
    with open(os.path.join(TOP, *path), 'rb') as f:
        return f.read()


STATION = kept('samples', 'western-kansas-station.txt')
REPAIRS = kept('samples', 'western-kansas-repairs.txt')
REPAIRS_FILE = os.path.join(TOP, 'samples', 'western-kansas-repairs.txt')
LOST = kept('samples', 'thirty-years-station.txt')
SERIES = kept('samples', 'western-kansas.txt')
ROWS = kept('crates', 'palmer', 'stdout')
DIVISION = kept('crates', 'division', 'stdin')
YEARS = kept('crates', 'division', 'stdout')
# line numbers of the station file: its first month and its last
LINES = STATION.split(b'\n')
FIRST, LAST = LINES.index(b'1932-06 5.56 4.80') + 1, LINES.index(b'1935-05 4.65 2.52') + 1


def with_line(number, text):
    """The station file with another line."""
    return b'\n'.join(LINES[:number - 1] + [text] + LINES[number:])


# The story: what a person may hand in for a month's rain and PE, and what each program says of it. palmer and division
# get it as their second line.
STORY = [
    (b'5.56,4.80', b'1932-06 5.56,4.80', FIRST, b'column 13: a comma in "5.56,4.80"', b'column 2: a point'),
    (b'abc', b'1932-06 abc 4.80', FIRST, b'column 9: "abc" is no number', b'column 1: a letter'),
    (b't', b'1932-06 t 4.80', FIRST, b'column 9: "t" is no number; a trace of rain is written T', b'column 1: a letter'),
    (b'T', b'1932-06 5.56 T', FIRST, b'column 14: "T" is no number; a trace is of rain; PE is worked out and not observed: write 0', b'column 1: a letter'),
    (b'1,53', b'1932-06 1,53 4.80', FIRST, b'column 10: a comma in "1,53"', b'column 2: a comma'),
    (b'62mm', b'1932-06 62mm 4.80', FIRST, b'column 11: something after the number in "62mm"', b'column 3: a letter'),
    (b'4.65', b'1935-05 4.65', LAST, b'column 13: the line ends after 2 words; expected: 1935-05 PRECIPITATION PE', b'column 2: a point'),
]


def ran(words, data=b'', cwd=TOP, out=subprocess.PIPE, **more):
    """Status, standard output (b'' where it is not caught) and standard error."""
    global COUNT
    COUNT += 1
    done = subprocess.run([os.path.join(HOST, words[0]), *words[1:]], input=None if 'stdin' in more else data, stdout=out, stderr=subprocess.PIPE, cwd=cwd, **more)
    return done.returncode, done.stdout or b'', done.stderr


def asked(name, got, status, out, words):
    """Holds what was got to the status, the whole output and what standard error must have; one line there, or none."""
    if got[0] != status or got[1] != out:
        sys.exit('wrappers: %s: status %d, %r, %r; expected status %d and %r' % (name, got[0], got[1][:200], got[2][:300], status, out[:200]))
    if words is None:
        fine = got[2] == b''
    else:
        fine = got[2].count(b'\n') == 1 and got[2].endswith(b'\n') and words in got[2]
    if not fine:
        sys.exit('wrappers: %s: standard error is %r; expected %r' % (name, got[2][:300], words))


def stories():
    """Each bad input through each program."""
    good = DIVISION.split(b'\n')[0] + b'\n'
    for text, month, line, station, palmer in STORY:
        told = b'station: line %d, %s' % (line, station)
        for words in (['station'], ['station', '--season', '6']):
            asked('%s: %s' % (' '.join(words), text), ran(words, with_line(line, month)), 1, b'', told)
        with tempfile.NamedTemporaryFile() as f:
            f.write(with_line(line, month))
            f.flush()
            asked('run: %s' % text, ran(['run', f.name]), 1, b'', told)
        asked('palmer: %s' % text, ran(['palmer'], b'0\n' + text + b'\n'), 1, b'refused 2 13\n', b'palmer: line 2, ' + palmer)
        asked('division: %s' % text, ran(['division', '1', '1'], good + text + b'\n'), 1, b'refused 2 14\n', b'division: line 2: it ends after column %d, and the layout has 94' % len(text))
    missing = with_line(FIRST, b'1932-06 - 4.80')
    asked('station: missing', ran(['station'], missing), 1, b'', b'line %d, column 9: precipitation is missing (8: reading missing); README.md, "Missing months", says what to do' % FIRST)
    cr_lf = DIVISION.replace(b'\n', b'\r\n')
    asked('division: CR LF', ran(['division', '14', '7'], cr_lf), 1, b'refused 1 14\n', b'line 1, column 95: a carriage return; the file has CR LF line ends')
    asked('palmer: CR LF', ran(['palmer'], b'1\r\n'), 1, b'refused 1 13\n', b'line 1, column 2: a carriage return at the end: the lines end in CR LF')
    asked('station: CR LF', ran(['station'], STATION.replace(b'\n', b'\r\n')), 1, b'', b'a carriage return; the file has CR LF line ends')


def good():
    asked('palmer', ran(['palmer'], SERIES), 0, ROWS, None)
    asked('palmer, nothing', ran(['palmer'], b''), 0, b'', None)
    asked('division', ran(['division', '14', '07'], DIVISION), 0, YEARS, None)
    status, singly, err = ran(['station'], STATION)
    lines = singly.split(b'\n')
    if (status, err, len(lines)) != (0, b'', 112) or (lines[1], lines[75]) != (b'1932-06 5560 4800 3105 3142 0 1047 1047 1', b'1932-06 5560 4800 4800 760 0 0 760 1330'):
        sys.exit('wrappers: station: %r' % ((status, singly[:200], err),))
    _, seasons, _ = ran(['station', '--season', '6'], STATION)
    six = seasons.split(b'month X1 ')[0]
    asked('run', ran(['run']), 0, singly + six, None)
    return singly


def folders(singly):
    """A relative FILE from any folder, odd names, a wrapper reached by a link."""
    with tempfile.TemporaryDirectory() as folder:
        inner = os.path.join(folder, 'a folder')
        os.mkdir(inner)
        for name, data in (('my station.txt', STATION), ('-z.txt', SERIES), ('year', DIVISION)):
            with open(os.path.join(inner, name), 'wb') as f:
                f.write(data)
        for place, prefix in ((inner, ''), (folder, 'a folder/'), (inner, './'), (folder, './a folder/../a folder/')):
            asked('station in a folder', ran(['station', prefix + 'my station.txt'], cwd=place), 0, singly, None)
            asked('division in a folder', ran(['division', '14', '7', prefix + 'year'], cwd=place), 0, YEARS, None)
            if prefix:
                asked('palmer in a folder', ran(['palmer', prefix + '-z.txt'], cwd=place), 0, ROWS, None)
        linked = os.path.join(folder, 'linked')
        os.symlink(os.path.join(HOST, 'palmer'), linked)
        asked('palmer by a link', ran([linked, './-z.txt'], cwd=inner), 0, ROWS, None)


CSV = kept('samples', 'western-kansas.csv')
HEADING = b'month,precipitation,pe\n'
# a CSV, and what is said of it
CSVS = [
    (b'', b'is empty'),
    (HEADING, b'there is no month in it'),
    (CSV[len(HEADING):], b'line 1: the heading is "1932-06,5.56,4.80"; expected: month,precipitation,pe, the columns in this order'),
    (CSV.replace(HEADING, b'month,pe,precipitation\n'), b'line 1: the heading is "month,pe,precipitation"; expected'),
    (CSV.replace(b',', b';').replace(b'.', b','), b'line 1: a semicolon; the cells are parted by commas, and decimals begin with a point'),
    (CSV.replace(b',', b'\t'), b'line 1: a tab; the cells are parted by commas'),
    (HEADING + b'"1932-06","5.56","4.80"\n', b'line 2: a quote mark'),
    (HEADING + b'1932-06,5,56,4,80\n', b'line 2: 5 cells in "1932-06,5,56,4,80"; expected: month,precipitation,pe'),
    (HEADING + b'1932-06,5.56\n', b'line 2: 2 cells'),
    (HEADING + b'1932-06,5.56,4.80,\n', b'line 2: 4 cells'),
    (HEADING + b'5.56,4.80\n', b'line 2: 2 cells in "5.56,4.80"'),
    (HEADING + b',5.56,4.80\n', b'line 2: the month is empty'),
    (HEADING + b'1932-06,5.56,4.80\n\n', b'line 3: it is empty'),
    (CSV[:-1], b'the last line has no line feed at its end: see that the file is whole, and add one'),
    (CSV[:-3], b'the last line has no line feed at its end'),
    (CSV.replace(b'\n', b'\r'), b'the last line has no line feed at its end'),
]
# what is written, and is then for the station program to refuse
THEN = [
    (b'1932-06,,4.80', b'column 9: precipitation is missing (8: reading missing)'),
    (b'1932-06,5.56,', b'column 14: PE is missing (8: reading missing)'),
    (b'1932-06,t,4.80', b'column 9: "t" is no number; a trace of rain is written T'),
    (b'1932-06,5.56,T', b'column 14: "T" is no number; a trace is of rain'),
    (b'1932-06,abc,4.80', b'column 9: "abc" is no number'),
    (b'1932-06,62mm,4.80', b'column 11: something after the number in "62mm"'),
    (b'06/1932,5.56,4.80', b'column 1: "06/1932" is no month'),
    (b'1932-6,5.56,4.80', b'column 1: "1932-6" is no month'),
    (b'1932-05,5.56,4.80', b'column 1: 1932-07 here, and 1932-06 was to follow'),
    (b'1932-06,5.56 in,4.80', b'column 14: "in" is no number'),
]


def from_csv(singly):
    """A CSV becomes a station file that is whole or not there, with nothing guessed."""
    soil = os.path.join(TOP, 'samples', 'western-kansas-station.txt')
    with tempfile.TemporaryDirectory() as folder:
        def made(data, soil=soil, file='made.txt'):
            with open(os.path.join(folder, 'rain and pe.csv'), 'wb') as f:
                f.write(data)
            return ran(['csv', soil, 'rain and pe.csv', file], cwd=folder)

        def left():
            return sorted(os.listdir(folder))

        for data in (CSV, CSV.replace(b'\n', b'\r\n'), b'\xef\xbb\xbf' + CSV, CSV.replace(HEADING, HEADING.upper())):
            asked('csv', made(data), 0, b'', None)
            asked('station of a csv', ran(['station', 'made.txt'], cwd=folder), 0, singly, None)
            asked('csv, again', made(data), 2, b'', b'made.txt is there already')
            os.remove(os.path.join(folder, 'made.txt'))
        for data, words in CSVS:
            asked('csv %r' % data[:60], made(data), 1, b'', words)
            if left() != ['rain and pe.csv']:
                sys.exit('wrappers: csv %r: it leaves %r' % (data[:60], left()))
        first = len(LINES[:FIRST])
        for line, words in THEN:
            asked('csv %r' % line, made(CSV.replace(b'1932-06,5.56,4.80', line)), 0, b'', None)
            got = ran(['station', 'made.txt'], cwd=folder)
            told = first + 1 if b'1932-07 here' in words or b'was to follow' in words else first
            asked('station of csv %r' % line, got, 1, b'', b'station: line %d, %s' % (told, words))
            os.remove(os.path.join(folder, 'made.txt'))
        asked('csv, no soil', made(CSV, soil='rain and pe.csv'), 1, b'', b'has no line that begins with months')
        asked('csv, no soil there', made(CSV, soil='none'), 2, b'', b'the input cannot be read: none: there is no such file')
        asked('csv, no folder', made(CSV, file='none/made.txt'), 3, b'', b'the output cannot be written')
        asked('csv, a folder', made(CSV, file='.'), 2, b'', b'. is there already')
        if left() != ['rain and pe.csv']:
            sys.exit('wrappers: csv leaves %r' % left())


def traces():
    """A T for rain, from a CSV to the sheet: T as P of its month, in both tables, and 0 in seasons, with which host/run agrees."""
    with tempfile.TemporaryDirectory() as folder:
        for name, cell in (('rain.csv', b'T'), ('none.csv', b'0')):
            with open(os.path.join(folder, name), 'wb') as f:
                f.write(CSV.replace(b'1932-07,1.78,', b'1932-07,' + cell + b','))
            asked('csv of %s' % name, ran(['csv', os.path.join(TOP, 'samples', 'western-kansas-station.txt'), name, name + '.txt'], cwd=folder), 0, b'', None)
        with open(os.path.join(folder, 'rain.csv.txt'), 'rb') as f:
            if b'\n1932-07 T 7.04\n' not in f.read():
                sys.exit('wrappers: csv does not write a T as it stands')
        dry = ran(['station', 'none.csv.txt'], cwd=folder)[1]
        told = dry.replace(b'\n1932-07 0 7040 ', b'\n1932-07 T 7040 ')
        if dry.count(b'\n1932-07 0 7040 ') != 2:
            sys.exit('wrappers: station: no rain is not printed 0 in two tables')
        asked('station, a trace', ran(['station', 'rain.csv.txt'], cwd=folder), 0, told, None)
        seasons = ran(['station', '--season', '6', 'none.csv.txt'], cwd=folder)[1]
        asked('station, a trace in a season', ran(['station', '--season', '6', 'rain.csv.txt'], cwd=folder), 0, seasons, None)
        asked('run, a trace', ran(['run', 'rain.csv.txt'], cwd=folder), 0, told + seasons.split(b'month X1 ')[0], None)


# a line of the file of repairs, another in its place, and what is said of it
NO_REPAIRS = [
    (b'repairs inches', b'repairs millimetres', b'column 9: "millimetres" is not the station file\'s unit; expected: repairs inches'),
    (b'1932-10 0.93 =', b'1931-10 0.93 =', b'column 1: 1931-10 is not in the station file, which has 1932-06 to 1935-05'),
    (b'1933-08 6.10 5.35', b'1932-10 6.10 5.35', b'column 1: 1932-10 here again; each month stands once'),
    (b'1934-02 2.10 =', b'1933-02 2.10 =', b'column 1: 1933-02 here, after 1933-08; the months stand in order of time'),
    (b'1934-02 2.10 =', b'1934-02 2,10 =', b'column 10: a comma in "2,10"'),
    (b'1934-02 2.10 =', b'1934-02 2.10', b'column 13: the line ends after 2 words; expected: YYYY-MM PRECIPITATION PE'),
    (b'1934-02 2.10 =', b'1934-02 2.10 T', b'column 14: "T" is no number; a trace is of rain'),
    (b'1934-02 2.10 =', b'1934-02 - =', b'column 9: precipitation is missing (8: reading missing); a repair has both readings'),
    (b'1934-02 2.10 =', b'1934-02 2.10 101', b'column 14: PE 101 is refused (9: reading not acceptable), inches are 0 to 100'),
    (b'end', b'# end', b'the file ends without its last line, end; it may be cut short'),
]


def repairs(singly):
    """A month repaired, from any folder and by any way; and files of repairs that are not as they should be."""
    status, repaired, err = ran(['repair', REPAIRS_FILE], STATION)
    if (status, err) != (0, b'') or not repaired.startswith(b'repair 1932-10 changed 32\nmonth index_before ') or repaired.split(b'month X1 ')[1] == singly.split(b'month X1 ')[1]:
        sys.exit('wrappers: repair: %r' % ((status, repaired[:200], err),))
    at = REPAIRS.split(b'\n')
    with tempfile.TemporaryDirectory() as folder:
        inner = os.path.join(folder, 'a folder')
        os.mkdir(inner)
        for name, data in (('my station.txt', STATION), ('-r.txt', REPAIRS)):
            with open(os.path.join(inner, name), 'wb') as f:
                f.write(data)
        for place, prefix in ((inner, './'), (folder, 'a folder/')):
            asked('repair in a folder', ran(['repair', prefix + '-r.txt', prefix + 'my station.txt'], cwd=place), 0, repaired, None)
            asked('repair in a folder, <FILE', ran(['repair', prefix + '-r.txt'], STATION, cwd=place), 0, repaired, None)
            asked('repair by a pipe', ran(['repair', '/dev/stdin', prefix + 'my station.txt'], REPAIRS, cwd=place), 0, repaired, None)
        for old, new, words in NO_REPAIRS:
            with open(os.path.join(folder, 'bad'), 'wb') as f:
                f.write(b'\n'.join(new if line == old else line for line in at))
            number = at.index(old) + 1 if old != b'end' else len(at)
            told = b'station: repairs, line %d%s%s' % (number, b': ' if old == b'end' else b', ', words)
            asked('repair: %s' % new.decode(), ran(['repair', 'bad'], STATION, cwd=folder), 1, b'', told)
        asked('repair: the wrong way round', ran(['repair', 'a folder/my station.txt', 'a folder/-r.txt'], cwd=folder), 1, b'', b'"repairs" is not known here; expected: capacity THOUSANDTHS')
    asked('repair: a bad station file', ran(['repair', REPAIRS_FILE], with_line(FIRST, b'1932-06 abc 4.80')), 1, b'', b'station: line %d, column 9: "abc" is no number' % FIRST)
    asked('repair: no file', ran(['repair', 'there-is-none'], STATION), 2, b'', b'repair: the input cannot be read: there-is-none: there is no such file')
    asked('repair: a folder', ran(['repair', TOP], STATION), 2, b'', b' is a folder')


def put_back(data, section):
    """A station file with these thirteen lines in the place of its constants or weights."""
    lines = data.split(b'\n')
    at = next(i for i, line in enumerate(lines) if line.split(b' ')[0] in (b'weights', b'constants'))
    return b'\n'.join(lines[:at] + section + lines[at + 13:])


# a line of the station file with weights, another in its place, and what is said of it
NO_WEIGHTS = [
    (b'weights', b'weight', b'column 1: "weight" is not known here; expected: constants alpha beta gamma delta K, or weights'),
    (b'weights', b"weights K'", b'column 9: a second word, "K\'"; expected: weights'),
    (b'March 16000', b'March 1,6', b'column 8: a comma in "1,6"'),
    (b'March 16000', b'March 1.6', b'column 8: a point in "1.6"; expected: a whole number of ten-thousandths'),
    (b'March 16000', b'March 160000', b'column 7: weight 160000 is refused (3: a constant outside its range), weight is 0 to 100000'),
    (b'March 16000', b'March 0', b'column 7: weight 0 is refused (21: a K of 0, by which a month counts for nothing), the K of March comes to 0'),
    (b'March 16000', b'April 16000', b'column 1: April here, and March was to follow; the weights stand from January to December'),
    (b'1930-08 2.03 4.98', b'1930-08 - 4.98', b'column 9: precipitation is missing (8: reading missing); README.md, "Missing months", says what to do'),
]


def constants():
    """Constants worked out of a record, from any folder and by any way; put back they serve; a file with weights serves for
    nothing else; and files of which none come."""
    status, worked, err = ran(['constants'], LOST)
    lines = worked.split(b'\n')
    if (status, err, len(lines)) != (0, b'', 42) or (lines[0], lines[-14]) != (b'years 30 1931 to 1960', b'constants alpha beta gamma delta K'):
        sys.exit('wrappers: constants: %r' % ((status, worked[:200], err),))
    again = put_back(LOST, lines[-14:-1])
    with tempfile.TemporaryDirectory() as folder:
        inner = os.path.join(folder, 'a folder')
        os.mkdir(inner)

        def write(name, data):
            with open(os.path.join(inner, name), 'wb') as f:
                f.write(data)

        write('-lost.txt', LOST)
        for place, prefix in ((inner, './'), (folder, 'a folder/')):
            asked('constants in a folder', ran(['constants', prefix + '-lost.txt'], cwd=place), 0, worked, None)
        linked = os.path.join(folder, 'linked')
        os.symlink(os.path.join(HOST, 'constants'), linked)
        asked('constants by a link', ran([linked, './-lost.txt'], cwd=inner), 0, worked, None)
        told = b'station: line %d: weights and no constants; host/constants works the constants out of this file' % (LOST.split(b'\n').index(b'weights') + 1)
        for words in (['station'], ['station', '--season', '6'], ['repair', REPAIRS_FILE], ['run']):
            asked('%s of weights' % words[0], ran(words + ['./-lost.txt'], cwd=inner), 1, b'', told)
        write('found.txt', again)
        status, out, err = ran(['station', 'found.txt'], cwd=inner)
        if (status, err, out.count(b'\n')) != (0, b'', 3 * 367 + 3):
            sys.exit('wrappers: station of the constants: %r' % ((status, out[:200], err),))
        status, both, err = ran(['run', 'found.txt'], cwd=inner)
        if (status, err) != (0, b'') or not both.startswith(out):
            sys.exit('wrappers: run of the constants: %r' % ((status, both[:200], err),))
        status, out, err = ran(['constants', 'found.txt'], cwd=inner)
        if (status, err) != (0, b'') or out.split(b'\n')[:14] != lines[:14]:
            sys.exit('wrappers: constants of the constants: %r' % ((status, out[:200], err),))
        # a CSV of the same months, beside a soil with weights
        months = [line.replace(b' ', b',') for line in LOST.split(b'\n') if line[:2] == b'19']
        write('months.csv', HEADING + b''.join(line + b'\n' for line in months))
        asked('csv of weights', ran(['csv', './-lost.txt', 'months.csv', 'made.txt'], cwd=inner), 0, b'', None)
        asked('constants of a csv', ran(['constants', 'made.txt'], cwd=inner), 0, worked, None)
    for old, new, words in NO_WEIGHTS:
        at = LOST.split(b'\n').index(old) + 1
        asked('constants: %s' % new.decode(), ran(['constants'], LOST.replace(b'\n' + old + b'\n', b'\n' + new + b'\n')), 1, b'', b'station: line %d, %s' % (at, words))
    asked('constants: cut short', ran(['constants'], LOST[:-4]), 1, b'', b'the file ends without its last line, end; it may be cut short')
    asked('constants: too few years', ran(['constants'], STATION), 1, b'', b'station: the constants are refused (18: fewer than ten whole years, or one with a month without water), 1932-06 to 1935-05 has 2 whole years, January to December, and ten are needed')
    asked('constants: a thin soil', ran(['constants'], LOST.replace(b'capacity 6000', b'capacity 100').replace(b'surface 400', b'surface 0').replace(b'underlying 2120', b'underlying 0')), 1, b'', b'station: the gamma of February is refused (19: a gamma worked out is outside its range), 10000 x RO 15620 / PRO 2890 is 54048, and gamma is 0 to 50000')
    asked('constants: one weight large', ran(['constants'], put_back(LOST, [b'weights'] + [line.split(b' ')[0] + (b' 100000' if line.startswith(b'May') else b' 1') for line in lines[-13:-1]])), 1, b'', b'station: the constants are refused (20: no departures to weigh, or a K worked out is outside its range), every D x weight is 0, or a K is above 100000')


# of the station's record the line that is printed, and a row of each element as it is read back
SENT = b'years 4 1932 to 1935 index 35 open 1 z 36 modified 36\n'
READ_BACK = {
    'index': b'1935 -456 -460 -489 -546 - - - - - - - - 4\n',
    'z': b'1935 -73 -155 -229 -323 248 - - - - - - - 5\n',
    'modified': b'1935 -456 -460 -489 -546 -310 - - - - - - - 5\n',
}


def sending():
    """A record sent out and read back, from any folder and by any way; and what is not as it should be, of which nothing is
    written."""
    with tempfile.TemporaryDirectory() as folder:
        inner = os.path.join(folder, 'a folder')
        out = os.path.join(inner, '-out')
        os.makedirs(out)

        def write(name, data):
            with open(os.path.join(inner, name), 'wb') as f:
                f.write(data)

        def left(expected):
            if sorted(os.listdir(out)) != expected:
                sys.exit('wrappers: send leaves %r' % sorted(os.listdir(out)))

        write('my station.txt', STATION)
        linked = os.path.join(folder, 'linked')
        os.symlink(os.path.join(HOST, 'send'), linked)
        for send, place, prefix in (('send', inner, ''), ('send', inner, './'), (linked, folder, 'a folder/../a folder/'), ('send', TOP, inner + '/')):
            asked('send', ran([send, '14', '07', prefix + '-out', prefix + 'my station.txt'], cwd=place), 0, SENT, None)
            left(['index.txt', 'modified.txt', 'z.txt'])
            for element, row in READ_BACK.items():
                status, rows, err = ran(['receive', element, '14', '7', prefix + '-out/%s.txt' % element], cwd=place)
                if (status, err, rows.count(b'\n')) != (0, b'', 4) or not rows.endswith(row):
                    sys.exit('wrappers: receive %s: %r' % (element, (status, rows, err)))
                os.remove(os.path.join(out, element + '.txt'))
        asked('send <FILE', ran(['send', '14', '07', out], STATION), 0, SENT, None)
        lines = kept(out, 'index.txt')
        asked('receive <FILE', ran(['receive', 'index', '14', '7'], lines), 0, ran(['receive', 'index', '14', '7', 'index.txt'], cwd=out)[1], None)
        for words, data, printed, said in ((['z', '14', '7'], lines, b'refused 4 15\n', b'receive: no line up to line 4 is the Z, element 07, of state 14, division 7'),
                                           (['index', '7', '14'], lines, b'refused 4 15\n', b'receive: no line up to line 4 is the index, element 05, of state 7, division 14'),
                                           (['index', '14', '7'], b'', b'refused 0 15\n', b'receive: the input is empty'),
                                           (['index', '14', '7'], lines.replace(b'\n', b'\r\n'), b'refused 1 14\n', b'receive: line 1, column 95: a carriage return; the file has CR LF line ends'),
                                           (['index', '14', '7'], lines.replace(b'  -4.89', b'  -4,89'), b'refused 4 14\n', b'receive: line 4, column 25: month 3 is no number with two decimals, as the layout has them'),
                                           (['index', '14', '7'], lines.replace(b'051934', b'051933'), b'refused 3 16\n', b'receive: line 3: the year is 1933, and 1934 was to follow'),
                                           (['index', '14', '7'], lines[:-4], b'refused 4 14\n', b'receive: line 4: it ends after column 91, and the layout has 94'),
                                           (['modified', '14', '7'], DIVISION, b'refused 18 15\n', b'receive: no line up to line 18 is the modified index, element 08')):
            asked('receive %s' % said.decode(), ran(['receive'] + words, data), 1, printed, said)
        # nothing is written, and what was there stays
        for data, status, words in ((with_line(FIRST, b'1932-06 abc 4.80'), 1, b'station: line %d, column 9: "abc" is no number' % FIRST),
                                    (LOST, 1, b': weights and no constants; host/constants works the constants out of this file'),
                                    (with_line(FIRST, b'1932-06 0 100').replace(b'June 7099 268 251 4332 12800', b'June 10000 10000 0 0 100000'), 1, b'station: line %d: the Z of 1932-06 is refused (24: ' % FIRST)):
            asked('send %s' % words.decode(), ran(['send', '1', '1', out], data), status, b'', words)
            left(['index.txt', 'modified.txt', 'z.txt'])
        os.remove(os.path.join(out, 'z.txt'))
        os.mkdir(os.path.join(out, 'z.txt'))
        asked('send over a folder', ran(['send', '1', '1', out], STATION), 3, b'', b'station: z.txt cannot be written in the folder, and none of the three files is')
        left(['index.txt', 'modified.txt', 'z.txt'])
        if kept(out, 'index.txt') != lines:
            sys.exit('wrappers: send: a file is written, and not the others')


HELP = [['palmer'], ['division'], ['station'], ['repair'], ['constants'], ['send'], ['receive'], ['run'], ['start'], ['csv']]
WRONG = [
    (['palmer', '-x'], b'there is no option -x'),
    (['palmer', 'a', 'b'], b'one FILE at most'),
    (['palmer', ''], b'the name of FILE is empty'),
    (['division'], b'a STATE and a DIVISION are asked for'),
    (['division', '1'], b'a STATE and a DIVISION are asked for'),
    (['division', '1', 'x'], b'DIVISION "x" is not one or two digits'),
    (['division', '001', '1'], b'STATE "001" is not one or two digits'),
    (['division', 'KS', '7', 'there-is-none'], b'STATE "KS" is not one or two digits'),
    (['division', '', ''], b'STATE "" is not one or two digits'),
    (['division', '1', '1', 'a', 'b'], b'three arguments at most'),
    (['division', '--state', '1'], b'there is no option --state'),
    (['station', 'a', 'b'], b'one FILE at most'),
    (['station', '--season'], b'--season asks for MONTHS'),
    (['station', '--season', ''], b'MONTHS is empty'),
    (['station', '--season', '0'], b'"0" is no number of months; expected: 1 to 12000'),
    (['station', '--season', '6x'], b'"6x" is no number of months'),
    (['station', '--season', '*'], b'"*" is no number of months'),
    (['station', '--season', '12001'], b'"12001" is no number of months'),
    (['station', '-s'], b'there is no option -s'),
    (['repair'], b'a file of REPAIRS is asked for'),
    (['repair', ''], b'the name of REPAIRS is empty'),
    (['repair', REPAIRS_FILE, ''], b'the name of FILE is empty'),
    (['repair', 'a', 'b', 'c'], b'one FILE at most'),
    (['repair', '--season', '6'], b'there is no option --season'),
    (['constants', 'a', 'b'], b'one FILE at most'),
    (['constants', ''], b'the name of FILE is empty'),
    (['constants', '--season', '6'], b'there is no option --season'),
    (['station', '--constants'], b'there is no option --constants'),
    (['send', '14', '7'], b'a STATE, a DIVISION and a FOLDER are asked for'),
    (['send', '14', '7', ''], b'the name of FOLDER is empty'),
    (['send', '14', '7', 'there-is-none'], b'there-is-none: there is no such folder'),
    (['send', '14', '7', REPAIRS_FILE], b' is no folder'),
    (['send', '14', '7', 'host', ''], b'the name of FILE is empty'),
    (['send', '14', '7', 'host', 'a', 'b'], b'four arguments at most'),
    (['send', 'KS', '7', 'host'], b'"KS" is no STATE; expected: one or two digits'),
    (['send', '14', '007', 'host'], b'"007" is no DIVISION; expected: one or two digits'),
    (['send', '--season', '6', 'host'], b'there is no option --season'),
    (['receive', 'index', '14'], b'an ELEMENT, a STATE and a DIVISION are asked for'),
    (['receive', 'index', '14', '7', ''], b'the name of FILE is empty'),
    (['receive', 'index', '14', '7', 'a', 'b'], b'four arguments at most'),
    (['receive', 'pdsi', '14', '7'], b'ELEMENT is index, z or modified'),
    (['receive', 'z', 'KS', '7'], b'STATE is one or two digits'),
    (['receive', 'z', '14', ''], b'DIVISION is one or two digits'),
    (['receive', '-z', '14', '7'], b'there is no option -z'),
    (['run', 'a', 'b'], b'one FILE at most'),
    (['run', '--season', '6'], b'there is no option --season'),
    (['start'], b'a PROGRAM is asked for'),
    (['csv'], b'a SOIL, a CSV and a FILE are asked for'),
    (['csv', 'a', 'b'], b'a SOIL, a CSV and a FILE are asked for'),
    (['csv', 'a', 'b', ''], b'the name of FILE is empty'),
]


def arguments():
    for words in HELP:
        for option in ('--help', '-h'):
            status, out, err = ran(words + [option])
            if status != 0 or words[0].encode() not in out.split(b'\n')[0] or err:
                sys.exit('wrappers: %s %s: %r' % (words[0], option, (status, out, err)))
    help_text = ran(['station', '--help'])[1]
    if b'MONTHS at a time (1 to 12000)' not in help_text:
        sys.exit('wrappers: station --help does not say how many months a call takes')
    for heading in (b'month P PE CAFEC Z percent index modified settled', b'season added settled index modified', b'month X1 X2 X3 index modified mark', b'month P PE ET R L RO surface underlying', b"T for a month's precipitation"):
        if heading not in help_text:
            sys.exit('wrappers: station --help does not have %r' % heading)
    help_text = ran(['repair', '--help'])[1]
    for heading in (b'month index_before index_after mark_before mark_after', b'month X1 X2 X3 index modified mark', b'month P PE ET R L RO surface underlying', b'samples/western-kansas-repairs.txt'):
        if heading not in help_text:
            sys.exit('wrappers: repair --help does not have %r' % heading)
    help_text = ran(['constants', '--help'])[1]
    for heading in (b'month ET PE R PR RO PRO L PL', b'month D weight product', b'constants alpha beta gamma delta K', b'samples/thirty-years-station.txt', b'K = 176700000 x weight / SUM'):
        if heading not in help_text:
            sys.exit('wrappers: constants --help does not have %r' % heading)
    help_text = ran(['send', '--help'])[1]
    for heading in (b'FOLDER/index.txt      element 05', b'FOLDER/z.txt          element 07', b'FOLDER/modified.txt   element 08', b'-99.99', b'are replaced', b'years COUNT FIRST to LAST index MONTHS open MONTHS z MONTHS modified MONTHS'):
        if heading not in help_text:
            sys.exit('wrappers: send --help does not have %r' % heading)
    for words, said in WRONG:
        asked(' '.join(words), ran(words), 2, b'', said)
    with open(os.path.join(TOP, 'samples', 'western-kansas-station.txt'), 'rb') as f:
        asked('run <FILE', ran(['run'], stdin=f), 2, b'', b'FILE is an argument, and not standard input')


def unreadable():
    for words in (['palmer'], ['division', '1', '1'], ['station'], ['repair', REPAIRS_FILE], ['constants'], ['send', '1', '1', tempfile.gettempdir()], ['receive', 'z', '1', '1'], ['run']):
        asked('no file', ran(words + ['there-is-none']), 2, b'', b'the input cannot be read: there-is-none: there is no such file')
        asked('a folder', ran(words + [TOP]), 2, b'', b' is a folder')
        if words[0] != 'run':
            with_folder = os.open(TOP, os.O_RDONLY)
            asked('a folder on standard input', ran(words, stdin=with_folder), 2, b'', b'input cannot be read')
            os.close(with_folder)
            asked('standard input closed', ran(words, stdin=subprocess.DEVNULL, preexec_fn=lambda: os.close(0)), 2, b'', b'input cannot be read')


def unwritten():
    """Output that is closed, full, or that nobody reads, of good input and of bad."""
    cases = [(['palmer'], SERIES), (['palmer'], b'x\n'), (['division', '14', '7'], DIVISION), (['division', '1', '1'], b''), (['station'], STATION), (['repair', REPAIRS_FILE], STATION), (['constants'], LOST), (['run'], b''), (['palmer', '--help'], b''), (['csv', '-h'], b'')]
    folder = tempfile.mkdtemp()
    cases += [(['send', '1', '1', folder], STATION), (['receive', 'z', '1', '1'], b'')]
    for words, data in cases:
        with open('/dev/full', 'wb') as full:
            asked('full', ran(words, data, out=full), 3, b'', b'output cannot be written')
        with tempfile.TemporaryFile() as f:
            f.write(data)
            f.seek(0)
            given = subprocess.DEVNULL if words == ['run'] else f
            asked('closed', ran(words, stdin=given, preexec_fn=lambda: os.close(1)), 3, b'', b'output cannot be written')
        reading, writing = os.pipe()
        os.close(reading)
        asked('a pipe that nobody reads', ran(words, data, out=writing), 3, b'', b'output cannot be written')
        os.close(writing)
    # which is empty: where the line cannot be printed, the files are not written either
    os.rmdir(folder)


def built_once():
    """A second run proves and builds nothing: what it would build stays as it was, and so does what rt said of it."""
    made = [os.path.join(TOP, 'target', *path) for path in (('bin', 'palmer'), ('bin', 'division'), ('staticlib', 'libcard.a'), ('host', 'station-c'), ('host', 'station-rust'), ('host', 'receive'))]
    logs = [os.path.join(TOP, 'target', name) for name in ('palmer.log', 'division.log', 'card.log')]

    def found():
        return [os.stat(path).st_mtime_ns for path in made], [os.path.exists(path) and os.stat(path).st_mtime_ns for path in logs]

    before = found()
    ran(['palmer'])
    ran(['division', '1', '1'])
    ran(['station'])
    ran(['repair', REPAIRS_FILE])
    ran(['constants'])
    ran(['send', '1', '1', tempfile.gettempdir()])
    ran(['receive', 'z', '1', '1'])
    ran(['run'])
    after = found()
    if before[0] != after[0]:
        sys.exit('wrappers: a second run builds again')
    if before[1] != after[1]:
        sys.exit('wrappers: a second run proves again')


def main():
    # the first run of each may build, and says so
    for words in (['palmer'], ['division', '1', '1'], ['receive', 'z', '1', '1'], ['run']):
        ran(words)
    singly = good()
    folders(singly)
    from_csv(singly)
    traces()
    repairs(singly)
    constants()
    sending()
    stories()
    arguments()
    unreadable()
    unwritten()
    built_once()
    print('wrappers: %d runs, no difference' % COUNT)


if __name__ == '__main__':
    main()
