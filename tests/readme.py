#!/usr/bin/env python3
"""Holds README.md to what it says and shows: its commands print what it shows of them, its C compiles without a warning
and prints what it says, its way from a CSV comes to the sample's own figures, a trace, repairs, lost constants and a record
sent out are printed as it shows, a month's constants come out by hand as it reckons them, its table of refusals has the words of the header and
of the programs. And docs/MIRROR.md: every command of it prints what
stands below it. And docs/RULES.md: every definition that it names is in the file that it names, with the number that it
says. And the two groups of each crate's specs/Lib.antt: nothing that must be believed uses what only a proof wants. CC and
RUN, from the environment, are how C is compiled and run (host/setup.sh).
"""
import contextlib
import glob
import math
import os
import re
import shlex
import subprocess
import sys
import tempfile

import program
from stored import TOP

TOP = os.path.realpath(TOP)


def text(*path):
    with open(os.path.join(TOP, *path)) as f:
        return f.read()


def blocks_of(page):
    """Its blocks, each with its language."""
    return re.findall(r'```(\w*)\n(.*?)```', page, re.S)


README = text('README.md')
BLOCKS = blocks_of(README)


def printed(command, cwd=TOP, status=0):
    done = subprocess.run(['sh', '-c', command], cwd=cwd, stdin=subprocess.DEVNULL, stdout=subprocess.PIPE, stderr=subprocess.PIPE, text=True)
    if done.returncode != status:
        sys.exit('readme: %s: status %d, %s' % (command, done.returncode, done.stderr[:300]))
    return done.stdout, done.stderr


def block(words):
    """The one block of commands that has these words."""
    found = [body for language, body in BLOCKS if language == 'sh' and words in body]
    if len(found) != 1:
        sys.exit('readme: %d blocks of commands have %s' % (len(found), words))
    return found[0]


def shown(command, lines, cwd=TOP):
    """A command's output, of which a page shows lines, in their order, with two points for what is left out."""
    out = printed(command, cwd)[0].split('\n')
    at = 0
    for line in lines:
        if line != '..':
            if line not in out[at:]:
                sys.exit('readme: %s does not print %r, or not there' % (command, line))
            at = out.index(line, at) + 1


def mirror():
    """Every command of docs/MIRROR.md, and the block below it: the whole output where nothing is left out of it."""
    page = blocks_of(text('docs', 'MIRROR.md'))
    commands, shows = page[::2], page[1::2]
    if [language for language, _ in page] != ['sh', ''] * len(commands):
        sys.exit('readme: docs/MIRROR.md has a command without its output')
    for (_, command), (_, lines) in zip(commands, shows):
        if '..\n' not in lines and printed(command)[0] != lines:
            sys.exit('readme: %s does not print what docs/MIRROR.md shows' % command)
        shown(command, lines.strip().split('\n'))


def definitions(name):
    """What a file of definitions defines: each name, and what follows its sign of equality where it takes nothing."""
    body = text('crates', *name.split('/'))
    named = re.findall(r'^(?:abbrev |unfoldable )?pub (?:record |data )?(\S+)', body, re.M)
    return set(named), dict(re.findall(r'^(\S+) = (\S+)$', body, re.M))


def rules():
    """docs/RULES.md: a table's last cell has definitions, then their file, parted by commas; and so again after a
    semicolon. A definition that is a number is said with it."""
    if '`docs/RULES.md`' not in README:
        sys.exit('readme: README.md does not lead to docs/RULES.md')
    held = set()
    for row in re.findall(r'^\| (.*) \|$', text('docs', 'RULES.md'), re.M):
        said, cell = row.rsplit(' | ', 1)
        for group in cell.split('; ') if cell != 'Definition' else []:
            *names, file = re.findall(r'`(\S+)`', group)
            if not names or '`, `'.join(names + [file]) != group.strip('`') or not os.path.isfile(os.path.join(TOP, 'crates', file)):
                sys.exit('readme: docs/RULES.md does not name definitions and their file: %s' % group)
            named, numbers = definitions(file)
            for name in names:
                if name not in named:
                    sys.exit('readme: docs/RULES.md: crates/%s does not define %s' % (file, name))
                number = numbers.get(name, '')
                if number.isdigit() and number not in [one.replace(',', '') for one in re.findall(r'(?<!\w)\d[\d,]*', said)]:
                    sys.exit('readme: docs/RULES.md: %s is %s: %s' % (name, number, said))
                held.add((file, name))
    return len(held)


def groups():
    """The files of every specs/, by the group that their Lib.antt has them in."""
    heads = {'-- What must be believed': 'believed', '-- What only a proof wants': 'wanted'}
    group = {}
    for lib in glob.glob('crates/*/specs/Lib.antt', root_dir=TOP):
        crate, head = lib.split('/')[1], None
        for line in text(lib).split('\n'):
            head = next((told for words, told in heads.items() if line.startswith(words)), head)
            if line.startswith('pub mod '):
                group[crate, line.split()[2]] = head
    for (crate, name), head in group.items():
        if head is None:
            sys.exit('readme: crates/%s/specs/Lib.antt has %s in no group' % (crate, name))
        used = re.findall(r'^use Rattle\.(\w+)\.specs\.(\w+)\.', text('crates', crate, 'specs', name + '.antt'), re.M)
        bad = [pair for pair in used if head == 'believed' and group.get(pair) == 'wanted']
        if bad:
            sys.exit('readme: crates/%s/specs/%s.antt must be believed, and uses what only a proof wants: %s of %s' % (crate, name, bad[0][1], bad[0][0]))
    return list(group.values()).count('believed'), list(group.values()).count('wanted')


def c_program():
    """The program in C, and what README says that it prints."""
    said = re.search(r'and prints `(.*?)`\. `host/station\.c`', README)[1] + '\n'
    source = [body for language, body in BLOCKS if language == 'c'][0]
    with tempfile.TemporaryDirectory() as folder:
        with open(os.path.join(folder, 'june.c'), 'w') as f:
            f.write(source)
        flags = ['-std=c99', '-Wall', '-Wextra', '-Werror', '-pedantic', '-I' + os.path.join(TOP, 'include')]
        made = os.path.join(folder, 'june')
        subprocess.run(shlex.split(os.environ.get('CC', 'cc')) + flags + [os.path.join(folder, 'june.c'), os.path.join(TOP, 'target', 'staticlib', 'libcard.a'), '-o', made], check=True)
        out = subprocess.run(shlex.split(os.environ.get('RUN', '')) + [made], stdout=subprocess.PIPE, text=True).stdout
    if out != said:
        sys.exit('readme: the program in C prints %r, and not %r' % (out, said))
    if len(source.strip().split('\n')) > 13:
        sys.exit('readme: the program in C has grown')


@contextlib.contextmanager
def links():
    """A folder with nothing but links."""
    with tempfile.TemporaryDirectory() as folder:
        for name in ('host', 'samples', 'include', 'crates', 'target', 'crates.txt'):
            os.symlink(os.path.join(TOP, name), os.path.join(folder, name))
        yield folder


def station():
    """From a CSV to an index; the line that is told of a comma; and the two rows of a trace."""
    with links() as folder:
        out = printed(block('host/csv samples'), cwd=folder)[0]
        if out != printed('host/station samples/western-kansas-station.txt')[0]:
            sys.exit('readme: the way from a CSV does not come to the figures of the sample')
        told = [body for language, body in BLOCKS if body.startswith('station: line')][0]
        with open(os.path.join(folder, 'comma.txt'), 'w') as f:
            f.write(text('samples', 'western-kansas-station.txt').replace(' 1.53 ', ' 1,53 '))
        if printed('host/station comma.txt', cwd=folder, status=1) != ('', told):
            sys.exit('readme: of a comma the station program says %r' % printed('host/station comma.txt', cwd=folder, status=1)[1])
        traced = os.path.join(folder, 'trace.txt')
        with open(traced, 'w') as f:
            f.write(text('samples', 'western-kansas-station.txt').replace('1933-01 0.02 ', '1933-01 T '))
        rows = [body for language, body in BLOCKS if body.startswith('1933-01 T ')][0].strip().split('\n')
        if [row for row in printed('host/station ' + traced)[0].split('\n') if row.startswith('1933-01 T ')] != rows:
            sys.exit('readme: a trace is not printed as README.md shows')


def constants():
    """The month that README reckons by hand: its figures are those of the output, and the quotients come to its constants;
    so do its K' and, from the months as they are added anew, its D."""
    rows = [line.split() for line in printed(block('host/constants samples/thirty-years-station.txt\n'))[0].split('\n')]
    (_, *sums), (_, d, weight, _), (_, *wanted) = [[row[0], *map(int, row[1:])] for row in rows if row[0:1] == ['May']]
    et, pe, r, _, ro, _, _, _ = sums
    total = next(int(row[1]) for row in rows if row[0:1] == ['sum'])
    reckoned = [(10000, *sums[at:at + 2]) for at in range(0, 8, 2)] + [(176700000, weight, total)]
    by_hand = [body for language, body in BLOCKS if body.startswith('alpha ')][0]
    said = re.findall(r'^\w+ +(\d+) x (\d+) / (\d+) = (\d+)\.(\d)  ', by_hand, re.M)
    if [tuple(map(int, line[:3])) for line in said] != reckoned:
        sys.exit('readme: the figures that README.md reckons May from are not those that are printed')
    for (scale, a, b), (_, _, _, whole, tenth), constant in zip(reckoned, said, wanted):
        tenths, nearest = ((2 * times * scale * a + b) // (2 * b) for times in (10, 1))
        if (tenths, nearest) != (10 * int(whole) + int(tenth), constant):
            sys.exit('readme: %d x %d / %d does not come to %d' % (scale, a, b, constant))
    first_weight = 1.5 * math.log10(((pe + r + ro) / (et + r + ro) + 2.80) / (d / 1000)) + 0.50
    if "May it comes to %.4f, which is written %.0f." % (first_weight, 10000 * first_weight) not in README:
        sys.exit("readme: the K' of May is %f" % first_weight)
    years = range(int(rows[0][2]), int(rows[0][4]) + 1)
    with links() as folder:
        out = printed(block('tail -n 13'), cwd=folder)[0]
    added = [line.split() for line in out.split('month X1')[0].split('\n')[1:-1]]
    sizes = [abs(int(row[1]) - int(row[3])) for row in added if row[0][5:] == '05' and int(row[0][:4]) in years]
    if (2 * sum(sizes) + len(sizes)) // (2 * len(sizes)) != d or 'the D of May, %d.' % d not in README:
        sys.exit('readme: the D of May is not that of the months added anew')


def sending(blocks):
    """A record sent out and read back, as README shows it; and what it says of the month that is held back."""
    with links() as folder:
        for words, first in (('host/send 14 7', 'years 4 '), ('host/receive index 14 7', '1932 - - ')):
            shown(block(words), next(lines for lines in blocks if lines[0].startswith(first)), folder)
        with open(os.path.join(folder, 'record', 'modified.txt')) as f:
            modified = f.read().split('\n')[3][38:45].strip()
    row = [line.split() for line in printed('host/station samples/western-kansas-station.txt')[0].split('\n') if line.startswith('1935-05')][1]
    said = 'May 1935 is open, %.2f now and perhaps %.2f once' % (int(row[4]) / 1000, int(row[1]) / 1000)
    if row[6] != 'O' or said not in README or 'that May is %s.' % modified not in README:
        sys.exit('readme: May 1935 is not as README.md has it: %r' % row)


def refusals():
    """README's table has the header's words, and for 13 the program's."""
    table = {int(number): words for number, words in re.findall(r'^\| (\d+) \| (.*) \|$', README, re.M)}
    names = dict(re.findall(r'(CARD_\w+) = (\d+)', text('include', 'card.h').split('/* What a number means')[0]))
    header = {int(names[name]): words for name, words in re.findall(r'case (CARD_\w+): return "(.*)";', text('include', 'card.h'))}
    numbers = dict(re.findall(r'^pub const (\w+): u8 = (\d+);$', text('host', 'card.rs'), re.M))
    rust = {int(numbers[name]): words for name, words in re.findall(r'^\s*([A-Z]\w+) => "(.*)",$', text('host', 'card.rs'), re.M)}
    if sorted(table) != [*range(22), 24, 25] or {k: v for k, v in table.items() if k != 13} != header or header != rust:
        sys.exit('readme: the table of refusals differs from card_meaning of include/card.h, or meaning of host/card.rs')
    if not program.MEANS[13].endswith(b'13 means: ' + table[13].encode() + b'\n'):
        sys.exit('readme: 13 is told otherwise by palmer')


def main():
    blocks = [body.strip().split('\n') for language, body in BLOCKS if language == '']
    shown(block('host/palmer <samples'), next(lines for lines in blocks if lines[0].startswith('1 0 0')))
    shown(block('host/division 14 07'), next(lines for lines in blocks if lines[0].startswith('2019')))
    shown('host/station samples/western-kansas-station.txt', next(lines for lines in blocks if lines[0].startswith('1932-06 5560')))
    shown(block('host/repair samples'), next(lines for lines in blocks if lines[0].startswith('repair 1934-02')))
    shown(block('host/constants samples/thirty-years-station.txt\n'), next(lines for lines in blocks if lines[0].startswith('years 30')))
    c_program()
    station()
    constants()
    sending(blocks)
    refusals()
    mirror()
    print('readme: its commands, its C, its way from a CSV and its table are as it says, and so is docs/MIRROR.md; the %d definitions that docs/RULES.md names are there' % rules())
    print('readme: %d files of specs/ must be believed, and none of them uses one of the %d that only a proof wants' % groups())


if __name__ == '__main__':
    main()
