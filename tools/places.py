#!/usr/bin/env python3
"""Counts the places in crates/*/src/ that today's Rattle would write otherwise, point by point, as docs/DESIGN-PASS.md has them.

usage: tools/places.py [--list] [DIR]

Prints a line for each kind of place and how many there are; with --list each place too, as file:line. DIR is the repository,
by default the one that this file lies in. Status: 0 done; 2 wrong arguments.
"""
import re
import sys
from collections import Counter, defaultdict
from pathlib import Path

KINDS = {
    # ---- 1: own Option and Result, a flag beside a value, numbers for kinds and refusals
    '1 enums of which some case has a value and some has none': r'ENUM',
    '1 functions that answer a refusal or a kind as u8': r'^\s*(pub )?(extern "C" )?fn \w+.*-> u8$|^\) -> u8$|^    fn \w+.*-> u8$',
    '1 fields number, refused, failed, ended beside values': r'^    (pub )?(number|refused|failed|ended): (u8|bool),$',
    '1 parameters that are a refusal or a kind by number': r'\b(number|refused|reading|given|by|side|mark|kind|fault): (u8|u32)\b(?=[,)])',
    '1 constants that number a kind or a refusal': r'^(pub )?const (NONE|TRACE|MEASURED|SETTLED|OPEN|HAD_WATER|NO_WATER|WATER|MISSING|WHOLE|INCHES|MILLIMETRES|NO_KIND|NO_LINE|BAD_\w+|NOT_\w+|NO_READING|NO_SUCH_ROW|FULL|WATERLESS|FEW_YEARS|ZERO_K|MALFORMED|OTHER_LINE|UNFIT|NO_ROOM): ',
    '1 functions whose 0 stands for none': r'NONE',
    # ---- 3: loops that count by hand
    "3 while loops": r"^\s*('\w+: )?while ",
    # ---- 4: written by hand
    '4 functions that copy, compare, convert or take the smaller by hand': r'^ *(pub )?(extern "C" )?fn (same_figures|smaller|later|with_number|decision_number|number_of|tell|reading_of|run_of|progress_of|record_at|put|shown|hundredths_of|letter_of|last_digit|kind_of_water|told|is_mark)\b',
    '4 literals all of whose fields are 0': r'ZERO',
    '4 literals that hand on three fields or more as they were': r'COPIED',
    # ---- 5
    '5 clauses that stand in three functions or more': r'CLAUSES',
    '5 functions that take the seven lists one by one': r'LISTS',
    # ---- 6
    '6 a buffer with a length beside it': r'^    (pub )?(bytes: \[u8; \w+\]|kept: usize),$|\bkept: usize\b(?=[,)])|\bat: usize, out: &mut \[u8\]|^    at: usize,$',
    # ---- 7
    '7 fn pointers, tables of functions': r'\bfn\(|\[fn',
    '7 branches on a step handed in by number': r'^\s*(if|\} else \{ if) (by|kind|number) (==|<) ',
}


NONE = {'year_of', 'first_missing', 'first_column', 'fault', 'months_fault', 'rest_fault', 'lent_length', 'line_at_fault', 'found_fault'}


def literals(text):
    """Struct literals of a file: (line, fields)."""
    for m in re.finditer(r'\b([A-Z]\w+) \{((?:[^{}]|\n)*?)\}', text):
        head = text[max(0, m.start() - 8):m.start()]
        if re.search(r'(struct|enum|impl|trait|use|for) $', head) or 'requires' in m.group(2):
            continue
        fields = [f.strip() for f in m.group(2).split(',') if f.strip()]
        if fields and all(re.fullmatch(r'\w+(: .+)?', f) for f in fields):
            yield text.count('\n', 0, m.start()) + 1, fields


def functions(text):
    for m in re.finditer(r'^(?:    )?(?:pub )?(?:extern "C" )?fn (\w+)(.*?)^(?:    )?\{$', text, re.M | re.S):
        yield text.count('\n', 0, m.start()) + 1, m.group(1), m.group(2)


def places(root):
    found = defaultdict(list)
    clauses = defaultdict(list)
    for path in sorted(root.glob('crates/*/src/*.rt')):
        text = path.read_text()
        name = str(path.relative_to(root))
        lines = text.split('\n')
        for kind, pattern in KINDS.items():
            if pattern.isupper():
                continue
            for i, line in enumerate(lines, 1):
                if line.lstrip().startswith('//'):
                    continue
                found[kind] += [f'{name}:{i}'] * len(re.findall(pattern, line) and [m for m in re.finditer(pattern, line)])
        for m in re.finditer(r'^(?:pub )?enum (\w+)(?:<.*?>)? \{(.*?)^\}', text, re.M | re.S):
            cases = [c for c in (l.strip() for l in m.group(2).split('\n')) if c and not c.startswith('//')]
            held = [c for c in cases if '(' in c]
            if held and len(cases) >= 2 and (len(held) < len(cases) or len(cases) == 2):
                found['1 enums of which some case has a value and some has none'].append(f'{name}:{text.count(chr(10), 0, m.start()) + 1} {m.group(1)}')
        for i, fields in literals(text):
            values = [f.split(': ', 1)[1] if ': ' in f else f for f in fields]
            if len(fields) >= 2 and all(re.fullmatch(r'0|false|\[0\w*; \w+\]', v) for v in values):
                found['4 literals all of whose fields are 0'].append(f'{name}:{i}')
            handed = [f for f in fields if re.fullmatch(r'(\w+): \w+\.\1', f)]
            if len(handed) >= 3:
                found['4 literals that hand on three fields or more as they were'].append(f'{name}:{i}')
        for i, function, head in functions(text):
            for c in re.findall(r'(?:requires|ensures)(?: \w+)? \{ (.*?) \}$', head, re.M):
                for part in re.split(r' × ', c):
                    part = part.strip('() ')
                    if 'result' not in part and not part.startswith(('Rattle', '→')):
                        clauses[part].append(f'{name}:{i} {function}')
            if function in NONE and re.search(r'-> (u32|usize)', head):
                found['1 functions whose 0 stands for none'].append(f'{name}:{i} {function}')
            if re.search(r'\bx1: &(\'a )?(mut )?\[i32\],.*\bv: &(\'a )?(mut )?\[i64\]', head, re.S):
                found['5 functions that take the seven lists one by one'].append(f'{name}:{i} {function}')
    for part, where in sorted(clauses.items(), key=lambda c: -len(c[1])):
        if len(where) >= 3:
            found['5 clauses that stand in three functions or more'].append(f'{part}  ({len(where)}: {", ".join(w.split(" ")[1] for w in where[:6])}{", .." if len(where) > 6 else ""})')
    return found


def main(arguments):
    shown = '--list' in arguments
    rest = [a for a in arguments if a != '--list']
    if len(rest) > 1 or any(a.startswith('-') for a in rest):
        print('usage: tools/places.py [--list] [DIR]', file=sys.stderr)
        return 2
    root = Path(rest[0]) if rest else Path(__file__).resolve().parent.parent
    found = places(root)
    for kind in KINDS:
        print(f'{len(found[kind]):4} {kind}')
        if shown:
            for place in found[kind]:
                print(f'       {place}')
    return 0


if __name__ == '__main__':
    sys.exit(main(sys.argv[1:]))
