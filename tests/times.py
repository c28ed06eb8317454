#!/usr/bin/env python3
"""What the gate's time went to, from what it printed.

    .ci/run >log; python3 tests/times.py <log    a table by crate
    python3 tests/times.py --used <log           two lines: what rt ci did anew, and what of the budget it used

rt ci tells no seconds of a crate or an edit. What is told is which crates it proved in this run and which it took over
from an earlier one, how many must-fail edits of each were refused, and, by .ci/run, the seconds of the whole of rt ci:
by the clock, and of all processors together.
"""
import re
import sys

# Proofs and edits from nothing, in seconds of all processors together. docs/TESTING.md says where it comes from.
BUDGET = 4000


def read(lines):
    """Whether each crate was proved in this run, how many of its edits were refused, what rt ci says that it did, its seconds, and
    the whole gate's where they were printed."""
    proofs, edits, did, spent, whole = {}, {}, None, None, None
    for line in lines:
        proved = re.match(r'rt: (\w+) (proved|is kept: .*)$', line)
        refused = re.match(r'rt: must-fail (\w+)/\S+: refused, as it must be', line)
        seconds = re.match(r'gate: rt ci (\d+) s, (\d+) s of processors$', line)
        if proved:
            proofs[proved[1]] = proved[2] == 'proved'
        if refused:
            edits[refused[1]] = edits.get(refused[1], 0) + 1
        if line.startswith('rt: ok; '):
            did = line.rstrip('\n').split('; ')[-2 if '; the others are kept' in line else -1]
        if seconds:
            spent = int(seconds[1]), int(seconds[2])
        if line.startswith('gate: ') and line.endswith(' s in all\n'):
            whole = int(line.split()[1])
    return proofs, edits, did, spent, whole


def used(proofs, edits, did, spent):
    print('gate: %d crates, of which %d were proved in this run; %d must-fail edits refused; rt: %s' % (
        len(proofs), sum(proofs.values()), sum(edits.values()), did or 'not ok'))
    if spent is None or not did:
        print('gate: what of the budget is used is not known')
    elif not did.startswith('every '):
        print('gate: %d s of processors, of a budget of %d for a run that does all anew' % (spent[1], BUDGET))
    else:
        left = BUDGET - spent[1]
        print('gate: %d s of processors, of a budget of %d; %s' % (
            spent[1], BUDGET, '%d are left' % left if left >= 0 else 'cut %d before anything is added' % -left))


def table(proofs, edits, spent, whole):
    print('| Crate | Proved in this run | Edits refused |\n|---|---|---|')
    for name, anew in proofs.items():
        print('| `%s` | %s | %d |' % (name, 'yes' if anew else 'earlier', edits.get(name, 0)))
    print('| all | %d of %d | %d |' % (sum(proofs.values()), len(proofs), sum(edits.values())))
    if spent is not None:
        print('\nrt ci: %d s by the clock, %d s of processors.' % spent)
    if whole is not None:
        print('\nThe gate in all: %d s.' % whole)


def main():
    asked = sys.argv[1:]
    if asked not in ([], ['--used']):
        print('usage: times.py [--used] <log', file=sys.stderr)
        sys.exit(2)
    proofs, edits, did, spent, whole = read(sys.stdin)
    if asked:
        used(proofs, edits, did, spent)
    else:
        table(proofs, edits, spent, whole)


if __name__ == '__main__':
    main()
