#!/usr/bin/env python3
"""Whether C, Rust and the library mean the same by each call of the card: reads crates/card, include/card.h and
host/card.rs, and lays out every argument and answer of every call as a list of numbers with their names and types, in
order, and so a place of a list that holds several. All three lists must be the same: every struct is laid out as C lays it
out, so equal lists are equal places. A month's record and a place of a repair's report are structs to C and Rust; the library
has them in its lists as their numbers, a record in the order of the fields of its own struct of that name, a change in the
order of CHANGE. Two crates of the library may have structs of one name, so each is called by its crate's name and its own. No
proof sees the order of a struct's fields, and no compiler sees two of these three at once."""
import glob
import os
import re
import sys

TOP = os.path.join(os.path.dirname(os.path.abspath(__file__)), '..', '..')
# The structs that the library has in its lists as their numbers. For a change it has no struct: the order of its numbers is
# that of `change` in crates/report/specs/Report.antt.
AS_NUMBERS = ('Record', 'Change')
CHANGE = [(name, 'i32') for name in ('row', 'index_before', 'index_after', 'mark_before', 'mark_after')]
C_TYPES = {'uint8_t': 'u8', 'uint32_t': 'u32', 'int32_t': 'i32', 'int64_t': 'i64', 'float': 'f32', 'size_t': 'usize'}


def text(name):
    with open(os.path.join(TOP, name)) as f:
        return f.read()


class Source:
    """A source in Rattle, of a crate, or in Rust, of none, and what its names stand for."""

    def __init__(self, name, crate=None):
        self.text, self.crate = text(name), crate
        self.own = set(re.findall(r'^(?:pub )?(?:struct|const|type) (\w+)', self.text, re.M))
        self.used = {word: '%s::%s' % (other, word)
                     for other, words in re.findall(r'^use (\w+)::(\w+|\{[^}]*\});', self.text, re.M)
                     for word in re.findall(r'\w+', words)}

    def full(self, kind):
        """A type or a number with each name in it as all sources call it: of a crate's, with the crate before it."""
        return re.sub(r'(?:\w+::)*\w+', lambda found: self.called(found[0]), kind)

    def called(self, name):
        if not self.crate:
            return name.split('::')[-1]
        return self.used.get(name, '%s::%s' % (self.crate, name) if name in self.own else name)


def sources(names):
    return [Source(name, name.split(os.sep)[1]) for name in sorted(glob.glob(names, root_dir=TOP, recursive=True))]


class Layouts:
    """Structs by their names, each a list of (field, type), and calls, each a list of types, the answer's first. A
    list that is lent is a pointer and a usize."""

    def __init__(self, name):
        self.name, self.structs, self.calls, self.numbers = name, {}, {}, {}

    def array(self, kind):
        """What an array has at a place, and how many places: a number, or the name of one. Of anything else None."""
        array = re.fullmatch(r'\[(.+); (.+)\]', kind)
        if not array:
            return None
        count = array[2]
        while count in self.numbers:
            count = self.numbers[count]
        return array[1], int(count)

    def of_list(self, kind):
        """What a list that is lent has at a place: of an array of numbers the struct that stands there as its numbers, and
        otherwise None."""
        pointed = re.fullmatch(r'\*\w+ (.+)', kind)
        if not pointed or pointed[1] in self.structs:
            return pointed and pointed[1]
        array = self.array(pointed[1])
        if not array:
            return None
        for struct, fields in self.structs.items():
            if struct.split('::')[-1] in AS_NUMBERS and [kind for _, kind in fields] == [array[0]] * array[1]:
                return struct
        sys.exit('layout: %s has a list of %s, and that is none of %s as its numbers' % (self.name, pointed[1], AS_NUMBERS))

    def flat(self, kind, path=''):
        """A type as a list of (place, simple type)."""
        array = self.array(kind)
        if array:
            return [('%s[%d]' % (path, array[1]), array[0])]
        listed = self.of_list(kind)
        if listed:
            return self.flat(listed, path + kind.split()[0])
        if kind not in self.structs:
            return [(path, kind)]
        return [place for field, inner in self.structs[kind] for place in self.flat(inner, path + '.' + field)]

    def call(self, name):
        return [place for number, kind in enumerate(self.calls[name]) for place in self.flat(kind, str(number))]


def of_rust(name, callers, parts):
    """Of Rattle and Rust alike: structs that are laid out as C's, and the calls of C's."""
    found = Layouts(name)
    named = {}
    for part in parts:
        for alias, kind in re.findall(r'^pub type (\w+) = ([^;]+; \w+\]);', part.text, re.M):
            named[part.called(alias)] = part.full(kind)
        for number, value in re.findall(r'^(?:pub )?const (\w+): \w+ = (\w+)(?: as usize)?;', part.text, re.M):
            found.numbers[part.called(number)] = part.full(value)
        for struct, body in re.findall(r'#\[repr\(C\)\](?:\s*#\[derive\([^)]*\)\])?\s*pub struct (\w+) \{(.*?)^\}', part.text, re.M | re.S):
            fields = [(field, part.full(kind)) for field, kind in re.findall(r'pub (\w+): ([^,]+),', re.sub(r'//.*', '', body))]
            if found.structs.setdefault(part.called(struct), fields) != fields:
                sys.exit('layout: %s has two structs %s that are laid out as C lays them out' % (name, part.called(struct)))
    for part in callers:
        for call, arguments, answer in re.findall(r'pub (?:extern "C" )?fn (card_\w+)\(([^)]*)\) -> ([\w:]+)', part.text):
            kinds = [argument.split(':', 1)[1].strip() for argument in arguments.split(',') if ':' in argument]
            kinds = [re.sub(r'[\w:]+', lambda word: named.get(word[0], word[0]), part.full(kind)) for kind in kinds]
            found.calls[call] = [part.full(answer)] + [one for kind in kinds for one in lent(kind)]
    return found


def lent(kind):
    """A slice as the pointer and the length that it is to C."""
    slice_of = re.fullmatch(r'&(mut )?\[(.+)\]', kind)
    if not slice_of:
        return [kind]
    return ['*%s %s' % ('mut' if slice_of[1] else 'const', slice_of[2]), 'usize']


def of_c():
    found = Layouts('include/card.h')
    source = re.sub(r'/\*.*?\*/', '', text('include/card.h'), flags=re.S)
    found.numbers.update(re.findall(r'^#define (\w+) (\d+)\s*$', source, re.M))
    for struct, body in re.findall(r'^typedef struct (\w+) \{(.*?)^\}', source, re.M | re.S):
        fields = re.findall(r'(\w+) (\w+)(?:\[(\w+)\])?;', body)
        found.structs[struct] = [(field, '[%s; %s]' % (kind_of_c(kind), many) if many else kind_of_c(kind)) for kind, field, many in fields]
    for answer, call, arguments in re.findall(r'^(\w+) (card_\w+)\(([^)]*)\);', source, re.M):
        kinds = [re.fullmatch(r'\s*(const )?(\w+) (\*?)\w+\s*', argument).groups() for argument in arguments.split(',')]
        found.calls[call] = [kind_of_c(answer)] + [
            '*%s %s' % ('const' if const else 'mut', kind_of_c(kind)) if pointer else kind_of_c(kind) for const, kind, pointer in kinds]
    return found


def kind_of_c(kind):
    return C_TYPES.get(kind, kind)


def sides():
    rust = [Source('host/card.rs')]
    library = of_rust('the library', sources('crates/card/src/**/*.rt'), sources('crates/*/src/**/*.rt'))
    library.structs.setdefault('Change', CHANGE)
    return [library, of_c(), of_rust('host/card.rs', rust, rust)]


def main():
    library, *others = sides()
    for other in others:
        if set(other.calls) != set(library.calls) or not library.calls:
            sys.exit('layout: %s has the calls %s, %s has %s' % (library.name, sorted(library.calls), other.name, sorted(other.calls)))
        for call in library.calls:
            ours, theirs = library.call(call), other.call(call)
            if ours != theirs:
                first = next((pair for pair in zip(ours, theirs) if pair[0] != pair[1]), (ours[-1:], theirs[-1:]))
                sys.exit('layout: %s: %s has %s, %s has %s' % (call, library.name, first[0], other.name, first[1]))
    places = sum(len(library.call(call)) for call in library.calls)
    print('layout: %d calls, %d places in their arguments and answers, the same to the library, C and Rust' % (len(library.calls), places))


if __name__ == '__main__':
    main()
