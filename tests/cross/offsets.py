#!/usr/bin/env python3
"""Where the library has each field: the offset and the size of every field, and the size of every struct, that a call
of the card takes or answers with, are worked out of the library's source by C's rules for x86-64, written down as
assertions, and compiled over include/card.h by C's compiler and over host/card.rs by Rust's. CC, RUSTC and OUT, from
the environment, are as host/setup.sh has them. The compiled library tells no offsets: that it has these is what the
calls of the cross-check show, which compare every field."""
import os
import re
import shlex
import subprocess
import sys

import layout

# The size of a simple type, which is its alignment too.
SIZES = {'u8': 1, 'u32': 4, 'i32': 4, 'f32': 4, 'i64': 8}

# How each language says what comes first in a file, where a field stands, how large a field is, how large a struct is, and
# that something is so and what to say where it is not.
C = ('#include "card.h"\n', 'offsetof(%s, %s)', 'sizeof(((%s *)0)->%s)', 'sizeof(%s)', '_Static_assert(%s == %d, "%s");\n')
RUST = (
    '#[path = "%s"]\nmod card;\nuse card::*;\nuse core::mem::{offset_of, size_of};\n'
    'const fn of<T, F>(_: fn(&T) -> &F) -> usize {\n    size_of::<F>()\n}\n',
    'offset_of!(%s, %s)', 'of(|s: &%s| &s.%s)', 'size_of::<%s>()', 'const _: () = assert!(%s == %d, "%s");\n')


def up(n, to):
    return -(-n // to) * to


def measured(side, kind):
    """The size and the alignment of a type."""
    array = side.array(kind)
    if array:
        size, align = measured(side, array[0])
        return size * array[1], align
    return laid(side, kind)[1:] if kind in side.structs else (SIZES[kind], SIZES[kind])


def laid(side, struct):
    """A struct's fields, each with its offset and size; and its own size and alignment."""
    fields, end, most = [], 0, 1
    for field, kind in side.structs[struct]:
        size, align = measured(side, kind)
        at = up(end, align)
        fields.append((field, at, size))
        end, most = at + size, max(most, align)
    return fields, up(end, most), most


def pair(library, other, ours, theirs, found):
    """Puts a struct of the library beside the other side's, and those within it."""
    if ours not in library.structs or ours in found:
        return
    if theirs not in other.structs:
        sys.exit('offsets: %s has no struct for %s of the library' % (other.name, ours))
    found[ours] = theirs
    inner = dict(other.structs[theirs])
    for field, kind in library.structs[ours]:
        pair(library, other, kind, inner.get(field), found)


def pairs(library, other):
    found = {}
    for call, kinds in library.calls.items():
        for ours, theirs in zip(kinds, other.calls.get(call, [])):
            pair(library, other, library.of_list(ours) or ours, other.of_list(theirs) or theirs, found)
    return found


def claims(library, found, place, part, whole):
    """What is claimed of each field and struct, by the other side's names: an expression, its value, and what is said
    where it has another."""
    for ours, theirs in found.items():
        fields, size, _ = laid(library, ours)
        for field, at, wide in fields:
            yield place % (theirs, field), at, '%s.%s is not at %d, where the library has it' % (theirs, field, at)
            yield part % (theirs, field), wide, '%s.%s is not of the %d bytes that the library has' % (theirs, field, wide)
        yield whole % theirs, size, '%s is not of the %d bytes that the library has' % (theirs, size)


def compiled(library, other, language, file, compiler):
    """Compiles the claims, and says which of them the compiler refuses."""
    head, place, part, whole, form = language
    made = list(claims(library, pairs(library, other), place, part, whole))
    with open(file, 'w') as f:
        f.write(head + ''.join(form % claim for claim in made))
    done = subprocess.run(compiler + [file], stderr=subprocess.PIPE, text=True)
    if done.returncode:
        refused = [words for _, _, words in made if re.search(r'(failed|panicked).*' + re.escape(words), done.stderr)]
        sys.exit('\n'.join('offsets: %s: %s' % (other.name, words) for words in refused or [done.stderr]))
    return len(made)


def main():
    library, c, rust = layout.sides()
    out = os.environ['OUT']
    strict = ['-std=c11', '-Wall', '-Wextra', '-Werror', '-pedantic', '-fsyntax-only', '-I' + os.path.join(layout.TOP, 'include')]
    count = compiled(library, c, C, os.path.join(out, 'offsets.c'), shlex.split(os.environ['CC']) + strict)
    head = RUST[0] % os.path.relpath(os.path.join(layout.TOP, 'host', 'card.rs'), out)
    unlinked = ['--crate-type', 'lib', '--emit', 'metadata', '-o', os.path.join(out, 'offsets.rmeta')]
    again = compiled(library, rust, (head,) + RUST[1:], os.path.join(out, 'offsets.rs'), shlex.split(os.environ['RUSTC']) + unlinked)
    if again != count or not count:
        sys.exit('offsets: %d claims of C, %d of Rust' % (count, again))
    print("offsets: %d offsets and sizes, worked out of the library's source by C's rules, are those of include/card.h to C's compiler and of host/card.rs to Rust's" % count)


if __name__ == '__main__':
    main()
