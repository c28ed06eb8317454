#!/usr/bin/env python3
"""Spells the repository's own definitions, lemmas, fields and constructors in snake case: andMonth becomes and_month, and a field v-size v_size.

usage: python3 tools/snake_names.py [--check]        at the top of the repository, once, after port.py

A name is one that specs/ or proofs/ declare: at the left margin, as a field of a record or as a constructor. Types keep their capitals,
names of the source and of libraries keep their spelling, and so do the names that the prover makes (behind tie. and in a step's path).
A dash in a lemma's name joins two names, and stays; in a field's or a constructor's it becomes an underscore.
It stops, and writes nothing, where two names would fall together. --check writes nothing and prints the table.
"""

import collections
import glob
import os
import re
import sys

WORD = re.compile(r'[^\s(){}\[\].;,@"«»`:|\\]+')
MARKS = r"(?:(?:pattern|unfoldable|abbrev|axiom|pub|irreducible) )*"
TOP = re.compile(rf"^{MARKS}(?:(record|data|ruleset|infix\S*|module|use|open|syntax) )?([^\s(){{}}.;,:]+)(?= ?[:({{=]| )")
FIELD = re.compile(r"^ +(?:pub )?([^\s(){}.;,:λ→=]+)(?: \{[^{}]*\})* :(?= )")
# lemmas that a definition's new name would meet: folder, name, the lemma's spelling
APART = [
    ("crates/layout_heading/proofs", "two_digits", "two-digits"),
    ("crates/sending_laws/proofs", "two_digits", "two-digits"),
    ("crates/palmer_laws/proofs", "last_line", "last-line"),
]
# what the prover makes, behind a dot
STEP = re.compile(r"\.(result|ensures|new|true|false|invariant|type-inv|type_inv|lifetimes|auto|is)(?![\w-])")


def snake(name, dashes):
    """A capital inside a name begins a word, and so does the ℕ or ℤ behind one. A dash joins two names in a lemma's, and stays there."""
    out = name.replace("-", "_") if dashes else name
    while True:
        new = re.sub(r"(?<=[a-z0-9'′₀-₉])([A-Z])(?![A-Z]*-)|(?<=[a-z0-9'′₀-₉])([A-Z])", lambda m: "_" + m[0].lower(), out)
        new = re.sub(r"(_[a-z])([A-Z])(?=[a-z]|$|-|_)", lambda m: m[1] + "_" + m[2].lower(), new)
        if new == out:
            break
        out = new
    return re.sub(r"(?<=[a-z0-9])(?=[ℕℤ])", "_", out).replace("′", "'")


def is_kept(name):
    """Types, operators, and words that are nothing but signs."""
    return "◌" in name or name[0].isupper() or not re.search(r"[a-z]", name)


def lemma_files(root):
    return sorted(glob.glob(f"{root}/crates/*/specs/*.antt") + glob.glob(f"{root}/crates/*/proofs/*.antt"))


def declared(text):
    tops, fields, inside = set(), set(), None
    for line in text.split("\n"):
        if not line.strip() or line.lstrip().startswith("--"):
            continue
        if not line.startswith(" "):
            m = TOP.match(line)
            inside = None
            if not m or m[1] in ("infix", "infixl", "infixr", "module", "use", "open", "syntax"):
                inside = "module" if line.startswith("module") else None
                continue
            inside = m[1]
            if m[1] in (None, "ruleset", "record", "data"):
                tops.add(m[2])
        else:
            m = FIELD.match(line)
            if m and inside in ("record", "data"):
                fields.add(m[1])
            elif m and inside == "module" and re.match(r"  \S", line):
                tops.add(m[1])
            elif inside == "module" and re.match(r"  (?:abbrev|unfoldable|pub) ", line):
                m = TOP.match(line[2:])
                if m:
                    tops.add(m[2])
    return tops, fields


def main(argv):
    root = os.getcwd()
    for folder, name, new in APART if "--check" not in argv else []:
        for p in glob.glob(f"{root}/{folder}/*.antt"):
            with open(p, encoding="utf-8") as f:
                old = f.read()
            with open(p, "w", encoding="utf-8") as f:
                f.write(words(old, {name: new}))
    files = lemma_files(root)
    texts = {p: open(p, encoding="utf-8").read() for p in files}
    names, fields = set(), set()
    for p, t in texts.items():
        a, b = declared(t)
        names |= a | b
        fields |= b
    table = {n: snake(n, n in fields) for n in sorted(names) if not is_kept(n)}
    table = {old: new for old, new in table.items() if old != new}
    falls = collections.defaultdict(set)
    for n in names:
        falls[table.get(n, n)].add(n)
    bad = {k: v for k, v in falls.items() if len(v) > 1}
    together = []
    for new, olds in bad.items():
        # names of two crates may have one spelling, if no file has both
        # and a field may be spelled as a definition is
        for p in [p for p in all_antt(root) if not is_function(p)]:
            t = set(WORD.findall(open(p, encoding="utf-8").read()))
            if len((olds - fields) & t) > 1:
                together.append((new, sorted(olds & t), os.path.relpath(p, root)))
    taken = []
    for p in all_antt(root):
        t = set(WORD.findall(code_of(open(p, encoding="utf-8").read())))
        for old in t & table.keys():
            if table[old] in t and table[old] not in names:
                taken.append((old, table[old], os.path.relpath(p, root)))
    if "--check" in argv:
        for old, new in table.items():
            print(f"{old}\t{new}")
        print("together", together, file=sys.stderr)
        print("taken", taken, file=sys.stderr)
        return 0
    if together:
        print("these would fall together:", together)
        return 1
    for p in every(root):
        with open(p, encoding="utf-8", newline="") as f:
            old = f.read()
        new = turned(p, old, table, fields)
        if new != old:
            with open(p, "w", encoding="utf-8", newline="") as f:
                f.write(new)
    return 0


def code_of(text):
    return re.sub(r"(?m)(^|\s)--.*$", "", text)


def all_antt(root):
    return sorted(glob.glob(f"{root}/crates/*/specs/**/*.antt", recursive=True) + glob.glob(f"{root}/crates/*/proofs/**/*.antt", recursive=True))


def every(root):
    yield from all_antt(root)
    yield from sorted(glob.glob(f"{root}/crates/*/src/**/*.rt", recursive=True))
    yield from sorted(glob.glob(f"{root}/crates/*/must-fail/*.edit"))
    yield from sorted(glob.glob(f"{root}/docs/**/*.md", recursive=True))
    yield f"{root}/README.md"


def is_function(path):
    return re.search(r"/proofs/.+/[^/]+\.antt$", path) is not None


def words(text, table, may=lambda text, m: True):
    def one(m):
        w = m[0]
        return table[w] if w in table and may(text, m) else w

    return WORD.sub(one, text)


def in_prose(text, table):
    """Code spans; and words that no English text has, with a capital inside."""
    text = re.sub(r"(`+)([^`\n]+)\1", lambda m: m[1] + words(m[2], table) + m[1], text)
    return words(text, {k: v for k, v in table.items() if re.search("[a-z0-9][A-ZℕℤΩ]", k)})


def turned(path, text, table, fields):
    if path.endswith(".md"):
        parts = re.split(r"(?ms)(^```.*?^```$)", text)
        return "".join(words(p, table) if p.startswith("```antt") else p if p.startswith("```") else in_prose(p, table) for p in parts)
    if path.endswith((".rt", ".edit")):
        out = []
        for piece in re.split(r'(//[^\n]*|b?"(?:\\.|[^"\\\n])*")', text):
            out.append(in_prose(piece, table) if piece.startswith("//") else piece if piece.startswith(('"', 'b"')) else words(piece, table))
        return "".join(out)

    def may(line, m):
        before, after = line[: m.start()], line[m.end() :]
        if not is_function(path):
            return True
        if re.search(r"(?<![\w'-])tie\.$", before):
            return False
        if before.endswith("."):
            return m[0] in fields and not STEP.match(after) and not re.search(r"(?<![\w'-])use \S*$", before)
        return True

    out = []
    for line in text.split("\n"):
        m = re.search(r"(^|\s)--.*$", line)
        code, note = (line[: m.start()], line[m.start() :]) if m else (line, "")
        if code.startswith("use "):
            head, brace, rest = code.partition("{")
            # a module's path keeps its words; a function's module is a name of the source
            out.append(head + brace + words(rest, table) + in_prose(note, table))
        else:
            out.append(words(code, table, may) + in_prose(note, table))
    return "\n".join(out)


if __name__ == "__main__":
    raise SystemExit(main(sys.argv[1:]))
