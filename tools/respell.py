#!/usr/bin/env python3
"""Brings this repository's own definitions and lemmas to snake case, after port.py: wordAt becomes word_at.

usage, once, at the top of the repository, with everything committed: respell.py [--list]     (--list only prints what it would do)

A name that begins with a small letter and has a capital is one of ours: Rust's names, the kit's and port.py's are already in snake case
or begin with a capital. It is turned in .antt and .edit files everywhere, and in .rt files outside text and byte literals.
A new name that was there before is printed: a function of src/ beside a definition is no clash (each has its own module),
two definitions of one module, or a definition and a local name, are. Six lemmas would get the name of a definition that they
speak of: LEMMAS renames them first, or the name under which a file takes them in.
"""
import collections, glob, re, sys

WORD = re.compile(r"(?<![A-Za-z0-9_\\])[a-z][a-z0-9_]*[A-Z][A-Za-z0-9_]*")
LITERAL = re.compile(r'b?"(?:[^"\\\n]|\\.)*"|b?\'(?:[^\'\\\n]|\\.[^\'\n]*)\'')

def snake(word):
    word = re.sub(r"([a-z0-9])([A-Z])", r"\1_\2", word)
    return re.sub(r"([A-Z]+)([A-Z][a-z])", r"\1_\2", word).lower()

# (files, old text, new text), each a regular expression with words whole
LEMMAS = [
    ("crates/rows/proofs/*.antt", r"\bhas_code\b", "has_by_code"),
    ("crates/encode/proofs/Search.antt", r"\bhas_code\b", "has_by_code"),
    ("crates/spell/proofs/**/*.antt", r"\bdigit_value\b", "value_of_digit"),
    ("crates/hex/proofs/Formed.antt", r"\bdigit_value\b", "value_of_digit"),
    ("crates/listing/proofs/Buffers.antt", r"\btoo_long\b", "part_too_long"),
    ("crates/listing/proofs/list_part/*.antt", r"\btoo_long\b", "part_too_long"),
    ("crates/pirukames/proofs/**/*.antt", r"\bno_room\b", "none_given"),
    ("crates/put/proofs/Fit.antt", r"\{gives, noRoom\}", "{gives, noRoom as lacks_room}"),
    ("crates/put/proofs/Fit.antt", r"\(noRoom r\b", "(lacks_room r"),
    ("crates/archive/proofs/Turns.antt", r"\{goes_on, gets-on\}", "{goes_on as goes_on_by, gets-on}"),
    ("crates/archive/proofs/Turns.antt", r"\(goes_on flag", "(goes_on_by flag"),
]

files = sorted(f for end in ("antt", "rt", "edit") for f in glob.glob(f"crates/**/*.{end}", recursive=True) if "/out/" not in f)
texts = {f: open(f, encoding="utf-8").read() for f in files}
for where, old, new in LEMMAS:
    for f in glob.glob(where, recursive=True):
        if f in texts:
            texts[f] = re.sub(old, new, texts[f])
before = collections.Counter(w for t in texts.values() for w in re.findall(r"(?<![.\w-])[a-z][a-z0-9_]*", t))
turned = collections.Counter()

def turn(text):
    def one(m):
        turned[m.group()] += 1
        return snake(m.group())
    return WORD.sub(one, text)

def turn_source(text):
    parts, last = [], 0
    for m in LITERAL.finditer(text):
        parts += [turn(text[last:m.start()]), m.group()]
        last = m.end()
    return "".join(parts + [turn(text[last:])])

for f, t in texts.items():
    new = turn(t) if f.endswith(".antt") else turn_source(t)
    if "--list" not in sys.argv:
        open(f, "w", encoding="utf-8").write(new)
for w, n in sorted(turned.items()):
    print(w, snake(w), n, "  look: there before" if before[snake(w)] else "")
print(len(turned), "names,", sum(turned.values()), "places")
