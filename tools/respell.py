#!/usr/bin/env python3
"""Respells the repository's own definitions and lemmas: words in snake case, and `_` for the dash between the words of a lemma's name.

usage: tools/respell.py            at the top, once, right after port.py and before any edit by hand
       tools/respell.py documents  afterwards, once the crates prove: the same for README, docs/, host/ and tools/wrong

It goes over crates/: proof files, definitions, the clauses and comments of sources, and must-fail edits. Names of src/, generated names and
names of the kit stay. A lemma that would fall together with a definition's name gets `_lem`. In documents a word is a name where the tree
has no such name but has its new spelling, in camel case anywhere and with dashes between backticks or in a table's cell.
"""

import glob
import re
import sys

CAMEL = re.compile(r"[a-z0-9][A-Z]")
WORD = re.compile(r"(?<![\w'\-\u25cc])[a-z][\w'\-]*")
DEFINES = re.compile(r"^\s*(?:(?:abbrev|unfoldable|pub|private)\s+)*([a-z][^\s:(){}.]*)\s*(?:\s[^:]*)?:\s")
NOT_DEFINED = re.compile(r"^\s*(use|pub use|ghost use|let|elim|rw|module|pub mod|mod)\b")

# Lemmas that port.py has spelled like a definition that falls together with them now, and a fact with a small letter: the crate, the old
# name, the new one, where.
AGAIN = [
    ("vectors", "numbers_of", "numbers_of_lem", ["crates/vectors/proofs/**/*.antt"]),
    ("vectors", "one_more", "one_more_lem", ["crates/vectors/proofs/**/*.antt"]),
    ("lsm_strips", "past_by", "past_by_lem", ["crates/lsm_strips/proofs/**/*.antt"]),
    ("lsm_format", "shares", "Shares", ["crates/lsm_format/proofs/Opened.antt"]),
    ("lsm_reader", "too_short", "too_short_lem", ["crates/lsm_reader/proofs/**/*.antt"]),
]


def snake(name):
    return re.sub(r"([a-z0-9])([A-Z])", r"\1_\2", name).lower()


def plain(name):
    """The new spelling: snake case in each part, and `_` between the parts."""
    return "_".join(snake(part) if CAMEL.search(part) else part for part in name.split("-"))


def files(pattern):
    return sorted(glob.glob(pattern, recursive=True))


def code(line):
    return line.split("--", 1)[0] if not line.lstrip().startswith("--") else ""


def defined(path):
    found = set()
    with open(path, encoding="utf-8") as f:
        for line in f:
            line = code(line)
            if "tie.Need" in line or "tie.Invariant" in line or "tie.Measure" in line or NOT_DEFINED.match(line):
                continue
            m = DEFINES.match(line)
            if m:
                found.add(m.group(1))
    return found


def names():
    """The new name of each name with a dash that the repository defines for all, and of those that one proof has for itself."""
    common = set()
    for p in files("crates/*/specs/**/*.antt") + files("crates/*/proofs/*.antt"):
        common |= defined(p)
    own = {p: defined(p) for p in files("crates/*/proofs/*/**/*.antt")}
    plainly = {snake(n) if CAMEL.search(n) and "-" not in n else n for n in common if "-" not in n}
    for found in own.values():
        plainly |= {n for n in found if "-" not in n}

    def spelled(n):
        new = plain(n)
        return new + "_lem" if new in plainly else new

    table = {n: spelled(n) for n in common if "-" in n}
    local = {}
    for p, found in own.items():
        local[p] = {n: spelled(n) for n in found if "-" in n and not n.endswith("-spec")}
    return table, local


def turn(text, table, comments):
    """`text` with each name of the table, and each word in camel case, in its new spelling."""

    def new(m):
        word, at = m.group(0), m.start()
        before = text[at - 1] if at else ""
        if word in table:
            if before == ".":
                owner = re.search(r"([\w'\-]+)\.$", text[:at])
                if not owner or not owner.group(1)[0].isupper():
                    return word
            return table[word]
        if CAMEL.search(word) and "-" not in word:
            return snake(word)
        return word

    return WORD.sub(new, text)


def in_source(text, table):
    """A source: its ghost items, clauses and comments alone. Camel case stands nowhere else in it but in types, which begin with a capital."""
    out, clause = [], False
    for line in text.split("\n"):
        bare = line.strip()
        if bare.startswith(("ghost use", "requires", "ensures", "ghost ")):
            clause = True
        if clause or bare.startswith("//"):
            line = turn(line, table, True)
        if clause and (bare.endswith(("}", ";")) or bare == "{"):
            clause = False
        out.append(line)
    return "\n".join(out)


def rewrite(path, new):
    with open(path, encoding="utf-8") as f:
        text = f.read()
    turned = new(text)
    if turned != text:
        with open(path, "w", encoding="utf-8") as f:
            f.write(turned)
        return 1
    return 0


def documents():
    """README, docs/ and the lists of tools/wrong, by the names that the tree has now."""
    now = set()
    for p in files("crates/*/specs/**/*.antt") + files("crates/*/proofs/**/*.antt"):
        with open(p, encoding="utf-8") as f:
            for line in f:
                m = re.match(r"\s*(?:(?:abbrev|unfoldable|pub|record|data)\s+)*([A-Za-z][^\s:(){}]*)(?= |$|:)", code(line))
                if m:
                    now.add(m.group(1))
    edits = {p.split("/")[-1][:-5] for p in files("crates/*/must-fail/*.edit")}

    def name(word, quoted, listed):
        if word in now or word in edits:
            return word
        if CAMEL.search(word) and word[0].islower() and "-" not in word:
            return snake(word) if listed or snake(word) in now else word
        if "-" in word and quoted:
            for new in (plain(word), plain(word) + "_lem"):
                if new in now:
                    return new
        return word

    def line_of(line, listed):
        cells = line.startswith("|")
        out, tick = [], False
        for piece in re.split(r"(`)", line):
            if piece == "`":
                tick = not tick
            elif tick or cells or listed:
                piece = WORD.sub(lambda m: name(m.group(0), True, listed), piece)
            else:
                piece = WORD.sub(lambda m: name(m.group(0), False, listed), piece)
            out.append(piece)
        text = "".join(out)
        if listed:
            text = re.sub(r"(\w) \.(?=\w)", r"\1.", text)
            text = re.sub(r"(?<=[\w,] )\((\w+(?:\.\w+)+)\)", r"\1", text)
        return text

    changed = 0
    for p in ["README.md", *files("docs/*.md"), *files("host/**/*.md"), "tools/wrong/definitions"]:
        if p == "docs/PORT.md":
            continue
        listed = p.startswith("tools/")
        changed += rewrite(p, lambda text: "\n".join(line_of(line, listed) for line in text.split("\n")))
    print(f"respell: {changed} documents")


def main():
    if sys.argv[1:] == ["documents"]:
        return documents()
    changed = 0
    table, local = names()
    for _, old, new, patterns in AGAIN:
        word = re.compile(r"(?<![\w'\-])" + re.escape(old) + r"(?![\w'\-])")
        for pattern in patterns:
            for p in files(pattern):
                changed += rewrite(p, lambda text: word.sub(new, text))
    for p in files("crates/*/specs/**/*.antt") + files("crates/*/proofs/**/*.antt"):
        mine = {**table, **local.get(p, {})}
        changed += rewrite(p, lambda text: turn(text, mine, False))
    for p in files("crates/*/src/**/*.rt"):
        changed += rewrite(p, lambda text: in_source(text, table))
    for p in files("crates/*/must-fail/*.edit"):
        changed += rewrite(p, lambda text: turn(text, table, False))
    seen = {}
    for old, new in sorted(table.items()):
        if new in seen:
            print(f"respell: {old} and {seen[new]} fall together: {new}")
        seen[new] = old
    print(f"respell: {changed} files, {len(table)} names with a dash")


if __name__ == "__main__":
    sys.exit(main())
