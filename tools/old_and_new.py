#!/usr/bin/env python3
"""Lists what two trees of this repository say differently: python3 tools/old_and_new.py OLD [NEW]

Public functions whose signatures or clauses changed, functions that are gone or new, types, ghost fields and items, constants, definitions of specs/ and
laws of proofs/. It goes by the text: a thing is found by its crate and its name, and white space and the kit's spelling of the same thing count
for nothing."""
import collections
import glob
import os
import re
import sys

OLD = sys.argv[1]
NEW = sys.argv[2] if len(sys.argv) > 2 else os.path.join(os.path.dirname(__file__), "..")

# std's names in the place of the logic's, which docs/PORT.md says are the same.
SPELLING = [("none", "None"), ("some", "Some")]


def flat(text):
    return re.sub(r"\s+", " ", text).strip()


def spelled(text):
    for old, new in SPELLING:
        text = re.sub(r"(?<![\w-])%s(?![\w-])" % old, new, text)
    return text


def files(root, pattern):
    for path in sorted(glob.glob(os.path.join(root, "crates/*", pattern), recursive=True)):
        if "/out/" not in path:
            yield os.path.relpath(path, os.path.join(root, "crates")), open(path).read()


def functions(root):
    """(crate, type, name) -> (file, public, signature, clauses)"""
    found = collections.OrderedDict()
    for path, text in files(root, "src/*.rt"):
        crate = path.split("/")[0]
        code = re.sub(r"//[^\n]*", "", text)
        owner, trait = "", ""
        for m in re.finditer(r"^(?P<impl>(?:impl|trait|pub trait)\b[^\n{]*)|^(?P<indent> *)(?P<pub>pub(?:\(crate\))? )?(?:extern \"C\" )?fn (?P<name>\w+)", code, re.M):
            if m.group("impl"):
                head = re.sub(r"^impl(<[^>]*>)? ?", "", m.group("impl").strip())
                trait = head.split(" for ")[0].strip() if " for " in head else ""
                owner = re.sub(r"<.*", "", head.split(" for ")[-1]).replace("pub trait ", "").strip()
                continue
            inside = len(m.group("indent")) > 0
            rest = code[m.end():]
            stop = re.search(r"^%s\{|;\s*$| \{$" % m.group("indent"), rest, re.M)
            head = rest[:stop.start()] if stop else rest
            parts = re.split(r"^\s+(?=(?:requires|ensures)\b)", head, flags=re.M)
            clauses = [flat(p) for p in parts[1:]]
            key = (crate, owner if inside else "", m.group("name"))
            public = m.group("pub") == "pub " or (inside and trait)
            found[key] = (path, bool(public), flat(parts[0]), clauses)
    return found


def types(root):
    """structs and enums, public or not, as they stand"""
    found = {}
    for path, text in files(root, "src/*.rt"):
        code = re.sub(r"//[^\n]*", "", text)
        for m in re.finditer(r"^(?:pub(?:\(crate\))? )?(?:struct|enum) (\w+)[^;{\n]*(?:\{.*?^\}|;)", code, re.M | re.S):
            found.setdefault((path.split("/")[0], m.group(1)), []).append(flat(re.sub(r"ghost \w+: \{.*?\},", "", m.group(0))))
    return found


def constants(root):
    found = {}
    for path, text in files(root, "src/*.rt"):
        for m in re.finditer(r"^ *(?:pub(?:\(crate\))? )?const (\w+): ([^=]*)= (.*?);$", text, re.M | re.S):
            found.setdefault((path.split("/")[0], m.group(1)), []).append(flat(m.group(3)))
    return found


def ghosts(root):
    """the facts that types carry (ghost fields) and what impls state (ghost items)"""
    found = {}
    for path, text in files(root, "src/*.rt"):
        owner = ""
        for m in re.finditer(r"^(?:pub(?:\(crate\))? )?(?:struct|enum|trait|impl)\b(?:<[^\n{]*?> )?([^\n{]*)\{|^ +ghost (?!use)(\w+)(?::| =) \{(.*?)\};?,?$", re.sub(r"//[^\n]*", "", text), re.M | re.S):
            if m.group(2):
                found.setdefault((path.split("/")[0], "%s, %s" % (owner, m.group(2))), []).append(flat(m.group(3)))
            else:
                owner = flat(m.group(1))
    return found


def definitions(root):
    found = {}
    for path, text in files(root, "specs/*.antt"):
        crate = path.split("/")[0]
        body = "\n".join(l for l in text.split("\n") if not re.match(r"\s*--|use |pub mod ", l))
        heads = list(re.finditer(r"^ *(?:abbrev |unfoldable |opaque )+(?:pub )?([^\s:({]+)(?= |:)|^ *pub (?:record |data )([^\s:({]+)(?= |:)|^([\w-]+) : ", body, re.M))
        for k, m in enumerate(heads):
            end = heads[k + 1].start() if k + 1 < len(heads) else len(body)
            found.setdefault((crate, m.group(1) or m.group(2) or m.group(3)), []).append(flat(body[m.start():end]))
    return found


def laws(root):
    found = {}
    for path, text in files(root, "proofs/*.antt"):
        crate = path.split("/")[0]
        lines = [l for l in text.split("\n") if not re.match(r"\s*--|use |pub mod ", l)]
        for k, line in enumerate(lines):
            m = re.match(r"( *)pub (?!record|data|ruleset|mod)(\S+) :\s+(.*)", line)
            if not m:
                continue
            said = [m.group(3)]
            for more in lines[k + 1:]:
                if re.match(r"^%s {2,}\S" % m.group(1), more) and not re.match(r"^\s*(pub |where|module )", more):
                    said.append(more)
                else:
                    break
            found.setdefault((crate, m.group(2)), []).append(flat(" ".join(said)))
    return found


def shown(title):
    print("\n## %s\n" % title)


def pair(name, old, new):
    print("**%s**\n\n```" % name)
    for o in old:
        print("-", o)
    for n in new:
        print("+", n)
    print("```\n")


def main():
    olds, news = functions(OLD), functions(NEW)

    def counterpart(key):
        if key in news:
            return key
        other = [k for k in news if k[0] == key[0] and k[2] == key[2]]
        return other[0] if len(other) == 1 else None

    shown("Public functions: signatures and clauses that changed")
    print("Old above, new below. A clause that is not listed is what it was, to the letter.\n")
    for key, (path, public, signature, clauses) in sorted(olds.items()):
        there = counterpart(key)
        if not public or not there:
            continue
        _, _, signature2, clauses2 = news[there]
        old = [c for c in clauses if c not in clauses2]
        new = [c for c in clauses2 if c not in clauses]
        if signature != signature2:
            old, new = [signature] + old, [signature2] + new
        if old or new:
            pair("::".join(x for x in key if x), old, new)

    shown("Public functions that are new")
    print("Where a private function had the name before, its signature stands above.\n")
    for key, (path, public, signature, clauses) in sorted(news.items()):
        before = [k for k in olds if counterpart(k) == key]
        if public and not any(olds[k][1] for k in before):
            pair("::".join(x for x in key if x), [olds[k][2] for k in before], [signature] + clauses)

    shown("Functions that are gone")
    for key, (path, public, signature, clauses) in sorted(olds.items()):
        if counterpart(key) is None:
            n = [sum(c.startswith(w) for c in clauses) for w in ("requires", "ensures")]
            print("- %s %s %s%s (requires %d, ensures %d)" % (key[0], path.split("/", 1)[1], "".join(x + "::" for x in key[1:2] if x), key[2], *n))

    for title, look in (("Types", types), ("Ghost fields and items", ghosts), ("Constants", constants), ("Definitions", definitions), ("Laws in proofs/", laws)):
        old, new = look(OLD), look(NEW)
        shown("%s that changed" % title)
        same = [k for k in old if k in new and sorted(old[k]) != sorted(new[k]) and sorted(map(spelled, old[k])) == sorted(map(spelled, new[k]))]
        if same:
            print("Spelled with `None` and `Some` of std in the place of `none` and `some` of the logic, and nothing else: %s.\n"
                  % ", ".join("`%s %s`" % k for k in sorted(same)))
        for k in sorted(old):
            if k in new and k not in same and set(old[k]) != set(new[k]):
                pair("%s %s" % k, [x for x in old[k] if x not in new[k]], [x for x in new[k] if x not in old[k]])
        for word, a, b in (("gone", old, new), ("new", new, old)):
            shown("%s that are %s" % (title, word))
            if look is ghosts:
                for k in sorted(a):
                    if k not in b:
                        print("- %s %s: `%s`" % (k + ("; ".join(a[k]),)))
                continue
            by = collections.OrderedDict()
            for crate, name in sorted(a):
                if (crate, name) not in b:
                    by.setdefault(crate, []).append(name)
            for crate, names in by.items():
                print("- %s: %s" % (crate, ", ".join("`%s`" % n for n in names)))


main()
