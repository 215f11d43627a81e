#!/usr/bin/env python3
"""Counts the places of docs/DESIGN-PASS.md in crates/*/src: python3 tools/places.py [POINT..] [--list] [ROOT]

Each point is looked for by its text. What a text search can't tell (whether two functions mean the same, whether a loop could be an
iterator) is for the reader of the list."""
import collections
import glob
import os
import re
import sys

ROOT = next((a for a in sys.argv[1:] if os.path.isdir(a)), os.path.join(os.path.dirname(__file__), ".."))
POINTS = [int(a) for a in sys.argv[1:] if a.isdigit() and not os.path.isdir(a)] or list(range(1, 9))
LIST = "--list" in sys.argv


def sources():
    for path in sorted(glob.glob(os.path.join(ROOT, "crates/*/src/*.rt"))):
        yield path[len(ROOT):].lstrip("/"), open(path).read()


def uncommented(text):
    return re.sub(r"//[^\n]*", "", text)


def enums(text):
    for m in re.finditer(r"^\s*(?:pub(?:\(crate\))? )?enum (\w+)\s*\{(.*?)^\s*\}", uncommented(text), re.M | re.S):
        variants = re.findall(r"^ {4}(\w+)", m.group(2), re.M)
        yield m.group(1), variants, m.group(2)


def functions(text):
    """Each function: its name, its parameters, its clauses, its body."""
    code = uncommented(text)
    for m in re.finditer(r"^( *)(?:pub(?:\(crate\))? )?(?:extern \"C\" )?fn (\w+)", code, re.M):
        end = re.search(r"^%s\}" % m.group(1), code[m.end():], re.M)
        whole = code[m.end():m.end() + end.end()] if end else code[m.end():]
        head, _, body = whole.partition("\n%s{" % m.group(1))
        params = head[head.find("("):]
        yield m.group(2), params, head, body


def point1():
    """own enums of the shape of Option or Result: two variants, one of them a refusal or nothing; and numbers that stand for none"""
    for path, text in sources():
        for name, variants, body in enums(text):
            none = [v for v in variants if v in ("Refused", "Parse", "Overflow", "Absent", "Nothing", "Negative", "Outside", "NotANumber", "Uncalibrated", "Decode", "Accepted")]
            if none and len(variants) - len(none) <= 1:
                yield f"{path}: enum {name} {{ {', '.join(variants)} }}"
        for name, params, head, body in functions(text):
            none = re.search(r"(?:return|=>|\{|_ =>)\s+(16|20|256)(?:;|,|\n| \})", body)
            if none:
                yield f"{path}: fn {name} answers {none.group(1)} for none"
        for m in re.finditer(r"struct (\w+) \{[^}]*\b(?:times|agrees): (?:usize|bool)", uncommented(text)):
            yield f"{path}: struct {m.group(1)}, a flag or count with values beside it"


KEYWORDS = set("fn let mut match if else while for in loop return break continue as usize u8 u16 u32 u64 i32 i64 f32 f64 bool true false Some None Ok Err self Self".split())


def shape(params, body):
    """A function's text with its names and numbers replaced by their order of appearance."""
    order = {}
    out = []
    for token in re.findall(r"[A-Za-z_]\w*|\d[\w.]*|'[^']+'|b'.'|\S", body):
        if re.match(r"[A-Za-z_]\w*$", token) and token not in KEYWORDS:
            out.append("n%d" % order.setdefault(token, len(order)))
        elif re.match(r"\d", token):
            out.append("0")
        elif token in ("u8", "u16", "u32", "u64", "i32", "usize", "f32", "f64"):
            out.append("T")
        else:
            out.append(token)
    return " ".join(out)


def point2():
    """twins: functions whose bodies (of eight words or more) are the same but for names, numbers and number types"""
    groups = collections.defaultdict(list)
    for path, text in sources():
        for name, params, head, body in functions(text):
            s = shape(params, body)
            if len(s.split()) >= 8:
                groups[s].append(f"{path}: {name}")
    for names in groups.values():
        if len(names) > 1:
            yield " = ".join(names)


def point3():
    """loops that step a number by hand: while loops, with the step that they take"""
    for path, text in sources():
        code = uncommented(text)
        for m in re.finditer(r"^( *)((?:'\w+: )?(?:while|loop)\b[^\n]*)\{\n(.*?)^\1\}", code, re.M | re.S):
            steps = re.findall(r"\b(\w+ [-+]= \w+)", m.group(3))
            line = code[:m.start()].count("\n") + 1
            yield f"{path}:{line}: {m.group(2).strip()} [{', '.join(sorted(set(steps)))}]"


def point4():
    """equality, order, copying, conversion or printing by hand: functions that only compare fields, copy, cast or print digits"""
    names = r"(same_\w+|copy|less|wide|flip|fill|kind_word|kind_number|order_word|kind_of|order_of|order|kind|put_decimal|put_hex\w*|hex_\w+|at_least_one|one_more|in_answer|first_entry|narrow|pattern|number|low|bits|pair|quad|swapped|signed|tag_of|colour|name_of|scalar_value|kept_\w+)$"
    for path, text in sources():
        for name, params, head, body in functions(text):
            if re.match(names, name):
                yield f"{path}: fn {name}"


def point5():
    """clauses that stand in the requires of three functions or more, and runs of three parameters or more that stand in three signatures or more"""
    clauses = collections.Counter()
    runs = collections.defaultdict(set)
    for path, text in sources():
        for name, params, head, body in functions(text):
            for m in re.finditer(r"requires(?: \w+)? \{ (.*) \}", head):
                for part in re.split(r" × ", m.group(1)):
                    clauses[part.strip("() ")] += 1
            args = [re.sub(r"\s+", " ", a).strip() for a in re.findall(r"(\w+: [^,()]+?)(?=,|\)|$)", params.split(") ->")[0].split("\n)")[0])]
            for k in range(len(args) - 2):
                runs[" ".join(args[k:k + 3])].add(f"{path}: {name}")
    for c, n in clauses.most_common():
        if n >= 3:
            yield f"requires {c}: {n} functions"
    for r, where in sorted(runs.items(), key=lambda x: -len(x[1])):
        if len(where) >= 3:
            yield f"({r}): {len(where)} functions"


def point6():
    """an array with a length beside it"""
    for path, text in sources():
        for m in re.finditer(r"struct (\w+) \{([^}]*)\}", uncommented(text)):
            if re.search(r": \[\w+; \w+\]", m.group(2)) and re.search(r"\b(len|count): usize", m.group(2)):
                yield f"{path}: struct {m.group(1)}"


def point7():
    """which step to run, by a letter"""
    for path, text in sources():
        for name, params, head, body in functions(text):
            if re.search(r"(==|=>|match) *b'\w'|b'\w'( \| b'\w')* =>", body) and re.search(r"letter|kind", head + body):
                yield f"{path}: fn {name}"


def point8():
    """answers to goals in proofs, and lemma files"""
    count = collections.Counter()
    for path in glob.glob(os.path.join(ROOT, "crates/*/proofs/**/Answers.antt"), recursive=True):
        crate = path[len(ROOT):].lstrip("/").split("/")[1]
        count[crate] += len(re.findall(r"^pub \S+ :\s+goal\.", open(path).read(), re.M))
    for crate, n in sorted(count.items()):
        for k in range(n):
            yield f"{crate}: answer"


for p in POINTS:
    f = globals()["point%d" % p]
    places = list(f())
    print(f"{p}. {f.__doc__.strip()}: {len(places)}")
    if LIST:
        for place in places:
            print("   ", place)
