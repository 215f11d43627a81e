#!/usr/bin/env python3
"""Draws the call tree of the crates from their sources, over crates, and stops on a cycle. Run at the root.

    tools/call_tree.py                   a tree below each function that no other one calls
    tools/call_tree.py NAME..            the trees below these, as lsm_reader::open::open_file; with --depth N before them, N levels deep
    tools/call_tree.py --dot [NAME..]    the same for Graphviz, with a box for each crate
    tools/call_tree.py --crates          for each crate, those whose functions its own functions call
    tools/call_tree.py --check DOCUMENT  whether a document shows what this prints, in blocks that begin `$ tools/call_tree.py ..`
    tools/call_tree.py --fill DOCUMENT   makes the document show it
    tools/call_tree.py --plans           whether each call that the prover knows is drawn: takes as long as to prove all crates

What a function calls stands below it where it is first drawn, and is `..` where it is met again or lies too deep. Where functions call each
other in a cycle, or one calls itself, the cycle is named and the exit status is 1. It is 2 where a source has a form that isn't known here.

The sources are read as text and no types are worked out. So a call may be drawn that is none, but none is left out:

- A name is a call where it means a function of these crates, by itself or behind `use`, a module or a type, also where it is handed on and
  not called there. It is none where a variable of that name is bound around it.
- A method is each of that name that can be seen from there. `self`, and a parameter or field whose type is declared, tell of which type.
- Who is handed a closure or a function calls what is called in it, and so does who hands it over.
- Of a type parameter a trait's method is the one of each impl, of crates above too.
- `next` and `size_hint` are called by who names their type or takes any iterator; `default` and `from` where they are named, or `into` is.
- A derived `default` calls those of the fields' types.
- What would hide a call is refused, until it is known here: an impl of a further trait of the library (TRAITS), a type that can hold what can be
  called, a function that answers it, a function or a `use` inside a function.

The library calls functions of these crates only so, and so does what is derived. Contracts and ghost code call nothing.
"""
import functools
import re
import subprocess
import sys
import tempfile
from pathlib import Path

TOKEN = re.compile(r'''(?xs)
    (?P<blank> \s+ | //[^\n]* | /\*.*?\*/ )
    | b?r(?P<hash>\#*)".*?"(?P=hash) | b?"(?:\\.|[^"\\])*" | b?'(?:\\.[^']*|[^'\\])' | '\w+
    | [A-Za-z_]\w* | \d\w*(?:\.\d\w*)? | :: | -> | => | \.\.=? | && | \|\| | .''')
WORD = re.compile(r'[A-Za-z_]\w*')
CLOSES = {'(': ')', '[': ']', '{': '}'}
KEYWORDS = set('as break const continue else enum extern false fn for if impl in let loop match mod move mut pub ref return static struct trait '
               'true type unsafe use where while'.split())
PRELUDE = {'Option', 'Result', 'Vec', 'String', 'Box'}
# The library's traits that are written out in these crates: other names by which a method of theirs is called.
TRAITS = {'Iterator': {}, 'Default': {'unwrap_or_default': 'default', 'take': 'default'}, 'From': {'into': 'from'}, 'Model': {}}


class Unknown(Exception):
    """Something has a form that isn't known here."""


class Source:
    """The tokens of a module's file, and where each bracket among them closes. A range of tokens is its first place and the one behind it."""

    def __init__(self, path, file):
        self.path, self.file, self.imports = path, file, {}
        self.text = file.read_text(encoding='utf-8')
        found = [m for m in TOKEN.finditer(self.text) if m['blank'] is None]
        self.end = len(found)
        self.tokens = [m[0] for m in found] + ['', '']
        self.starts = [m.start() for m in found]
        self.close, opened = {}, []
        for i, t in enumerate(self.tokens):
            if t in CLOSES:
                opened.append(i)
            elif t in CLOSES.values():
                if not opened or CLOSES[self.tokens[opened[-1]]] != t:
                    raise self.unknown(i)
                self.close[opened.pop()] = i
        if opened:
            raise self.unknown(opened[-1])

    def at(self, i):
        return f'{self.file}:{self.text.count(chr(10), 0, self.starts[i]) + 1}'

    def unknown(self, i):
        return Unknown(f'{self.at(i)}: {self.tokens[i]} {self.tokens[i + 1]} isn\'t known here')

    def find(self, i, stop, *wanted):
        """The first of these tokens outside of brackets; `stop` where there is none."""
        while i < stop and self.tokens[i] not in wanted:
            i = self.close[i] + 1 if self.tokens[i] in CLOSES else i + 1
        return min(i, stop)

    def generics(self, i):
        """The place behind `<..>`, where that stands at i."""
        depth = 0
        while self.tokens[i] == '<' or depth:
            depth += {'<': 1, '>': -1}.get(self.tokens[i], 0)
            i += 1
        return i

    def any_types(self, i):
        """Whether `<..>` at i has a type among its parameters."""
        return any(self.tokens[start] != 'const' and self.tokens[start][:1] != "'" for start, _ in self.parts(i + 1, self.generics(i) - 1))

    def parts(self, i, stop):
        """The ranges between the commas of a list of parameters or fields."""
        while i < stop:
            start = i
            while i < stop and self.tokens[i] != ',':
                i = self.close[i] + 1 if self.tokens[i] in CLOSES else max(self.generics(i), i + 1)
            yield start, i
            i += 1


class Function:
    """A function or a constant: a constant calls what its value does."""

    def __init__(self, source, name, block, public, head, body):
        self.source, self.public, self.head, self.body = source, public, head, body
        self.owner, self.trait, generic = block
        self.path = (self.owner or source.path) + (name,)
        self.name = '::'.join(self.path)
        words = source.tokens[slice(*head)]
        self.constant = words[0] != 'fn'
        self.takes_any = generic or source.any_types(head[0] + 2) or bool({'impl', 'dyn', 'fn'} & set(words[2:]))  # also what can be called
        self.calls = {}  # what is called, and where first

    def calls_on(self):
        """The functions called, with the places; through constants."""
        for called, place in self.calls.items():
            yield from called.calls_on() if called.constant else ((called.name, place),)


class Crates:
    """The functions, types and methods of all crates, and what names mean."""

    def __init__(self, root):
        lines = [line.split('#')[0].partition(':') for line in (root / 'crates.txt').read_text(encoding='utf-8').splitlines()]
        self.stands_on = {name.split()[0]: below.split() for name, _, below in lines if name.strip()}
        self.folder, self.sources, self.functions, self.types, self.traits, self.methods = root / 'crates', {}, {}, {}, set(), {}
        self.blocks = []
        for crate in self.stands_on:
            for file in (self.folder / crate / 'src' / 'lib.rt', self.folder / crate / 'src' / 'main.rt'):
                if file.exists():
                    self.read((crate,), file)
        for block in self.blocks:  # after all else, since its type may stand in another module
            self.block(*block)
        self.iterators = [f for f in self.functions.values() if f.trait == 'Iterator']
        for function in self.functions.values():
            Calls(self, function)

    # ---- what there is

    def read(self, path, file):
        source = self.sources[path] = Source(path, file)
        self.items(source, 0, source.end)

    def items(self, s, i, stop, block=(None, None, False)):
        """Reads the items of a module, or of an impl or a trait: its type, its trait, and whether it is for any types."""
        t, public = s.tokens, False
        while i < stop:
            if t[i] == '#':
                i = s.close[s.find(i, stop, '[')] + 1
            elif t[i] == 'pub':
                public = t[i + 1] != '('
                i = i + 1 if public else s.close[i + 1] + 1
            elif t[i] in ('unsafe', 'extern') or t[i].startswith('"') or t[i] == 'const' and t[i + 1] in ('fn', 'unsafe', 'extern'):
                i += 1
            else:
                i = self.item(s, i, stop, block, public)
                public = False

    def item(self, s, i, stop, block, public):
        """Reads an item; answers the place behind it."""
        t, kind, name, end = s.tokens, s.tokens[i], s.tokens[i + 1], s.find(i, stop, ';')
        if kind == 'fn':
            return self.function(s, i, block, public)
        if kind in ('impl', 'trait'):
            self.blocks.append((s, i, stop))
            if kind == 'trait':
                self.types[s.path + (name,)] = {}
                self.traits.add(s.path + (name,))
            return s.close[s.find(i, stop, '{')] + 1
        if kind in ('struct', 'enum'):
            if s.any_types(i + 2):
                raise s.unknown(i)
            body = s.find(s.generics(i + 2), stop, '{', '(', ';')
            self.types[s.path + (name,)] = self.fields(s, body) if kind == 'struct' and t[body] in CLOSES else {}
            return s.close[body] + 1 if t[body] == '{' else end + 1
        if kind == 'use':
            self.imports(s, i + 1, ())
        elif kind == 'mod' and t[i + 2] == ';':
            self.read(s.path + (name,), self.folder.joinpath(s.path[0], 'src', *s.path[1:], name + '.rt'))
        elif kind in ('const', 'static'):
            self.add(Function(s, name, block, public, (i, i + 2), (i + 2, end)))
        elif kind == 'ghost':
            end = end if name == 'use' else s.find(i, stop, ';', ',')
        elif kind != 'type':
            raise s.unknown(i)
        return end + 1

    def block(self, s, i, stop):
        """Reads an impl or a trait."""
        brace, at = s.find(i, stop, '{'), s.generics(i + 1)
        middle = s.find(at, brace, 'for')
        trait = s.tokens[at] if middle < brace else None
        if trait and 'fn' in s.tokens[brace:s.close[brace]] and trait not in TRAITS and not self.meaning(s, (trait,)):
            raise Unknown(f'{s.at(i)}: how the methods of {trait} are called isn\'t known here')
        at = middle + 1 if trait else at
        owner = self.type_at(s, at, brace) or s.path + (s.tokens[at],)
        self.items(s, brace + 1, s.close[brace], (owner, trait, s.tokens[i] == 'trait' or s.any_types(i + 1)))

    def function(self, s, i, block, public):
        """Reads a function; its contract calls nothing."""
        t, j = s.tokens, s.close[s.find(s.generics(i + 2), s.end, '(')] + 1
        j = s.find(j, s.end, '{', ';', 'requires', 'ensures')
        head, answer = (i, j), s.find(i, j, '->')
        if {'impl', 'dyn', 'fn'} & set(t[answer:j]):
            raise s.unknown(answer)
        while t[j] in ('requires', 'ensures'):
            j = s.close[s.find(j, s.end, '{')] + 1
        body = (j, s.close[j]) if t[j] == '{' else (j, j)
        for k in range(*body):
            if t[k] in ('use', 'fn') and WORD.fullmatch(t[k + 1]):
                raise s.unknown(k)
        self.add(Function(s, t[i + 1], block, public, head, body))
        return body[1] + 1

    def fields(self, s, brace):
        """The fields of a struct, each with the range of its type; those of a tuple by the places where they stand."""
        found = {}
        for start, end in s.parts(brace + 1, s.close[brace]):
            colon = s.find(start, end, ':') if s.tokens[brace] == '{' else start - 1
            if {'dyn', 'fn'} & set(s.tokens[colon:end]):  # a call of it would be drawn nowhere
                raise s.unknown(start)
            found[s.tokens[colon - 1] if s.tokens[brace] == '{' else start] = (s, colon + 1, end)
        return found

    def imports(self, s, i, before):
        """Reads a part of a `use`; answers the place behind it."""
        t = s.tokens
        while WORD.fullmatch(t[i]):
            before += (t[i],) if t[i] != 'self' or not before else ()
            i += 1
            if t[i] == 'as':
                s.imports[t[i + 1]] = before
                return i + 2
            if t[i] != '::':
                s.imports[before[-1]] = before
                return i
            i += 1
        if t[i] != '{':
            raise s.unknown(i)
        j = i + 1
        while j < s.close[i]:
            j = self.imports(s, j, before) + 1
        return s.close[i] + 1

    def add(self, function):
        if function.path in self.functions:
            raise Unknown(f'{function.name} is there twice')
        self.functions[function.path] = function
        if function.owner:
            self.methods.setdefault(function.path[-1], []).append(function)

    # ---- what names mean

    def there(self, path):
        return path in self.functions or path in self.types or path in self.sources

    def meaning(self, s, path, owner=None):
        """The whole path of what a path means in a module; None where that is not of these crates."""
        first, rest, here = path[0], path[1:], s.path + path[:1]
        if first == 'Self' and owner:
            whole = owner + rest
        elif first in ('crate', 'super', 'self'):
            whole = {'crate': s.path[:1], 'super': s.path[:-1], 'self': s.path}[first] + rest
        elif here in self.types or here in self.sources or here in self.functions and not rest:
            whole = here + rest
        elif first in s.imports and s.imports[first] != path:
            return self.meaning(s, s.imports[first] + rest, owner)
        else:
            whole = path
        for k in range(1, len(whole)):  # what a module has from another by `pub use`
            inner = self.sources.get(whole[:k])
            if inner and whole[k] in inner.imports and not self.there(whole[:k + 1]):
                return self.meaning(inner, whole[k:], owner)
        return whole if any(self.there(whole[:k]) for k in range(2, len(whole) + 1)) else None

    def type_at(self, s, i, stop, owner=None):
        """The type that begins at i: its path; False where it is the library's; None where the text doesn't tell."""
        t = s.tokens
        while i < stop and (t[i] in ('&', 'mut', 'pub') or t[i].startswith("'")):
            i = s.close[i + 1] + 1 if t[i] == 'pub' and t[i + 1] == '(' else i + 1
        path = (t[i],)
        while t[i + 1] == '::':
            i += 2
            path += (t[i],)
        found = self.meaning(s, path, owner)
        if found in self.types:
            return None if found in self.traits else found
        library = not WORD.match(path[0]) or path[0][0].islower() or path[0] in PRELUDE or path[0] in s.imports
        return False if library and path[0] not in ('impl', 'dyn') else None

    @functools.cache
    def below(self, crate):
        """A crate and those that it stands on, however far down."""
        return {crate}.union(*(self.below(c) for c in self.stands_on.get(crate, ())))

    def made_by(self, path, above=()):
        """The function of a path. Where it is derived, those of its name that the types of the fields have."""
        if path in self.functions or path[:-1] not in self.types or path in above:
            return [self.functions[path]] if path in self.functions else []
        kinds = [self.type_at(*field) for field in self.types[path[:-1]].values()]
        return [f for kind in kinds if kind for f in self.made_by(kind + path[-1:], (*above, path))]

    def methods_seen(self, name, function):
        """The methods of a name that a function may call: those that it sees, and a trait's of whichever type it is called for."""
        crate = function.path[0]
        return [m for m in self.methods.get(name, ()) if m.path[0] == crate or (m.public or m.trait) and m.path[0] in self.below(crate)
                or m.trait and function.takes_any]

    def into_types(self, crate):
        """What a type parameter can be turned into, as by `type_at`: what the bounds of a crate and those below it name."""
        sources = [s for path, s in self.sources.items() if path[0] in self.below(crate)]
        return {self.type_at(s, i + 2, s.end) for s in sources for i in range(s.end) if s.tokens[i:i + 2] == ['Into', '<']}


class Calls:
    """Finds what a function calls."""

    def __init__(self, crates, function):
        self.crates, self.f, self.s = crates, function, function.source
        self.variables = []  # a name, the range in which it is bound, and its type
        self.patterns = set()  # the places where names are bound
        self.closures = {}  # the closures that a variable stands for, as ranges
        if not function.constant:
            self.parameters()
        self.bindings(*function.body)
        self.scan(function.head[0] + 2, function.head[1], function)
        self.scan(*function.body, function)

    # ---- variables

    def parameters(self):
        s, (i, stop) = self.s, self.f.head
        brackets = s.find(s.generics(i + 2), stop, '(')
        for start, end in s.parts(brackets + 1, s.close[brackets]):
            colon = s.find(start, end, ':')
            kind = self.crates.type_at(s, colon + 1, end, self.f.owner) if colon < end else None
            self.bind(start, colon, *self.f.body, kind)

    def bind(self, i, stop, start, end, kind=None):
        """Binds the names of the pattern from i to stop over a range."""
        t = self.s.tokens
        for k in range(i, stop):
            field = t[k + 1] == ':' and k + 1 < stop
            if re.fullmatch(r'[a-z_]\w*', t[k]) and t[k] not in KEYWORDS and not field and t[k + 1] not in ('(', '{', '::') and t[k - 1] != '::':
                self.patterns.add(k)
                self.variables.append((t[k], start, end, kind))

    def bindings(self, i, stop):
        """Binds what `let`, `for`, `match` and closures bind, where that holds."""
        s, t, blocks = self.s, self.s.tokens, [stop]
        for k in range(i, stop):
            while blocks[-1] < k:
                blocks.pop()
            if t[k] == '{':
                blocks.append(s.close[k])
            elif t[k] == 'let' and t[k - 1] in ('if', 'while', '&&'):
                equals = s.find(k, stop, '=')
                self.bind(k + 1, equals, s.find(equals, stop, '{', '&&'), s.close[s.find(equals, stop, '{')])
            elif t[k] == 'let':
                equals, end = s.find(k, stop, '=', ';'), s.find(k, stop, ';')
                self.bind(k + 1, s.find(k, equals, ':'), end, blocks[-1])
                made = [self.closure(j, end) for j in range(equals, end) if self.opens_closure(j)]
                made += [c for j in range(equals, end) for c in self.closures.get(t[j], ())]
                self.closures.update({t[j]: made for j in range(k, equals) if j in self.patterns and made})
            elif t[k] == 'for':
                brace = s.find(k, stop, '{')
                self.bind(k + 1, s.find(k, brace, 'in'), brace, s.close[brace])
            elif t[k] == 'match':
                brace = s.find(k, stop, '{')
                self.arms(brace + 1, s.close[brace])
            elif self.opens_closure(k):
                bar, end = self.closure(k, stop)
                self.bind(k + 1, bar, bar, end)

    def arms(self, i, stop):
        s, t = self.s, self.s.tokens
        while i < stop:
            arrow = s.find(i, stop, '=>')
            end = s.close[arrow + 1] if t[arrow + 1] == '{' else s.find(arrow, stop, ',')
            self.bind(i, s.find(i, arrow, 'if'), i, end)
            i = end + 2 if t[end + 1] == ',' else end + 1

    def opens_closure(self, k):
        """Whether a closure begins with the bar at k: a value is wanted there."""
        t = self.s.tokens
        return t[k] in ('|', '||') and (t[k - 1] in ('return', 'move') or not re.match(r'[\w"\')\]}?]', t[k - 1]))

    def closure(self, k, stop):
        """Of the closure at k, the bar behind its parameters and the place behind it."""
        s = self.s
        bar = k if s.tokens[k] == '||' else s.find(k + 1, stop, '|')
        return bar, s.close[bar + 1] if s.tokens[bar + 1] == '{' else s.find(bar + 1, stop, ',', ';', *CLOSES.values())

    def variable(self, name, k):
        """The types of the variables of that name that are bound at k."""
        return [kind for n, start, end, kind in self.variables if n == name and start <= k <= end]

    # ---- calls

    def scan(self, i, stop, caller, handed=False):
        """Has a function call what is called from i to stop, or only what is handed on there and not called."""
        s, t = self.s, self.s.tokens
        while i < stop:
            start, path = i, (t[i],)
            while t[i + 1] == '::':
                i = s.generics(i + 2) - 1 if t[i + 2] == '<' else i + 2
                path += (t[i],) if WORD.fullmatch(t[i]) else ()
            i += 1
            if not WORD.fullmatch(path[0]) or path[0] in KEYWORDS or start in self.patterns or handed and t[i] == '(':
                continue
            for called in self.called(start, path, t[i]):
                caller.calls.setdefault(called, s.at(start))
                if t[i] == '(' and called.takes_any:
                    self.hand(i, called)

    def hand(self, brackets, called):
        """Has a function call what it is handed in brackets, if that can be called."""
        t, end = self.s.tokens, self.s.close[brackets]
        self.scan(brackets + 1, end, called, handed=True)
        for k in range(brackets + 1, end):
            if self.opens_closure(k):
                self.scan(*self.closure(k, end), called)
            elif t[k] in self.closures and self.variable(t[k], k):
                for closure in self.closures[t[k]]:
                    self.scan(*closure, called)

    def called(self, k, path, behind):
        """What a path at k means, if it is called or handed on there."""
        crates, before = self.crates, self.s.tokens[k - 1]
        if before == '.':
            return self.method(path[0], self.receiver(k - 2)) if behind == '(' else []
        if before == '::':
            return self.method(path[-1], None)
        if len(path) == 1 and (behind == ':' or behind != '(' and self.variable(path[0], k)):
            return []
        if path[-1] in ('Iterator', 'IntoIterator'):
            return crates.iterators
        found = crates.meaning(self.s, path, self.f.owner)
        if found:
            named = (found, found[:-1]) if found != self.f.owner else ()
            return crates.made_by(found) + [f for f in crates.iterators if f.owner in named]
        return self.method(path[-1], None if path[0] in TRAITS else crates.type_at(self.s, k, k + 1)) if len(path) > 1 else []

    def method(self, name, told):
        """The methods that a name means behind a value or a type, of which it is told as by `type_at`."""
        crates = self.crates

        def of(kind, methods):
            return [m for m in methods if kind is None or m.owner in crates.traits or (m.owner == kind if kind else m.owner not in crates.types)]

        meant = of(told, crates.methods_seen(name, self.f))
        for other in (names[name] for names in TRAITS.values() if name in names):
            kinds = crates.into_types(self.f.path[0]) if name == 'into' and self.f.takes_any else {None}
            meant += [m for kind in kinds for m in of(kind, crates.methods_seen(other, self.f)) if m.trait]
        return meant

    def receiver(self, k):
        """The type of the value that ends at k, as by `type_at`: of a variable, or of a field of one."""
        t, fields = self.s.tokens, []
        while WORD.fullmatch(t[k]) and t[k - 1] == '.':
            fields.insert(0, t[k])
            k -= 2
        known = [self.f.owner] if t[k] == 'self' and self.f.owner not in self.crates.traits else self.variable(t[k], k)
        kind = known[0] if len(known) == 1 and t[k - 1] != '::' else None
        for field in fields:
            if field not in self.crates.types.get(kind, ()):
                return None
            kind = self.crates.type_at(*self.crates.types[kind][field])
        return kind


# ---- the tree


def calls_of(crates):
    """The functions, each with those that it calls and where, in the order in which it does."""
    return {f.name: dict(f.calls_on()) for f in crates.functions.values() if not f.constant}


def cycles(tree):
    """A cycle for each call that leads back to a function which is still being followed."""
    found, done = [], set()

    def follow(name, way):
        if name in way:
            found.append(way[way.index(name):] + [name])
        elif name not in done:
            for called in tree[name]:
                follow(called, way + [name])
            done.add(name)

    for name in tree:
        follow(name, [])
    return found


def below(tree, names):
    """The part of the tree that is called from these, however far down, with them."""
    found, todo = set(), list(names)
    while todo:
        name = todo.pop()
        if name not in found:
            found.add(name)
            todo += tree[name]
    return {name: calls for name, calls in tree.items() if name in found}


def drawn(tree, names, most):
    """The lines of the trees below these, so many levels deep."""
    met = set()

    def lines(name, depth):
        shut = tree[name] and (name in met or depth == most)
        yield '  ' * depth + name + (' ..' if shut else '')
        if not shut:
            met.add(name)
            for called in tree[name]:
                yield from lines(called, depth + 1)

    return [line for name in names for line in lines(name, 0)]


def crate_of(name):
    return name.split('::')[0]


def by_crate(tree):
    """For each crate, those whose functions its own functions call."""
    crates = list(dict.fromkeys(map(crate_of, tree)))
    called = {crate: {crate_of(c) for name in tree if crate_of(name) == crate for c in tree[name]} - {crate} for crate in crates}
    return [' '.join([f'{crate}:'] + [c for c in crates if c in called[crate]]) for crate in crates]


def graphviz(tree):
    lines = ['digraph calls {', '  rankdir=LR;', '  node [shape=box];']
    for crate in dict.fromkeys(map(crate_of, tree)):
        lines += [f'  subgraph "cluster_{crate}" {{', f'    label="{crate}";']
        lines += [f'    "{name}" [label="{name[len(crate) + 2:]}"];' for name in tree if crate_of(name) == crate]
        lines += ['  }']
    return lines + [f'  "{name}" -> "{called}";' for name in tree for called in tree[name]] + ['}']


def picture(tree, words):
    """The lines that are printed for these words."""
    most = None
    if words[:1] == ['--depth'] and words[1:2] and words[1].isdigit():
        most, words = int(words[1]), words[2:]
    names = [w for w in words if not w.startswith('-')]
    for name in names:
        if name not in tree:
            raise Unknown(f'there is no function {name}')
    part = below(tree, names) if names else tree
    called = {c for calls in part.values() for c in calls}
    if '--dot' in words:
        return graphviz(part)
    return by_crate(part) if '--crates' in words else drawn(part, names or [name for name in part if name not in called], most)


# ---- beside a document, and beside the prover


def document(tree, file, fill):
    """Whether a document shows what is printed; with `fill` it is made to."""
    old = text = Path(file).read_text(encoding='utf-8')
    blocks = list(re.finditer(r'(?ms)^```\n\$ tools/call_tree\.py ?([^\n]*)\n(.*?)^```$', text))
    for block in reversed(blocks):
        text = text[:block.start(2)] + '\n'.join(picture(tree, block[1].split())) + '\n' + text[block.end(2):]
    if fill:
        Path(file).write_text(text, encoding='utf-8')
    same = fill or text == old
    print(f'{file}: {len(blocks)} pictures' + ('' if same else f' are not what the sources are: tools/call_tree.py --fill {file}'))
    return 0 if blocks and same else 1


def planned(crates, crate):
    """The calls in the plans that the prover makes of a crate, by its names, and the cycles, whose folders begin with `+`."""
    with tempfile.TemporaryDirectory() as folder:
        run = subprocess.run(['rt', 'check', '--generated', folder], cwd=crates.folder / crate, capture_output=True, text=True)
        if run.returncode:
            raise Unknown(f'{crate}: there are no plans\n{run.stdout}{run.stderr}')
        top = Path(folder) / f'Rattle-{crate}-proofs'
        calls = []
        for file in sorted(top.glob('**/Code/Mir.antt')):
            name = '::'.join((crate,) + file.relative_to(top).parts[:-2])
            for other, path in re.findall(r'(?m)^use Rattle\.(\w+)\.proofs\.(\S+)\.Symbol', file.read_text(encoding='utf-8')):
                if other in crates.stands_on:
                    calls.append((name, '::'.join((other, *path.split('.')))))
        return calls, [f'{crate}::{f.name}' for f in top.glob('**/+*') if f.is_dir()]


def as_here(crates):
    """From the prover's names to those of the tree: a closure is of the function in which it stands, and an impl has its trait behind its type."""
    own = [f for f in crates.functions.values() if not f.constant]
    names = {f.name: f.name for f in own}
    impls = [(re.compile('::'.join((*f.path[:-2], f.path[-2] + f.trait + r'\w*', f.path[-1]))), f.name) for f in own if f.trait]

    def name_here(name):
        before, closure, behind = name.partition('::fn::')
        parts = behind.split('::')
        tried = [f'{before}::{"::".join(parts[:k])}' for k in (1, 2)] if closure else [name]
        return next((names[t] for t in tried if t in names), next((f for form, f in impls for t in tried if form.fullmatch(t)), None))

    return name_here


def plans(crates, tree):
    """Whether the tree has each call in the plans that the prover makes. There, calls are known by their types."""
    name_here, planned_calls, cyclic, others = as_here(crates), set(), [], set()
    for crate in crates.stands_on:
        found, rings = planned(crates, crate)
        cyclic += rings
        for names in found:
            a, b = map(name_here, names)
            if a is None or b is None:  # derived, or, with a `+`, what calls a function as a closure
                others.update(name for name in names if name_here(name) is None and '+' not in name)
            elif a != b or names[0] == names[1]:  # a closure is of the function that calls it
                planned_calls.add((a, b))
    drawn_calls = {(a, b) for a in tree for b in tree[a]}
    absent, more = planned_calls - drawn_calls, drawn_calls - planned_calls
    for what, pairs in (('not drawn', absent), ('in no plan', more)):
        for a, b in sorted(pairs):
            print(f'call_tree: {what}: {a} calls {b}')
    print(f'call_tree: derived: {" ".join(sorted(others))}')
    print(f'call_tree: cycles that the prover knows: {" ".join(cyclic) or "none"}')
    print(f'{len(planned_calls)} calls in the plans, {len(absent)} not drawn; {len(drawn_calls)} drawn, {len(more)} in no plan')
    return 1 if absent or cyclic else 0


def main(words):
    crates = Crates(Path('.'))
    tree = calls_of(crates)
    if words == ['--plans']:
        return plans(crates, tree)
    if words[:1] in (['--check'], ['--fill']) and len(words) == 2:
        return document(tree, words[1], words[0] == '--fill')
    for line in picture(tree, words):
        print(line)
    found = cycles(tree)
    for cycle in found:
        print(f'call_tree: a cycle: {" -> ".join(cycle)}', file=sys.stderr)
        for name, called in zip(cycle, cycle[1:]):
            print(f'    {tree[name][called]}: {name} calls {called}', file=sys.stderr)
    return 1 if found else 0


if __name__ == '__main__':
    try:
        sys.exit(main(sys.argv[1:]))
    except Unknown as what:
        print(f'call_tree: {what}', file=sys.stderr)
        sys.exit(2)
