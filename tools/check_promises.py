#!/usr/bin/env python3
"""Holds docs/PROMISES.md against the tree. Run at the root; the exit status is 1 where one of these fails:

- every path that it names is there;
- `File.name` is a definition at the top of crates/lsm_format/specs/File.antt: a field of a record or a constructor isn't one. A field is
  named after its record, as `record Exact`: `high`, `wide`;
- `crate::name` is a public function of that crate, and after `private:` one that isn't public;
- every other name in the columns of definitions and contracts is a definition or a theorem at the top of some file of specs/ or proofs/;
- every public function of a library is named, in some row;
- every must-fail edit, marked row, law and program in the last column is there, by its crate or file and its name; and every must-fail
  edit of every crate is named so.
"""
import glob
import os
import re
import sys

ROWS = ('Marked', 'Table', 'Listed', 'Spare', 'Second', 'Third', 'Handed', 'Series', 'Interleaved', 'Bits', 'Signed')
# Words in backticks that are no names of this tree: of the language, of document 01, of contracts.
WORDS = {'requires', 'ensures', 'room', 'lent', 'answer', 'Vec', 'Result', 'Option', 'String', 'LsmReader', 'crop', 'Strips'}

bad = []
names = 0


def text(pattern):
    return '\n'.join(open(p).read() for p in sorted(glob.glob(pattern, recursive=True)))


def parsed(source):
    """What a file defines, at its top or in a `module _`: definitions, theorems, records, data types; and the fields of each record."""
    found, of_record, blocks = set(), {}, []
    for line in source.split('\n'):
        step = len(line) - len(line.lstrip())
        if not line.strip() or line.strip().startswith('--'):
            continue
        while blocks and step <= blocks[-1][0]:
            blocks.pop()
        inner = blocks[-1][1] if blocks else 'module'
        if m := re.match(r'\s*(?:pub )?(record|data) (\w+)', line):
            found.add(m[2])
            blocks.append((step, m[2] if m[1] == 'record' else 'data'))
        elif re.match(r'\s*module _', line):
            blocks.append((step, 'module'))
        elif m := re.match(r'\s*(?:abbrev |unfoldable |pub )*([^\s:(){}]+)(?: :|$)', line):
            if inner == 'module' and (step == 0 or blocks):
                found.add(m[1])
            elif inner != 'data':
                of_record.setdefault(inner, set()).add(m[1])
    return found, of_record


def tops(source):
    return parsed(source)[0]


def functions(crate):
    """The public functions of a crate, and the others. A module that isn't public has none that are."""
    public, private = set(), set()
    roots = '\n'.join(open(p).read() for p in glob.glob(f'crates/{crate}/src/lib.rt'))
    for path in glob.glob(f'crates/{crate}/src/*.rt'):
        module = os.path.basename(path)[:-3]
        seen = module == 'lib' or re.search(rf'(?m)^pub mod {module};', roots)
        for pub, name in re.findall(r'(?m)^\s*(pub(?:\(\w+\))? )?(?:extern "C" )?fn (\w+)', open(path).read()):
            (public if seen and pub == 'pub ' else private).add(name)
    return public, private


crates = [line.split(':')[0].split()[0] for line in open('crates.txt') if line.strip() and not line.startswith('#')]
spec = {os.path.basename(p)[:-5]: tops(open(p).read()) for p in glob.glob('crates/lsm_format/specs/*.antt')}
everywhere = tops(text('crates/*/specs/*.antt')) | tops(text('crates/*/proofs/**/*.antt'))
of_records = parsed(text('crates/*/specs/*.antt'))[1]
of_crates = {crate: functions(crate) for crate in crates}
rows = {name: tops(text(f'crates/marked_cases/proofs/{name}.antt')) for name in ROWS}
rows['Marked'] = parsed(text('crates/marked_cases/specs/Marked.antt'))[1]['Marked']
rows['law'] = tops(text('crates/*/proofs/*.antt'))
programs = {crate for crate in crates if os.path.exists(f'crates/{crate}/src/main.rt')} | {'host/compare', './test'}
edits = {(p.split('/')[1], os.path.basename(p)[:-5]) for p in glob.glob('crates/*/must-fail/*.edit')}
named_edits, named_functions = set(), set()


def there(line, sort, name, found):
    global names
    names += 1
    if not found:
        bad.append((line, sort, name))


def code_names(line, cell):
    """The names in backticks of one cell: definitions, functions, records with their fields."""
    record, private = None, False
    for before, token in re.findall(r'([^`]*)`([^`]+)`', cell):
        private = private or 'private:' in before
        if ';' in before:
            record = None
        if m := re.fullmatch(r'record (\w+)', token):
            record = m[1]
            there(line, 'record', token, record in of_records)
        elif m := re.fullmatch(r'([A-Z]\w*)\.(\w+)', token):
            there(line, 'definition', token, m[2] == 'antt' or m[2] in spec.get(m[1], ()))
        elif m := re.fullmatch(r'([a-z]\w*)::(\w+)', token):
            named_functions.add((m[1], m[2]))
            public, others = of_crates.get(m[1], (set(), set()))
            there(line, 'private function' if private else 'public function', token, m[2] in (others if private else public))
        elif re.fullmatch(r"[A-Za-z][\w'-]*", token) and token not in WORDS:
            known = token in everywhere or token in of_records.get(record, ()) or any(token in a | b for a, b in of_crates.values())
            there(line, 'name', token, known)


def witnesses(line, cell):
    """The last column: what would notice."""
    for part in re.sub(r'\([^)]*\)', '', cell.replace('`', '')).split(';'):
        part = re.sub(r' for what is written$', '', part.strip())
        if m := re.match(rf'({"|".join(ROWS)}|law): (.*)', part):
            for name in m[2].split(','):
                there(line, m[1], name.strip(), name.strip() in rows[m[1]])
        elif (m := re.match(r'(\w+)/(.*)', part)) and m[1] != 'host':
            for name in m[2].split(','):
                named_edits.add((m[1], name.strip()))
                there(line, 'edit', f'{m[1]}/{name.strip()}', (m[1], name.strip()) in edits)
        elif part:
            for name in part.split(','):
                there(line, 'program', name.strip(), name.strip() in programs)


for number, line in enumerate(open('docs/PROMISES.md'), 1):
    for path in re.findall(r'(?:crates|host|files|include|docs|tools)/[A-Za-z0-9_./-]+', line):
        path = path.rstrip('.')
        if not path.startswith('crates/crate') and not path.endswith('/File.antt'):
            there(number, 'path', path, os.path.exists(path))
    if not line.startswith('|') or set(line.strip()) <= set('|-'):
        continue
    cells = [cell.strip() for cell in line.strip().strip('|').split('|')]
    if len(cells) != 4 or not all(cells):
        bad.append((number, 'cells', line[:60]))
    elif cells[3] != 'what would notice':
        code_names(number, cells[1])
        code_names(number, cells[2])
        if not cells[3].startswith(('–', 'every row')):
            witnesses(number, cells[3])
for crate, name in sorted(edits - named_edits):
    bad.append((0, 'edit that no row names', f'{crate}/{name}'))
for crate in crates:
    if not os.path.exists(f'crates/{crate}/src/main.rt'):
        for name in sorted(of_crates[crate][0]):
            if (crate, name) not in named_functions:
                bad.append((0, 'public function that no row names', f'{crate}::{name}'))
for problem in bad:
    print('line %d: %s: %s' % problem)
print(names, 'names,', len(bad), 'not there')
sys.exit(1 if bad else 0)
