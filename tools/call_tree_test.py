#!/usr/bin/env python3
"""Whether tools/call_tree.py finds a cycle. Run at the root.

Each case changes a line or two in a copy of the crates' sources, so that functions call each other in a cycle, each in another way, and the tool must
name the cycle. The first is the one that there was: the power of ten by recursion. Without a change there is none, as where the case says so.
"""
import shutil
import sys
import tempfile
from pathlib import Path

sys.dont_write_bytecode = True
from call_tree import Crates, Unknown, calls_of, cycles

FIGURE, WIDE, VALUES, DIRECTORY = 'figure/src/lib.rt', 'figure/src/wide.rt', 'lsm_values/src/lib.rt', 'lsm_directory/src/lib.rt'
OPEN, HEADER, REPLAY, GROUND = 'lsm_reader/src/lib.rt', 'lsm_reader/src/header.rt', 'lsm_replay/src/main.rt', 'lsm_replay/src/ground.rt'
SAME, REPORT, IN_C, UTF8 = 'vectors/src/same.rt', 'vectors/src/report.rt', 'lsm_replay_pictures/src/in_c.rt', 'utf8/src/lib.rt'
REFUSED = 'not read'
# A type of a crate above `vectors`, with an impl for which that calls a method.
MINE = 'use vectors::asked::{coordinate, rectangle};\nuse vectors::same::{Lent, kept};\n\npub struct Mine;\n\nimpl '
# A method of `vectors` that is handed a closure, and the line of a program above that is to call it.
AGREES = (REPORT, 'impl Tally {', 'impl Tally {\n    pub fn agrees<F: Fn(usize) -> bool>(&self, test: F) -> bool {\n        test(self.cases)\n    }\n')
SIZE = "b's' => plain.count(parts.is_some_and(|(said, _)| ground::size(said))),"

# What a case shows; in which files what is put for what; the cycle.
CASES = [
    ('a function calls itself', [(FIGURE, '        number = next;', '        return above(num, next, left - 1);')], 'figure::above'),
    ('two functions', [(FIGURE, "b'0' + n as u8", 'point_text(n)[0]')], 'figure::letter figure::point_text'),
    ('two modules', [(HEADER, 'if buf.len() < 8 {', 'if crate::open::open_file(buf, &mut []).is_ok() {')],
     'lsm_reader::header::read_tiff_header lsm_reader::open::open_file'),
    ('through a name that a module hands on', [(OPEN, 'pub mod open;', 'pub mod open;\npub use open::open_file;'),
                                               (HEADER, 'if buf.len() < 8 {', 'if crate::open_file(buf, &mut []).is_ok() {')],
     'lsm_reader::header::read_tiff_header lsm_reader::open::open_file'),
    ('a method of self', [(WIDE, 'if borrow { None }', 'if self.at_least(other) { None }')],
     'figure::wide::Wide::checked_sub figure::wide::Wide::at_least'),
    ('a method of a value of any type', [(WIDE, 'w = w.times(2);', 'w = (w.times(2)).doubled(0);')], 'figure::wide::Wide::doubled'),
    ('a method that a trait has', [(SAME, 'pub trait Lent: Copy + Into<usize> {',
                                    'pub trait Lent: Copy + Into<usize> {\n    fn is(self) -> bool {\n        same_answer(&[], 0, &[], 0)\n    }\n'),
                                   (SAME, 'words.first() == Some(&number)', 'number.is()')],
     'vectors::same::same_answer vectors::same::Lent::is'),
    ('a method of a type of a crate above', [(SAME, 'let v: usize = v.into();', 'let v = v.is();'),
                                             (GROUND, 'use vectors::asked::{coordinate, rectangle};',
                                              MINE + 'Lent for Mine {\n    fn is(self) -> usize {\n        usize::from(kept(&[], self))\n    }\n}')],
     'vectors::same::kept lsm_replay::ground::Mine::is'),
    ('a conversion of a type of a crate above', [(GROUND, 'use vectors::asked::{coordinate, rectangle};',
                                                  MINE + 'From<Mine> for usize {\n    fn from(m: Mine) -> usize {\n        kept(&[], m);\n        0\n    }\n}')],
     'vectors::same::kept lsm_replay::ground::usize::from'),
    ('a function that is handed to the library', [(VALUES, '_ => 0,', '_ => [ty].map(tiff_type_size)[0],')], 'lsm_values::tiff_type_size'),
    ('a function that is handed to another', [(IN_C, 'answered(said, out, |out', 'of_handed(said, file, region_agrees) && answered(said, out, |out')],
     'lsm_replay_pictures::in_c::plane_agrees lsm_replay_pictures::in_c::of_handed'),
    ('a closure that is handed to another crate', [AGREES, (REPLAY, '|(said, _)| ground::size(said)', '|_| plain.agrees(|_| plain.agrees(|n| n == 0))')],
     'vectors::report::Tally::agrees'),
    ('a closure with a name', [AGREES, (REPLAY, SIZE, "b's' => {\n let f = |_| plain.agrees(|n| n == 0);\n plain.count(plain.agrees(f))\n}")],
     'vectors::report::Tally::agrees'),
    ('a closure in a value with a name', [AGREES, (REPLAY, SIZE, "b's' => {\n let f = Some(|_| plain.agrees(|n| n == 0));\n let (g, _) = (f, 0);\n"
                                                                 " plain.count(plain.agrees(g.unwrap()))\n}")],
     'vectors::report::Tally::agrees'),
    ('an iterator', [(UTF8, 'let n = matching(ranges, others);', 'let n = lossy_length(others);')],
     'utf8::Texts::next utf8::piece_at utf8::lossy_length'),
    ('a conversion', [(DIRECTORY, '_ => Tag::Other,', '_ => 254.into(),')], 'lsm_directory::Tag::from'),
    ('a derived default', [(REPORT, '    pub cases: usize,', '    pub cases: usize,\n    pub inner: Outer,'),
                           (REPORT, 'impl Tally {', 'pub struct Outer(pub(crate) Inner);\n\npub struct Inner(usize);\n\nimpl Default for Inner {\n    fn default() -> Inner {\n'
                                                    '        Inner(Tally::default().cases)\n    }\n}\n\nimpl Tally {')],
     'vectors::report::Inner::default'),
    ('a constant', [(VALUES, 'width: Width::One,\n    };', 'width: array_at(&[], NONE),\n    };')], 'lsm_values::array_at'),
    ('a variable of a function\'s name', [(FIGURE, 'let three = three_digits(num, den);',
                                           'let hundreds = three_digits(num, den);\n    let three = hundreds;')], None),
    ('a name that is no way back', [(VALUES, 'Width::One => 1,', 'Width::One => [0].map(tiff_type_size)[0],')], None),
    ('a trait that isn\'t known', [(WIDE, 'impl Wide {', 'impl PartialEq for Wide {')], REFUSED),
    ('a type that can hold what can be called', [(FIGURE, 'struct Digits {', 'struct Digits<F> {')], REFUSED),
    ('a function that answers what can be called', [(FIGURE, 'fn letter(n: u32) -> u8', 'fn letter(n: u32) -> impl Fn() -> u8')], REFUSED),
    ('a function in a function', [(FIGURE, 'let q = three.digits;', 'fn digits() {}\n    let q = three.digits;')], REFUSED),
]


def found(root, edits):
    """The cycles of the crates with a change, each from its least function on."""
    old = {}
    for file, before, after in edits:
        path = root / 'crates' / file
        text = path.read_text(encoding='utf-8')
        old.setdefault(path, text)
        if before not in text:
            return [f'{file} has no longer: {before}']
        path.write_text(text.replace(before, after, 1), encoding='utf-8')
    try:
        return [from_least(cycle[1:]) for cycle in cycles(calls_of(Crates(root)))]
    except Unknown:
        return [REFUSED]
    finally:
        for path, text in old.items():
            path.write_text(text, encoding='utf-8')


def from_least(cycle):
    at = cycle.index(min(cycle))
    return ' '.join(cycle[at:] + cycle[:at])


def main():
    wrong = 0
    with tempfile.TemporaryDirectory() as folder:
        root = Path(folder)
        shutil.copy('crates.txt', root)
        for source in Path('crates').glob('*/src/**/*.rt'):
            (root / source).parent.mkdir(parents=True, exist_ok=True)
            shutil.copy(source, root / source)
        for name, edits, cycle in CASES:
            there = found(root, edits)
            right = there == [] if cycle is None else cycle in there if cycle == REFUSED else from_least(cycle.split()) in there
            print(f'{name}: {"right" if right else f"WRONG: {there}"}')
            wrong += not right
    print(f'{len(CASES)} cases, {wrong} wrong')
    return 1 if wrong else 0


if __name__ == '__main__':
    sys.exit(main())
