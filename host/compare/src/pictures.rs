// Writes a list of planes and rectangles of small accepted files with the original's answers, in the form of tools/record/README.md.
use crate::bits;
use crate::check::{self, place, rectangle, reserved, LIMIT};
use crate::interleaved::{self, Wanted};
use crate::make;
use crate::past;
use crate::random::Random;
use crate::record::{by_original, line, refusal, List};
use crate::rules;
use crate::walk::walk;
use original::probe::{self, Memory, Opened, Picture, Refused, PANIC, RESERVE};

// The most sample bytes of a line, and the most words of a table that a replay has room for. A call of rules.rs lends so many bytes.
const SAMPLES: usize = 200;
const TABLE: usize = 256;
const ROOM: usize = 16;

// What the channels' strips are, or those that all channels share: outside the file, of another total than the picture, in the midst of
// samples, of pixels or of rows, or whole.
fn strips(file: &[u8], o: &Opened) -> &'static str {
    let sample = [1, 2, 2, 4][o.words[1]];
    let pixel = if o.words[18] == 1 { sample * o.words[3] } else { sample };
    let row = o.words[6].saturating_mul(pixel);
    let (mut outside, mut other, mut samples, mut pixels, mut rows) = (false, false, false, false, false);
    for channel in o.table.chunks(2 * o.words[9]) {
        let mut n = 0usize;
        for strip in channel.chunks(2) {
            samples |= n % sample != 0;
            pixels |= n % pixel != 0;
            rows |= n % row != 0;
            outside |= file.len() < strip[0].saturating_add(strip[1]);
            n = n.saturating_add(strip[1]);
        }
        other |= n != row.saturating_mul(o.words[5]);
    }
    match (outside, other, samples, pixels, rows) {
        (true, ..) => "strips outside the file",
        (_, true, ..) => "strips of another total",
        (_, _, true, ..) => "strips that split samples",
        (_, _, _, true, _) => "strips that split pixels",
        (_, _, _, _, true) => "strips that split rows",
        _ if o.words[9] == 1 => "one strip",
        _ => "strips of whole rows",
    }
}

// Where a rectangle ends.
fn ends(o: &Opened, rect: [usize; 4]) -> String {
    let end = |at: usize, n: usize, most: usize| match at.checked_add(n) {
        None => "overflows",
        Some(e) if most < e => "past",
        Some(e) if e == most => "at the end",
        _ => "inside",
    };
    let [x, y, w, h] = rect;
    let empty = if w == 0 || h == 0 { "empty, " } else { "" };
    format!("{empty}right {}, below {}", end(x, w, o.words[6]), end(y, h, o.words[5]))
}

// 0, height, width, number of bytes and the bytes
fn read(shape: [usize; 2], bytes: &[u8]) -> Vec<usize> {
    let [height, width] = shape;
    [0, height, width, bytes.len()].into_iter().chain(bytes.iter().map(|&b| b as usize)).collect()
}

// The original's answer; of interleaved channels that which it agrees with as far as it can judge; past the pages of the whole-row test,
// document 01's (past.rs). `None` for interleaved channels' samples that are too many to ask for.
fn picture(o: &Opened, file: &[u8], at: [usize; 4], rect: Option<[usize; 4]>) -> Option<Result<Picture, Refused>> {
    if o.words[18] == 1 {
        return match interleaved::wanted(o, file, at, rect).unwrap_or_else(|d| panic!("{d}")) {
            Wanted::Answer(found, _) => Some(found),
            Wanted::Large => None,
        };
    }
    let found = match rect {
        Some(rect) if o.whole_rows() && past::decides(&o.words, at, rect) => {
            let found = past::region(&o.words, &o.table, file, at, rect).answer();
            let past = |row| Refused { row, text: String::new() };
            found.map(|bytes| Picture { height: rect[3], width: rect[2], bytes }).map_err(past)
        }
        Some(rect) => o.region(at, rect),
        None => o.plane(at),
    };
    assert!(found.as_ref().map_or_else(|r| r.row[0], |_| 0) != PANIC, "the original panicked");
    Some(found)
}

// The same as a line says it, where there is room for so many bytes.
fn answer(o: &Opened, file: &[u8], at: [usize; 4], rect: Option<[usize; 4]>) -> Vec<usize> {
    match picture(o, file, at, rect).expect("samples that aren't too many") {
        Ok(p) if ROOM < p.bytes.len() => vec![7, p.bytes.len()],
        Ok(p) => read([p.height, p.width], &p.bytes),
        Err(r) => refusal(&r.row).to_vec(),
    }
}

impl List {
    // One call.
    fn call(&mut self, file: &[u8], o: &Opened, at: [usize; 4], rect: Option<[usize; 4]>) {
        let letter = if rect.is_some() { 'r' } else { 'p' };
        let said = answer(o, file, at, rect);
        self.count(format!("{letter} {}", said[0]));
        let asked = [&[ROOM][..], &at, rect.as_ref().map_or(&[], |r| r)].concat();
        self.push(letter, &[asked, said].concat(), file);
    }

    // `q ROOM WORDS TABLE SCENE T C Z ANSWER:FILE`, or `h` with a rectangle: a call with what is handed in, the table after its length.
    fn handed(&mut self, words: &[usize], table: &[usize], file: &[u8], at: [usize; 4], rect: Option<[usize; 4]>, said: Vec<usize>) {
        let letter = if rect.is_some() { 'h' } else { 'q' };
        self.count(format!("{letter} {}", said[0]));
        let asked = [&[ROOM][..], words, &[table.len()], table, &at, rect.as_ref().map_or(&[], |r| r)].concat();
        self.push(letter, &[asked, said].concat(), file);
    }

    // `p ROOM SCENE T C Z ANSWER:FILE` or `r ROOM SCENE T C Z X Y W H ANSWER:FILE`, where what the call shows is not there often enough.
    fn picture(&mut self, file: &[u8], o: &Opened, at: [usize; 4], rect: Option<[usize; 4]>, often: usize) {
        let size = reserved(o, rect);
        if o.words[18] == 0 && RESERVE < size && size <= LIMIT {
            return;
        }
        let Some(answer) = picture(o, file, at, rect) else { return };
        let letter = if rect.is_some() { 'r' } else { 'p' };
        let number = answer.as_ref().map_or_else(|r| r.row[0], |_| 0);
        let d = o.words;
        let sort = if d[18] == 1 { ", interleaved" } else { "" };
        let counts = [d[7], d[2], d[3], d[4]];
        let outside: Vec<bool> = at.iter().zip(counts).map(|(&n, count)| count <= n).collect();
        let mut shown = vec![format!("{letter} {number} outside {outside:?}")];
        if number < 5 {
            shown.push(format!("{letter} {number} {}{sort}, order {} kind {}", strips(file, o), d[0], d[1]));
            shown.push(format!("{letter} {number} place {:?}", at.map(|n| n.min(3))));
            shown.push(format!("{letter} {number} depth {} scenes {} channels {}{sort}", d[4].min(3), d[7].min(3), d[3].min(3)));
            shown.push(format!("{letter} {number} time points {} depth {} scenes {}", d[17].min(3), d[4].min(2), d[7].min(2)));
        }
        if let Some(rect) = rect {
            shown.push(format!("r {number} {}", ends(o, rect)));
            shown.push(format!("r {number} {}{sort}, rectangles by rows {}", strips(file, o), o.whole_rows()));
        }
        // accepted calls more often than refused ones
        let often = if number == 0 { 2 * often } else { often };
        let asked = |room: usize| [&[room][..], &at, rect.as_ref().map_or(&[], |r| r)].concat();
        match answer {
            Err(r) => {
                if self.wanted(shown, often) {
                    let room = self.random.of(&[0, 1, 16]);
                    self.push(letter, &[&asked(room), refusal(&r.row)].concat(), file);
                    self.count(format!("{letter} {}", r.row[0]));
                }
            }
            Ok(p) => {
                let need = p.bytes.len();
                if SAMPLES < need || !self.wanted(shown, often) {
                    return;
                }
                let short = vec![format!("{letter} 7 order {} kind {}", d[0], d[1]), format!("{letter} 7 {}", strips(file, o))];
                if need != 0 && self.wanted(short, often) {
                    let room = self.random.of(&[need - 1, need - 1, need / 2, 0]);
                    self.push(letter, &[&asked(room), &[7, need][..]].concat(), file);
                    self.count(format!("{letter} 7"));
                }
                let room = need + self.random.of(&[0, 0, 1, 1, 5]);
                let bytes: Vec<usize> = p.bytes.iter().map(|&b| b as usize).collect();
                self.push(letter, &[&asked(room), &[0, p.height, p.width, need][..], &bytes].concat(), file);
                self.count(format!("{letter} 0"));
            }
        }
    }
}

// The calls of rules.rs and the settled ones; then so many lines, each for something that is not there often enough yet.
pub fn record(list: &mut List, seed: u64, count: usize) {
    let mut memory = Memory::new();
    for (file, at, rect) in rules::calls() {
        let o = by_original(&mut memory, &file, &walk(&file)).unwrap_or_else(|r| panic!("a file of rules.rs: {}", r.text));
        list.call(&file, &o, at, rect);
    }
    let handed = [rules::handed(), rules::handed_series(), rules::handed_interleaved()];
    for (words, table, at, rect) in handed.into_iter().flatten() {
        let o = probe::handed(&mut memory, &rules::FOUR, &words, &table).expect("what the original can be given");
        list.handed(&words, &table, &rules::FOUR, at, rect, answer(&o, &rules::FOUR, at, rect));
    }
    // no strips per page is 6; the original isn't given it (docs/DIFFERENCES.md)
    list.handed(&rules::words(0, [1, 1, 1, 1, 1, 1, 0]), &[0, 1], &rules::FOUR, [0; 4], None, vec![6, 0, 0, 0, 0]);
    for s in past::settled().into_iter().chain(interleaved::settled()) {
        let shape = s.rect.map_or([s.words[5], s.words[6]], |[_, _, w, h]| [h, w]);
        let wanted = s.wanted.map(|bytes| read(shape, &bytes)).unwrap_or_else(|row| refusal(&row).to_vec());
        list.handed(&s.words, &s.table, &s.file, s.at, s.rect, wanted);
    }
    let count = list.written() + count;
    let mut case = 0;
    while list.written() < count {
        case += 1;
        let often = 2 + case as usize / 20_000;
        let f = if case % 2 == 0 { make::small(seed, case) } else { make::listed(seed, case) };
        let w = walk(&f);
        let text = line('p', &[], &f).len();
        if w.circle || 2000 < f.len() || 940 < text {
            continue;
        }
        let Some(Ok(o)) = check::by_original(&mut memory, &f, &w).answer else { continue };
        // One full page of one channel is had from a short file. A series of several planes takes a longer one.
        let pictures = o.words[3] * o.words[4] * o.words[7] * o.words[17];
        if (pictures == 1 && 380 < text) || (o.words[17] == 1 && 720 < text) || TABLE < o.table.len() {
            continue;
        }
        list.files += 1;
        let mark = list.mark();
        let mut r = Random::of_case(seed, case, 17);
        for _ in 0..2 {
            list.picture(&f, &o, place(&o, &mut r), None, often);
        }
        for _ in 0..4 {
            let at = place(&o, &mut r);
            let rect = rectangle(o.words[6], o.words[5], &mut r);
            list.picture(&f, &o, at, Some(rect), often);
        }
        // a file that the host's own rules refuse has no pictures
        if bits::found(&f, &w).refusal.is_some() {
            list.back(mark);
        }
    }
}
