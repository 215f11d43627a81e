// Writes a list of small files with the original's answers, in the form of tools/record/README.md.
use crate::bits;
use crate::check::{self, rule};
use crate::large;
use crate::make;
use crate::pictures;
use crate::random::Random;
use crate::rules;
use crate::walk::{number, walk, Walk};
use original::probe::{self, Channel, Judged, Memory, Opened, Refused};
use std::collections::BTreeMap;

// A line: a letter, numbers in hexadecimal, a colon and bytes. `*NNBB` is NN bytes BB.
pub fn line(kind: char, numbers: &[usize], bytes: &[u8]) -> String {
    let mut s = kind.to_string();
    for n in numbers {
        s.push_str(&format!(" {n:x}"));
    }
    s.push(':');
    let mut i = 0;
    while i < bytes.len() {
        let run = bytes[i..].iter().take(255).take_while(|&&b| b == bytes[i]).count();
        if run < 3 {
            s.push_str(&format!("{:02x}", bytes[i]));
            i += 1;
        } else {
            s.push_str(&format!("*{run:02x}{:02x}", bytes[i]));
            i += run;
        }
    }
    s.push('\n');
    s
}

pub fn refusal(row: &[usize; 5]) -> &[usize] {
    match row[0] {
        4 | 5 => &row[..3],
        6 => &row[..],
        _ => &row[..1],
    }
}

// The most words of a table that the replay of openings lends.
const TABLE: usize = 64;

// What opening should answer by the original. A file that neither the original nor a twin judges is in no list.
pub fn by_original(memory: &mut Memory, file: &[u8], w: &Walk) -> Result<Opened, Refused> {
    check::by_original(memory, file, w).answer.expect("a file that the original or a twin's answer judges")
}

// How far a list has come.
pub struct Mark {
    text: usize,
    files: usize,
    lines: BTreeMap<String, usize>,
    most: [usize; 2],
}

pub struct List {
    memory: Memory,
    pub random: Random,
    pub text: String,
    pub files: usize,
    lines: BTreeMap<String, usize>,
    seen: BTreeMap<String, usize>,
    most_numbers: usize,
    most_bytes: usize,
}

impl List {
    pub fn push(&mut self, kind: char, numbers: &[usize], bytes: &[u8]) {
        self.most_numbers = self.most_numbers.max(numbers.len());
        self.most_bytes = self.most_bytes.max(bytes.len());
        self.text.push_str(&line(kind, numbers, bytes));
    }

    pub fn count(&mut self, what: String) {
        *self.lines.entry(what).or_default() += 1;
    }

    pub fn written(&self) -> usize {
        self.lines.values().sum()
    }

    // Whether something of this was seen less often. If so, all of it is seen once more.
    pub fn wanted(&mut self, shown: Vec<String>, often: usize) -> bool {
        let wanted = shown.iter().any(|s| self.seen.get(s).copied().unwrap_or(0) < often);
        if wanted {
            for s in shown {
                *self.seen.entry(s).or_default() += 1;
            }
        }
        wanted
    }

    pub fn mark(&self) -> Mark {
        Mark { text: self.text.len(), files: self.files, lines: self.lines.clone(), most: [self.most_numbers, self.most_bytes] }
    }

    // Takes back what was written since. What was drawn stays drawn, so the lines that follow are the same as if it stood.
    pub fn back(&mut self, mark: Mark) {
        self.text.truncate(mark.text);
        self.files = mark.files;
        self.lines = mark.lines;
        [self.most_numbers, self.most_bytes] = mark.most;
    }

    // The lines of a file. Of one that the host's own rules refuse (bits.rs, signs.rs), that refusal takes the place of those that the original
    // would have.
    fn file(&mut self, file: &[u8], w: &Walk) {
        let mark = self.mark();
        self.as_original(file, w);
        if let Some(number) = bits::found(file, w).refusal {
            self.back(mark);
            self.files += 1;
            self.push('o', &[TABLE, number], file);
            self.count(format!("o {number}"));
        }
    }

    // `o ROOM ANSWER:FILE` and, where it opens, `n CHANNEL ROOM ANSWER:FILE`.
    fn as_original(&mut self, file: &[u8], w: &Walk) {
        self.files += 1;
        match by_original(&mut self.memory, file, w) {
            Err(r) => {
                let room = self.random.of(&[0, 1, 8, 64]);
                let mut n = vec![room];
                n.extend(refusal(&r.row));
                self.push('o', &n, file);
                self.count(format!("o {}", r.row[0]));
            }
            Ok(mut o) => {
                complete(&mut o, w, file);
                let need = o.table.len();
                if self.random.chance(20) {
                    let room = self.random.of(&[0, need - 1, need / 2]);
                    self.push('o', &[room, 7, need], file);
                    self.count("o 7".to_string());
                }
                let room = need + self.random.of(&[0, 0, 1, 5]);
                assert!(room <= TABLE, "a table that a replay has no room for");
                let mut n = vec![room, 0, w.visited, need];
                n.extend(o.words);
                n.extend(&o.table);
                self.push('o', &n, file);
                self.count("o 0".to_string());
                self.channels(file, &o);
            }
        }
    }

    // A file that stands for a rule: its answer, and every channel's where there is a channel block.
    fn rule(&mut self, file: &[u8], w: &Walk) {
        self.files += 1;
        let answer = check::judged(&mut self.memory, file, w, &bits::found(file, w)).answer;
        match answer.expect("a file that the rules, the original or a twin's answer judges") {
            Err(r) => {
                self.push('o', &[&[TABLE], refusal(&r.row)].concat(), file);
                self.count(format!("o {}", r.row[0]));
            }
            Ok(mut o) => {
                complete(&mut o, w, file);
                self.push('o', &[&[TABLE, 0, w.visited, o.table.len()][..], &o.words, &o.table].concat(), file);
                self.count("o 0".to_string());
                if o.words[15] == 1 {
                    for (i, c) in o.channels.iter().enumerate() {
                        self.found(file, i, c, 64);
                    }
                }
            }
        }
    }

    // `w PLACE VALUE CHANNEL ROOM ANSWER:FILE`: a lookup with another word in the description that opening gives.
    fn described(&mut self) {
        let (file, list) = rules::described();
        let words = probe::open(&mut self.memory, &file).unwrap_or_else(|r| panic!("a file of rules.rs: {}", r.text)).words;
        for (place, value, is_description) in list {
            let mut other = words;
            other[place] = value;
            // the second channel only where their number is another
            for channel in 0..1 + (place == 3) as usize {
                let said = if !is_description {
                    vec![2]
                } else {
                    let o = probe::handed(&mut self.memory, &file, &other, &[]).expect("a description that the original can be given");
                    o.channels.get(channel).map_or(vec![6, 0, 0, channel, 0], told)
                };
                self.count(format!("w {}", said[0]));
                self.push('w', &[vec![place, value, channel, 64], said].concat(), &file);
            }
        }
        // a colour's place that passes 64 bits, where the original panics: no colour (docs/DIFFERENCES.md)
        self.count("w 0".to_string());
        self.push('w', &[3, usize::MAX, 1 << 62, 64, 0, 0, 0, 0, 0, 0, 0], &file);
    }

    // `n CHANNEL ROOM 0 ..` of a channel that is there
    fn found(&mut self, file: &[u8], channel: usize, c: &Channel, room: usize) {
        self.push('n', &[vec![channel, room], told(c)].concat(), file);
        self.count("n 0".to_string());
    }

    fn channels(&mut self, file: &[u8], o: &Opened) {
        let some = o.channels.iter().any(|c| c.colour.is_some() || c.name.is_some());
        if some {
            for (i, c) in o.channels.iter().enumerate().take(4) {
                let name = c.name.as_deref().unwrap_or("").as_bytes();
                if !name.is_empty() && self.random.chance(25) {
                    let room = self.random.of(&[0, name.len() - 1]);
                    self.push('n', &[i, room, 7, name.len()], file);
                    self.count("n 7".to_string());
                }
                let room = name.len() + self.random.of(&[0, 0, 1, 9]);
                self.found(file, i, c, room);
            }
        }
        if (some && self.random.chance(30)) || (!some && self.random.chance(8)) {
            let c = o.channels.len();
            let channel = self.random.of(&[c, c + 1, usize::MAX]);
            let room = self.random.of(&[0, 4]);
            self.push('n', &[channel, room, 6, 0, 0, channel, 0], file);
            self.count("n 6".to_string());
        }
        if !some && self.random.chance(15) {
            self.push('n', &[0, 0, 0, 0, 0, 0, 0, 0, 0], file);
            self.count("n 0".to_string());
        }
    }
}

// 0, whether there is a colour and its bytes, whether there is a name, its length and its bytes
fn told(c: &Channel) -> Vec<usize> {
    let name = c.name.as_deref().unwrap_or("").as_bytes();
    let [r, g, b] = c.colour.unwrap_or([0; 3]).map(usize::from);
    let mut n = vec![0, c.colour.is_some() as usize, r, g, b, c.name.is_some() as usize, name.len()];
    n.extend(name.iter().map(|&b| b as usize));
    n
}

fn complete(o: &mut Opened, w: &Walk, file: &[u8]) {
    if o.note.is_some() {
        let bits = w.z_step(file).expect("a note without a step");
        assert_eq!(probe::note_of(bits), o.note);
        o.words[14] = bits as usize;
    }
}

// How the entries that the reader uses are written: type, in line or not, several values, repeated; the CZ entry on which
// directory, and how many there are.
fn written(file: &[u8], w: &Walk) -> Option<Vec<String>> {
    let mut v = Vec::new();
    let mut at = number(file, 4, 4, w.big)? as usize;
    let mut cz = 0;
    let mut directory = 0;
    while at != 0 {
        let count = number(file, at, 2, w.big)? as usize;
        let mut tags = Vec::new();
        for i in 0..count {
            let e = at + 2 + 12 * i;
            let tag = number(file, e, 2, w.big)?;
            let ty = number(file, e + 2, 2, w.big)?;
            let n = number(file, e + 4, 4, w.big)?;
            if ![254, 256, 257, 258, 259, 273, 277, 279, 284, 339, 34412].contains(&tag) {
                v.push("another tag".to_string());
                continue;
            }
            let size = [0, 1, 1, 2, 4, 8, 1, 1, 2, 4, 8, 4, 8].get(ty as usize).copied().unwrap_or(0);
            v.push(format!("tag {tag} type {ty}"));
            v.push(format!("tag {tag} values {} in line {}", n.min(2), size * n <= 4));
            if tags.contains(&tag) {
                v.push(format!("tag {tag} repeated"));
            }
            tags.push(tag);
            if tag == 34412 {
                cz += 1;
                if cz == 1 {
                    v.push(format!("CZ entry first on directory {}", directory.min(2)));
                }
            }
        }
        directory += 1;
        at = number(file, at + 2 + 12 * count, 4, w.big)? as usize;
    }
    v.push(format!("CZ entries {cz}"));
    v.push(format!("directories {directory}"));
    Some(v)
}

// What a file shows to the original: a refusal's rule, or the features of an accepted one. Files are taken so that each is there several times.
// `None` for a file that nobody judges, and for a long table.
fn shows(memory: &mut Memory, file: &[u8], w: &Walk) -> Option<Vec<String>> {
    let Judged { sort, answer } = check::by_original(memory, file, w);
    let answer = answer?;
    let sort = match (sort.series, sort.interleaved) {
        (false, false) => "",
        (true, false) => "series, ",
        (false, true) => "interleaved, ",
        (true, true) => "series, interleaved, ",
    };
    if answer.as_ref().is_ok_and(|o| TABLE < o.table.len() + 5) {
        return None;
    }
    Some(match answer {
        Err(r) => vec![format!("{} {sort}{}", r.row[0], rule(&r.text))],
        Ok(o) => {
            let d = o.words;
            let mut v = vec![
                format!("order {} kind {}", d[0], d[1]),
                format!("{sort}channels {}", d[3].min(3)),
                format!("depth {} scenes {}", d[4].min(3), d[7].min(3)),
                format!("strips {}{}", d[9].min(4), if d[18] == 1 { ", interleaved" } else { "" }),
                format!("pixel {} step {}", d[10], d[13]),
                format!("time points {} depth {} scenes {}", d[17].min(3), d[4].min(2), d[7].min(2)),
                format!("thumbnails {}", w.visited - d[7] * d[17] * d[8]),
                format!("block {} rows {}", d[15], o.whole_rows()),
                format!("declared {}", w.cz.map_or(0, |c| c.1)),
            ];
            for c in &o.channels {
                let n = c.name.as_deref();
                let lossy = n.is_some_and(|n| n.contains('\u{fffd}'));
                let inner = n.is_some_and(|n| n.contains('\0'));
                let len = n.map_or(-1, |n| n.len().min(1) as i64);
                v.push(format!("colour {} name {len} lossy {lossy} inner {inner} block {}", c.colour.is_some(), d[15]));
            }
            v.extend(written(file, w).expect("an accepted file's chain"));
            v
        }
    })
}

// Document 01's small file and its neighbours.
fn g() -> Vec<u8> {
    let mut f = vec![0u8; 118];
    f[..10].copy_from_slice(&[b'I', b'I', 42, 0, 8, 0, 0, 0, 6, 0]);
    let mut entry = |i: usize, tag: u16, ty: u8, count: u8, value: u8| {
        let at = 10 + 12 * i;
        f[at..at + 2].copy_from_slice(&tag.to_le_bytes());
        f[at + 2] = ty;
        f[at + 4] = count;
        f[at + 8] = value;
    };
    for (i, (tag, value)) in [(256, 2), (257, 1), (258, 8), (273, 116), (279, 2)].into_iter().enumerate() {
        entry(i, tag, 3, 1, value);
    }
    entry(5, 34412, 1, 28, 88);
    for (i, n) in [0x0400_494cu32, 28, 2, 1, 1, 1, 1].into_iter().enumerate() {
        f[88 + 4 * i..92 + 4 * i].copy_from_slice(&n.to_le_bytes());
    }
    f[116] = 7;
    f[117] = 9;
    f
}

// The marked cases of opening, and each field of G at its bounds.
fn neighbours() -> Vec<Vec<u8>> {
    let with = |at: usize, bytes: &[u8]| {
        let mut f = g();
        f[at..at + bytes.len()].copy_from_slice(bytes);
        f
    };
    let mut list = vec![
        g(),
        with(92, &[0]),
        with(92, &[27]),
        with(74, &[27]),
        with(104, &[0]),
        with(112, &[2]),
        with(66, &[3]),
        with(66, &[1]),
    ];
    list.extend([
        with(0, b"MM"),
        with(2, &[43]),
        with(4, &[0]),
        with(4, &[117]),
        with(8, &[5]),
        with(8, &[0]),
        with(88, &[0x4d]),
    ]);
    for ty in (0..=14).chain([255]) {
        // every type for a scalar, for a strip array and for the CZ entry
        list.extend([with(12, &[ty]), with(48, &[ty]), with(72, &[ty])]);
    }
    for count in [0, 2, 3, 4, 5] {
        list.extend([with(14, &[count]), with(50, &[count]), with(62, &[count]), with(74, &[count])]);
    }
    for n in [0u32, 0xffff_ffff, 3] {
        for at in [96, 100, 104, 108, 112, 92] {
            list.push(with(at, &n.to_le_bytes()));
        }
    }
    list.push(with(50, &100_000u32.to_le_bytes()));
    list.push(with(50, &100_001u32.to_le_bytes()));
    for n in [0, 1, 7, 8, 9, 10, 85, 86, 87, 88, 115, 116, 117] {
        list.push(g()[..n].to_vec());
    }
    list
}

fn list(seed: u64, part: u64) -> List {
    List {
        memory: Memory::new(),
        random: Random::of_case(seed, part, 13),
        text: String::new(),
        files: 0,
        lines: BTreeMap::new(),
        seen: BTreeMap::new(),
        most_numbers: 0,
        most_bytes: 0,
    }
}

impl List {
    fn save(&self, folder: &str, name: &str) {
        std::fs::create_dir_all(folder).expect("the folder");
        std::fs::write(format!("{folder}/{name}"), &self.text).expect("the list");
        println!("{name}: {} files, {} lines, {} bytes", self.files, self.text.lines().count(), self.text.len());
        println!("  most numbers in a line {}, most bytes of a file {}", self.most_numbers, self.most_bytes);
        for (what, n) in &self.lines {
            println!("{n:>6} {what}");
        }
    }

    fn show(&self, name: &str) {
        println!("what the lines of `{name}` show, and how often:");
        for (what, n) in &self.seen {
            println!("{n:>6} {what}");
        }
    }
}

// Four lists: `open`, whose lines are short; `long`, a few files with names about 1,024 bytes; `rules`, the files of rules.rs;
// `pictures`, planes and rectangles.
pub fn write(folder: &str, seed: u64, count: usize) {
    let mut memory = Memory::new();
    let mut short = list(seed, 0);
    for f in neighbours() {
        let w = walk(&f);
        if !w.circle {
            short.wanted(shows(&mut memory, &f, &w).expect("a neighbour that can be judged"), usize::MAX);
            short.file(&f, &w);
        }
    }
    // Chains that come back on themselves: the original visits a million directories.
    for (name, f) in large::files() {
        if name.contains("circle") {
            short.file(&f, &walk(&f));
        }
    }
    // Small files, each for something that is not there often enough yet.
    let mut case = 0;
    let mut often = 3;
    while short.files < count {
        case += 1;
        if case % 10_000 == 0 {
            often += 1;
        }
        let f = make::small(seed, case);
        let w = walk(&f);
        let text = line('o', &[], &f).len();
        if w.circle || 760 < f.len() || 600 < text {
            continue;
        }
        let Some(s) = shows(&mut memory, &f, &w) else { continue };
        // several scenes want a long CZ block, and a series several pages
        let long = ["scenes 2", "scenes 3", "P*M", "Dimension", "series", "time points 2", "time points 3"];
        if (400 < f.len() || 420 < text) && !s.iter().any(|s| long.iter().any(|part| s.contains(part))) {
            continue;
        }
        if short.wanted(s, often) {
            short.file(&f, &w);
        }
    }
    short.save(folder, "open");

    // A byte repeated is a few letters, so most of these files are short to write down.
    let mut long = list(seed, 1);
    let mut lengths: BTreeMap<usize, usize> = BTreeMap::new();
    let mut case = 0;
    while long.files < 12 {
        case += 1;
        let f = make::listed(seed, case);
        let w = walk(&f);
        if w.circle || 2600 < f.len() || 700 < line('o', &[], &f).len() {
            continue;
        }
        if let Ok(o) = probe::open(&mut memory, &f) {
            let n = o.channels.iter().filter_map(|c| c.name.as_deref()).map(str::len).max().unwrap_or(0);
            let words = o.table.len() + 5;
            drop(o);
            // the name's length in the file is about 1,024: given, or left out
            let stored =
                [1023u32, 1024, 1025].iter().any(|k| f.windows(4).any(|b| b == k.to_le_bytes() || b == k.to_be_bytes()));
            let often = lengths.entry(n.min(2000)).or_default();
            if stored && 1500 < f.len() && *often < 2 && words <= TABLE {
                let mark = long.mark();
                long.file(&f, &w);
                if bits::found(&f, &w).refusal.is_some() {
                    long.back(mark);
                } else {
                    *often += 1;
                }
            }
        }
    }
    long.save(folder, "long");

    let mut rule = list(seed, 3);
    for f in rules::files() {
        rule.rule(&f, &walk(&f));
    }
    rule.described();
    rule.save(folder, "rules");

    let mut calls = list(seed, 2);
    pictures::record(&mut calls, seed, count);
    calls.save(folder, "pictures");
    short.show("open");
    calls.show("pictures");
}
