// Both readers on one file: every answer, every number, every word and byte of lent memory.
use crate::bits;
use crate::interleaved::{self, Wanted};
use crate::lent::Lent;
use crate::make;
use crate::past;
use crate::port::Port;
use crate::random::Random;
use crate::rules;
use crate::signs;
use crate::standin::{CHANNEL_WORDS, DESCRIPTION_WORDS, OPEN_WORDS, PICTURE_WORDS};
use crate::twin::twin;
use crate::walk::{walk, Walk};
use original::probe::{self, Judged, Memory, Opened, Picture, Refused, Sort, PANIC, RESERVE};
use std::collections::BTreeMap;
use std::time::{Duration, Instant};

// The most bytes of a picture. Of a larger one the original reserves nothing.
pub const LIMIT: usize = 1 << 32;

// How many of a sort of call came out how: by the refusal's number, 0 for accepted.
#[derive(Default, Clone)]
pub struct Count(pub [u64; 10]);

impl Count {
    fn add(&mut self, n: usize) {
        self.0[n.min(9)] += 1;
    }

    pub fn sum(&self) -> u64 {
        self.0.iter().sum()
    }
}

// Rectangles on pages past those of the whole-row test, by what document 01 says of them.
#[derive(Default, Clone)]
pub struct Past {
    pub regions: u64,
    pub accepted: u64,
    // of the accepted ones, those that the original refuses
    pub refused_by_original: u64,
    // refused with 2, since a sample isn't there
    pub missing: u64,
}

// Files that state several time points, which the original judges by their twins; and what was accepted of their pictures past t 0.
#[derive(Default, Clone)]
pub struct Series {
    pub opened: u64,
    pub refused: u64,
    // a byte of T or Z is read as something else too: no twin
    pub left_out: u64,
    pub later_planes: u64,
    pub later_regions: u64,
}

// Files of several interleaved channels, which the original judges by their twins; and the pictures and rectangles of interleaved channels.
#[derive(Default, Clone)]
pub struct Interleaved {
    pub opened: u64,
    // of the opened ones, those that are series too
    pub series: u64,
    pub refused: u64,
    // a byte of the channels' number is read as something else too: no twin
    pub left_out: u64,
    pub planes: u64,
    pub regions: u64,
    // calls that the original judged as well as the host, and those that it can't judge
    pub both: u64,
    pub alone: u64,
}

// Files of which the host's rule for the bits of several channels says more than the original: those that it refuses, and those that opened
// with several values on some full page.
#[derive(Default, Clone)]
pub struct Bits {
    pub uneven: u64,
    // a value past the file
    pub past: u64,
    pub in_line: u64,
    pub out_of_line: u64,
}

// Files with values of signed types: those that the host refuses for a negative one, and those that opened, each by a scalar, an array, and
// further values of the bits.
#[derive(Default, Clone)]
pub struct Signs {
    pub negative: [u64; 3],
    pub opened: [u64; 3],
}

#[derive(Default, Clone)]
pub struct Tally {
    pub files: u64,
    pub bytes: u64,
    pub openings: Count,
    pub lookups: Count,
    pub names: u64,
    pub colours: u64,
    pub planes: Count,
    pub regions: Count,
    pub handed: u64,
    pub no_description: u64,
    pub not_handed: u64,
    pub past: Past,
    pub series: Series,
    pub interleaved: Interleaved,
    pub bits: Bits,
    pub signs: Signs,
    pub not_reserved: u64,
    pub circles: u64,
    pub circles_left: u64,
    pub scenes: u64,
    pub thumbnails: u64,
    pub notes: u64,
    pub reasons: BTreeMap<String, u64>,
    pub original: Duration,
    pub port: Duration,
}

pub struct Both {
    pub port: Box<dyn Port>,
    memory: Memory,
    beside: Memory,
    pub tally: Tally,
    // of a hundred accepted files, how many get calls with what doesn't belong together
    pub handed: usize,
    // how many files whose chain comes back on itself are still asked: each takes the original a million visits
    pub circles: u64,
    pub pictures: bool,
    pub tell: bool,
    table: Lent<usize>,
    answer: Lent<usize>,
    name: Lent<u8>,
    out: Lent<u8>,
}

// What opening a file should answer by the original: what it says of the file or of its twin.
pub fn by_original(memory: &mut Memory, file: &[u8], w: &Walk) -> Judged {
    probe::judged(memory, file, |sort| twin(file, w, sort.series, sort.interleaved))
}

// The same by the host's own rules, for the bits of several channels and for negative values, where they refuse the file; otherwise by the
// original.
pub fn judged(memory: &mut Memory, file: &[u8], w: &Walk, bits: &bits::Found) -> Judged {
    match bits.refusal {
        Some(number) => Judged { sort: Sort::default(), answer: Some(Err(bits::refused(number))) },
        None => by_original(memory, file, w),
    }
}

// The original's words for a refusal without its figures: one text for each rule.
pub fn rule(text: &str) -> String {
    let mut out = String::new();
    let mut hex = false;
    for c in text.chars() {
        hex = (hex && c.is_ascii_hexdigit()) || (c == 'x' && out.ends_with('N'));
        if c.is_ascii_digit() || (hex && c != 'x') {
            if !out.ends_with('N') {
                out.push('N');
            }
        } else {
            out.push(c);
        }
    }
    out.truncate(out.char_indices().nth(90).map_or(out.len(), |(i, _)| i));
    out
}

// One word of a description set to a bound; it stays a description.
fn change(r: &mut Random, words: &mut [usize; DESCRIPTION_WORDS], len: usize) {
    let at = r.of(&[0, 1, 2, 2, 3, 3, 4, 5, 5, 6, 6, 7, 8, 8, 9, 9, 16, 17, 17, 18]);
    let n = words[at];
    words[at] = match at {
        0 | 18 => 1 - n,
        1 => r.below(4),
        // the original can be given any number of scenes where a T counts
        7 if (words[17] != 1 || 1 < words[2]) && r.chance(50) => r.of(&[0, 1 << 31, 1 << 32, 1 << 63, usize::MAX]),
        7 => r.of(&[1, 2, 3, n.wrapping_add(1), 0x7fff_ffff, 1 << 20]),
        16 => {
            words[15] = 1;
            r.of(&[
                0,
                1,
                len,
                len.wrapping_sub(20),
                len.wrapping_sub(19),
                n.wrapping_add(1),
                usize::MAX,
                usize::MAX - 11,
                usize::MAX - 12,
                1 << 63,
                1 << 32,
            ])
        }
        _ => r.of(&[
            0,
            1,
            2,
            3,
            n.wrapping_add(1),
            n.wrapping_sub(1),
            n.wrapping_mul(2),
            1 << 16,
            1 << 31,
            1 << 32,
            1 << 33,
            1 << 62,
            1 << 63,
            usize::MAX,
            usize::MAX / 2,
        ]),
    };
}

// The flag turned round, mostly with as many strips of a page as before; or channels and columns that change places, so that interleaved
// samples are of other pixels.
fn regroup(r: &mut Random, words: &mut [usize; DESCRIPTION_WORDS]) {
    if words[18] == 1 && r.chance(30) {
        words.swap(3, 6);
        return;
    }
    words[18] = 1 - words[18];
    if r.chance(75) {
        let (channels, strips) = (words[3], words[9]);
        words[9] = if words[18] == 1 { strips * channels } else { (strips / channels).max(1) };
    }
}

// The strips of a page.
fn strips_of_page(words: &[usize; DESCRIPTION_WORDS]) -> usize {
    if words[18] == 1 { words[9] } else { words[3] * words[9] }
}

// A page's strips made shorter, longer, cut elsewhere or outside the file, which has so many bytes.
fn spoil(r: &mut Random, page: &mut [usize], wide: usize, len: usize) {
    for _ in 0..r.below(3) {
        let at = 2 * r.below(page.len() / 2);
        let (offset, n) = (page[at], page[at + 1]);
        match r.below(8) {
            0 => page[at + 1] = n.saturating_sub(1),
            1 => page[at + 1] = r.of(&[0, n / 2, n.saturating_sub(wide)]),
            2 | 3 => page[at + 1] = r.of(&[n + 1, n + wide, len.saturating_sub(offset)]),
            4 => page[at] = r.below(len),
            5 => page[at] = r.of(&[len.saturating_sub(n), len.saturating_sub(n) + 1, len, usize::MAX, usize::MAX - n]),
            _ => {
                // bytes go over to another strip, so that rows and samples are split
                let (to, k) = (2 * r.below(page.len() / 2), r.below(4).min(n));
                page[at + 1] -= k;
                page[to + 1] += k;
            }
        }
    }
}

// The depth set below the number of Z, or the layout's T below that of the dimensions, or to 0, with the pages of the table kept and
// more of them behind: copies that are spoilt. So the whole-row test runs over fewer pages than can be asked for.
fn shallow(r: &mut Random, words: &mut [usize; DESCRIPTION_WORDS], table: &mut Vec<usize>, len: usize) {
    let page = 2 * strips_of_page(words);
    let pages = table.len() / page;
    // the layout's word that is lowered, the dimension that it may then be below, and the layout's other word
    let [lowered, above, other] = r.of(&[[8, 4, 17], [8, 4, 17], [17, 2, 8]]);
    let lower = |r: &mut Random, n: usize| r.of(&[0, 0, n, n / 2, n.saturating_sub(1)]);
    words[lowered] = lower(r, words[lowered]);
    if r.chance(15) {
        words[other] = lower(r, words[other]);
    }
    if pages == 0 {
        return;
    }
    table.truncate(pages * page);
    for _ in 0..r.below(4) {
        let from = r.below(pages) * page;
        let mut copy = table[from..from + page].to_vec();
        spoil(r, &mut copy, words[6], len);
        table.extend(copy);
        words[above] += 1;
    }
    words[above] += r.chance(10) as usize;
}

// A length to lend: what is needed, or more.
fn room(r: &mut Random, need: usize) -> usize {
    match r.below(4) {
        0 | 1 => need,
        2 => need + 1 + r.below(3),
        _ => need + r.below(40),
    }
}

// A coordinate in range, or now and then out of it; sometimes in two of its parts, so that it shows which is looked at first.
pub fn place(o: &Opened, r: &mut Random) -> [usize; 4] {
    let counts = [o.words[7], o.words[2], o.words[3], o.words[4]];
    let mut at = counts.map(|n| r.below(n.max(1)));
    if r.chance(15) {
        for _ in 0..r.of(&[1, 1, 2]) {
            let k = r.below(4);
            at[k] = r.of(&[counts[k], counts[k].saturating_add(1), usize::MAX, 1 << 32, 1 << 63]);
        }
    }
    at
}

// A rectangle of a picture: inside, at the edge, past it, overflowing or empty.
pub fn rectangle(wide: usize, high: usize, r: &mut Random) -> [usize; 4] {
    let mut rect = [r.below(wide.max(1)), r.below(high.max(1)), 0, 0];
    rect[2] = 1 + r.below((wide - rect[0].min(wide)).max(1));
    rect[3] = 1 + r.below((high - rect[1].min(high)).max(1));
    if 1 << 20 < wide.saturating_mul(high) && r.chance(70) {
        // a small part of a large picture
        rect[2] = rect[2].min(1 + r.below(300));
        rect[3] = rect[3].min(1 + r.below(40));
    }
    match r.below(12) {
        0 => rect = [0, 0, wide, high],
        1 => rect[2] = wide.saturating_sub(rect[0]),
        2 => rect[3] = high.saturating_sub(rect[1]),
        3 => rect[2] = wide.saturating_sub(rect[0]).saturating_add(1),
        4 => rect[3] = high.saturating_sub(rect[1]).saturating_add(1),
        5 => rect[2 + r.below(2)] = 0,
        6 => rect = [wide, high, 0, 0],
        7 => rect = [wide, rect[1], r.below(2), rect[3]],
        8 => {
            let k = r.below(4);
            let most = usize::MAX - rect[(k + 2) % 4];
            rect[k] = r.of(&[usize::MAX, 1 << 63, most, most.wrapping_add(1)]);
        }
        _ => {}
    }
    rect
}

// The bytes that the original reserves for a picture, or for a rectangle of it.
pub fn reserved(o: &Opened, rect: Option<[usize; 4]>) -> usize {
    let [w, h] = match rect {
        Some([_, _, w, h]) if o.whole_rows() => [w, h],
        _ => [o.words[6], o.words[5]],
    };
    w.saturating_mul(h).saturating_mul([1, 2, 2, 4][o.words[1]])
}

impl Both {
    pub fn new(port: Box<dyn Port>) -> Both {
        let pictures = port.pictures();
        Both {
            port,
            memory: Memory::new(),
            beside: Memory::new(),
            handed: 20,
            tally: Tally::default(),
            circles: 4,
            pictures,
            tell: false,
            table: Lent::default(),
            answer: Lent::default(),
            name: Lent::default(),
            out: Lent::default(),
        }
    }

    // The difference, if there is one.
    pub fn examine(&mut self, file: &[u8], r: &mut Random) -> Option<String> {
        let w = walk(file);
        if w.circle {
            if self.circles == 0 {
                self.tally.circles_left += 1;
                return None;
            }
            self.circles -= 1;
            self.tally.circles += 1;
        }
        self.tally.files += 1;
        self.tally.bytes += file.len() as u64;
        let before = self.memory.took;
        let found = bits::found(file, &w);
        let Judged { sort, answer } = judged(&mut self.memory, file, &w, &found);
        self.tally.original += self.memory.took - before;
        let (series, interleaved, bits) = (&mut self.tally.series, &mut self.tally.interleaved, &mut self.tally.bits);
        bits.uneven += (found.refusal == Some(8)) as u64;
        bits.past += (found.refusal == Some(1)) as u64;
        if let Some(value) = found.negative {
            self.tally.signs.negative[value as usize] += 1;
        }
        match answer {
            None => {
                *if sort.interleaved { &mut interleaved.left_out } else { &mut series.left_out } += 1;
                None
            }
            Some(Err(refused)) => {
                series.refused += sort.series as u64;
                interleaved.refused += sort.interleaved as u64;
                self.refused(file, &refused, r)
            }
            Some(Ok(mut o)) => {
                series.opened += sort.series as u64;
                interleaved.opened += sort.interleaved as u64;
                interleaved.series += (sort.series && sort.interleaved) as u64;
                bits.in_line += found.in_line as u64;
                bits.out_of_line += found.out_of_line as u64;
                let signed = signs::of_signed_types(file, &w).expect("the chain of a file that opens");
                for (count, found) in self.tally.signs.opened.iter_mut().zip(signed) {
                    *count += found as u64;
                }
                self.describe(file, &w, &mut o);
                self.accepted(file, &w, &o, r)
            }
        }
    }

    fn refused(&mut self, file: &[u8], refused: &Refused, r: &mut Random) -> Option<String> {
        *self.tally.reasons.entry(rule(&refused.text)).or_default() += 1;
        if self.tell {
            println!("original: {:?} {}", refused.row, refused.text);
        }
        if refused.row[0] == PANIC {
            return Some("the original panicked on opening".to_string());
        }
        let n = r.of(&[0, 1, 2, 5, 64]);
        self.opening(file, n, &refused.row, &[])
    }

    // The description's Z step where there is a note; and what an accepted file adds to the tally.
    fn describe(&mut self, file: &[u8], w: &Walk, o: &mut Opened) {
        if o.note.is_some() {
            // The stated step is read by the walker, and must give the original's note.
            let bits = w.z_step(file).expect("a note without a step");
            assert_eq!(probe::note_of(bits), o.note);
            o.words[14] = bits as usize;
            self.tally.notes += 1;
        }
        self.tally.scenes += (1 < o.words[7]) as u64;
        self.tally.thumbnails += (o.words[7] * o.words[17] * o.words[8] < w.visited) as u64;
        if self.tell {
            println!("original: visited {} description {:x?}", w.visited, o.words);
            println!("table {:x?}", &o.table[..o.table.len().min(200)]);
        }
    }

    fn accepted(&mut self, file: &[u8], w: &Walk, o: &Opened, r: &mut Random) -> Option<String> {
        let mut words = vec![0, w.visited, o.table.len()];
        words.extend(o.words);
        let need = o.table.len();
        let n = room(r, need);
        if let Some(d) = self.opening(file, n, &words, &o.table) {
            return Some(d);
        }
        if r.chance(25) {
            let any = r.below(need);
            let n = r.of(&[0, need - 1, need / 2, any]);
            if let Some(d) = self.opening(file, n, &[7, need], &[]) {
                return Some(d);
            }
        }
        if let Some(d) = self.lookups(file, o, r) {
            return Some(d);
        }
        if self.pictures {
            if let Some(d) = self.planes(file, o, r).or_else(|| self.regions(file, o, r)) {
                return Some(d);
            }
        }
        if r.chance(self.handed) {
            return self.hand_in(file, o, r).map(|d| format!("handed in, {d}"));
        }
        None
    }

    // A description and a table with a few words changed, now and then over another file. Each call is answered from what is given.
    fn hand_in(&mut self, file: &[u8], o: &Opened, r: &mut Random) -> Option<String> {
        let other = if r.chance(25) { make::base(7, r.below(1000) as u64) } else { file.to_vec() };
        let mut words = o.words;
        let mut table = o.table.clone();
        table.truncate(400);
        let shallower = r.chance(40);
        if shallower {
            shallow(r, &mut words, &mut table, other.len());
        }
        let regrouped = r.chance(if shallower || words[3] == 1 { 8 } else { 30 });
        if regrouped {
            regroup(r, &mut words);
        }
        if (!shallower && !regrouped) || r.chance(30) {
            for _ in 0..1 + r.below(2) {
                change(r, &mut words, other.len());
            }
        }
        if r.chance(if shallower || regrouped { 10 } else { 40 }) {
            match r.below(3) {
                0 => table.truncate(r.below(table.len() + 1)),
                1 => table.extend((0..1 + r.below(6)).map(|i| [12, 2][i % 2])),
                _ => {
                    let at = r.below(table.len());
                    let n = other.len();
                    table[at] =
                        r.of(&[n, n - 1, n + 1, 0, 1, usize::MAX, usize::MAX - 1, 1 << 63, 1 << 32, table[at].wrapping_add(1)]);
                }
            }
        }
        if r.chance(8) {
            // words that are no description: 2 before anything else
            let stated = words[10] == 1;
            let sorts: &[(usize, usize)] = if stated {
                &[
                    (0, 2),
                    (1, 4),
                    (10, 2),
                    (11, 1 << 32),
                    (12, 0x7fc0_0000),
                    (12, 0xff80_0001),
                    (13, 4),
                    (11, usize::MAX),
                    (15, 2),
                    (18, 2),
                    (18, usize::MAX),
                ]
            } else {
                &[(0, 2), (0, usize::MAX), (1, 4), (1, 1 << 32), (10, 2), (15, 2), (15, usize::MAX), (18, 2), (18, 1 << 32)]
            };
            let (at, n) = r.of(sorts);
            words[at] = n;
            self.tally.no_description += 1;
            let place = [0, 0, 0, r.below(2)];
            let room = r.of(&[0, 4, 40]);
            let refusal = [2, 0, 0, 0, 0];
            let mut d = self.lookup(&other, &words, place[3], room, &refusal, &[]);
            if d.is_none() && self.pictures {
                let rect = r.of(&[None, Some([0, 0, 1, 1]), Some([0, 0, 0, 0])]);
                d = self.samples(&other, &words, &table, place, rect, room, &refusal, &[]);
            }
            return d;
        }
        let mut beside = std::mem::take(&mut self.beside);
        let made = probe::handed(&mut beside, &other, &words, &table);
        let mut d = None;
        if let Some(o) = &made {
            self.tally.handed += 1;
            d = self.lookups(&other, o, r);
            if d.is_none() && self.pictures {
                d = self.planes(&other, o, r).or_else(|| self.regions(&other, o, r));
            }
        } else {
            self.tally.not_handed += 1;
        }
        drop(made);
        self.beside = beside;
        d.map(|d| format!("{d}, words {words:x?}, table {table:x?}, file {}", crate::hex(&other)))
    }

    fn opening(&mut self, file: &[u8], room: usize, wanted: &[usize], written: &[usize]) -> Option<String> {
        let mut words = [0; OPEN_WORDS];
        words[..wanted.len()].copy_from_slice(wanted);
        let table = self.table.lend(room);
        let answer = <&mut [usize; OPEN_WORDS]>::try_from(self.answer.lend(OPEN_WORDS)).unwrap();
        let start = Instant::now();
        let n = self.port.open(file, table, answer);
        self.tally.port += start.elapsed();
        self.tally.openings.add(words[0]);
        self.judge(&format!("open, table of {room} words"), n, &words).or_else(|| {
            (!self.table.holds(written)).then(|| format!("open, table of {room} words: table {}", self.table.fault(written)))
        })
    }

    fn judge(&self, call: &str, n: usize, words: &[usize]) -> Option<String> {
        if self.tell {
            println!("{call}\n    wanted {words:x?}\n    port   {:x?} returned {n}", self.answer.look());
        }
        if n != words[0] || !self.answer.holds(words) {
            return Some(format!("{call}: wanted {words:x?}, found {:x?} returned {n:x}", self.answer.look()));
        }
        None
    }

    fn lookups(&mut self, file: &[u8], o: &Opened, r: &mut Random) -> Option<String> {
        let c = o.words[3];
        let mut list: Vec<usize> = match c {
            0..=4 => (0..c).collect(),
            n if probe::CHANNELS < n && o.channels.is_empty() => Vec::new(),
            _ => vec![0, c - 1, r.below(c), r.below(c)],
        };
        if r.chance(30) {
            let most = c.saturating_add(1);
            list.push(r.of(&[c, most, usize::MAX, c.max(1 << 32), c.max(1 << 62)]));
        }
        for channel in list {
            let Some(found) = o.channels.get(channel) else {
                let n = r.of(&[0, 3, 3072]);
                if let Some(d) = self.lookup(file, &o.words, channel, n, &[6, 0, 0, channel, 0], &[]) {
                    return Some(d);
                }
                continue;
            };
            let name = found.name.as_deref().unwrap_or("").as_bytes();
            self.tally.names += found.name.is_some() as u64;
            self.tally.colours += found.colour.is_some() as u64;
            let [red, green, blue] = found.colour.unwrap_or([0; 3]).map(usize::from);
            let words = [0, found.colour.is_some() as usize, red, green, blue, found.name.is_some() as usize, name.len(), 0];
            let n = if r.chance(5) { 3072 } else { room(r, name.len()) };
            let mut d = self.lookup(file, &o.words, channel, n, &words, name);
            if d.is_none() && !name.is_empty() && r.chance(40) {
                let any = r.below(name.len());
                let n = r.of(&[0, name.len() - 1, any]);
                d = self.lookup(file, &o.words, channel, n, &[7, name.len()], &[]);
            }
            if d.is_some() {
                return d;
            }
        }
        None
    }

    fn lookup(
        &mut self,
        file: &[u8],
        description: &[usize; DESCRIPTION_WORDS],
        channel: usize,
        room: usize,
        wanted: &[usize],
        written: &[u8],
    ) -> Option<String> {
        let mut words = [0; CHANNEL_WORDS];
        words[..wanted.len()].copy_from_slice(wanted);
        let name = self.name.lend(room);
        let answer = <&mut [usize; CHANNEL_WORDS]>::try_from(self.answer.lend(CHANNEL_WORDS)).unwrap();
        let start = Instant::now();
        let n = self.port.channel(file, description, channel, name, answer);
        self.tally.port += start.elapsed();
        self.tally.lookups.add(words[0]);
        let call = || format!("channel {channel}, name of {room} bytes");
        if n != words[0] || !self.answer.holds(&words) || self.tell {
            if let Some(d) = self.judge(&call(), n, &words) {
                return Some(d);
            }
        }
        (!self.name.holds(written)).then(|| format!("{}: name {}", call(), self.name.fault(written)))
    }

    fn planes(&mut self, file: &[u8], o: &Opened, r: &mut Random) -> Option<String> {
        let size = reserved(o, None);
        let counts = [o.words[7], o.words[2], o.words[3], o.words[4]];
        let mut list = Vec::new();
        let all = counts.iter().fold(1usize, |n, &k| n.saturating_mul(k));
        if (1..=4).contains(&all) {
            let [_, times, c, z] = counts;
            list.extend((0..all).map(|n| [n / z / c / times, n / z / c % times, n / z % c, n % z]));
            if r.chance(40) {
                list.push(place(o, r));
            }
        } else {
            list.extend((0..3).map(|_| place(o, r)));
        }
        for at in list {
            if o.words[18] == 0 && RESERVE < size && size <= LIMIT {
                self.tally.not_reserved += 1;
                continue;
            }
            if let Some(d) = self.picture(file, o, at, None, r) {
                return Some(d);
            }
        }
        None
    }

    fn regions(&mut self, file: &[u8], o: &Opened, r: &mut Random) -> Option<String> {
        let (high, wide) = (o.words[5], o.words[6]);
        let often = if file.len() < 100_000 { 3 } else { 40 };
        for _ in 0..often {
            let at = place(o, r);
            let rect = rectangle(wide, high, r);
            let size = reserved(o, Some(rect));
            if o.words[18] == 0 && RESERVE < size && size <= LIMIT {
                self.tally.not_reserved += 1;
                continue;
            }
            if let Some(d) = self.picture(file, o, at, Some(rect), r) {
                return Some(d);
            }
        }
        None
    }

    fn picture(&mut self, file: &[u8], o: &Opened, at: [usize; 4], rect: Option<[usize; 4]>, r: &mut Random) -> Option<String> {
        let start = Instant::now();
        let found = if o.words[18] == 1 {
            match interleaved::wanted(o, file, at, rect) {
                Ok(Wanted::Answer(found, both)) => {
                    let tally = &mut self.tally.interleaved;
                    *if both { &mut tally.both } else { &mut tally.alone } += 1;
                    found
                }
                Ok(Wanted::Large) => {
                    self.tally.not_reserved += 1;
                    return None;
                }
                Err(d) => return Some(d),
            }
        } else {
            rect.map_or_else(|| o.plane(at), |rect| o.region(at, rect))
        };
        self.tally.original += start.elapsed();
        let found = match rect {
            Some(rect) if o.whole_rows() && past::decides(&o.words, at, rect) => match self.past(file, o, at, rect, found) {
                Ok(wanted) => wanted,
                Err(d) => return Some(d),
            },
            _ => found,
        };
        match found {
            Err(refused) if refused.row[0] == PANIC => Some(format!("the original panicked: {at:?} {rect:?}")),
            Err(refused) => {
                let n = r.of(&[0, 1, 16, 200]);
                self.samples(file, &o.words, &o.table, at, rect, n, &refused.row, &[])
            }
            Ok(p) => {
                let need = p.bytes.len();
                let n = room(r, need);
                let words = [0, p.height, p.width, need, 0];
                let mut d = self.samples(file, &o.words, &o.table, at, rect, n, &words, &p.bytes);
                if d.is_none() && need != 0 && r.chance(20) {
                    let any = r.below(need);
                    let n = r.of(&[0, need - 1, any]);
                    d = self.samples(file, &o.words, &o.table, at, rect, n, &[7, need, 0, 0, 0], &[]);
                }
                d
            }
        }
    }

    // What is wanted of a rectangle on a page past those of the whole-row test. It may differ from the original's answer only where the
    // original refuses with 2, and is an acceptance there.
    fn past(
        &mut self,
        file: &[u8],
        o: &Opened,
        at: [usize; 4],
        rect: [usize; 4],
        found: Result<Picture, Refused>,
    ) -> Result<Result<Picture, Refused>, String> {
        let reckoned = past::region(&o.words, &o.table, file, at, rect);
        let tally = &mut self.tally.past;
        tally.regions += 1;
        tally.missing += matches!(reckoned, past::Found::Missing) as u64;
        let wanted = match reckoned.answer() {
            Ok(bytes) => {
                tally.accepted += 1;
                tally.refused_by_original += found.is_err() as u64;
                Ok(Picture { height: rect[3], width: rect[2], bytes })
            }
            Err(row) => Err(Refused { row, text: "past the tested pages".to_string() }),
        };
        let agree = match (&wanted, &found) {
            (Ok(a), Ok(b)) => a.bytes == b.bytes && (a.height, a.width) == (b.height, b.width),
            (Err(a), Err(b)) => a.row == b.row,
            (Ok(_), Err(b)) => b.row[0] == 2,
            (Err(_), Ok(_)) => false,
        };
        let said = |f: &Result<Picture, Refused>| match f {
            Ok(p) => format!("accepted {:x?}", p.bytes),
            Err(r) => format!("{:?} {}", r.row, r.text),
        };
        if self.tell {
            println!("past the tested pages: host {}, original {}", said(&wanted), said(&found));
        }
        if agree {
            Ok(wanted)
        } else {
            Err(format!("region {at:?} {rect:?}: the host says {}, the original {}", said(&wanted), said(&found)))
        }
    }

    // The files whose bits or signs settle the number that opening answers: the host must say it, and so must the port.
    pub fn settled_openings(&mut self) -> Option<String> {
        self.settled_as("bits", rules::bits()).or_else(|| self.settled_as("signs", rules::signs()))
    }

    fn settled_as(&mut self, what: &str, list: rules::Answered) -> Option<String> {
        for (i, (file, wanted)) in list.into_iter().enumerate() {
            // a chain that comes back on itself is asked too
            self.circles = 1;
            let w = walk(&file);
            let found = bits::found(&file, &w);
            let said = match judged(&mut self.memory, &file, &w, &found).answer {
                Some(Ok(_)) => Some(0),
                Some(Err(refused)) => Some(refused.row[0]),
                None => None,
            };
            let d = if said != Some(wanted) {
                Some(format!("the host says {said:?}, not {wanted}"))
            } else {
                self.examine(&file, &mut Random::of_case(0, i as u64, 0))
            };
            if let Some(d) = d {
                return Some(format!("settled {what} {i}: {d}, file {}", crate::hex(&file)));
            }
        }
        None
    }

    // The inputs whose answers are settled: the host must say them, and so must the port.
    pub fn settled(&mut self) -> Option<String> {
        for case in past::settled().into_iter().chain(interleaved::settled()) {
            let asked = format!("words {:x?}, table {:x?}, at {:?}, {:?}", case.words, case.table, case.at, case.rect);
            let mut beside = std::mem::take(&mut self.beside);
            let made = probe::handed(&mut beside, &case.file, &case.words, &case.table).expect("a reader");
            let past = made.whole_rows() && case.rect.is_some_and(|rect| past::decides(&case.words, case.at, rect));
            let bytes = |found: Result<Picture, Refused>| found.map(|p| p.bytes).map_err(|r| r.row);
            let said = match case.rect {
                _ if case.words[18] == 1 => match interleaved::wanted(&made, &case.file, case.at, case.rect) {
                    Ok(Wanted::Answer(found, _)) => bytes(found),
                    Ok(Wanted::Large) => unreachable!("a large answer that is settled"),
                    Err(d) => return Some(format!("settled, {asked}: {d}")),
                },
                Some(rect) if past => past::region(&case.words, &case.table, &case.file, case.at, rect).answer(),
                Some(rect) => bytes(made.region(case.at, rect)),
                None => bytes(made.plane(case.at)),
            };
            let d = if past != case.past || said != case.wanted {
                Some(format!("the host says {said:?}, past the tested pages {past}"))
            } else {
                self.picture(&case.file, &made, case.at, case.rect, &mut Random::of_case(0, 0, 0))
            };
            drop(made);
            self.beside = beside;
            if let Some(d) = d {
                return Some(format!("settled, {asked}: {d}"));
            }
        }
        None
    }

    #[allow(clippy::too_many_arguments)]
    fn samples(
        &mut self,
        file: &[u8],
        description: &[usize; DESCRIPTION_WORDS],
        table: &[usize],
        at: [usize; 4],
        rect: Option<[usize; 4]>,
        room: usize,
        words: &[usize; PICTURE_WORDS],
        written: &[u8],
    ) -> Option<String> {
        let out = self.out.lend(room);
        let answer = <&mut [usize; PICTURE_WORDS]>::try_from(self.answer.lend(PICTURE_WORDS)).unwrap();
        let start = Instant::now();
        let n = self.port.picture(file, description, table, at, rect, out, answer);
        self.tally.port += start.elapsed();
        if rect.is_some() { &mut self.tally.regions } else { &mut self.tally.planes }.add(words[0]);
        if words[0] == 0 && at[1] != 0 {
            let series = &mut self.tally.series;
            *if rect.is_some() { &mut series.later_regions } else { &mut series.later_planes } += 1;
        }
        if words[0] == 0 && description[18] == 1 {
            let interleaved = &mut self.tally.interleaved;
            *if rect.is_some() { &mut interleaved.regions } else { &mut interleaved.planes } += 1;
        }
        let call = || match rect {
            None => format!("plane {at:?}, buffer of {room} bytes"),
            Some(rect) => format!("region {at:?} {rect:?}, buffer of {room} bytes"),
        };
        if n != words[0] || !self.answer.holds(words) || self.tell {
            if let Some(d) = self.judge(&call(), n, words) {
                return Some(d);
            }
        }
        (!self.out.holds(written)).then(|| format!("{}: buffer {}", call(), self.out.fault(written)))
    }
}
