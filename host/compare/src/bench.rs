// Times of this reader's library and of the original, on the same files in one run. Each time is the least of several runs, taken in
// turn, so that the ratios say more than the times.
use crate::large::{self, File};
use crate::port::Port;
use crate::standin::{DESCRIPTION_WORDS, OPEN_WORDS, PICTURE_WORDS};
use original::probe::{self, Memory};
use std::time::{Duration, Instant};

const RUNS: usize = 9;

struct Pages {
    big: bool,
    width: u64,
    height: u64,
    // 1, 2 or 4 bytes a sample
    size: u64,
    pages: u64,
    strips: u64,
}

// A file of so many pages of one channel, each of so many strips. All pages share the bytes of their strips.
fn file(p: &Pages) -> Vec<u8> {
    let each = p.height / p.strips * p.width * p.size;
    let directory = 2 + 12 * 8 + 4;
    let arrays = 8 + p.pages * directory;
    let cz = arrays + 8 * p.strips;
    let samples = cz + 28;
    let mut f = File::new(p.big, (samples + p.width * p.height * p.size) as usize);
    for page in 0..p.pages {
        let at = (8 + page * directory) as usize;
        f.put(at, 8, 2);
        f.entry(at + 2, 256, 4, 1, p.width);
        f.entry(at + 14, 257, 4, 1, p.height);
        f.entry(at + 26, 258, 3, 1, 8 * p.size);
        f.entry(at + 38, 259, 3, 1, 1);
        let (offsets, counts) = if p.strips == 1 { (samples, each) } else { (arrays, arrays + 4 * p.strips) };
        f.entry(at + 50, 273, 4, p.strips, offsets);
        f.entry(at + 62, 279, 4, p.strips, counts);
        f.entry(at + 74, 339, 3, 1, if p.size == 4 { 3 } else { 1 });
        f.entry(at + 86, 34412, 1, 28, cz);
        f.put(at + 98, if page + 1 < p.pages { 8 + (page + 1) * directory } else { 0 }, 4);
    }
    for s in 0..p.strips {
        f.put((arrays + 4 * s) as usize, samples + s * each, 4);
        f.put((arrays + 4 * (p.strips + s)) as usize, each, 4);
    }
    f.cz(cz as usize, [p.width, p.height, p.pages, 1, 1]);
    for (i, b) in f.bytes[samples as usize..].iter_mut().enumerate() {
        *b = (i * 31 + i / 251) as u8;
    }
    f.bytes
}

fn least(times: &[Duration]) -> f64 {
    times.iter().min().map_or(0.0, |t| t.as_secs_f64() * 1e3)
}

fn line(what: &str, original: &[Duration], port: &[Duration], copy: &[Duration]) {
    let (o, p) = (least(original), least(port));
    let digits = if o < p / 10.0 { 5 } else { 2 };
    print!("{what:<44} original {o:>9.3} ms   this reader {p:>9.3} ms   {:>6.digits$} times as fast", o / p);
    if !copy.is_empty() {
        print!("   memcpy {:>9.3} ms   {:>5.2} of its speed", least(copy), least(copy) / p);
    }
    println!();
}

// Opens with both, and then times a picture or a rectangle of it.
fn picture(port: &mut dyn Port, what: &str, p: &Pages, rect: Option<[usize; 4]>) {
    let bytes = file(p);
    let mut memory = Memory::new();
    let opened = probe::open(&mut memory, &bytes).unwrap_or_else(|r| panic!("{what}: {}", r.text));
    let mut table = vec![0; (2 * p.pages * p.strips) as usize];
    let mut answer = [0; OPEN_WORDS];
    assert_eq!(port.open(&bytes, &mut table, &mut answer), 0);
    let mut description = [0; DESCRIPTION_WORDS];
    description.copy_from_slice(&answer[3..]);
    let at = [0, 0, 0, (p.pages - 1) as usize];
    let [_, _, w, h] = rect.unwrap_or([0, 0, p.width as usize, p.height as usize]);
    let mut out = vec![1u8; w * h * p.size as usize];
    let (mut original, mut ours, mut copy) = (vec![], vec![], vec![]);
    for _ in 0..RUNS {
        original.push(opened.timed(at, rect));
        let mut a = [0; PICTURE_WORDS];
        let start = Instant::now();
        let n = port.picture(&bytes, &description, &table, at, rect, &mut out, &mut a);
        ours.push(start.elapsed());
        assert_eq!(n, 0);
        let from = bytes.len() - out.len();
        let start = Instant::now();
        out.copy_from_slice(std::hint::black_box(&bytes[from..]));
        copy.push(start.elapsed());
        std::hint::black_box(&out);
    }
    line(what, &original, &ours, if rect.is_none() { &copy } else { &[] });
}

// So many pages of several channels of 8 bits, with a value of BitsPerSample for each channel out of line, and a strip for each. All pages
// share the values and the strip arrays. Without a CZ entry, and then with one strip, the file is refused after its last page.
fn channels(pages: u64, channels: u64, cz: bool) -> Vec<u8> {
    let strips = if cz { channels } else { 1 };
    let directory = 2 + 12 * 8 + 4;
    let bits = 8 + pages * directory;
    let arrays = bits + 2 * channels;
    let block = arrays + 8 * strips;
    let mut f = File::new(false, (block + 28) as usize);
    for page in 0..pages {
        let at = (8 + page * directory) as usize;
        f.put(at, 8, 2);
        f.entry(at + 2, 256, 4, 1, 1);
        f.entry(at + 14, 257, 4, 1, 1);
        f.entry(at + 26, 258, 3, channels, bits);
        f.entry(at + 38, 273, 4, strips, if strips == 1 { 8 } else { arrays });
        f.entry(at + 50, 277, 3, 1, channels);
        f.entry(at + 62, 279, 4, strips, if strips == 1 { 1 } else { arrays + 4 * strips });
        f.entry(at + 74, 284, 3, 1, 2);
        f.entry(at + 86, if cz { 34412 } else { 34411 }, 1, 28, block);
        f.put(at + 98, if page + 1 < pages { 8 + (page + 1) * directory } else { 0 }, 4);
    }
    for i in 0..channels {
        f.put((bits + 2 * i) as usize, 8, 2);
    }
    for i in 0..strips {
        f.put((arrays + 4 * i) as usize, 8, 4);
        f.put((arrays + 4 * (strips + i)) as usize, 1, 4);
    }
    f.cz(block as usize, [1, 1, pages, channels, 1]);
    f.bytes
}

fn opening(port: &mut dyn Port, what: &str, bytes: &[u8], words: u64) {
    let mut memory = Memory::new();
    let mut table = vec![0; words as usize];
    let (mut original, mut ours) = (vec![], vec![]);
    for _ in 0..RUNS {
        let (took, number) = probe::timed_open(&mut memory, bytes);
        assert_eq!(number, 0);
        original.push(took);
        let mut answer = [0; OPEN_WORDS];
        let start = Instant::now();
        let n = port.open(bytes, &mut table, &mut answer);
        ours.push(start.elapsed());
        assert_eq!(n, 0);
    }
    line(what, &original, &ours, &[]);
}

pub fn run(port: &mut dyn Port) {
    println!("port: {}; least of {RUNS} runs each", port.name());
    let plane = |big, size, strips| Pages { big, width: 8192, height: 8192 / size, size, pages: 1, strips };
    picture(port, "plane 64 MiB, U8, one strip", &plane(false, 1, 1), None);
    picture(port, "plane 64 MiB, U16 little-endian, one strip", &plane(false, 2, 1), None);
    picture(port, "plane 64 MiB, U16 little-endian, 64 strips", &plane(false, 2, 64), None);
    picture(port, "plane 64 MiB, F32 little-endian, one strip", &plane(false, 4, 1), None);
    picture(port, "plane 64 MiB, U16 big-endian, one strip", &plane(true, 2, 1), None);
    picture(port, "plane 64 MiB, F32 big-endian, one strip", &plane(true, 4, 1), None);
    let pages = |pages| Pages { big: false, width: 2048, height: 2048, size: 2, pages, strips: 1 };
    let rect = Some([700, 600, 512, 512]);
    picture(port, "region 512 x 512, 1 page", &pages(1), rect);
    picture(port, "region 512 x 512, 1,000 pages", &pages(1000), rect);
    picture(port, "region 512 x 512, 10,000 pages", &pages(10_000), rect);
    let small = |pages, strips| Pages { big: false, width: 64, height: 64, size: 1, pages, strips };
    opening(port, "open, 10,000 directories of one strip", &file(&small(10_000, 1)), 20_000);
    opening(port, "open, 1,000 directories of 64 strips", &file(&small(1000, 64)), 128_000);
    opening(port, "open, 10,000 of three strips, three bits", &channels(10_000, 3, true), 60_000);
}

// ---- hostile files: what they cost each reader to open

const REDUCED: u64 = 1;

// A file of so many bytes with a reduced directory at each place: its only entry says that it is reduced, and it leads to the next place.
fn reduced_chain(places: &[u64], last: u64, len: usize) -> Vec<u8> {
    let mut f = File::new(false, len);
    f.put(4, places[0], 4);
    for (i, &at) in places.iter().enumerate() {
        let at = at as usize;
        f.put(at, 1, 2);
        f.entry(at + 2, 254, 4, 1, REDUCED);
        f.put(at + 14, places.get(i + 1).copied().unwrap_or(last), 4);
    }
    f.bytes
}

// So many reduced directories, of which the last leads back to the one with number `to`.
fn circle(directories: u64, to: u64) -> Vec<u8> {
    let places: Vec<u64> = (0..directories).map(|i| 8 + 18 * i).collect();
    reduced_chain(&places, places[to as usize], (8 + 18 * directories) as usize)
}

// One reduced directory of so many strip arrays, each of so many values, which leads to itself or to none.
fn arrays(entries: u64, values: u64, back: bool) -> Vec<u8> {
    let end = 8 + 2 + 12 * (entries + 1) + 4;
    let mut f = File::new(false, (end + values) as usize);
    f.put(8, entries + 1, 2);
    f.entry(10, 254, 4, 1, REDUCED);
    for i in 0..entries {
        f.entry((22 + 12 * i) as usize, if i % 2 == 0 { 273 } else { 279 }, 1, values, end);
    }
    f.put((end - 4) as usize, if back { 8 } else { 0 }, 4);
    f.bytes
}

// One reduced directory of so many strip arrays of a type of 4 bytes, in which all of them have the same 100,000 values: the most that an array
// may have.
fn same_array(entries: u64, ty: u64) -> Vec<u8> {
    let (end, values) = (8 + 2 + 12 * (entries + 1) + 4, 100_000);
    let mut f = File::new(false, (end + 4 * values) as usize);
    f.put(8, entries + 1, 2);
    f.entry(10, 254, 4, 1, REDUCED);
    for i in 0..entries {
        f.entry((22 + 12 * i) as usize, if i % 2 == 0 { 273 } else { 279 }, ty, values, end);
    }
    for i in 0..values {
        f.put((end + 4 * i) as usize, 8 + i, 4);
    }
    f.bytes
}

// The tags that are read.
const READ: [u64; 11] = [254, 256, 257, 258, 259, 273, 277, 279, 284, 339, 34412];
const ENTRIES: u64 = 65_535;

// So many directories of 65,535 entries, each 12 bytes past the one before, so that they lie over one another. Nobody reads their entries, and the
// file is refused after the last one. Or it opens: then a page comes first, and the directories share a few entries that make them reduced.
//
// The next pointer of one directory is the tag and the type of an entry of others. So where the low half of a place is a tag that is read, or where its
// pointer would stand in a shared entry, there is no directory.
fn overlapping(directories: u64, opens: bool) -> Vec<u8> {
    let (first, long) = (4096, 2 + 12 * ENTRIES);
    let shared: Vec<u64> = if opens { (0..=directories / 60_000 + 1).map(|i| first + 2 + 12 * (30_000 + 60_000 * i)).collect() } else { vec![] };
    let free = |p: &u64| !READ.contains(&(p % 65_536)) && !shared.contains(&(p + long));
    let places: Vec<u64> = (0..).map(|i| first + 12 * i).filter(free).take(directories as usize).collect();
    let last = places[places.len() - 1];
    let mut f = File::new(false, (last + 12 + long + 4) as usize);
    if opens {
        f = large::page(false, 2, 1, f.bytes.len(), (4, 1, 128), (4, 1, 2));
    }
    f.put(if opens { 94 } else { 4 }, first, 4);
    for (i, &at) in places.iter().enumerate() {
        f.put(at as usize, ENTRIES, 2);
        f.put((at + long) as usize, places.get(i + 1).copied().unwrap_or(0), 4);
    }
    // A value of type SHORT leaves the end of its field, where a directory begins, as it is.
    for at in shared.into_iter().filter(|at| at + 12 < last + long) {
        f.entry(at as usize, 254, 3, 1, REDUCED);
    }
    f.bytes
}

// One page of so many strips of one byte.
fn strips(n: u64) -> Vec<u8> {
    file(&Pages { big: false, width: 1, height: n, size: 1, pages: 1, strips: n })
}

// The number that both readers answer.
fn hostile_file(port: &mut dyn Port, what: &str, bytes: &[u8], runs: usize) -> usize {
    let mut memory = Memory::new();
    let mut table = vec![0; 1 << 21];
    let (mut original, mut ours, mut number) = (vec![], vec![], 0);
    for _ in 0..runs {
        let took;
        (took, number) = probe::timed_open(&mut memory, bytes);
        original.push(took);
        let mut answer = [0; OPEN_WORDS];
        let start = Instant::now();
        let n = port.open(bytes, &mut table, &mut answer);
        ours.push(start.elapsed());
        assert_eq!(n, number);
    }
    line(&format!("{what}, {} bytes", bytes.len()), &original, &ours, &[]);
    number
}

// The row of overlapping directories with as many of them as are asked for: near a million it takes minutes, so each reader opens them once.
pub fn overlapped(port: &mut dyn Port, directories: u64, opens: bool) {
    println!("port: {}; opening, one run of each", port.name());
    let number = hostile_file(port, &format!("{directories} overlapping directories of 65,535"), &overlapping(directories, opens), 1);
    println!("{}", if number == 0 { "both accept".to_string() } else { format!("both refuse with {number}") });
}

// The same directory in LONG and in SLONG, of which each value's sign is looked at.
const SAME_ARRAYS: [(&str, u64, u64); 2] =
    [("20,000 LONG arrays of the same 100,000", 20_000, 4), ("20,000 SLONG arrays of the same 100,000", 20_000, 9)];

pub fn hostile(port: &mut dyn Port) {
    println!("port: {}; opening, least of the runs of each", port.name());
    hostile_file(port, "a directory that leads to itself", &circle(1, 0), 3);
    hostile_file(port, "1,000 directories in a circle", &circle(1000, 0), 3);
    hostile_file(port, "1,000 directories, then one in a circle", &circle(1001, 1000), 3);
    hostile_file(port, "100,000 directories in a circle", &circle(100_000, 0), 3);
    hostile_file(port, "1,000,000 directories, no circle", &reduced_chain(&(0..1_000_000).map(|i| 8 + 18 * i).collect::<Vec<_>>(), 0, 18_000_008), 3);
    hostile_file(port, "65,535 entries", &overlapping(1, false), 3);
    hostile_file(port, "200 overlapping directories of 65,535", &overlapping(200, false), 3);
    hostile_file(port, "100,000 strips", &strips(100_000), 3);
    hostile_file(port, "10,000 pages of 65,535 bits", &channels(10_000, 65_535, false), 3);
    hostile_file(port, "400 strip arrays of 60,000 values", &arrays(400, 60_000, false), 3);
    hostile_file(port, "5,000 strip arrays of 60,000 values", &arrays(5000, 60_000, false), 1);
    for (what, entries, ty) in SAME_ARRAYS {
        hostile_file(port, what, &same_array(entries, ty), 1);
    }
}
