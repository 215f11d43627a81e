// A few large files at the limits: the chain's length, the number of strips, pictures above 4 GiB, circles.
use crate::rules;

pub struct File {
    pub bytes: Vec<u8>,
    big: bool,
}

impl File {
    pub fn new(big: bool, len: usize) -> File {
        let mut f = File { bytes: vec![0; len], big };
        f.bytes[..2].copy_from_slice(if big { b"MM" } else { b"II" });
        f.put(2, 42, 2);
        f.put(4, 8, 4);
        f
    }

    pub fn put(&mut self, at: usize, n: u64, size: usize) {
        let le = n.to_le_bytes();
        for (i, &b) in le[..size].iter().enumerate() {
            self.bytes[if self.big { at + size - 1 - i } else { at + i }] = b;
        }
    }

    // An entry: tag, type, count, value. A value in line stands at the field's start.
    pub fn entry(&mut self, at: usize, tag: u64, ty: u64, count: u64, value: u64) {
        self.put(at, tag, 2);
        self.put(at + 2, ty, 2);
        self.put(at + 4, count, 4);
        let size = if ty == 3 && count == 1 { 2 } else { 4 };
        self.put(at + 8, value, size);
    }

    pub fn cz(&mut self, at: usize, dims: [u64; 5]) {
        self.put(at, 0x0400_494c, 4);
        self.put(at + 4, 28, 4);
        for (i, d) in dims.into_iter().enumerate() {
            self.put(at + 8 + 4 * i, d, 4);
        }
    }
}

// One page of one channel of 8 bits: the directory at 8 has seven entries, the CZ block stands at 100, and from 128 on all is free.
pub fn page(big: bool, w: u64, h: u64, len: usize, offsets: (u64, u64, u64), lengths: (u64, u64, u64)) -> File {
    let mut f = File::new(big, len);
    f.put(8, 7, 2);
    f.entry(10, 256, 4, 1, w);
    f.entry(22, 257, 4, 1, h);
    f.entry(34, 258, 3, 1, 8);
    f.entry(46, 273, offsets.0, offsets.1, offsets.2);
    f.entry(58, 279, lengths.0, lengths.1, lengths.2);
    f.entry(70, 34412, 1, 28, 100);
    f.entry(82, 259, 3, 1, 1);
    f.cz(100, [w, h, 1, 1, 1]);
    f
}

// A full page and then so many reduced ones.
fn chain(big: bool, reduced: usize) -> Vec<u8> {
    let mut f = page(big, 2, 1, 130 + 18 * reduced, (4, 1, 128), (4, 1, 2));
    let mut link = 94;
    for i in 0..reduced {
        let at = 130 + 18 * i;
        f.put(link, at as u64, 4);
        f.put(at, 1, 2);
        f.entry(at + 2, 254, 4, 1, 1);
        link = at + 14;
    }
    f.bytes
}

// So many directories of no entry: full pages that agree, of a kind that isn't taken. crates/lsm_long_chain makes the same files.
fn bare(big: bool, n: usize) -> Vec<u8> {
    let mut f = File::new(big, 8 + 6 * n);
    for i in 1..n {
        f.put(8 + 6 * i - 4, 8 + 6 * i as u64, 4);
    }
    f.bytes
}

// So many strips of one byte each, offsets and lengths of type 1.
fn strips(big: bool, n: usize) -> Vec<u8> {
    let mut f = page(big, n as u64, 1, 128 + 2 * n, (1, n as u64, 128), (1, n as u64, 128 + n as u64));
    for i in 0..n {
        f.bytes[128 + i] = (i % 251) as u8;
        f.bytes[128 + n + i] = 1;
    }
    f.bytes
}

// A picture of `rows` rows of 2^20 bytes, every row a strip, the strips all over one another.
fn rows(big: bool, rows: u64) -> Vec<u8> {
    let wide = 1 << 20;
    let arrays = 8 * rows as usize;
    let mut f = page(big, wide, rows, 128 + arrays + wide as usize, (4, rows, 128), (4, rows, 128 + 4 * rows));
    for i in 0..rows {
        f.put(128 + 4 * i as usize, (i * 7) % (arrays as u64 + 128), 4);
        f.put(128 + 4 * (rows + i) as usize, wide, 4);
    }
    for i in 128 + arrays..f.bytes.len() {
        f.bytes[i] = (i * 31 >> 3) as u8;
    }
    f.bytes
}

// The same picture at two time points. The second has its strips in the other turn; where they don't hold whole rows, two of them are a
// byte longer and shorter.
fn rows_of_series(big: bool, rows: u64, whole: bool) -> Vec<u8> {
    let mut f = File { bytes: self::rows(big, rows), big };
    let (places, directory) = (f.bytes.len(), f.bytes.len() + 8 * rows as usize);
    f.bytes.resize(directory + 2 + 12 * 6 + 4, 0);
    for i in 0..rows as usize {
        f.bytes.copy_within(128 + 4 * i..132 + 4 * i, places + 4 * (rows as usize - 1 - i));
    }
    let lengths = places + 4 * rows as usize;
    f.bytes.copy_within(128 + 4 * rows as usize..128 + 8 * rows as usize, lengths);
    if !whole {
        f.put(lengths, (1 << 20) + 1, 4);
        f.put(lengths + 4, (1 << 20) - 1, 4);
    }
    // the entries of the first directory, but for the CZ entry
    f.put(94, directory as u64, 4);
    f.put(directory, 6, 2);
    f.bytes.copy_within(10..70, directory + 2);
    f.bytes.copy_within(82..94, directory + 62);
    f.put(directory + 2 + 12 * 3 + 8, places as u64, 4);
    f.put(directory + 2 + 12 * 4 + 8, lengths as u64, 4);
    f.put(100 + 24, 2, 4);
    f.bytes
}

// Two channels of so many rows of 2^20 bytes, interleaved or planar. The page has 2^20 bytes to a strip, the strips all over one another: so
// each holds a row of a channel, or, interleaved, half a row of both. Where one isn't inside the file, it is the last.
fn rows_of_channels(big: bool, rows: u64, planar: bool, inside: bool) -> Vec<u8> {
    let wide = 1 << 20;
    let (block, arrays, strips) = (122, 152, 2 * rows);
    let samples = arrays + 8 * strips;
    let mut f = File::new(big, (samples + wide) as usize + 64);
    f.put(8, 9, 2);
    let numbers = [(256, 4, 1, wide), (257, 4, 1, rows), (258, 3, 1, 8), (259, 3, 1, 1), (277, 3, 1, 2), (284, 3, 1, 1 + planar as u64)];
    let places = [(273, 4, strips, arrays), (279, 4, strips, arrays + 4 * strips), (34412, 1, 28, block)];
    for (i, (tag, ty, count, value)) in numbers.into_iter().chain(places).enumerate() {
        f.entry(10 + 12 * i, tag, ty, count, value);
    }
    f.cz(block as usize, [wide, rows, 1, 2, 1]);
    for i in 0..strips {
        let last = !inside && i == strips - 1;
        f.put((arrays + 4 * i) as usize, samples + if last { 65 } else { i * 7 % 64 }, 4);
        f.put((arrays + 4 * (strips + i)) as usize, wide, 4);
    }
    for i in samples as usize..f.bytes.len() {
        f.bytes[i] = (i * 31 >> 3) as u8;
    }
    f.bytes
}

// A chain that leads back to a reduced page.
fn circle(big: bool, full: bool) -> Vec<u8> {
    let mut f = page(big, 2, 1, 130 + 18, (4, 1, 128), (4, 1, 2));
    if full {
        f.put(94, 8, 4);
    } else {
        f.put(94, 130, 4);
        f.put(130, 1, 2);
        f.entry(132, 254, 4, 1, 1);
        f.put(144, 130, 4);
    }
    f.bytes
}

// The chain of a full page and so many others, of which the last isn't reduced and has two values of BitsPerSample for one channel.
fn uneven(big: bool, others: usize) -> Vec<u8> {
    let mut f = File { bytes: chain(big, others), big };
    let last = f.bytes.len() - 18;
    f.entry(last + 2, 258, 3, 2, 8 << 16 | 8);
    f.bytes
}

// The same chain, of which the last directory says as an SLONG that it is a reduced page, by a number below zero.
fn negative(big: bool, others: usize) -> Vec<u8> {
    let mut f = File { bytes: chain(big, others), big };
    let last = f.bytes.len() - 18;
    f.entry(last + 2, 254, 9, 1, 0xffff_ffff);
    f.bytes
}

// So many strips of one byte each, with places of type SLONG and lengths of type SBYTE. Of the places one may be below zero.
fn signed_strips(big: bool, n: usize, negative: Option<usize>) -> Vec<u8> {
    let mut f = page(big, n as u64, 1, 128 + 5 * n, (9, n as u64, 128), (6, n as u64, 128 + 4 * n as u64));
    for i in 0..n {
        let place = if negative == Some(i) { 0xffff_ffff } else { 128 + (i % 251) as u64 };
        f.put(128 + 4 * i, place, 4);
    }
    f.bytes[128 + 4 * n..].fill(1);
    f.bytes
}

// A page of the most channels, interleaved, with a byte of BitsPerSample for each; the last is another, or so many are missing.
fn most_bits(big: bool, last: u8, missing: usize) -> Vec<u8> {
    let most = 65_535;
    let mut f = page(big, 2, 1, 130 + most, (4, 1, 128), (4, 1, 2));
    f.entry(34, 258, 1, most as u64, 130);
    f.entry(82, 277, 3, 1, most as u64);
    f.cz(100, [2, 1, 1, most as u64, 1]);
    f.bytes[130..].fill(8);
    f.bytes[130 + most - 1] = last;
    f.bytes.truncate(130 + most - missing);
    f.bytes
}

pub fn files() -> Vec<(&'static str, Vec<u8>)> {
    let mut list = Vec::new();
    for big in [false, true] {
        list.push(("1,000,000 directories", chain(big, 999_999)));
        list.push(("1,000,001 directories", chain(big, 1_000_000)));
        list.push(("1,000,000 directories of no entry", bare(big, 1_000_000)));
        list.push(("1,000,001 directories of no entry", bare(big, 1_000_001)));
        list.push(("100,000 strips", strips(big, 100_000)));
        list.push(("100,001 strips", strips(big, 100_001)));
        list.push(("4 GiB exactly, not asked whole", rows(big, 4096)));
        list.push(("a row above 4 GiB", rows(big, 4097)));
        list.push(("two time points of a row above 4 GiB", rows_of_series(big, 4097, true)));
        list.push(("two time points of a row above 4 GiB, one not in whole rows", rows_of_series(big, 4097, false)));
        for (what, planar, inside) in [
            ("two interleaved channels of 4 GiB", false, true),
            ("two interleaved channels of 4 GiB, a strip outside the file", false, false),
            ("two planar channels of 4 GiB", true, true),
            ("two planar channels of 4 GiB, a strip outside the file", true, false),
        ] {
            list.push((what, rows_of_channels(big, 4096, planar, inside)));
        }
        list.push(("two interleaved channels of a row above 4 GiB", rows_of_channels(big, 4097, false, true)));
        list.push(("two planar channels of a row above 4 GiB", rows_of_channels(big, 4097, true, true)));
        list.push(("the largest sides", page(big, 0x7fff_ffff, 0x7fff_ffff, 130, (4, 1, 128), (4, 1, 2)).bytes));
    }
    list.extend(rules::large_series().into_iter().map(|f| ("two time points above 4 GiB", f)));
    list.extend(rules::large_interleaved().into_iter().map(|f| ("two channels of 4 GiB or of a row more, all outside the file", f)));
    list.push(("a circle of reduced pages", circle(false, false)));
    list.push(("a circle of reduced pages", circle(true, false)));
    list.push(("a circle of full pages", circle(false, true)));
    for big in [false, true] {
        list.push(("1,000,000 directories, the last of uneven bits", uneven(big, 999_999)));
        list.push(("1,000,001 directories, the last of uneven bits", uneven(big, 1_000_000)));
        list.push(("1,000,000 directories, the last with a negative value", negative(big, 999_999)));
        list.push(("1,000,001 directories, the last with a negative value", negative(big, 1_000_000)));
        list.push(("100,000 strips in signed types", signed_strips(big, 100_000, None)));
        list.push(("100,000 strips in signed types, the last at a negative place", signed_strips(big, 100_000, Some(99_999))));
        list.push(("100,001 strips in signed types, the first at a negative place", signed_strips(big, 100_001, Some(0))));
        list.push(("bits of 65,535 channels", most_bits(big, 8, 0)));
        list.push(("bits of 65,535 channels, the last uneven", most_bits(big, 9, 0)));
        list.push(("bits of 65,535 channels, the last past the file", most_bits(big, 8, 1)));
    }
    list
}
