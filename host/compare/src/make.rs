// Files made from a seed and a case's number, over every rule of document 01: most are right, many have a fault or two.
use crate::random::Random;
use crate::walk;

// Case numbers from here on are truncations and one-byte changes of small files, each in its turn.
pub const TRUNCATIONS: u64 = 1 << 40;
pub const CHANGES: u64 = 1 << 41;
pub const LENGTHS: u64 = 1 << 12;
pub const VALUES: [u8; 6] = [0x00, 0x01, 0x7f, 0x80, 0xfe, 0xff];

#[derive(Clone, Copy, PartialEq, Debug)]
enum Fault {
    Mark,
    Magic,
    First,
    Geometry,
    StripNumber,
    Unequal,
    NoFull,
    Compression,
    Sample,
    NoCz,
    SmallCz,
    CzPlace,
    CzDeclared,
    CzMagic,
    CzSize,
    CzDims,
    Xy,
    Channels,
    Times,
    Strips,
    Counts,
    PageCount,
    OddType,
    NoValue,
    Above,
    ArrayType,
    NoStrips,
    StripLimit,
    OutPlace,
    Next,
    Short,
}

const FAULTS: [Fault; 31] = [
    Fault::Mark,
    Fault::Magic,
    Fault::First,
    Fault::Geometry,
    Fault::StripNumber,
    Fault::Unequal,
    Fault::NoFull,
    Fault::Compression,
    Fault::Sample,
    Fault::NoCz,
    Fault::SmallCz,
    Fault::CzPlace,
    Fault::CzDeclared,
    Fault::CzMagic,
    Fault::CzSize,
    Fault::CzDims,
    Fault::Xy,
    Fault::Channels,
    Fault::Times,
    Fault::Strips,
    Fault::Counts,
    Fault::PageCount,
    Fault::OddType,
    Fault::NoValue,
    Fault::Above,
    Fault::ArrayType,
    Fault::NoStrips,
    Fault::StripLimit,
    Fault::OutPlace,
    Fault::Next,
    Fault::Short,
];

const SUBFILE: u16 = 254;
const WIDTH: u16 = 256;
const HEIGHT: u16 = 257;
const BITS: u16 = 258;
const COMPRESSION: u16 = 259;
const OFFSETS: u16 = 273;
const SAMPLES: u16 = 277;
const LENGTHS_TAG: u16 = 279;
const PLANAR: u16 = 284;
const FORMAT: u16 = 339;
const CZ: u16 = 34412;
const SCALARS: [u16; 8] = [SUBFILE, WIDTH, HEIGHT, BITS, COMPRESSION, SAMPLES, PLANAR, FORMAT];

fn size_of(ty: u16) -> usize {
    walk::size_of(ty as u64) as usize
}

// A number's bytes in an order.
struct Bytes {
    bytes: [u8; 8],
    len: usize,
}

impl std::ops::Deref for Bytes {
    type Target = [u8];

    fn deref(&self) -> &[u8] {
        &self.bytes[..self.len]
    }
}

fn bytes_of(big: bool, n: u64, len: usize) -> Bytes {
    let mut bytes = n.to_le_bytes();
    if big {
        bytes[..len].reverse();
    }
    Bytes { bytes, len }
}

#[derive(Clone)]
enum Data {
    Values(Vec<u64>),
    Offsets,
    Lengths,
    CzPlace,
}

#[derive(Clone)]
struct Entry {
    tag: u16,
    ty: u16,
    count: u32,
    data: Data,
    // where an out-of-line value is said to stand, if not where it stands
    place: Option<u32>,
    // which value of a strip array is another
    other: Option<(usize, u64)>,
}

#[derive(Clone, Copy)]
enum Where {
    Piece(usize),
    At(u64),
}

struct Page {
    reduced: bool,
    entries: Vec<Entry>,
    strips: Vec<(Where, u64)>,
    next: Option<u32>,
}

#[derive(Clone, Copy)]
enum Piece {
    Directory(usize),
    Data(usize, usize),
    Cz,
    Block,
    Strip(usize),
}

pub struct Made {
    pub file: Vec<u8>,
    // places and lengths of the fields that a reader may look at
    fields: Vec<(usize, usize)>,
    // where the directories stand, and their next pointers
    directories: Vec<(usize, usize)>,
}

const VOXELS: [f64; 25] = [
    1e-7,
    2.5e-7,
    1e-6,
    1e-12,
    9.999999e-13,
    1.0000001e-12,
    1e-19,
    1e-3,
    1.0000001e-3,
    9.999999e-4,
    1.005e-3,
    1.015e-3,
    9.995e-3,
    0.5,
    0.0,
    -0.0,
    -1e-7,
    f64::NAN,
    f64::INFINITY,
    f64::NEG_INFINITY,
    1e-320,
    5e-324,
    1e300,
    3.5e32,
    1e-51,
];

fn voxel(r: &mut Random) -> u64 {
    match r.below(10) {
        0..=4 => r.of(&VOXELS).to_bits(),
        5..=6 => r.of(&VOXELS).to_bits().wrapping_add(r.below(5) as u64).wrapping_sub(2),
        7..=8 => (1e-9 * (1.0 + r.below(1 << 30) as f64 / 1e3)).to_bits(),
        _ => r.next(),
    }
}

fn name(r: &mut Random, long: bool) -> Vec<u8> {
    if long {
        let n = r.of(&[1022, 1023, 1024, 1024, 1025, 1025, 1026, 2000]);
        let b = r.of(&[b'a', 0xff, 0x00, 0xc3]);
        let mut v = vec![b; n];
        for _ in 0..r.below(3) {
            let at = r.below(n);
            v[at] = r.next() as u8;
        }
        return v;
    }
    let list: [&[u8]; 22] = [
        b"Ch1",
        b"Ch2-T1\0",
        b"",
        b"\0",
        b"\0\0\0",
        b"a\0b\0",
        b"\0x",
        b"\xc3\x28",
        b"\xed\xa0\x80",
        b"\xe2\x82",
        b"\xe2\x82\xac",
        b"\xf0\x9f\x98\x80",
        b"\xf0\x9f\x98",
        b"\xf4\x90\x80\x80",
        b"\xc0\xaf",
        b"\xf8\x88",
        b"\xff\xfe",
        b"z\xe2\x82\0",
        b"\xc3",
        b"\xe1\x80\xe2\xf0\x91\x92\xf1\xbf",
        b"\xc3\xa9\0\0",
        b"\x80",
    ];
    if r.chance(75) {
        return r.of(&list).to_vec();
    }
    let n = r.below(12);
    let lead = [0x41, 0x00, 0x80, 0xbf, 0xc2, 0xdf, 0xe0, 0xa0, 0xed, 0x9f, 0xef, 0xf0, 0x90, 0xf4, 0x8f, 0xf5];
    (0..n).map(|_| if r.chance(80) { r.of(&lead) } else { r.next() as u8 }).collect()
}

// The channel block, and where its length words stand.
fn block(r: &mut Random, big: bool, channels: usize, small: bool) -> (Vec<u8>, Vec<usize>) {
    let mut b = vec![r.of(&[0, 0, 0xff]); 20];
    let mut places = Vec::new();
    let mut names = Vec::new();
    let listed = if r.chance(85) { channels.min(8) } else { r.below(channels.min(8) + 1) };
    for i in 0..listed {
        let long = !small && r.chance(if i == 0 { 5 } else { 2 });
        let n = name(r, long);
        places.push(names.len());
        names.extend(&*bytes_of(big, n.len() as u64, 4));
        names.extend(n);
    }
    let mut colours: Vec<u8> = (0..4 * channels.min(8)).map(|_| r.next() as u8).collect();
    if r.chance(20) {
        colours.truncate(r.below(colours.len() + 1));
    }
    let names_first = r.chance(40);
    let (colours_at, names_at) = if names_first { (20 + names.len(), 20) } else { (20, 20 + colours.len()) };
    let first = if names_first { &names } else { &colours };
    let second = if names_first { &colours } else { &names };
    b.extend(first);
    b.extend(second);
    if r.chance(25) {
        // one length as it shouldn't be
        if let Some(&at) = places.get(r.below(places.len().max(1))) {
            let left = (b.len() - (names_at + at + 4)) as i64;
            let n = r.of(&[-1, i32::MIN as i64, 0, left, left + 1, left - 1, 1023, 1024, 1025, i32::MAX as i64, 1, 4, -2]);
            b[names_at + at..names_at + at + 4].copy_from_slice(&bytes_of(big, n as u64, 4));
        }
    }
    let end = b.len() as i64;
    let pointer = |r: &mut Random, at: usize| -> i64 {
        if r.chance(80) {
            at as i64
        } else {
            r.of(&[0, -1, 1, i32::MIN as i64, i32::MAX as i64, end, end - 3, end - 4, end + 1, 12, 16, 20])
        }
    };
    let c = pointer(r, colours_at);
    let n = pointer(r, names_at);
    b[12..16].copy_from_slice(&bytes_of(big, c as u64, 4));
    b[16..20].copy_from_slice(&bytes_of(big, n as u64, 4));
    if r.chance(8) {
        b.truncate(r.below(b.len() + 1));
    }
    let mut fields = vec![12, 16];
    fields.extend(places.iter().map(|p| p + names_at));
    (b, fields)
}

// An entry of one value, in a type that holds it, now and then with further values behind it.
fn scalar(r: &mut Random, tag: u16, value: u64, small: bool) -> Entry {
    let ty = match value {
        0..=0xff => r.of(&[3, 3, 3, 3, 3, 4, 4, 1, 6, 7, 8, 9, 11]),
        0..=0xffff => r.of(&[3, 3, 3, 4, 8, 9, 11]),
        _ => r.of(&[4, 4, 4, 9, 11]),
    };
    let count: u32 = if r.chance(if small { 97 } else { 88 }) { 1 } else { r.of(&[2, 2, 3, 4, 5, 9]) };
    let mut values = vec![value];
    if 1 < count && r.chance(60) {
        values.extend((1..count).map(|_| r.next() >> r.below(64)));
    }
    let count = if 1 < count && r.chance(10) { r.of(&[1000, 0x7fff_ffff, 0xffff_ffff, 0x4000_0001]) } else { count };
    Entry { tag, ty, count, data: Data::Values(values), place: None, other: None }
}

struct Plan {
    big: bool,
    faults: Vec<Fault>,
    pages: Vec<Page>,
    cz: Vec<u8>,
    block: Vec<u8>,
    block_fields: Vec<usize>,
    block_pointer: Option<i64>,
    strips: Vec<Vec<u8>>,
    // a page and a tag whose values stand last in the file, and how many bytes of them are missing
    last: Option<(usize, u16, usize)>,
}

impl Plan {
    fn has(&self, f: Fault) -> bool {
        self.faults.contains(&f)
    }
}

fn plan(r: &mut Random, faults: Vec<Fault>, small: bool) -> Plan {
    let big = r.chance(35);
    let mut p = Plan {
        big,
        faults,
        pages: Vec::new(),
        cz: Vec::new(),
        block: Vec::new(),
        block_fields: Vec::new(),
        block_pointer: None,
        strips: Vec::new(),
        last: None,
    };

    // the CZ block's lengths
    let mut declared: usize = if small {
        r.of(&[28, 28, 28, 40, 64, 64, 112, 112, 272, 272])
    } else {
        r.of(&[28, 28, 29, 40, 63, 64, 64, 65, 111, 112, 112, 112, 113, 200, 271, 272, 272, 272, 272, 273, 280, 464])
    };
    if p.has(Fault::CzDeclared) {
        declared = r.of(&[5, 6, 7, 8, 9, 16, 24, 27]);
    }
    let mut size: i64 = match r.below(10) {
        0..=4 => declared as i64,
        5 => r.of(&[0, 0, -1, i32::MIN as i64]),
        6 => r.of(&[declared as i64 + 1, 464, 4096, i32::MAX as i64]),
        _ => r.of(&[28, 40, 63, 64, 111, 112, 271, 272, 273]),
    };
    if p.has(Fault::CzSize) {
        size = r.of(&[1, 2, 7, 8, 20, 26, 27]);
    }
    let length = if size <= 0 { declared } else { declared.min(size as usize) };

    // dimensions
    let kind = r.below(4);
    let (mut bits, mut format) = [(8, 1), (16, 1), (16, 2), (32, 3)][kind];
    let sample = [1, 2, 2, 4][kind];
    let (mut w, mut h) = (1 + r.below(5) as u64, 1 + r.below(4) as u64);
    if r.chance(4) {
        w = 1 + r.below(40) as u64;
        h = 1 + r.below(12) as u64;
    }
    if r.chance(2) {
        w = r.of(&[w, 65_535, 65_536, 70_000, 1 << 30, i32::MAX as u64]);
        h = r.of(&[h, 65_536, 65_537, 1 << 20, i32::MAX as u64]);
    }
    let channels = if small { r.of(&[1, 1, 1, 2, 2, 3]) } else { r.of(&[1, 1, 1, 1, 2, 2, 3, 4, 6]) };
    // of a hundred files about 15 have several channels that are interleaved; of the small ones more
    let interleaved = 1 < channels && r.chance(if small { 40 } else { 30 });
    let z = if small { r.of(&[0, 1, 1, 1, 2]) } else { r.of(&[0, 1, 1, 1, 1, 2, 2, 3]) };
    // of a hundred files about 15 are series
    let times: i64 = if r.chance(15) { r.of(&[2, 2, 2, 3]) } else { r.of(&[1, 1, 0]) };
    let (mut pn, mut mn): (i64, i64) = if small {
        r.of(&[(1, 1), (0, 0), (2, 1), (1, 2), (0, 7)])
    } else {
        r.of(&[(1, 1), (0, 0), (0, 5), (2, 1), (1, 2), (3, 1), (2, 2), (1, 0)])
    };
    if p.has(Fault::Counts) {
        let n = r.of(&[-1, i32::MIN as i64, i32::MAX as i64, 65_536, 1 << 20]);
        if r.chance(50) {
            pn = n;
        } else {
            mn = n;
        }
        if declared < 272 && r.chance(90) {
            declared = 272;
            size = 272;
        }
    }
    let scenes = if 272 <= length && 0 <= pn && 0 <= mn { (pn * mn).clamp(1, 4) as usize } else { 1 };
    let mut full = scenes * (times.max(1) * z.max(1)) as usize;
    if p.has(Fault::PageCount) {
        full = if r.chance(50) { full + 1 + r.below(2) } else { full.saturating_sub(1) };
    }
    if p.has(Fault::NoFull) {
        full = 0;
    }
    if (p.has(Fault::Geometry) || p.has(Fault::StripNumber)) && full == 1 {
        full = 2;
    }
    if p.has(Fault::Sample) {
        (bits, format) = r.of(&[
            (8, 2),
            (8, 3),
            (16, 3),
            (32, 1),
            (32, 2),
            (64, 3),
            (1, 1),
            (0, 1),
            (8, 0),
            (16, 4),
            (12, 1),
            (24, 1),
            (9, 1),
            (31, 3),
        ]);
    }

    // the CZ block
    let mut cz = vec![r.of(&[0, 0, 0, 0xff, 0xa5]); declared.max(8)];
    let put = |cz: &mut Vec<u8>, at: usize, b: Bytes| {
        for (i, &b) in b.iter().enumerate() {
            if at + i < cz.len() {
                cz[at + i] = b;
            }
        }
    };
    let mut magic = 0x0400_494c_u64;
    if p.has(Fault::CzMagic) {
        magic = r.of(&[magic + 1, magic - 1, magic ^ 0x100, magic ^ 0x10000, magic ^ 0x0100_0000, 0x4c49_0004, 0]);
    }
    put(&mut cz, 0, bytes_of(big, magic, 4));
    put(&mut cz, 4, bytes_of(big, size as u64, 4));
    let mut dims = [w as i64, h as i64, z, channels as i64, times];
    if p.has(Fault::CzDims) {
        let at = r.below(5);
        dims[at] = r.of(&[-1, i32::MIN as i64, 0, -5]);
    }
    if p.has(Fault::Xy) {
        let at = r.below(2);
        dims[at] = r.of(&[dims[at] + 1, (dims[at] - 1).max(1), i32::MAX as i64, dims[1 - at] + 1]);
    }
    if p.has(Fault::Channels) {
        dims[3] = r.of(&[dims[3] + 1, (dims[3] - 1).max(1), 65_536 + dims[3], i32::MAX as i64]);
    }
    if p.has(Fault::Times) {
        // as many time points as don't fit the pages
        let n = times.max(1);
        dims[4] = r.of(&[n + 1, n + 1, 2 * n, if n == 1 { 3 } else { n - 1 }, i32::MAX as i64]);
    }
    for (i, d) in dims.into_iter().enumerate() {
        put(&mut cz, 8 + 4 * i, bytes_of(big, d as u64, 4));
    }
    for i in 0..3 {
        let mut v = voxel(r);
        if i < 2 && r.chance(70) {
            v = r.of(&[1e-7f64, 2.5e-7, 1e-6, 3e-3]).to_bits();
        }
        put(&mut cz, 40 + 8 * i, bytes_of(big, v, 8));
    }
    if 112 <= declared {
        p.block_pointer =
            if r.chance(80) { None } else { Some(r.of(&[0, -1, i32::MIN as i64, i32::MAX as i64, 1, 8, 65_536])) };
        if p.block_pointer.is_none() {
            (p.block, p.block_fields) = block(r, big, channels, small);
        }
        put(&mut cz, 264, bytes_of(big, pn as u64, 4));
        put(&mut cz, 268, bytes_of(big, mn as u64, 4));
    }
    p.cz = cz;

    // how the strips are cut, the same way for every page: those of a channel, or those that interleaved channels share, which have samples
    // of all and may be of any number
    let mut per_channel = if p.has(Fault::NoStrips) { 0 } else { r.of(&[1, 1, 1, 1, 1, 2, 2, 3, h.min(6) as usize]) };
    if interleaved && per_channel != 0 && r.chance(30) {
        per_channel = r.of(&[channels, channels + 1, 2 * channels, 5]);
    }
    let mut number = if interleaved { per_channel } else { per_channel * channels };
    if p.has(Fault::Strips) {
        number = r.of(&[0, number + 1, number.saturating_sub(1), number + 2]);
    }
    let cut = if interleaved { r.of(&[0, 0, 0, 1, 1, 1, 1, 2, 2, 3]) } else { r.of(&[0, 0, 0, 0, 0, 0, 1, 1, 2, 3]) };
    let row = w * sample * if interleaved { channels as u64 } else { 1 };
    let picture = row.saturating_mul(h).min(1 << 63);
    let shared = r.chance(25);

    // the tags that every full page has
    let stored_samples: Option<u64> = match channels {
        1 => r.of(&[None, None, Some(1), Some(1), Some(0)]),
        n => Some(n as u64),
    };
    let planar = if 1 < channels { !interleaved } else { r.chance(30) };
    let mut compression: Option<u64> = r.of(&[None, None, Some(1)]);
    if p.has(Fault::Compression) {
        compression = Some(r.of(&[0, 2, 5, 7, 32_773, 65_535]));
    }

    let reduced = if small { r.of(&[0, 0, 0, 1]) } else { r.of(&[0, 0, 0, 0, 1, 1, 2]) };
    let mut sorts: Vec<bool> = vec![false; full];
    for _ in 0..reduced.max((full == 0) as usize * r.below(3)) {
        let at = r.below(sorts.len() + 1);
        sorts.insert(at, true);
    }
    let odd_page = r.below(full.max(1));
    let mut seen = 0;
    for thumbnail in sorts.iter().copied() {
        let mut e = Vec::new();
        let mut strips = Vec::new();
        if thumbnail {
            let n = r.of(&[1, 1, 1, 4, 5, 3, 7, 0xffff]);
            e.push(scalar(r, SUBFILE, n, small));
            if r.chance(60) {
                e.push(scalar(r, WIDTH, 128, small));
            }
            if r.chance(30) {
                let tag = r.of(&SCALARS[1..]);
                let n = r.next() & 0xffff;
                e.push(scalar(r, tag, n, small));
            }
            for _ in 0..r.of(&[0, 0, 1, 2]) {
                strips.push((Where::At(r.next() & 0xffff), r.below(100) as u64));
            }
        } else {
            let last = full <= seen + 1;
            seen += 1;
            let odd = p.has(Fault::Geometry) && (seen - 1 == odd_page.max(1) || last);
            let mut g = [w, h, stored_samples.unwrap_or(1), bits, format, compression.unwrap_or(1), planar as u64];
            let which = r.below(7);
            if odd {
                g[which] = r.of(&[g[which] + 1, 0, 2, g[which] ^ 1, 7]);
            }
            if r.chance(25) {
                let n = r.of(&[0, 0, 2, 8, 0xfffa, 0x1_0000]);
                e.push(scalar(r, SUBFILE, n, small));
            }
            e.push(scalar(r, WIDTH, g[0], small));
            e.push(scalar(r, HEIGHT, g[1], small));
            if bits != 1 || r.chance(50) || odd {
                e.push(scalar(r, BITS, g[3], small));
            }
            if stored_samples.is_some() || odd || (!small && r.chance(10)) {
                e.push(scalar(r, SAMPLES, g[2], small));
            }
            if format != 1 || r.chance(20) || odd {
                e.push(scalar(r, FORMAT, g[4], small));
            }
            if compression.is_some() || odd || (!small && r.chance(10)) {
                e.push(scalar(r, COMPRESSION, g[5], small));
            }
            if g[6] == 1 {
                e.push(scalar(r, PLANAR, 2, small));
            } else if r.chance(if interleaved { 60 } else { 25 }) || 1 < g[6] {
                let n = r.of(&[0, 1, 3, 1, 65_537, 65_538]);
                e.push(scalar(r, PLANAR, n, small));
            }
            let mut n = number;
            if p.has(Fault::StripNumber) && 1 < seen && (last || r.chance(50)) {
                n = r.of(&[n + 1, n.saturating_sub(1), 0, n + channels]);
            }
            let mut lengths = Vec::new();
            let groups = n.div_ceil(per_channel.max(1));
            for _ in 0..groups {
                lengths.extend(cuts(r, cut, per_channel.max(1), picture, row));
            }
            lengths.truncate(n);
            for len in lengths {
                let place = if r.chance(3) {
                    Where::At(r.of(&[0, 8, 0xffff_ffff, 0x7fff_ffff, 0x1_0000, 100]))
                } else if 600 < len || (small && 64 < len) {
                    Where::At(r.below(64) as u64)
                } else if shared && !p.strips.is_empty() && r.chance(70) {
                    Where::Piece(r.below(p.strips.len()))
                } else {
                    p.strips.push((0..len).map(|_| r.next() as u8).collect());
                    Where::Piece(p.strips.len() - 1)
                };
                strips.push((place, len));
            }
        }
        if !thumbnail || !strips.is_empty() || r.chance(10) {
            let ty = r.of(&[4, 4, 4, 4, 3, 3, 9, 11, 8]);
            let ty2 = r.of(&[4, 4, 3, 3, 3, 9, 11, 8, 1, 6, 7]);
            let n = strips.len() as u32;
            if n != 0 || r.chance(70) {
                let ty = if n == 0 { r.of(&[1, 2, 3, 4, 5, 12]) } else { ty };
                let ty2 = if n == 0 { r.of(&[1, 2, 3, 4, 10, 11]) } else { ty2 };
                e.push(Entry { tag: OFFSETS, ty, count: n, data: Data::Offsets, place: None, other: None });
                e.push(Entry { tag: LENGTHS_TAG, ty: ty2, count: n, data: Data::Lengths, place: None, other: None });
            }
        }
        p.pages.push(Page { reduced: thumbnail, entries: e, strips, next: None });
    }

    cz_entries(r, &mut p, declared);
    for page in &mut p.pages {
        extras(r, page, small);
    }
    faulty_entries(r, &mut p);
    for page in &mut p.pages {
        if r.chance(30) {
            settle(r, &mut page.entries);
        }
    }
    p
}

// Shuffles, but keeps the turn of entries of one tag: of these the last wins.
fn settle(r: &mut Random, entries: &mut Vec<Entry>) {
    let mut keys: Vec<usize> = (0..entries.len()).map(|_| r.below(1000)).collect();
    for i in 0..entries.len() {
        for j in 0..i {
            if entries[j].tag == entries[i].tag && keys[i] < keys[j] {
                keys.swap(i, j);
            }
        }
    }
    let mut with: Vec<(usize, Entry)> = keys.into_iter().zip(entries.drain(..)).collect();
    with.sort_by_key(|(k, _)| *k);
    entries.extend(with.into_iter().map(|(_, e)| e));
}

// The lengths of one channel's strips, or of those that all channels share.
fn cuts(r: &mut Random, cut: usize, n: usize, picture: u64, row: u64) -> Vec<u64> {
    let rows = picture / row.max(1);
    let mut lengths = Vec::new();
    let mut left = picture;
    for i in 0..n {
        let rest = (n - i) as u64;
        let len = match cut {
            _ if rest == 1 => left,
            0 => (rows / n as u64 * row).min(left),
            1 => (r.next() % (picture + 1)).min(left),
            2 => r.of(&[0, row, 1, left]).min(left),
            _ => (left / rest).min(left),
        };
        left -= len;
        lengths.push(len.min(0xffff_ffff));
    }
    if cut == 3 {
        let at = r.below(n);
        lengths[at] = r.of(&[lengths[at] + 1, lengths[at].saturating_sub(1), lengths[at] + row, 0, 0xffff_ffff, row]);
    }
    lengths
}

fn cz_entry(r: &mut Random, declared: usize) -> Entry {
    let mut types: Vec<u16> = vec![1, 1, 1, 2, 6, 7];
    if declared % 2 == 0 {
        types.extend([3, 8]);
    }
    if declared % 4 == 0 {
        types.extend([4, 9, 11]);
    }
    if declared % 8 == 0 {
        types.extend([5, 10, 12]);
    }
    let ty = r.of(&types);
    Entry { tag: CZ, ty, count: (declared / size_of(ty)) as u32, data: Data::CzPlace, place: None, other: None }
}

// The CZ entry, on the first directory or a later one, and others that don't win.
fn cz_entries(r: &mut Random, p: &mut Plan, declared: usize) {
    if p.pages.is_empty() || p.has(Fault::NoCz) {
        return;
    }
    let on = if r.chance(75) { 0 } else { r.below(p.pages.len()) };
    let mut e = cz_entry(r, declared);
    if p.has(Fault::CzPlace) {
        e.place = Some(r.of(&[0xffff_ffff, 0x7fff_ffff, 0x1_0000, 0, 4, 8]));
    }
    if p.has(Fault::SmallCz) && r.chance(50) {
        (e.ty, e.count) =
            r.of(&[(1, 4), (1, 0), (3, 2), (4, 1), (3, 1), (0, 28), (13, 28), (2, 3), (12, 0), (14, 5), (65_535, 100), (7, 1)]);
    }
    let junk = |r: &mut Random| Entry {
        tag: CZ,
        ty: r.of(&[1, 4, 12]),
        count: r.of(&[5, 28, 64, 272, 0xffff_ffff]),
        data: Data::CzPlace,
        place: Some(r.of(&[0, 8, 100, 0xffff_ffff])),
        other: None,
    };
    if r.chance(5) {
        let j = junk(r);
        p.pages[on].entries.push(j);
    }
    p.pages[on].entries.push(e);
    for i in on + 1..p.pages.len() {
        if r.chance(10) {
            let mut j = if r.chance(60) { junk(r) } else { cz_entry(r, declared) };
            if p.has(Fault::SmallCz) {
                (j.ty, j.count) = r.of(&[(1, 4), (1, 0), (3, 2), (0, 9)]);
            }
            p.pages[i].entries.push(j);
        }
    }
}

// Tags that nobody asks for, and repeated ones.
fn extras(r: &mut Random, page: &mut Page, small: bool) {
    if r.chance(if small { 5 } else { 20 }) {
        let e = Entry {
            tag: r.of(&[0, 1, 253, 255, 260, 262, 278, 282, 317, 338, 340, 34411, 34413, 65_535]),
            ty: r.below(16) as u16,
            count: r.of(&[0, 1, 2, 5, 0xffff_ffff]),
            data: Data::Values(vec![r.next()]),
            place: Some(r.next() as u32),
            other: None,
        };
        page.entries.insert(0, e);
    }
    if r.chance(if small { 4 } else { 12 }) && !page.entries.is_empty() {
        // an earlier entry of a tag that is there
        let at = r.below(page.entries.len());
        let tag = page.entries[at].tag;
        if SCALARS.contains(&tag) {
            let n = r.next() & 0xffff;
            let e = scalar(r, tag, n, small);
            page.entries.insert(at, e);
        } else if tag == OFFSETS || tag == LENGTHS_TAG {
            let n = r.below(4);
            let values = (0..n).map(|_| r.next()).collect();
            let e = Entry { tag, ty: r.of(&[1, 3, 4]), count: n as u32, data: Data::Values(values), place: None, other: None };
            page.entries.insert(at, e);
        }
    }
}

fn faulty_entries(r: &mut Random, p: &mut Plan) {
    let pages = p.pages.len();
    if pages == 0 {
        return;
    }
    let faults = p.faults.clone();
    for f in faults {
        let page = r.below(pages);
        let e = &mut p.pages[page].entries;
        let of = |r: &mut Random, e: &[Entry], tags: &[u16]| {
            let at: Vec<usize> = (0..e.len()).filter(|&i| tags.contains(&e[i].tag)).collect();
            (!at.is_empty()).then(|| r.of(&at))
        };
        match f {
            Fault::OddType => {
                if let Some(at) = of(r, e, &SCALARS) {
                    e[at].ty = r.of(&[0, 2, 5, 10, 12, 13, 14, 255, 65_535]);
                    e[at].place = Some(r.of(&[8, 0xffff_ffff]));
                }
            }
            Fault::NoValue => {
                if let Some(at) = of(r, e, &SCALARS) {
                    e[at].count = 0;
                }
            }
            Fault::Above => {
                if let Some(at) = of(r, e, &[SAMPLES, BITS, FORMAT, COMPRESSION]) {
                    e[at].ty = r.of(&[4, 9, 11]);
                    e[at].count = 1;
                    e[at].data = Data::Values(vec![r.of(&[65_536, 65_537, 65_544, 0xffff_ffff, 65_535])]);
                }
            }
            Fault::ArrayType => {
                if let Some(at) = of(r, e, &[OFFSETS, LENGTHS_TAG]) {
                    e[at].ty = r.of(&[0, 13, 14, 2, 5, 10, 12, 65_535]);
                }
            }
            Fault::Unequal => {
                if let Some(at) = of(r, e, &[OFFSETS, LENGTHS_TAG]) {
                    e[at].count = r.of(&[e[at].count.wrapping_add(1), e[at].count.saturating_sub(1), 0]);
                }
            }
            Fault::StripLimit => {
                if let Some(at) = of(r, e, &[OFFSETS, LENGTHS_TAG]) {
                    e[at].count = r.of(&[100_000, 100_001, 100_001, 0xffff_ffff, 99_999]);
                    e[at].ty = r.of(&[1, 1, 3, 4, 12]);
                    e[at].place = r.of(&[None, Some(0xffff_ffff), Some(8)]);
                }
            }
            Fault::OutPlace => {
                let tags = [SUBFILE, WIDTH, HEIGHT, BITS, COMPRESSION, SAMPLES, PLANAR, FORMAT, OFFSETS, LENGTHS_TAG];
                if let Some(at) = of(r, e, &tags) {
                    if e[at].count == 1 {
                        e[at].count = r.of(&[5, 3, 2]);
                    }
                    e[at].place = Some(r.of(&[0xffff_ffff, 0x1_0000, 0x7fff_ffff, 0xffff_fffe, 4000]));
                }
            }
            Fault::Next => {
                p.pages[page].next = Some(r.of(&[0xffff_ffff, 0x1_0000, 1, 2, 4, 7, 100]));
            }
            _ => {}
        }
    }
}

// The last entry of a tag, which counts.
fn of_tag(entries: &[Entry], tag: u16) -> Option<usize> {
    entries.iter().rposition(|e| e.tag == tag)
}

// The first value of an entry that has its values where they should stand.
fn first_of(e: &Entry) -> Option<u64> {
    match &e.data {
        Data::Values(v) if e.count != 0 && e.place.is_none() && walk::size_of(e.ty as u64) != 0 => v.first().copied(),
        _ => None,
    }
}

// BitsPerSample of several values. On each full page there are as many as channels, or one; in few files what isn't so, in one of many ways,
// and reduced pages have any. The lists of recorded answers take their files without this, so that they are the same as before it.
fn bits(r: &mut Random, p: &mut Plan) {
    for page in &mut p.pages {
        let Some(at) = of_tag(&page.entries, BITS) else { continue };
        let Some(value) = first_of(&page.entries[at]) else { continue };
        let samples = of_tag(&page.entries, SAMPLES).and_then(|i| first_of(&page.entries[i])).unwrap_or(1);
        let several = samples < 70 && r.chance(if page.reduced { 30 } else { 60 });
        let values = if several { vec![value; samples.max(1) as usize] } else { vec![value] };
        put_bits(r, &mut page.entries[at], values);
        // an earlier entry, of which only the first value is read
        if r.chance(12) {
            let values = (0..r.of(&[1, 1, 2, 3, samples.clamp(1, 9)])).map(|_| r.of(&[value, value, 8, 16, 9])).collect();
            let mut e = Entry { tag: BITS, ty: 3, count: 1, data: Data::CzPlace, place: None, other: None };
            put_bits(r, &mut e, values);
            page.entries.insert(r.below(at + 1), e);
        }
    }
    if r.chance(5) && !p.pages.is_empty() {
        for _ in 0..r.of(&[1, 1, 1, 2]) {
            uneven(r, p);
        }
    }
}

// Values in a type that holds them all.
fn put_bits(r: &mut Random, e: &mut Entry, values: Vec<u64>) {
    e.ty = match values.iter().max().copied().unwrap_or(0) {
        0..=0xff => r.of(&[3, 3, 3, 4, 1, 6, 7, 8, 9, 11]),
        0..=0xffff => r.of(&[3, 3, 4, 8, 9, 11]),
        _ => r.of(&[4, 9, 11]),
    };
    e.count = values.len() as u32;
    e.data = Data::Values(values);
}

// Bits that a page is refused for, if it is a full one; now and then with another fault beside it, so that it shows which comes first.
fn uneven(r: &mut Random, p: &mut Plan) {
    // mostly one of several channels
    let mut page = r.below(p.pages.len());
    for _ in 0..3 {
        let e = &p.pages[page].entries;
        if of_tag(e, SAMPLES).and_then(|i| first_of(&e[i])).unwrap_or(1) < 2 {
            page = r.below(p.pages.len());
        }
    }
    let e = &mut p.pages[page].entries;
    let Some(at) = of_tag(e, BITS) else { return };
    let Some(value) = first_of(&e[at]) else { return };
    let samples_at = of_tag(e, SAMPLES);
    let samples = samples_at.and_then(|i| first_of(&e[i])).filter(|&n| n < 70).unwrap_or(1).max(1) as usize;
    let other = r.of(&[value + 1, value ^ 1, value ^ 24, 0, value << 8, value + 65_536, value | 1 << 31, 16, 8]);
    let mut values = vec![value; samples];
    if r.chance(35) && 1 < samples {
        values[1 + r.below(samples - 1)] = other;
    }
    match r.below(10) {
        // one is another
        0..=2 if 1 < samples => {
            values = vec![value; samples];
            values[1 + r.below(samples - 1)] = other;
            put_bits(r, &mut e[at], values);
        }
        // as many as there are not
        0..=4 => {
            values.resize(r.of(&[2, 3, samples + 1, samples.saturating_sub(1), 2 * samples, 5]).max(1), value);
            put_bits(r, &mut e[at], values);
            if r.chance(30) {
                e[at].count = r.of(&[0, 1000, 65_536 + samples as u32, 0xffff_ffff, 0x4000_0000 + samples as u32]);
            }
        }
        // the file ends within them
        5..=7 => {
            if samples == 1 && r.chance(50) {
                values.push(value);
            }
            put_bits(r, &mut e[at], values);
            if size_of(e[at].ty) as u32 * e[at].count <= 4 {
                e[at].ty = r.of(&[4, 9, 11]);
            }
            let size = size_of(e[at].ty);
            if 4 < size * e[at].count as usize {
                let missing = 1 + r.below(size * (e[at].count as usize - 1));
                p.last = Some((page, BITS, if r.chance(60) { missing.min(size) } else { missing }));
            }
        }
        // another number of channels, earlier or later in the directory, or none
        8 => {
            let n = r.of(&[samples - 1, samples + 1, 1, 2, 3]) as u64;
            let entry = scalar(r, SAMPLES, n, true);
            match samples_at {
                _ if r.chance(70) => e.insert(r.below(e.len() + 1), entry),
                Some(i) => drop(e.remove(i)),
                None => e.push(entry),
            }
        }
        // another page's
        _ => {
            let from = r.below(p.pages.len());
            let other = of_tag(&p.pages[from].entries, BITS).map(|i| &p.pages[from].entries[i]);
            let Some((ty, count, Some(n))) = other.map(|e| (e.ty, e.count, first_of(e))) else { return };
            let e = &mut p.pages[page].entries[at];
            (e.ty, e.count, e.data) = (ty, count, Data::Values(vec![n; count.min(70) as usize]));
        }
    }
    // the strip arrays' lengths come before, the geometry and the number of strips after
    let e = &mut p.pages[page].entries;
    match r.below(10) {
        0 => {
            if let Some(i) = of_tag(e, LENGTHS_TAG) {
                e[i].count = r.of(&[e[i].count.wrapping_add(1), e[i].count.saturating_sub(1)]);
            }
        }
        1 => {
            if let Some(i) = of_tag(e, HEIGHT) {
                e[i].data = Data::Values(vec![r.below(5) as u64]);
            }
        }
        2 => {
            for tag in [OFFSETS, LENGTHS_TAG] {
                if let Some(i) = of_tag(e, tag) {
                    e[i].count = e[i].count.wrapping_add(1);
                }
            }
        }
        _ => {}
    }
}

// Whether a value that is read of an entry is negative: a scalar's first, or any of a strip array.
fn is_below(e: &Entry, strips: &[(Where, u64)]) -> bool {
    let below = |n: u64| n >> (8 * size_of(e.ty) - 1) & 1 == 1;
    let place = |place: &Where| if let Where::At(n) = place { *n } else { 0 };
    matches!(e.ty, 6 | 8 | 9)
        && match &e.data {
            Data::Values(v) if SCALARS.contains(&e.tag) => v.first().is_some_and(|&n| below(n)),
            Data::Values(v) => [OFFSETS, LENGTHS_TAG].contains(&e.tag) && v.iter().any(|&n| below(n)),
            Data::Offsets => strips.iter().any(|(at, _)| below(place(at))),
            Data::Lengths => strips.iter().any(|&(_, n)| below(n)),
            Data::CzPlace => false,
        }
}

// Signed types. What is negative by chance mostly goes into a type without a sign. In 6 of a hundred files a page or two have a negative value
// that is meant, mostly one that a reader meets. The lists of recorded answers take their files without this too.
fn signs(r: &mut Random, p: &mut Plan) {
    for page in &mut p.pages {
        for e in &mut page.entries {
            if is_below(e, &page.strips) && r.chance(90) {
                e.ty = match e.ty {
                    6 => r.of(&[1, 7]),
                    8 => 3,
                    _ => r.of(&[4, 11]),
                };
            }
        }
    }
    if r.chance(6) && !p.pages.is_empty() {
        for _ in 0..r.of(&[1, 1, 1, 2]) {
            negative(r, p);
        }
    }
}

// A number below zero in a type, as its bits.
fn minus(r: &mut Random, ty: u16) -> u64 {
    let least = 1 << (8 * size_of(ty) - 1);
    let all = least - 1;
    let any = r.next() & all;
    least | r.of(&[all, all, all - 7, 0, 1, any])
}

// A negative value on a page, a reduced one as often as a full one; now and then with another fault beside it, so that it shows which comes
// first.
fn negative(r: &mut Random, p: &mut Plan) {
    let reduced = r.chance(50);
    let of_sort: Vec<usize> = (0..p.pages.len()).filter(|&i| p.pages[i].reduced == reduced).collect();
    let page = if of_sort.is_empty() { r.below(p.pages.len()) } else { r.of(&of_sort) };
    let way = r.below(12);
    let tags: &[u16] = match way {
        0..=5 => &SCALARS,
        6..=9 => &[OFFSETS, LENGTHS_TAG],
        _ => &[BITS],
    };
    let e = &mut p.pages[page].entries;
    let list: Vec<usize> = (0..e.len()).filter(|&i| tags.contains(&e[i].tag)).collect();
    if list.is_empty() {
        return;
    }
    let at = r.of(&list);
    // as it is now, behind the other: the file would be right by the entry that counts
    if r.chance(20) {
        let right = e[at].clone();
        e.insert(at + 1 + r.below(e.len() - at), right);
    }
    match way {
        0..=5 => negative_scalar(r, &mut e[at], way < 4),
        6..=9 => negative_strip(r, p, page, at),
        _ => negative_bits(r, p, page, at),
    }
    if r.chance(30) {
        beside(r, p, page);
    }
}

// A scalar's first value; or a further one, which isn't read, or what would be negative if its type had a sign.
fn negative_scalar(r: &mut Random, e: &mut Entry, read: bool) {
    if read {
        let ty = r.of(&[6, 8, 9]);
        let mut values = vec![minus(r, ty)];
        if r.chance(30) {
            values.extend((0..r.of(&[1, 1, 2, 4])).map(|_| r.of(&[2, 8, 0xffff_ffff])));
        }
        put_values(e, ty, values);
    } else if let Some(first) = first_of(e) {
        let ty = if first < 128 { r.of(&[6, 8, 9, 11]) } else { r.of(&[9, 11]) };
        let values = if ty == 11 { vec![first | 1 << 31] } else { vec![first, minus(r, ty)] };
        put_values(e, ty, values);
    }
}

// A value of a strip array; now and then the file ends within it, or it is of more values than the page has strips.
fn negative_strip(r: &mut Random, p: &mut Plan, page: usize, at: usize) {
    let strips = p.pages[page].strips.len();
    let e = &mut p.pages[page].entries[at];
    e.ty = r.of(&[6, 8, 9, 9]);
    if r.chance(30) {
        e.count = r.of(&[2, 3, 4, 100_000, 100_001]);
    }
    let values = (e.count as usize).clamp(1, strips + 1);
    e.other = Some((r.below(values), minus(r, e.ty)));
    if r.chance(25) && 1 < values {
        p.last = Some((page, e.tag, 1 + r.below(size_of(e.ty) * (values - 1))));
    }
}

// A further value of the bits, of as many as channels; now and then another is uneven, or the file ends within them.
fn negative_bits(r: &mut Random, p: &mut Plan, page: usize, at: usize) {
    let e = &mut p.pages[page].entries;
    let samples = of_tag(e, SAMPLES).and_then(|i| first_of(&e[i])).filter(|&n| n < 70).unwrap_or(1).max(2) as usize;
    let Some(value) = first_of(&e[at]).filter(|&n| n < 128) else { return };
    let ty = r.of(&[6, 8, 9]);
    let mut values = vec![value; samples];
    values[1 + r.below(samples - 1)] = minus(r, ty);
    if r.chance(25) {
        values[1 + r.below(samples - 1)] = 16;
    }
    put_values(&mut e[at], ty, values);
    if r.chance(20) {
        p.last = Some((page, BITS, 1 + r.below(size_of(ty) * (samples - 1))));
    }
}

fn put_values(e: &mut Entry, ty: u16, values: Vec<u64>) {
    (e.ty, e.count, e.place) = (ty, values.len() as u32, None);
    e.data = Data::Values(values);
}

// Another fault of a page: an entry that is refused before or behind, or what comes before or after all entries.
fn beside(r: &mut Random, p: &mut Plan, page: usize) {
    let Page { next, entries: e, .. } = &mut p.pages[page];
    match r.below(8) {
        0 => *next = Some(r.of(&[0xffff_ffff, 0x1_0000, 4])),
        1..=4 => {
            let tag = r.of(&SCALARS);
            let mut bad = scalar(r, tag, 1, true);
            match r.below(5) {
                0 => bad.ty = r.of(&[0, 2, 5, 13]),
                1 => bad.count = 0,
                2 => put_values(&mut bad, 4, vec![65_536]),
                3 => (bad.ty, bad.count, bad.place) = (4, 2, Some(0xffff_fff0)),
                _ => (bad.tag, bad.ty, bad.count) = (r.of(&[OFFSETS, LENGTHS_TAG, CZ]), r.of(&[1, 13]), 0),
            }
            e.insert(r.below(e.len() + 1), bad);
        }
        5 => {
            if let Some(i) = of_tag(e, LENGTHS_TAG) {
                e[i].count = r.of(&[e[i].count.wrapping_add(1), e[i].count.saturating_sub(1)]);
            }
        }
        6 => {
            if let Some(i) = of_tag(e, HEIGHT) {
                e[i].data = Data::Values(vec![r.below(5) as u64]);
            }
        }
        _ => uneven(r, p),
    }
}

fn lay(r: &mut Random, p: &Plan) -> Made {
    let mut pieces = Vec::new();
    for (i, page) in p.pages.iter().enumerate() {
        pieces.push(Piece::Directory(i));
        for (j, e) in page.entries.iter().enumerate() {
            let size = size_of(e.ty) as u64;
            if 4 < size * e.count as u64 && !matches!(e.data, Data::CzPlace) && e.place.is_none() {
                pieces.push(Piece::Data(i, j));
            }
        }
    }
    pieces.extend((0..p.strips.len()).map(Piece::Strip));
    pieces.push(Piece::Cz);
    if r.chance(50) {
        r.shuffle(&mut pieces);
    }
    let at = r.below(pieces.len() + 1);
    let at = if r.chance(50) { pieces.len() } else { at };
    pieces.insert(at, Piece::Block);
    let last = p.last.and_then(|(page, tag, missing)| Some((page, of_tag(&p.pages[page].entries, tag)?, missing)));
    if let Some((page, entry, _)) = last {
        let is_last = |piece: &Piece| matches!(piece, &Piece::Data(i, j) if (i, j) == (page, entry));
        if let Some(at) = pieces.iter().position(is_last) {
            let piece = pieces.remove(at);
            pieces.push(piece);
        }
    }

    let length = |piece: &Piece| match *piece {
        Piece::Directory(i) => 6 + 12 * p.pages[i].entries.len(),
        Piece::Data(i, j) => {
            let e = &p.pages[i].entries[j];
            let n = match &e.data {
                Data::Values(v) => v.len().min(e.count as usize),
                _ => (e.count as usize).min(p.pages[i].strips.len() + 1),
            };
            n * size_of(e.ty)
        }
        Piece::Cz => p.cz.len(),
        Piece::Block => p.block.len(),
        Piece::Strip(i) => p.strips[i].len(),
    };
    let gaps = r.chance(20);
    let fill = r.of(&[0, 0, 0xff, 0xa5]);
    let mut end = 8;
    let mut places = Vec::new();
    for piece in &pieces {
        if gaps {
            end += r.below(6);
        }
        places.push(end);
        end += length(piece);
    }
    let (mut cz_at, mut block_at) = (0, 0);
    let mut directory_places = vec![0; p.pages.len()];
    let mut strip_places = vec![0; p.strips.len()];
    let mut data_places: Vec<Vec<usize>> = p.pages.iter().map(|q| vec![0; q.entries.len()]).collect();
    for (piece, &at) in pieces.iter().zip(&places) {
        match *piece {
            Piece::Directory(i) => directory_places[i] = at,
            Piece::Data(i, j) => data_places[i][j] = at,
            Piece::Cz => cz_at = at,
            Piece::Block => block_at = at,
            Piece::Strip(i) => strip_places[i] = at,
        }
    }
    let directory_at = |i: usize| directory_places[i];

    let mut made = Made { file: vec![fill; end], fields: vec![(0, 2), (2, 2), (4, 4)], directories: Vec::new() };
    if gaps {
        made.file.extend((0..r.below(5)).map(|_| fill));
    }
    let f = &mut made.file;
    let set = |f: &mut Vec<u8>, at: usize, b: &[u8]| f[at..at + b.len()].copy_from_slice(b);
    set(f, 0, if p.big { b"MM" } else { b"II" });
    if p.has(Fault::Mark) {
        set(f, 0, r.of(&[b"IM", b"MI", b"ii", b"JJ", b"\0\0", if p.big { b"II" } else { b"MM" }]));
    }
    let magic = if p.has(Fault::Magic) { r.of(&[43, 0, 41, 42 << 8, 42 + 256]) } else { 42 };
    set(f, 2, &bytes_of(p.big, magic, 2));
    let mut first = if p.pages.is_empty() { 0 } else { directory_at(0) as u64 };
    if p.has(Fault::First) {
        first = r.of(&[0, 0xffff_ffff, end as u64, end as u64 - 1, first + 1, 4, end as u64 + 1, 1]);
    }
    set(f, 4, &bytes_of(p.big, first, 4));

    for (i, page) in p.pages.iter().enumerate() {
        let at = directory_at(i);
        set(f, at, &bytes_of(p.big, page.entries.len() as u64, 2));
        made.fields.push((at, 2));
        for (j, e) in page.entries.iter().enumerate() {
            let here = at + 2 + 12 * j;
            made.fields.extend([(here, 2), (here + 2, 2), (here + 4, 4), (here + 8, 4)]);
            set(f, here, &bytes_of(p.big, e.tag as u64, 2));
            set(f, here + 2, &bytes_of(p.big, e.ty as u64, 2));
            set(f, here + 4, &bytes_of(p.big, e.count as u64, 4));
            let size = size_of(e.ty);
            let mut values: Vec<u64> = match &e.data {
                Data::Values(v) => v.clone(),
                Data::Offsets => page
                    .strips
                    .iter()
                    .map(|s| match s.0 {
                        Where::Piece(k) => strip_places[k] as u64,
                        Where::At(at) => at,
                    })
                    .collect(),
                Data::Lengths => page.strips.iter().map(|s| s.1).collect(),
                Data::CzPlace => Vec::new(),
            };
            if let Some((which, value)) = e.other {
                values.resize(values.len().max(which + 1), 8);
                values[which] = value;
            }
            let mut bytes = Vec::new();
            for v in values.iter().take(e.count as usize) {
                bytes.extend(&*bytes_of(p.big, *v, size));
            }
            if matches!(e.data, Data::CzPlace) {
                let place = e.place.map_or(cz_at as u64, |n| n as u64);
                set(f, here + 8, &bytes_of(p.big, place, 4));
            } else if size as u64 * e.count as u64 <= 4 {
                if size == 0 || e.count == 0 {
                    bytes = bytes_of(p.big, r.next(), 4).to_vec();
                }
                bytes.resize(4, fill);
                set(f, here + 8, &bytes);
            } else {
                let place = match e.place {
                    Some(n) => n as usize,
                    None => {
                        let to = data_places[i][j];
                        let room = length(&Piece::Data(i, j));
                        bytes.resize(room, fill);
                        set(f, to, &bytes);
                        to
                    }
                };
                set(f, here + 8, &bytes_of(p.big, place as u64, 4));
            }
        }
        let link = at + 2 + 12 * page.entries.len();
        let next = match page.next {
            Some(n) => n as u64,
            None if i + 1 < p.pages.len() => directory_at(i + 1) as u64,
            None => 0,
        };
        set(f, link, &bytes_of(p.big, next, 4));
        made.fields.push((link, 4));
        made.directories.push((at, link));
    }
    set(f, cz_at, &p.cz);
    let pointer = p.block_pointer.unwrap_or(block_at as i64);
    if 112 <= p.cz.len() {
        set(f, cz_at + 108, &bytes_of(p.big, pointer as u64, 4));
    }
    for (at, n) in
        [(0, 4), (4, 4), (8, 4), (12, 4), (16, 4), (20, 4), (24, 4), (40, 8), (48, 8), (56, 8), (108, 4), (264, 4), (268, 4)]
    {
        if at + n <= p.cz.len() {
            made.fields.push((cz_at + at, n));
        }
    }
    set(f, block_at, &p.block);
    for &at in &p.block_fields {
        if at + 4 <= p.block.len() {
            made.fields.push((block_at + at, 4));
        }
    }
    for (i, s) in p.strips.iter().enumerate() {
        set(f, strip_places[i], s);
    }
    if let Some((page, entry, missing)) = last {
        let at = data_places[page][entry];
        if at != 0 {
            made.file.truncate(at + length(&Piece::Data(page, entry)).saturating_sub(missing));
        }
    }
    if p.has(Fault::Short) {
        let cut = r.of(&[1, 2, 3, 4, 8, 20]);
        let n = made.file.len().saturating_sub(cut);
        made.file.truncate(n);
    }
    made
}

// A file with as many faults; with several values of BitsPerSample and with negative values where later rules are asked for.
fn build(r: &mut Random, faults: usize, small: bool, later: bool) -> Made {
    let mut list = Vec::new();
    for _ in 0..faults {
        list.push(r.of(&FAULTS));
    }
    let mut p = plan(r, list, small);
    if later {
        bits(r, &mut p);
        signs(r, &mut p);
    }
    lay(r, &p)
}

// A field set to a number at a bound.
fn edit(r: &mut Random, m: &mut Made) {
    let (at, n) = r.of(&m.fields);
    if m.file.len() < at + n {
        return;
    }
    let big = m.file.starts_with(b"MM");
    let mut old = m.file[at..at + n].to_vec();
    if !big {
        old.reverse();
    }
    let old = old.iter().fold(0u64, |s, &b| s << 8 | b as u64);
    let len = m.file.len() as u64;
    let other = r.of(&m.fields).0 as u64;
    let bounds = [
        0,
        1,
        2,
        3,
        4,
        5,
        7,
        8,
        12,
        16,
        27,
        28,
        32,
        42,
        64,
        112,
        127,
        128,
        255,
        256,
        272,
        1023,
        1024,
        1025,
        0x7fff,
        0x8000,
        0xffff,
        0x1_0000,
        0x1_0002,
        99_999,
        100_000,
        100_001,
        0x7fff_ffff,
        0x8000_0000,
        0xffff_fffe,
        0xffff_ffff,
        len - 1,
        len,
        len + 1,
        len.saturating_sub(4),
        len.saturating_sub(3),
        old.wrapping_add(1),
        old.wrapping_sub(1),
        old.wrapping_mul(2),
        other,
        254,
        256,
        257,
        258,
        259,
        273,
        277,
        279,
        284,
        339,
        34412,
    ];
    let value = match n {
        8 => voxel(r),
        2 if r.chance(30) => r.below(16) as u64,
        _ => r.of(&bounds),
    };
    m.file[at..at + n].copy_from_slice(&bytes_of(big, value, n));
}

// A chain that leads elsewhere: to another directory, into the middle of one, to itself, to the end.
fn relink(r: &mut Random, m: &mut Made) {
    if m.directories.is_empty() {
        return;
    }
    let big = m.file.starts_with(b"MM");
    let (_, link) = r.of(&m.directories);
    let (to, to_link) = r.of(&m.directories);
    let len = m.file.len() as u64;
    let target = match r.below(12) {
        0 => to as u64,
        1..=4 => to as u64 + 12 * r.below(3) as u64 + r.of(&[0, 2, 1, 10]),
        5 => to_link as u64,
        6 => to_link as u64 - 2,
        7 => len - 6,
        8 => r.of(&[len, len - 1, len - 5, 0]),
        _ => r.next() % len,
    };
    if link + 4 <= m.file.len() {
        m.file[link..link + 4].copy_from_slice(&bytes_of(big, target, 4));
    }
    if r.chance(30) {
        // a small directory that overlaps others
        let at = r.below(m.file.len());
        for (i, &b) in bytes_of(big, r.below(3) as u64, 2).iter().enumerate() {
            if at + i < m.file.len() {
                m.file[at + i] = b;
            }
        }
    }
}

// A small right file, the ground of truncations and one-byte changes.
pub fn base(seed: u64, number: u64) -> Vec<u8> {
    let mut r = Random::of_case(seed, number, 7);
    build(&mut r, 0, true, true).file
}

// A file for the recorded lists: small.
pub fn small(seed: u64, case: u64) -> Vec<u8> {
    let mut r = Random::of_case(seed, case, 11);
    match r.below(100) {
        0..=29 => build(&mut r, 0, true, false).file,
        30..=79 => {
            let n = if r.chance(85) { 1 } else { 2 };
            build(&mut r, n, true, false).file
        }
        80..=91 => {
            let mut m = build(&mut r, 0, true, false);
            edit(&mut r, &mut m);
            m.file
        }
        92..=95 => {
            let mut m = build(&mut r, 0, true, false);
            relink(&mut r, &mut m);
            m.file
        }
        _ => {
            let mut f = build(&mut r, 0, true, false).file;
            f.truncate(r.below(f.len() + 1));
            f
        }
    }
}

// The file of a case.
pub fn file(seed: u64, case: u64) -> Vec<u8> {
    if CHANGES <= case {
        let n = case - CHANGES;
        let k = VALUES.len() as u64;
        let (number, rest) = (n / (LENGTHS * k), n % (LENGTHS * k));
        let mut f = base(seed, number);
        if let Some(b) = f.get_mut((rest / k) as usize) {
            *b = VALUES[(rest % k) as usize];
        }
        return f;
    }
    if TRUNCATIONS <= case {
        let n = case - TRUNCATIONS;
        let mut f = base(seed, n / LENGTHS);
        f.truncate((n % LENGTHS) as usize);
        return f;
    }
    made(seed, case, true)
}

// Any file for the recorded lists.
pub fn listed(seed: u64, case: u64) -> Vec<u8> {
    made(seed, case, false)
}

fn made(seed: u64, case: u64, later: bool) -> Vec<u8> {
    let mut r = Random::of_case(seed, case, 0);
    match r.below(100) {
        0..=64 => {
            let faults = r.of(&[0, 0, 0, 0, 0, 0, 0, 1, 1, 1, 2]);
            build(&mut r, faults, false, later).file
        }
        65..=78 => {
            let mut m = build(&mut r, 0, false, later);
            for _ in 0..r.of(&[1, 1, 2]) {
                edit(&mut r, &mut m);
            }
            m.file
        }
        79..=88 => {
            let mut f = build(&mut r, 0, false, later).file;
            for _ in 0..r.of(&[1, 1, 1, 2, 4]) {
                let at = r.below(f.len());
                f[at] = if r.chance(50) { f[at] ^ (1 << r.below(8)) } else { r.next() as u8 };
            }
            f
        }
        89..=93 => {
            let mut f = build(&mut r, 0, false, later).file;
            let n = r.below(f.len() + 1);
            f.truncate(if r.chance(50) { n } else { f.len() - n.min(r.below(30)) });
            f
        }
        94..=98 => {
            let mut m = build(&mut r, 0, false, later);
            relink(&mut r, &mut m);
            m.file
        }
        _ => {
            let n = r.below(120);
            let mut f: Vec<u8> = (0..n).map(|_| if r.chance(70) { r.below(4) as u8 } else { r.next() as u8 }).collect();
            let head: &[u8] = r.of(&[b"II\x2a\0\x08\0\0\0", b"MM\0\x2a\0\0\0\x08"]);
            for (i, &b) in head.iter().enumerate() {
                if i < f.len() {
                    f[i] = b;
                }
            }
            f
        }
    }
}
