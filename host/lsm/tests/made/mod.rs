//! A maker of LSM files, for tests, documents and times. It writes from start to end and holds one row.
//!
//! The sample at scene s, t, c, z, row y and column x comes from n = 31 x + 257 y + 1009 z + 4001 c + 16001 t + 32003 s: for U8 and U16 the low 8
//! and 16 bits of n, for I16 the low 16 bits as two's complement, for F32 the low 16 bits / 65,536. Or it is a section through growth layers, see
//! `Section`.
#![allow(dead_code)] // the example and the tests each need a part of it

use std::io::{self, Write};

pub use lsm::Kind;

// SampleFormat: unsigned, signed, float.
fn sample_format(kind: Kind) -> usize {
    match kind {
        Kind::U8 | Kind::U16 => 1,
        Kind::I16 => 2,
        Kind::F32 => 3,
    }
}

/// What a file is to hold.
#[derive(Debug, Clone)]
pub struct Made {
    pub kind: Kind,
    pub big_endian: bool,
    pub interleaved: bool,
    pub width: usize,
    pub height: usize,
    pub depth: usize,
    pub channels: usize,
    pub times: usize,
    pub scenes: usize,
    /// Strips of a channel on a page; where the channels are interleaved, of a page.
    pub strips: usize,
    /// Whether strips end anywhere, also inside a sample. Otherwise they hold whole rows.
    pub anywhere: bool,
    /// Whether all strips name the same bytes, those of the file's first strip.
    pub shared: bool,
    /// A page whose strips stand outside the file.
    pub lost: Option<usize>,
    /// Whether a thumbnail of one sample follows each page, as microscopes write it.
    pub thumbnails: bool,
    /// The size of a voxel in micrometres.
    pub voxel: Option<[f64; 3]>,
    /// Names and colours of the channels; the channels behind them have none.
    pub names: Vec<(String, [u8; 3])>,
    /// Whether the samples are a section through growth layers.
    pub section: bool,
}

impl Default for Made {
    fn default() -> Made {
        Made {
            kind: Kind::U8,
            big_endian: false,
            interleaved: false,
            width: 7,
            height: 5,
            depth: 1,
            channels: 1,
            times: 1,
            scenes: 1,
            strips: 1,
            anywhere: false,
            shared: false,
            lost: None,
            thumbnails: false,
            voxel: None,
            names: Vec::new(),
            section: false,
        }
    }
}

const SHORT: u32 = 3;
const LONG: u32 = 4;
const HEADER: usize = 8;
/// The CZ block up to DimensionM.
const CZ_BLOCK: usize = 272;

/// The bytes of a file in its order.
struct Bytes {
    big: bool,
    bytes: Vec<u8>,
}

impl Bytes {
    fn u16(&mut self, n: u32) {
        let n = n as u16;
        self.bytes.extend(if self.big { n.to_be_bytes() } else { n.to_le_bytes() });
    }

    fn u32(&mut self, n: usize) {
        let n = u32::try_from(n).expect("a place or a number above 32 bits");
        self.bytes.extend(if self.big { n.to_be_bytes() } else { n.to_le_bytes() });
    }

    fn f64(&mut self, f: f64) {
        self.bytes.extend(if self.big { f.to_be_bytes() } else { f.to_le_bytes() });
    }

    fn zeros_to(&mut self, len: usize) {
        self.bytes.resize(len, 0);
    }
}

impl Made {
    pub fn pages(&self) -> usize {
        self.scenes * self.times * self.depth
    }

    /// The bytes of a picture's samples.
    pub fn picture_bytes(&self) -> usize {
        self.width * self.height * self.kind.size()
    }

    fn page_bytes(&self) -> usize {
        self.picture_bytes() * self.channels
    }

    fn strips_of_page(&self) -> usize {
        self.strips * if self.interleaved { 1 } else { self.channels }
    }

    // The bytes of each strip of a channel, or of an interleaved page: equal ones, but for the last.
    fn strip_bytes(&self) -> Vec<usize> {
        let all = if self.interleaved { self.page_bytes() } else { self.picture_bytes() };
        let unit = if self.anywhere { 1 } else { all / self.height };
        let each = (all / unit).div_ceil(self.strips) * unit;
        (0..self.strips).map(|i| each.min(all.saturating_sub(each * i))).collect()
    }

    /// Whether there is something for the last strip.
    pub fn strips_come_out(&self) -> bool {
        self.strip_bytes().last().is_some_and(|&n| n > 0)
    }

    fn entries(&self, page: usize) -> usize {
        12 + (page == 0) as usize
    }

    // The bytes of a page's directory and of the arrays behind it.
    fn directory_bytes(&self, page: usize) -> usize {
        2 + 12 * self.entries(page) + 4 + 8 * self.strips_of_page() + 2 * self.channels
    }

    fn thumbnail_bytes(&self) -> usize {
        if self.thumbnails { 2 + 12 * 6 + 4 } else { 0 }
    }

    fn channel_block(&self) -> Vec<u8> {
        let mut b = Bytes { big: self.big_endian, bytes: Vec::new() };
        if self.names.is_empty() {
            return b.bytes;
        }
        let colors = 4 * self.names.len();
        let all = 24 + colors + self.names.iter().map(|(name, _)| 4 + name.len() + 1).sum::<usize>();
        for n in [all, self.names.len(), self.names.len(), 24, 24 + colors, 0] {
            b.u32(n);
        }
        for (_, [red, green, blue]) in &self.names {
            b.bytes.extend([*red, *green, *blue, 0]);
        }
        for (name, _) in &self.names {
            b.u32(name.len() + 1);
            b.bytes.extend(name.as_bytes());
            b.bytes.push(0);
        }
        b.bytes
    }

    // The CZ block, at HEADER: its field names stand in crates/lsm_format/specs/CzInfo.antt.
    fn cz_block(&self, b: &mut Bytes, channel_block: usize) {
        let [x, y, z] = self.voxel.unwrap_or_default();
        for n in [0x0400_494c, CZ_BLOCK, self.width, self.height, self.depth, self.channels, self.times] {
            b.u32(n);
        }
        b.u32(match self.kind {
            Kind::U8 => 1,
            Kind::U16 | Kind::I16 => 2,
            Kind::F32 => 5,
        });
        b.zeros_to(HEADER + 40);
        for micrometres in [x, y, z] {
            b.f64(micrometres / 1e6);
        }
        b.zeros_to(HEADER + 88);
        b.u16(if self.times > 1 { 6 } else { 0 }); // the sort of scan: XYZ with time, or XYZ
        b.zeros_to(HEADER + 108);
        b.u32(channel_block);
        b.zeros_to(HEADER + 264);
        b.u32(self.scenes);
        b.u32(1);
    }

    fn directory(&self, b: &mut Bytes, page: usize, samples: usize, next: usize) {
        let at = b.bytes.len();
        let arrays = at + 2 + 12 * self.entries(page) + 4;
        let strips = self.strips_of_page();
        let (counts, depths) = (arrays + 4 * strips, arrays + 8 * strips);
        b.u16(self.entries(page) as u32);
        let mut entry = |tag: u32, kind: u32, values: usize, one: usize, place: usize| {
            b.u16(tag);
            b.u16(kind);
            b.u32(values);
            let held = if kind == SHORT { 2 } else { 1 };
            match values {
                _ if values > held || tag == 34412 => b.u32(place),
                _ if kind == SHORT => (0..2).for_each(|i| b.u16(if i < values { one as u32 } else { 0 })),
                _ => b.u32(one),
            }
        };
        let lengths = self.strip_bytes();
        entry(254, LONG, 1, 0, 0);
        entry(256, LONG, 1, self.width, 0);
        entry(257, LONG, 1, self.height, 0);
        entry(258, SHORT, self.channels, 8 * self.kind.size(), depths);
        entry(259, SHORT, 1, 1, 0);
        entry(262, SHORT, 1, 1, 0);
        entry(273, LONG, strips, samples, arrays);
        entry(277, SHORT, 1, self.channels, 0);
        entry(278, LONG, 1, self.height.div_ceil(self.strips), 0);
        entry(279, LONG, strips, lengths[0], counts);
        entry(284, SHORT, 1, if self.interleaved { 1 } else { 2 }, 0);
        entry(339, SHORT, 1, sample_format(self.kind), 0);
        if page == 0 {
            entry(34412, 1, CZ_BLOCK, 0, HEADER);
        }
        b.u32(next);
        self.arrays(b, samples, &lengths);
    }

    // The strips' places and lengths, then the bits of each channel.
    fn arrays(&self, b: &mut Bytes, samples: usize, lengths: &[usize]) {
        let all = || lengths.iter().cycle().take(self.strips_of_page());
        let mut place = samples;
        for length in all() {
            b.u32(place);
            if !self.shared {
                place += length;
            }
        }
        all().for_each(|&length| b.u32(length));
        (0..self.channels).for_each(|_| b.u16(8 * self.kind.size() as u32));
    }

    // A reduced page of one sample, which is the file's second byte.
    fn thumbnail(&self, b: &mut Bytes, next: usize) {
        b.u16(6);
        for (tag, kind, value) in [(254, LONG, 1), (256, LONG, 1), (257, LONG, 1), (258, SHORT, 8), (273, LONG, 1), (279, LONG, 1)] {
            b.u16(tag);
            b.u16(kind);
            b.u32(1);
            if kind == SHORT {
                b.u16(value as u32);
                b.u16(0);
            } else {
                b.u32(value);
            }
        }
        b.u32(next);
    }

    /// The bytes of all that stands before the samples.
    pub fn head_bytes(&self) -> usize {
        let sizes = (0..self.pages()).map(|page| self.directory_bytes(page) + self.thumbnail_bytes());
        HEADER + CZ_BLOCK + self.channel_block().len() + sizes.sum::<usize>()
    }

    /// All that stands before the samples.
    pub fn head(&self) -> Vec<u8> {
        let channel_block = self.channel_block();
        let first = HEADER + CZ_BLOCK + channel_block.len();
        let samples = self.head_bytes();
        let mut b = Bytes { big: self.big_endian, bytes: if self.big_endian { b"MM".to_vec() } else { b"II".to_vec() } };
        b.u16(42);
        b.u32(first);
        self.cz_block(&mut b, if channel_block.is_empty() { 0 } else { HEADER + CZ_BLOCK });
        b.bytes.extend(channel_block);
        for page in 0..self.pages() {
            let end = b.bytes.len() + self.directory_bytes(page);
            let last = page + 1 == self.pages();
            let place = if self.shared { samples } else { samples + page * self.page_bytes() };
            let place = if self.lost == Some(page) { 0xf000_0000 } else { place };
            self.directory(&mut b, page, place, if last && !self.thumbnails { 0 } else { end });
            if self.thumbnails {
                self.thumbnail(&mut b, if last { 0 } else { end + self.thumbnail_bytes() });
            }
        }
        b.bytes
    }

    /// Writes the file.
    pub fn write(&self, out: &mut impl Write) -> io::Result<()> {
        out.write_all(&self.head())?;
        let layers = self.section.then(|| Section::new(self.height, self.width));
        let samples = Samples { made: self, layers };
        if self.shared {
            let first = samples.rows(0, 0, 0..self.height.div_ceil(self.strips));
            return out.write_all(&first[..self.strip_bytes()[0]]);
        }
        (0..self.pages()).try_for_each(|page| samples.page(page, out))
    }

    /// The file, for one that is small.
    pub fn bytes(&self) -> Vec<u8> {
        let mut bytes = Vec::new();
        self.write(&mut bytes).expect("memory takes all");
        bytes
    }

    /// The samples of a rectangle of a picture as a reader is to give them: row by row, little-endian.
    pub fn picture(&self, [scene, t, c, z]: [usize; 4], [x, y, w, h]: [usize; 4]) -> Vec<u8> {
        let mut out = Vec::new();
        for row in y..y + h {
            for column in x..x + w {
                let n = 31 * column + 257 * row + 1009 * z + 4001 * c + 16001 * t + 32003 * scene;
                put(self.kind, false, n as u32, &mut out);
            }
        }
        out
    }
}

// A sample from the low bits of n.
fn put(kind: Kind, big: bool, n: u32, out: &mut Vec<u8>) {
    match kind {
        Kind::U8 => out.push(n as u8),
        Kind::U16 | Kind::I16 => out.extend(if big { (n as u16).to_be_bytes() } else { (n as u16).to_le_bytes() }),
        Kind::F32 => {
            let f = f32::from(n as u16) / 65536.0;
            out.extend(if big { f.to_be_bytes() } else { f.to_le_bytes() });
        }
    }
}

/// The samples of a file, as they are stored.
struct Samples<'a> {
    made: &'a Made,
    layers: Option<Section>,
}

impl Samples<'_> {
    fn page(&self, page: usize, out: &mut impl Write) -> io::Result<()> {
        let m = self.made;
        let planes = if m.interleaved { 1 } else { m.channels };
        (0..planes).try_for_each(|c| (0..m.height).try_for_each(|y| out.write_all(&self.rows(page, c, y..y + 1))))
    }

    // Rows of a channel, or of all of them where they are interleaved.
    fn rows(&self, page: usize, c: usize, rows: std::ops::Range<usize>) -> Vec<u8> {
        let m = self.made;
        let (z, t, scene) = (page % m.depth, page / m.depth % m.times, page / m.depth / m.times);
        let of_page = 1009 * z + 16001 * t + 32003 * scene;
        let channels = if m.interleaved { 0..m.channels } else { c..c + 1 };
        let mut out = Vec::with_capacity(rows.len() * m.width * channels.len() * m.kind.size());
        for y in rows {
            for x in 0..m.width {
                for c in channels.clone() {
                    let n = match &self.layers {
                        None => (31 * x + 257 * y + 4001 * c + of_page) as u32,
                        Some(layers) => layers.sample(m.kind, x, y, (4001 * c + of_page) as u32),
                    };
                    put(m.kind, m.big_endian, n, &mut out);
                }
            }
        }
        out
    }
}

/// A section through growth layers: a sine down the rows, whose period grows slowly, bent a little over the columns, and grain.
struct Section {
    /// The sine at sixteenths of a row, from 0 to 4095.
    wave: Vec<u16>,
    /// How many sixteenths of a row a column is lower than the highest one.
    bend: Vec<usize>,
}

impl Section {
    fn new(height: usize, width: usize) -> Section {
        // from 7 rows on the period grows by a row in 24: the phase is the integral of 1 / period
        let phase = |y: f64| 24.0 * (1.0 + y / (24.0 * 7.0)).ln();
        let deepest = 16.0 * 12.0;
        let middle = (width as f64 - 1.0) / 2.0;
        let off = |x: usize| (x as f64 - middle) / middle.max(1.0);
        let bend = (0..width).map(|x| (deepest * off(x) * off(x)) as usize).collect();
        let sine = |i: usize| (2048.0 + 1900.0 * (std::f64::consts::TAU * phase(i as f64 / 16.0)).sin()) as u16;
        Section { wave: (0..16 * height + deepest as usize + 1).map(sine).collect(), bend }
    }

    // Of 16 bits the layers take the low 12, as microscopes give them.
    fn sample(&self, kind: Kind, x: usize, y: usize, of_picture: u32) -> u32 {
        let wave = u32::from(self.wave[16 * y + self.bend[x]]);
        let mixed = (x as u32).wrapping_mul(0x9e37_79b1) ^ (y as u32).wrapping_mul(0x85eb_ca77) ^ of_picture.wrapping_mul(0xc2b2_ae3d);
        let grain = mixed.wrapping_mul(0x27d4_eb2f) >> 25;
        let n = wave + grain;
        if kind == Kind::U8 { n >> 4 } else { n }
    }
}
