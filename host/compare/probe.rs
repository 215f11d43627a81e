// Asks the original reader, and puts its answers into the words of the C interface.
//
// This is a child of the original's module `lsm_reader`, so that it sees that module's private fields: the build's copy of
// lsm_reader.rs has one line more at its end, which names this file. The text of the original stands as it is.
use std::fs::File;
use std::os::fd::{AsRawFd, FromRawFd};
use std::os::unix::fs::FileExt;
use std::panic::{catch_unwind, AssertUnwindSafe};
use std::path::{Path, PathBuf};
use std::time::{Duration, Instant};

use memmap2::Mmap;

use super::{parse_ifd, parse_lsm, read_tiff_header, strips_hold_whole_rows, LsmReader, PageStrips};
use crate::error::Error;
use crate::io::map_file;
use crate::lsm_channel_colors::read_channel_meta;
use crate::lsm_positions::LsmLayout;
use crate::types::{ChannelMeta, DType, Dims5, Endian, ImageMeta, ImageReader, PixelRect, Plane, PlaneBuf};

// A file in memory that has a path: the original opens paths.
pub struct Memory {
    file: File,
    path: PathBuf,
    len: usize,
    // time spent in the original's open
    pub took: Duration,
}

extern "C" {
    fn memfd_create(name: *const std::ffi::c_char, flags: std::ffi::c_uint) -> std::ffi::c_int;
}

impl Default for Memory {
    fn default() -> Memory {
        Memory::new()
    }
}

impl Memory {
    pub fn new() -> Memory {
        let fd = unsafe { memfd_create(c"lsm".as_ptr(), 1) };
        assert!(0 <= fd, "memfd_create: {}", std::io::Error::last_os_error());
        let file = unsafe { File::from_raw_fd(fd) };
        let path = PathBuf::from(format!("/proc/self/fd/{}", file.as_raw_fd()));
        Memory { file, path, len: 0, took: Duration::ZERO }
    }

    // Holds these bytes from now on. No reader of the former ones may be left.
    fn put(&mut self, bytes: &[u8]) {
        if bytes.len() != self.len {
            self.file.set_len(bytes.len() as u64).unwrap();
            self.len = bytes.len();
        }
        self.file.write_all_at(bytes, 0).unwrap();
    }
}

// A refusal as the C interface has it, and the original's words.
pub struct Refused {
    pub row: [usize; 5],
    pub text: String,
}

// What stands for a panic of the original: no row of a refusal is like it.
pub const PANIC: usize = 99;

fn refused(e: Error) -> Refused {
    let row = match &e {
        Error::Parse(_) => [1, 0, 0, 0, 0],
        Error::Decode(_) => [2, 0, 0, 0, 0],
        Error::Unsupported(_) => [3, 0, 0, 0, 0],
        &Error::OversizedAllocation { requested, cap } => [4, requested, cap, 0, 0],
        &Error::SceneOutOfRange { scene, count } => [5, scene, count, 0, 0],
        &Error::OutOfRange { scene, t, c, z } => [6, scene, t, c, z],
        e => panic!("no such refusal is expected: {e}"),
    };
    Refused { row, text: e.to_string() }
}

fn kept<T>(call: impl FnOnce() -> Result<T, Error>) -> Result<T, Refused> {
    match catch_unwind(AssertUnwindSafe(call)) {
        Ok(answer) => answer.map_err(refused),
        Err(_) => Err(Refused { row: [PANIC, 0, 0, 0, 0], text: "the original panicked".to_string() }),
    }
}

// The words of a description, as include/lsm.h counts them.
pub const WORDS: usize = 19;

pub struct Channel {
    pub colour: Option<[u8; 3]>,
    pub name: Option<String>,
}

pub struct Opened {
    reader: LsmReader,
    // Where the channels are interleaved `reader` has no page, and this one has them all (`wide`).
    wide: Option<LsmReader>,
    // The description; word 14 is 0 where there is a note, since the original keeps the note's text only. Where `times` says so, the reader
    // has all pages in one scene, and a coordinate is put into its terms (`asked`).
    pub words: [usize; WORDS],
    pub note: Option<String>,
    pub table: Vec<usize>,
    pub channels: Vec<Channel>,
}

pub struct Picture {
    pub height: usize,
    pub width: usize,
    pub bytes: Vec<u8>,
}

// Opens by a path, as `LsmReader::open` does. An empty file can't be mapped on every system; where mapping fails, the answer is
// that of a file under 8 bytes.
pub fn open(memory: &mut Memory, bytes: &[u8]) -> Result<Opened, Refused> {
    memory.put(bytes);
    let path: &Path = &memory.path;
    let start = Instant::now();
    let answer = catch_unwind(AssertUnwindSafe(|| LsmReader::open(path)));
    memory.took += start.elapsed();
    match answer {
        Ok(Ok(reader)) => Ok(opened(reader)),
        Ok(Err(Error::Io(e))) if bytes.is_empty() => Err(Refused { row: [1, 0, 0, 0, 0], text: format!("empty: {e}") }),
        Ok(Err(e)) => Err(refused(e)),
        Err(_) => Err(Refused { row: [PANIC, 0, 0, 0, 0], text: "the original panicked".to_string() }),
    }
}

fn opened(reader: LsmReader) -> Opened {
    let meta = reader.meta();
    let first = &meta.scenes[0];
    // Every scene of a file is alike but for its name.
    assert_eq!(meta.scenes.len(), reader.layout.scene_count());
    for scene in &meta.scenes[1..] {
        assert!(scene.dims == first.dims && scene.dtype == first.dtype && scene.samples == 1 && scene.palette.is_none());
        assert!(scene.notes == first.notes && scene.channels == first.channels);
        assert_eq!(format!("{:?}", scene.px_size_um), format!("{:?}", first.px_size_um));
    }
    assert!(first.dims == reader.dims && first.dtype == reader.dtype && first.samples == 1);
    assert_eq!(first.channels.len(), first.dims.c);

    let mut words = [0; WORDS];
    words[0] = matches!(reader.endian, Endian::Big) as usize;
    words[1] = match first.dtype {
        DType::U8 => 0,
        DType::U16 => 1,
        DType::I16 => 2,
        DType::F32 => 3,
    };
    let d = first.dims;
    words[2..7].copy_from_slice(&[d.t, d.c, d.z, d.y, d.x]);
    words[7] = reader.layout.scene_count();
    words[8] = reader.layout.expected_pages().unwrap() / words[7];
    words[9] = reader.strips_per_channel;
    // The original takes no series: a T of 0 counts as 1.
    assert_eq!(d.t, 1);
    words[17] = d.t;
    // Nor does it take interleaved channels: each strip has one.
    assert_eq!(words[18], 0);
    if let Some(size) = first.px_size_um {
        words[10] = 1;
        words[11] = size.x.to_bits() as usize;
        words[12] = size.y.to_bits() as usize;
        (words[13], words[14]) = match (size.z, first.notes.as_slice()) {
            (Some(z), []) => (0, z.to_bits() as usize),
            (None, []) => (1, 0),
            (None, [note]) if note.contains(" is a placeholder ") => (2, 0),
            (None, [note]) if note.contains(" is too large ") => (3, 0),
            other => panic!("{other:?}"),
        };
    } else {
        assert!(first.notes.is_empty());
    }
    // The channel block's place is not kept by the reader: parse once more.
    if let Some(at) = parse_lsm(&reader.mmap).ok().and_then(|p| p.channel_colors_offset) {
        words[15] = 1;
        words[16] = at;
    }

    let mut table = Vec::new();
    for page in &reader.real_pages {
        assert_eq!(page.offsets.len(), page.bytes.len());
        for (&at, &n) in page.offsets.iter().zip(&page.bytes) {
            table.extend([at as usize, n as usize]);
        }
    }
    let note = first.notes.first().cloned();
    let channels = first.channels.iter().map(|c| Channel { colour: c.color, name: c.name.clone() }).collect();
    Opened { words, note, table, channels, reader, wide: None }
}

// What full pages must have alike: the geometry and the number of strips.
pub type Stated = [u64; 8];

// What the original says of one directory by itself: its next pointer, its entries in turn, and its strip arrays' lengths.
pub fn directory(file: &[u8], at: usize) -> Result<Stated, Refused> {
    let (page, p, _, _) = kept(|| parse_ifd(file, at, read_tiff_header(file)?))?;
    let kind = [p.samples, p.bits, p.sample_format, p.compression, p.planar as u16].map(u64::from);
    let [samples, bits, format, compression, planar] = kind;
    Ok([p.width as u64, p.height as u64, samples, bits, format, compression, planar, page.offsets.len() as u64])
}

// The sorts of file that the original refuses and this reader takes.
#[derive(Default, Clone, Copy, PartialEq, Debug)]
pub struct Sort {
    pub series: bool,
    pub interleaved: bool,
}

// What opening a file should answer: `None` where the original refuses the file for its sort, and there is no twin.
pub struct Judged {
    pub sort: Sort,
    pub answer: Option<Result<Opened, Refused>>,
}

// What opening should answer. The original refuses a file for its T first and for interleaved channels later. So it is asked for the file's
// twin by the sort that was found (src/twin.rs), which `twin` makes: of equal length, with the same pages and strips in the same order. What
// the twin is refused with is the file's refusal. Otherwise the description is the twin's but for the file's own T, Z and channels, which
// `twin` gives too, and later calls are asked over the file's own bytes.
pub fn judged(memory: &mut Memory, file: &[u8], twin: impl Fn(Sort) -> Option<(Vec<u8>, [usize; 3])>) -> Judged {
    let mut sort = Sort::default();
    let mut answer = open(memory, file);
    let mut counts = None;
    while let Err(refused) = &answer {
        let mut found = sort;
        found.series |= refused.row[0] == 3 && refused.text.contains("multi-timepoint");
        found.interleaved |= refused.row[0] == 3 && refused.text.contains("interleaved (chunky)");
        if found == sort {
            break;
        }
        sort = found;
        let Some((bytes, own)) = twin(sort) else {
            return Judged { sort, answer: None };
        };
        counts = Some(own);
        answer = open(memory, &bytes);
    }
    let answer = match (answer, counts) {
        (Ok(o), Some(counts)) => Ok(put_right(memory, file, o, sort, counts)),
        (answer, _) => answer,
    };
    Judged { sort, answer: Some(answer) }
}

// The file's own answer, where that of its twin is `o`. `t` and `z` are 1 where the file has 0.
fn put_right(memory: &mut Memory, file: &[u8], o: Opened, sort: Sort, [t, z, c]: [usize; 3]) -> Opened {
    assert_eq!(Some(o.words[4]), t.checked_mul(z), "the twin's depth");
    assert_eq!(o.words[3], if sort.interleaved { 1 } else { c }, "the twin's channels");
    let mut words = o.words;
    words[2..5].copy_from_slice(&[t, c, z]);
    words[8] = z;
    words[17] = t;
    words[18] = sort.interleaved as usize;
    let (note, table) = (o.note.clone(), o.table.clone());
    // The twin's file goes away before the file takes its place in memory.
    drop(o);
    let own = handed(memory, file, &words, &table).expect("a reader of what the twin gave");
    Opened { note, ..own }
}

// The original reserves a picture before it looks at a strip. It isn't asked for larger ones up to the limit of 4 GiB.
pub const RESERVE: usize = 1 << 26;

// More channels than this are not looked up in a handed-in description: the original makes a list of them all.
pub const CHANNELS: usize = 4096;

// The number of a picture's page, (scene x T + t) x depth + z, or of all pages. Both are taken exactly; what passes 128 bits is the
// largest number, which passes 64 bits too.
fn page(words: &[usize; WORDS], [scene, t, z]: [usize; 3]) -> u128 {
    (scene as u128 * words[17] as u128 + t as u128).saturating_mul(words[8] as u128).saturating_add(z as u128)
}

// Whether a T counts for the pages: the layout's isn't 1, or a t above 0 is let through. The original's layout has no T, so its page
// number is right only where neither is so.
fn times(words: &[usize; WORDS]) -> bool {
    words[17] != 1 || 1 < words[2]
}

// The dimensions and the layout of the original's reader, and how many pages the whole-row test covers: `None` where they pass 64 bits.
// Where a T counts, all pages go into one scene: a page is then a plane of it, in the same order.
fn laid_out(words: &[usize; WORDS]) -> Option<(Dims5, LsmLayout, Option<usize>)> {
    let mut dims = Dims5 { t: words[2], c: words[3], z: words[4], y: words[5], x: words[6] };
    if !times(words) {
        let scenes = i32::try_from(words[7]).ok().filter(|&n| 0 < n)?;
        let layout = LsmLayout::new(scenes, 1, words[8]).ok()?;
        return Some((dims, layout, layout.expected_pages()));
    }
    dims.t = 1;
    dims.z = usize::MAX;
    let pages = usize::try_from(page(words, [words[7], 0, 0])).ok();
    let layout = LsmLayout::new(1, 1, pages.unwrap_or(usize::MAX)).ok()?;
    Some((dims, layout, pages))
}

// The pages that are wholly in the table. Where a page's length overflows, or is 0, there is none.
fn pages_of(table: &[usize], strips: usize, channels: usize) -> Vec<PageStrips> {
    let Some(n) = strips.checked_mul(channels).and_then(|n| n.checked_mul(2)).filter(|&n| n != 0) else {
        return Vec::new();
    };
    let numbers = |page: &[usize], first: usize| page.iter().skip(first).step_by(2).map(|&n| n as u64).collect();
    table.chunks_exact(n).map(|page| PageStrips { offsets: numbers(page, 0), bytes: numbers(page, 1) }).collect()
}

// The original's reader over any file, with a description and a strip table that are handed in. `None` where it can't be made so:
// no strips in a page where each has one channel; a file that can't be mapped; where no T counts, no scene or more than 2^31 - 1. The words
// must be a description.
pub fn handed(memory: &mut Memory, file: &[u8], words: &[usize; WORDS], table: &[usize]) -> Option<Opened> {
    let (dims, layout, pages) = laid_out(words)?;
    let (per_channel, interleaved) = (words[9], words[18] == 1);
    if (per_channel == 0 && dims.c != 0 && !interleaved) || file.is_empty() {
        return None;
    }
    let real_pages = if interleaved { Vec::new() } else { pages_of(table, per_channel, dims.c) };
    let dtype = dtype(words);
    // The whole-row test over the pages that there should be. Where the rows overflow, the original would panic: no.
    let sums = |page: &PageStrips, row: usize| {
        page.bytes.chunks(per_channel).all(|c| c.iter().try_fold(0usize, |n, &b| n.checked_add(b as usize / row)).is_some())
    };
    let native_region = match (dims.x.checked_mul(dtype.size_bytes()), pages) {
        (Some(row), Some(pages)) => {
            !interleaved
                && 0 < row
                && pages <= real_pages.len()
                && real_pages[..pages]
                    .iter()
                    .all(|p| sums(p, row) && strips_hold_whole_rows(p, per_channel, dims.c, row, dims.y))
        }
        _ => false,
    };
    memory.put(file);
    let mmap = map_file(&memory.path).ok()?;
    let found = match dims.c {
        n if CHANNELS < n => Vec::new(),
        // Behind 2^64 - 17 the original's own sum overflows. No such place can be read: no colours and no names.
        n if words[15] == 1 && words[16] <= usize::MAX - 16 => read_channel_meta(&mmap, words[16], endian(words), n),
        n => vec![ChannelMeta::default(); n],
    };
    let channels = found.into_iter().map(|c| Channel { colour: c.color, name: c.name }).collect();
    let wide = if interleaved { wide(memory, words, dims, layout, table) } else { None };
    let reader = made(mmap, words, dims, layout, (per_channel, real_pages), native_region);
    Some(Opened { reader, wide, words: *words, note: None, table: table.to_vec(), channels })
}

fn dtype(words: &[usize; WORDS]) -> DType {
    [DType::U8, DType::U16, DType::I16, DType::F32][words[1]]
}

fn endian(words: &[usize; WORDS]) -> Endian {
    if words[0] == 1 { Endian::Big } else { Endian::Little }
}

// A reader of the original's, with the strips of a channel and the pages.
fn made(
    mmap: Mmap,
    words: &[usize; WORDS],
    dims: Dims5,
    layout: LsmLayout,
    (strips_per_channel, real_pages): (usize, Vec<PageStrips>),
    native_region: bool,
) -> LsmReader {
    let meta = ImageMeta { name: String::new(), scenes: Vec::new() };
    LsmReader { mmap, meta, endian: endian(words), dtype: dtype(words), dims, layout, strips_per_channel, real_pages, native_region }
}

// The pages of interleaved channels as those of one channel that is so many times as wide: the same strips, held to the same number of bytes.
// `None` where that width passes 64 bits.
fn wide(memory: &Memory, words: &[usize; WORDS], dims: Dims5, layout: LsmLayout, table: &[usize]) -> Option<LsmReader> {
    let dims = Dims5 { c: 1, x: dims.x.checked_mul(dims.c)?, ..dims };
    let pages = pages_of(table, words[9], 1);
    Some(made(map_file(&memory.path).ok()?, words, dims, layout, (words[9], pages), false))
}

// The note of a Z step, in the original's words.
pub fn note_of(bits: u32) -> Option<String> {
    crate::calibration::z_step_note(f32::from_bits(bits))
}

fn picture(plane: Plane) -> Picture {
    let mut bytes = Vec::new();
    match &plane.data {
        PlaneBuf::U8(v) => bytes.extend(v),
        PlaneBuf::U16(v) => v.iter().for_each(|n| bytes.extend(n.to_le_bytes())),
        PlaneBuf::I16(v) => v.iter().for_each(|n| bytes.extend(n.to_le_bytes())),
        PlaneBuf::F32(v) => v.iter().for_each(|n| bytes.extend(n.to_bits().to_le_bytes())),
    }
    Picture { height: plane.shape[0], width: plane.shape[1], bytes }
}

impl Opened {
    // Whether rectangles are read from the strips without the whole picture.
    pub fn whole_rows(&self) -> bool {
        self.reader.supports_region()
    }

    // A coordinate in the terms of the reader. Where all pages are in one scene, what the original checks first is checked here: the scene,
    // then t, c and z. The page becomes a plane of that scene, so that the original checks all the rest in its own order. No table has
    // page 2^64 - 2 or a later one, so these are alike; 2^64 - 1 would not be a plane of the scene.
    fn asked(&self, at: [usize; 4]) -> Result<[usize; 4], Refused> {
        let [scene, t, c, z] = at;
        let w = &self.words;
        if !times(w) {
            return Ok(at);
        }
        if w[7] <= scene {
            return Err(refused(Error::SceneOutOfRange { scene, count: w[7] }));
        }
        if w[2] <= t || w[3] <= c || w[4] <= z {
            return Err(refused(Error::OutOfRange { scene, t, c, z }));
        }
        Ok([0, 0, c, page(w, [scene, t, z]).min(usize::MAX as u128 - 1) as usize])
    }

    // The refusal of a page carries the caller's own coordinate.
    fn answered(&self, at: [usize; 4], answer: Result<Plane, Refused>) -> Result<Picture, Refused> {
        answer.map(picture).map_err(|mut r| {
            if times(&self.words) && r.row[0] == 6 {
                r.row[1..].copy_from_slice(&at);
            }
            r
        })
    }

    pub fn plane(&self, at: [usize; 4]) -> Result<Picture, Refused> {
        let [scene, t, c, z] = self.asked(at)?;
        self.answered(at, kept(|| self.reader.plane(scene, t, c, z)))
    }

    pub fn region(&self, at: [usize; 4], rect: [usize; 4]) -> Result<Picture, Refused> {
        let [scene, t, c, z] = self.asked(at)?;
        let [x, y, w, h] = rect;
        self.answered(at, kept(|| self.reader.region(scene, t, c, z, PixelRect { x, y, w, h })))
    }

    // A picture of interleaved channels, or a rectangle of it, where the original can judge it. It does so in three steps. The reader without
    // pages refuses what comes before the page, and gives an empty rectangle; otherwise it has no page. Then the reader of one wide channel
    // refuses the page and its strips, or accepts them. Then the channel's samples, picked out of the joined strips, are a file of their own,
    // of which the original gives the picture or the rectangle.
    //
    // `None` where channels times the picture's size pass 64 bits, or what the original reserves, or where the width does.
    pub fn interleaved(&self, at: [usize; 4], rect: Option<[usize; 4]>) -> Option<Result<Picture, Refused>> {
        let w = &self.words;
        let [scene, t, c, z] = at;
        let before = match rect {
            None => self.plane(at),
            Some(rect) => self.region(at, rect),
        };
        let there = t < w[2] && c < w[3] && z < w[4];
        if !matches!(&before, Err(r) if r.row[0] == 6 && there) {
            return Some(before);
        }
        let sample = dtype(w).size_bytes();
        let all = (w[6] * w[5] * sample).checked_mul(w[3])?;
        if RESERVE < all {
            return None;
        }
        let wide = self.wide.as_ref()?;
        let [scene_asked, t_asked, _, z_asked] = self.asked(at).unwrap_or_else(|r| panic!("{}", r.text));
        if let Err(mut r) = kept(|| wide.plane(scene_asked, t_asked, 0, z_asked)) {
            if r.row[0] == 6 {
                r.row[1..].copy_from_slice(&at);
            }
            return Some(Err(r));
        }
        let first = 2 * w[9] * page(w, [scene, t, z]) as usize;
        let strips = self.table[first..first + 2 * w[9]].chunks(2);
        let joined: Vec<u8> = strips.flat_map(|s| self.reader.mmap[s[0]..s[0] + s[1]].iter().copied()).collect();
        // A picture of no bytes has no pixel to pick from.
        let pixels = joined.chunks(if joined.is_empty() { 1 } else { sample * w[3] });
        let mut own: Vec<u8> = pixels.flat_map(|pixel| pixel[sample * c..][..sample].iter().copied()).collect();
        let strip = PageStrips { offsets: vec![0], bytes: vec![own.len() as u64] };
        let dims = Dims5 { t: 1, c: 1, z: 1, ..self.reader.dims };
        let rows = dims.x.checked_mul(sample).is_some_and(|row| strips_hold_whole_rows(&strip, 1, 1, row, dims.y));
        // no file of no bytes can be mapped
        own.push(0);
        let mut memory = Memory::new();
        memory.put(&own);
        let mmap = map_file(&memory.path).ok()?;
        let one = made(mmap, w, dims, LsmLayout::new(1, 1, 1).ok()?, (1, vec![strip]), rows);
        Some(kept(|| match rect {
            None => one.plane(0, 0, 0, 0),
            Some([x, y, w, h]) => one.region(0, 0, 0, 0, PixelRect { x, y, w, h }),
        })
        .map(picture))
    }

    // How long a picture takes, or a rectangle of it.
    pub fn timed(&self, at: [usize; 4], rect: Option<[usize; 4]>) -> Duration {
        let [scene, t, c, z] = self.asked(at).unwrap_or_else(|r| panic!("{}", r.text));
        let start = Instant::now();
        let answer = match rect {
            None => self.reader.plane(scene, t, c, z),
            Some([x, y, w, h]) => self.reader.region(scene, t, c, z, PixelRect { x, y, w, h }),
        };
        let took = start.elapsed();
        std::hint::black_box(answer.expect("a picture"));
        took
    }
}

// How long opening takes; the file is in memory. And the number that it answers: 0 where it accepts.
pub fn timed_open(memory: &mut Memory, bytes: &[u8]) -> (Duration, usize) {
    memory.put(bytes);
    let start = Instant::now();
    let answer = LsmReader::open(&memory.path);
    let took = start.elapsed();
    let number = std::hint::black_box(answer).map_or_else(|e| refused(e).row[0], |_| 0);
    (took, number)
}
