//! A safe Rust face of the LSM reader's C interface.
//!
//! The reader takes the bytes of a Zeiss LSM file and memory that the caller lends. It answers, or it refuses with one of nine
//! numbers. A refusal changes no lent memory. Past an answer's end, lent memory stays as it was.
//!
//! ```ignore
//! let mut table = vec![0; 4096];
//! let opened = lsm::open(&file, &mut table)?;
//! let table = &table[..opened.words];
//! let mut samples = vec![0; 1 << 20];
//! let picture = lsm::plane(&file, &opened.description, table, 0, 0, 0, 0, &mut samples)?;
//! ```

mod description;
mod refusal;

/// The C functions as they are. The safe functions of this crate call them; a test that looks at every word of an answer may too.
pub mod c;

pub use description::{Description, Kind, Order, PixelSize, ZStep};
pub use refusal::Refusal;

/// What opening a file gives, besides the strip table.
#[derive(Debug, Clone, Copy, PartialEq)]
pub struct Opened {
    /// How many directories of the file's chain were visited, thumbnails among them.
    pub visited: usize,
    /// How many words at the start of the lent table are the strip table: page by page, strip by strip, offset then length.
    pub words: usize,
    /// What the file holds.
    pub description: Description,
}

/// What a file says about one channel.
#[derive(Debug, Clone, Copy, PartialEq, Eq)]
pub struct Channel {
    /// Red, green and blue.
    pub colour: Option<[u8; 3]>,
    /// How many bytes at the start of the lent memory are the name, in UTF-8. A name of 0 bytes is a name all the same.
    pub name: Option<usize>,
}

/// A picture, or a part of one, that was written to lent memory: row by row, each sample little-endian.
#[derive(Debug, Clone, Copy, PartialEq, Eq)]
pub struct Picture {
    /// Rows.
    pub height: usize,
    /// Columns.
    pub width: usize,
    /// How many bytes at the start of the lent memory are samples.
    pub bytes: usize,
}

/// A part of a picture: the left column, the top row, the width and the height, in samples.
#[derive(Debug, Clone, Copy, PartialEq, Eq)]
pub struct Rect {
    pub x: usize,
    pub y: usize,
    pub w: usize,
    pub h: usize,
}

// The refusal that a call answered. The library promises that its numbers are those of a refusal; one that breaks this is no
// library to go on with.
fn refused(number: usize, answer: &[usize]) -> Refusal {
    let row = [answer[0], answer[1], answer[2], answer[3], answer[4]];
    match Refusal::from_row(row) {
        Some(r) if r.number() == number => r,
        _ => panic!("the library returned {number} with {row:?}, which is no refusal"),
    }
}

/// Opens a file: checks it, describes it and writes the strip table to lent memory.
///
/// Where `table` is too short and nothing else is in the way, the refusal is [`Refusal::TooShort`] with the words it takes.
pub fn open(file: &[u8], table: &mut [usize]) -> Result<Opened, Refusal> {
    let mut answer = [0; c::OPEN_WORDS];
    match c::open(file, table, &mut answer) {
        0 => {
            let mut words = [0; c::DESCRIPTION_WORDS];
            words.copy_from_slice(&answer[3..]);
            let description = Description::from_words(&words).unwrap_or_else(|| panic!("no description: {words:?}"));
            Ok(Opened { visited: answer[1], words: answer[2], description })
        }
        n => Err(refused(n, &answer)),
    }
}

/// Looks up a channel's colour and name. The name's bytes go to lent memory; 3,072 bytes hold any name.
pub fn channel(file: &[u8], description: &Description, channel: usize, name: &mut [u8]) -> Result<Channel, Refusal> {
    let mut answer = [0; c::CHANNEL_WORDS];
    match c::channel(file, &description.words(), channel, name, &mut answer) {
        0 => Ok(Channel {
            colour: (answer[1] == 1).then(|| [answer[2] as u8, answer[3] as u8, answer[4] as u8]),
            name: (answer[5] == 1).then_some(answer[6]),
        }),
        n => Err(refused(n, &answer)),
    }
}

/// Reads one picture into lent memory.
#[cfg(not(lsm_lacks_pictures))]
#[allow(clippy::too_many_arguments)]
pub fn plane(
    file: &[u8],
    description: &Description,
    table: &[usize],
    scene: usize,
    t: usize,
    c: usize,
    z: usize,
    out: &mut [u8],
) -> Result<Picture, Refusal> {
    let mut answer = [0; c::PICTURE_WORDS];
    match c::plane(file, &description.words(), table, [scene, t, c, z], out, &mut answer) {
        0 => Ok(Picture { height: answer[1], width: answer[2], bytes: answer[3] }),
        n => Err(refused(n, &answer)),
    }
}

/// Reads a part of one picture into lent memory. A part of no samples is accepted where it lies in the picture.
#[cfg(not(lsm_lacks_pictures))]
#[allow(clippy::too_many_arguments)]
pub fn region(
    file: &[u8],
    description: &Description,
    table: &[usize],
    scene: usize,
    t: usize,
    c: usize,
    z: usize,
    rect: Rect,
    out: &mut [u8],
) -> Result<Picture, Refusal> {
    let mut answer = [0; c::PICTURE_WORDS];
    let part = [rect.x, rect.y, rect.w, rect.h];
    match c::region(file, &description.words(), table, [scene, t, c, z], part, out, &mut answer) {
        0 => Ok(Picture { height: answer[1], width: answer[2], bytes: answer[3] }),
        n => Err(refused(n, &answer)),
    }
}
