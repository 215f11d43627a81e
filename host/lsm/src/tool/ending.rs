//! The sorts of file that samples are written to, and the writing of a picture to one.

use std::ffi::OsStr;
use std::io::{self, Write};
use std::path::Path;

use lsm::{Kind, Refusal};

use super::netpbm::{Pfm, Pgm};
use super::plain::{Npy, Raw};
use super::png::Png;
use super::scan::Picture;

/// A sort of file, by its ending.
#[derive(Debug, Clone, Copy, PartialEq, Eq)]
pub enum Ending {
    Raw,
    Pgm,
    Npy,
    Png,
    Pfm,
}

pub const ENDINGS: [Ending; 5] = [Ending::Raw, Ending::Pgm, Ending::Npy, Ending::Png, Ending::Pfm];

/// The size and kind of what is written.
#[derive(Debug, Clone, Copy)]
pub struct Shape {
    pub kind: Kind,
    pub width: usize,
    pub height: usize,
}

impl Shape {
    /// The bytes of a row.
    pub fn row(&self) -> usize {
        self.width * self.kind.size()
    }
}

/// Turns samples into a file's bytes. It is handed all rows once, in pieces, and may change a piece's memory.
pub trait Encoder {
    fn begin(&mut self, out: &mut dyn Write) -> io::Result<()>;
    fn piece(&mut self, samples: &mut [u8], out: &mut dyn Write) -> io::Result<()>;
    fn end(&mut self, out: &mut dyn Write) -> io::Result<()>;
}

/// Why a picture wasn't written whole.
pub enum Stopped {
    Refused(Refusal),
    Writing(io::Error),
}

impl From<io::Error> for Stopped {
    fn from(e: io::Error) -> Stopped {
        Stopped::Writing(e)
    }
}

impl From<Refusal> for Stopped {
    fn from(r: Refusal) -> Stopped {
        Stopped::Refused(r)
    }
}

impl Ending {
    /// The ending as it stands behind a file's point.
    pub fn text(self) -> &'static str {
        match self {
            Ending::Raw => "raw",
            Ending::Pgm => "pgm",
            Ending::Npy => "npy",
            Ending::Png => "png",
            Ending::Pfm => "pfm",
        }
    }

    /// The sort that a word names, in capitals or not.
    pub fn named(word: &OsStr) -> Option<Ending> {
        ENDINGS.into_iter().find(|e| word.eq_ignore_ascii_case(e.text()))
    }

    /// The sort that a file's name asks for.
    pub fn of(path: &OsStr) -> Option<Ending> {
        Path::new(path).extension().and_then(Ending::named)
    }

    /// Whether it holds samples of this kind.
    pub fn holds(self, kind: Kind) -> bool {
        match self {
            Ending::Raw | Ending::Npy => true,
            Ending::Pgm | Ending::Png => matches!(kind, Kind::U8 | Kind::U16),
            Ending::Pfm => kind == Kind::F32,
        }
    }

    /// Why a picture of this shape can't be written so, in words.
    pub fn refuses(self, shape: Shape) -> Option<String> {
        let kind = shape.kind;
        if !self.holds(kind) {
            let fit: Vec<_> = ENDINGS.iter().filter(|e| e.holds(kind)).map(|e| format!(".{}", e.text())).collect();
            return Some(format!(".{} can't hold {kind:?} samples; these can: {}", self.text(), fit.join(" ")));
        }
        let empty = shape.width == 0 || shape.height == 0;
        let can = matches!(self, Ending::Raw | Ending::Npy);
        (empty && !can).then(|| format!(".{} can't hold a rectangle of no samples; these can: .raw .npy", self.text()))
    }

    fn encoder(self, shape: Shape) -> Box<dyn Encoder> {
        match self {
            Ending::Raw => Box::new(Raw),
            Ending::Npy => Box::new(Npy(shape)),
            Ending::Pgm => Box::new(Pgm(shape)),
            Ending::Pfm => Box::new(Pfm(shape)),
            Ending::Png => Box::new(Png::new(shape)),
        }
    }

    /// Writes a picture, and says after each piece how many bytes of samples it had.
    pub fn write(self, picture: &Picture, memory: &mut Vec<u8>, out: &mut dyn Write, done: &mut dyn FnMut(usize)) -> Result<(), Stopped> {
        let mut encoder = self.encoder(picture.shape());
        encoder.begin(out)?;
        for piece in picture.pieces(self == Ending::Pfm) {
            picture.read(piece, memory)?;
            encoder.piece(memory, out)?;
            done(memory.len());
        }
        encoder.end(out)?;
        Ok(())
    }
}
