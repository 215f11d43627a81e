//! An opened file, and its pictures. A picture is read in pieces of whole rows, so that the memory is a piece's, whatever the picture's size.

use std::ffi::OsStr;
use std::fmt;

use lsm::{Description, Rect, Refusal};

use super::ending::Shape;
use super::failure::Failure;
use super::input::{shown, Input};

/// The most bytes of a piece: what stays in a processor's cache between the library and the file. 4 or 16 MiB take longer.
const PIECE: usize = 1 << 20;
/// That of a picture above the limit, for which the library goes through all strips of the file at each call.
const LARGE_PIECE: usize = 16 << 20;

/// A file that the library accepts.
pub struct Scan {
    pub input: Input,
    pub description: Description,
    pub visited: usize,
    table: Vec<usize>,
}

/// Which picture is meant.
#[derive(Debug, Clone, Copy)]
pub struct At {
    pub scene: usize,
    pub t: usize,
    pub c: usize,
    pub z: usize,
}

impl fmt::Display for At {
    fn fmt(&self, f: &mut fmt::Formatter<'_>) -> fmt::Result {
        write!(f, "scene {}, t {}, c {}, z {}", self.scene, self.t, self.c, self.z)
    }
}

impl Scan {
    /// Opens the file of this name, with a strip table as long as it takes.
    pub fn open(name: &OsStr) -> Result<Scan, Failure> {
        let input = Input::open(name)?;
        // most files need no more, and are opened once
        let mut table = words(4096, name)?;
        let opened = match lsm::open(&input, &mut table) {
            Err(Refusal::TooShort { needed }) => {
                table = words(needed, name)?;
                lsm::open(&input, &mut table)
            }
            other => other,
        };
        let opened = opened.map_err(Failure::Refused)?;
        table.truncate(opened.words);
        Ok(Scan { input, description: opened.description, visited: opened.visited, table })
    }

    /// A whole picture, or a rectangle of it, where the library accepts it.
    ///
    /// The library is asked with no memory: 7 says that only memory is in the way. One above the limit of a picture is read by its pieces
    /// where the library accepts the first, since the same checks then stand before all of them.
    pub fn picture(&self, at: At, rect: Option<Rect>) -> Result<Picture<'_>, Refusal> {
        let d = &self.description;
        let whole = Rect { x: 0, y: 0, w: d.x, h: d.y };
        let mut picture = Picture { scan: self, at, rect: rect.unwrap_or(whole), most: PIECE };
        let asked = match rect {
            None => self.plane(at, &mut []),
            Some(rect) => self.region(at, rect, &mut []),
        };
        if let Err(Refusal::OversizedAllocation { .. }) = asked {
            picture.most = LARGE_PIECE;
            picture.pieces(false).take(1).try_for_each(|first| but_for_memory(self.region(at, first, &mut [])))?;
        } else {
            but_for_memory(asked)?;
        }
        Ok(picture)
    }

    fn plane(&self, At { scene, t, c, z }: At, memory: &mut [u8]) -> Result<lsm::Picture, Refusal> {
        lsm::plane(&self.input, &self.description, &self.table, scene, t, c, z, memory)
    }

    fn region(&self, At { scene, t, c, z }: At, rect: Rect, memory: &mut [u8]) -> Result<lsm::Picture, Refusal> {
        lsm::region(&self.input, &self.description, &self.table, scene, t, c, z, rect, memory)
    }

    /// Every picture's place, scene by scene, then t, c and z.
    pub fn places(&self) -> impl Iterator<Item = At> {
        let d = self.description;
        let scenes = 0..d.scenes;
        scenes.flat_map(move |scene| {
            (0..d.t).flat_map(move |t| (0..d.c).flat_map(move |c| (0..d.z).map(move |z| At { scene, t, c, z })))
        })
    }

    /// How many pictures there are.
    pub fn pictures(&self) -> usize {
        let d = &self.description;
        d.scenes * d.t * d.c * d.z
    }
}

// A table's words, all 0. A length that memory doesn't have is a message: a chain of directories may name the same strips very often.
fn words(n: usize, name: &OsStr) -> Result<Vec<usize>, Failure> {
    let mut table = Vec::new();
    if table.try_reserve_exact(n).is_err() {
        return Err(Failure::file(shown(name), format!("the strip table takes {n} words, more than there is memory")));
    }
    table.resize(n, 0);
    Ok(table)
}

// Whether only memory is in the way.
fn but_for_memory(asked: Result<lsm::Picture, Refusal>) -> Result<(), Refusal> {
    match asked {
        Ok(_) | Err(Refusal::TooShort { .. }) => Ok(()),
        Err(r) => Err(r),
    }
}

/// A picture or a rectangle of one, that the library accepts.
pub struct Picture<'a> {
    scan: &'a Scan,
    pub at: At,
    rect: Rect,
    /// The most bytes of a piece.
    most: usize,
}

impl Picture<'_> {
    /// Its size and kind.
    pub fn shape(&self) -> Shape {
        Shape { kind: self.scan.description.kind, width: self.rect.w, height: self.rect.h }
    }

    /// Its pieces, from the top down or from the bottom up.
    pub fn pieces(&self, upward: bool) -> impl Iterator<Item = Rect> {
        pieces(self.rect, self.most / self.shape().kind.size(), upward)
    }

    /// Reads a piece into `memory`, which becomes as long as the piece's samples. They are the picture's own: the library is proved to give
    /// of every rectangle the samples that the whole picture has there.
    pub fn read(&self, piece: Rect, memory: &mut Vec<u8>) -> Result<(), Refusal> {
        memory.resize(piece.w * piece.h * self.shape().kind.size(), 0);
        self.scan.region(self.at, piece, memory)?;
        Ok(())
    }
}

// A rectangle's pieces, of at most so many samples: rows, or, where a row is longer, parts of a row from left to right.
fn pieces(Rect { x, y, w, h }: Rect, most: usize, upward: bool) -> impl Iterator<Item = Rect> {
    let columns = w.clamp(1, most);
    let rows = (most / columns).min(h).max(1);
    let bands = h.div_ceil(rows);
    (0..bands).flat_map(move |i| {
        let top = rows * if upward { bands - 1 - i } else { i };
        (0..w.div_ceil(columns)).map(move |j| {
            let left = j * columns;
            Rect { x: x + left, y: y + top, w: columns.min(w - left), h: rows.min(h - top) }
        })
    })
}

#[cfg(test)]
mod tests {
    use super::pieces;
    use lsm::Rect;

    // They cover each sample once, in the order that is asked for, and none is larger than it may be.
    fn cover(rect: Rect, most: usize) {
        let all: Vec<_> = pieces(rect, most, false).collect();
        assert!(all.iter().all(|p| 0 < p.w * p.h && p.w * p.h <= most && (p.w == rect.w || p.h == 1)));
        let mut next = (rect.x, rect.y);
        for p in &all {
            assert_eq!((p.x, p.y), next);
            let ends = p.x + p.w == rect.x + rect.w;
            next = if ends { (rect.x, p.y + p.h) } else { (p.x + p.w, p.y) };
        }
        assert_eq!(next, (rect.x, if rect.w == 0 { rect.y } else { rect.y + rect.h }));
        let mut upward: Vec<_> = pieces(rect, most, true).collect();
        upward.sort_by_key(|p| (p.y, p.x));
        assert_eq!(upward, all);
    }

    #[test]
    fn pieces_cover_a_rectangle() {
        for most in 1..20 {
            for w in 0..45 {
                for h in 0..25 {
                    cover(Rect { x: 3, y: 5, w, h }, most);
                }
            }
        }
    }

    #[test]
    fn pieces_from_the_bottom_up() {
        let tops: Vec<_> = pieces(Rect { x: 0, y: 0, w: 5, h: 5 }, 10, true).map(|p| (p.y, p.h)).collect();
        assert_eq!(tops, [(4, 1), (2, 2), (0, 2)]);
    }
}
