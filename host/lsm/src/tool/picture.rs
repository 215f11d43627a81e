//! `lsm picture`: the samples of one picture, or of a rectangle of it.

use std::ffi::OsStr;
use std::path::Path;

use lsm::{Description, Rect, Refusal};

use super::arguments::{Arguments, Command};
use super::ending::{Ending, Stopped, ENDINGS};
use super::failure::{Failure, ACCEPTED};
use super::output::{may_write, Output};
use super::scan::{At, Picture, Scan};

pub const PICTURE: Command = Command {
    name: "picture",
    values: &["--scene", "--t", "--c", "--z", "--rect", "--output"],
    flags: &[],
    files: 1,
    output: "OUT",
    help: "\
usage: lsm picture FILE [--scene N] [--t N] [--c N] [--z N] [--rect X,Y,W,H] -o OUT

Writes the samples of one picture to OUT, in the way that OUT's ending asks for. `-` as FILE is standard input.

  --scene N, --t N, --c N, --z N    which picture: scene, time point, channel and plane, each counted from 0, and 0 where it
                                    isn't given
  --rect X,Y,W,H                    the rectangle from column X and row Y on, W columns wide and H rows high
  -o OUT, --output OUT              where to; a file that is there already is replaced

  .raw    the samples and nothing else, little-endian, row by row: every kind
  .npy    NumPy's format: every kind
  .pgm    Netpbm's grey map: U8 and U16
  .png    grey, of 8 or 16 bits, not compressed: U8 and U16
  .pfm    the grey map of floats, little-endian, lowest row first: F32

OUT appears whole or not at all. Memory is that of the file, a list of its strips, and at most 20 MiB more, whatever the
picture's size.

status: 0 where the picture is written, 1 where the file or the picture is refused, 2 where the command is wrong or a file can't
be read or written
",
};

pub fn run(a: &Arguments) -> Result<u8, Failure> {
    let number = |name| PICTURE.number(a, name);
    let at = At { scene: number("--scene")?, t: number("--t")?, c: number("--c")?, z: number("--z")? };
    let rect = PICTURE.rect(a)?;
    let place = PICTURE.output(a)?;
    let ending = Ending::of(place).ok_or_else(|| PICTURE.mistake(unknown(place)))?;
    let scan = Scan::open(&a.files[0])?;
    let picture = scan.picture(at, rect).map_err(|r| refused(&scan.description, at, rect, r))?;
    if let Some(why) = ending.refuses(picture.shape()) {
        return Err(Failure::file(place, why));
    }
    may_write(Path::new(place), &scan.input)?;
    write(&picture, ending, Path::new(place), &mut Vec::new(), &mut |_| ())?;
    Ok(ACCEPTED)
}

// A refusal; where more was asked for than there is, with what there is.
fn refused(d: &Description, at: At, rect: Option<Rect>, r: Refusal) -> Failure {
    let passes = |start: usize, extent: usize, size: usize| start.checked_add(extent).is_none_or(|end| end > size);
    match (r, rect) {
        (Refusal::SceneOutOfRange { .. } | Refusal::OutOfRange { .. }, _) => {
            let there = format!("counted from 0, the file has scene {}, t {}, c {}, z {}", to(d.scenes), to(d.t), to(d.c), to(d.z));
            Failure::RequestRefused(at, r, there)
        }
        (Refusal::Decode, Some(Rect { x, y, w, h })) if passes(x, w, d.x) || passes(y, h, d.y) => {
            Failure::RequestRefused(at, r, format!("the rectangle passes the picture, which has {} columns and {} rows", d.x, d.y))
        }
        _ => Failure::PictureRefused(at, r),
    }
}

// The numbers below a count.
fn to(count: usize) -> String {
    match count {
        0 => "none".to_string(),
        1 => "0".to_string(),
        n => format!("0 to {}", n - 1),
    }
}

/// Writes a picture to a file that appears whole or not at all.
pub fn write(picture: &Picture, ending: Ending, place: &Path, memory: &mut Vec<u8>, done: &mut dyn FnMut(usize)) -> Result<(), Failure> {
    let mut output = Output::beside(place)?;
    let written = ending.write(picture, memory, &mut output, done).and_then(|()| Ok(output.finish()?));
    written.map_err(|stopped| match stopped {
        Stopped::Refused(r) => Failure::PictureRefused(picture.at, r),
        Stopped::Writing(e) => Failure::file(place.as_os_str(), e),
    })
}

/// Says which endings there are.
pub fn unknown(word: &OsStr) -> String {
    let all: Vec<_> = ENDINGS.iter().map(|e| format!(".{}", e.text())).collect();
    format!("{}: an unknown ending; these are known: {}", word.to_string_lossy(), all.join(" "))
}
