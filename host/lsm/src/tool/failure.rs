//! Why a command didn't do what it was asked, and what is said about it.

use std::ffi::OsStr;
use std::fmt;
use std::io::{self, Write};
use std::os::unix::ffi::OsStrExt;

use lsm::Refusal;

use super::scan::At;

/// All files were accepted.
pub const ACCEPTED: u8 = 0;
/// The library refused a file or a picture.
pub const REFUSED: u8 = 1;
/// Usage, input or output.
pub const FAILED: u8 = 2;

/// Why there is no answer.
#[derive(Debug)]
pub enum Failure {
    /// The library refuses the file.
    Refused(Refusal),
    /// The library refuses a picture of it.
    PictureRefused(At, Refusal),
    /// The library refuses what was asked for by number, and this is what there is.
    RequestRefused(At, Refusal, String),
    /// The arguments, or what they ask for, can't be: in words.
    Usage(String),
    /// A file that is read or written: its name, and what is wrong.
    File(Vec<u8>, String),
    /// Whoever reads standard output has left. There is nobody to tell.
    NobodyReads,
}

impl Failure {
    /// A failure of the file of this name.
    pub fn file(name: &OsStr, why: impl fmt::Display) -> Failure {
        Failure::File(name.as_bytes().to_vec(), why.to_string())
    }

    /// The status that the tool ends with.
    pub fn status(&self) -> u8 {
        match self {
            Failure::Refused(_) | Failure::PictureRefused(..) | Failure::RequestRefused(..) => REFUSED,
            Failure::Usage(_) | Failure::File(..) | Failure::NobodyReads => FAILED,
        }
    }
}

/// "refused with", the number, and the words with the refusal's values.
pub fn in_words(r: &Refusal) -> String {
    format!("refused with {}: {r}", r.number())
}

/// Writes `lsm: NAME: what` on standard error, with the name's bytes as they are. Where even that can't be written, nothing is left to do.
pub fn say(name: &[u8], what: &str) {
    let mut line = b"lsm: ".to_vec();
    if !name.is_empty() {
        line.extend(name);
        line.extend(b": ");
    }
    line.extend(what.as_bytes());
    line.push(b'\n');
    let _ = io::stderr().write_all(&line);
}

/// Says why there is no answer, and gives the status. The name is that of the file that was to be opened.
pub fn report(failure: &Failure, name: &[u8]) -> u8 {
    match failure {
        Failure::Refused(r) => say(name, &in_words(r)),
        Failure::PictureRefused(at, r) => say(name, &format!("{at}: {}", in_words(r))),
        Failure::RequestRefused(at, r, there) => say(name, &format!("{at}: {}; {there}", in_words(r))),
        Failure::Usage(what) => say(b"", what),
        Failure::File(name, what) => say(name, what),
        Failure::NobodyReads => {}
    }
    failure.status()
}
