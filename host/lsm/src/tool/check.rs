//! `lsm check`: whether a file opens and every picture of it can be read.

use std::ffi::OsStr;
use std::os::unix::ffi::OsStrExt;

use super::arguments::{Arguments, Command};
use super::facts::pictures;
use super::failure::{in_words, report, Failure, ACCEPTED, REFUSED};
use super::input::shown;
use super::printer::Printer;
use super::scan::{At, Scan};

pub const CHECK: Command = Command {
    name: "check",
    values: &[],
    flags: &[],
    files: usize::MAX,
    output: "",
    help: "\
usage: lsm check FILE..

Opens each FILE and reads the samples of every picture, so that a disk that can't be read shows as well. `-` is standard input.
Prints a line for each picture that is refused, then one line about the file.

status: 0 where all files and pictures are accepted, 1 where one is refused, 2 where the command is wrong or a file can't be read
or written
",
};

pub fn run(a: &Arguments) -> Result<u8, Failure> {
    let mut printer = Printer::new();
    let mut memory = Vec::new();
    let mut status = ACCEPTED;
    for name in &a.files {
        status = status.max(check(name, &mut memory, &mut printer)?);
        printer.flush()?;
    }
    Ok(status)
}

fn check(name: &OsStr, memory: &mut Vec<u8>, printer: &mut Printer) -> Result<u8, Failure> {
    let line = |what: &str| [shown(name).as_bytes(), b": ", what.as_bytes(), b"\n"].concat();
    let scan = match Scan::open(name) {
        Ok(scan) => scan,
        Err(Failure::Refused(r)) => {
            printer.put(&line(&in_words(&r)))?;
            return Ok(REFUSED);
        }
        Err(failure) => return Ok(report(&failure, b"")),
    };
    let mut refused = 0;
    for at in scan.places() {
        if let Err(r) = read(&scan, at, memory) {
            refused += 1;
            printer.put(&line(&format!("{at}: {}", in_words(&r))))?;
        }
    }
    let all = scan.pictures();
    let (what, status) = match refused {
        0 => (format!("accepted, {}", pictures(all)), ACCEPTED),
        n => (format!("{n} of {} refused", pictures(all)), REFUSED),
    };
    printer.put(&line(&what))?;
    Ok(status)
}

// Reads a picture's samples, and keeps none.
fn read(scan: &Scan, at: At, memory: &mut Vec<u8>) -> Result<(), lsm::Refusal> {
    let picture = scan.picture(at, None)?;
    picture.pieces(false).try_for_each(|piece| picture.read(piece, memory))
}
