//! `lsm export`: every picture of a file, each to a file of its own.

use std::ffi::{OsStr, OsString};
use std::fs::{self, File};
use std::io::{self, BufReader, Read, Write};
use std::os::unix::ffi::OsStrExt;
use std::path::{Path, PathBuf};

use lsm::{Description, Kind};

use super::arguments::{Arguments, Command};
use super::ending::{Ending, Shape, Stopped};
use super::facts::pictures;
use super::failure::{report, Failure, ACCEPTED, REFUSED};
use super::input::shown;
use super::output::may_write;
use super::picture::{unknown, write};
use super::printer::Printer;
use super::progress::Progress;
use super::scan::{At, Picture, Scan};

pub const EXPORT: Command = Command {
    name: "export",
    values: &["--output", "--as"],
    flags: &[],
    files: 1,
    output: "DIR",
    help: "\
usage: lsm export FILE -o DIR [--as ENDING]

Writes every picture of FILE to a file of its own in DIR, which is made where it is missing. `-` as FILE is standard input.
From STEM.lsm the files are STEM_s0_t0_c0_z0.png and so on: scene, time point, channel and plane, each counted from 0, with
zeros in front so that the names sort.

  -o DIR, --output DIR    where to
  --as ENDING             raw, npy, pgm, png or pfm, as `lsm picture --help` has them; png where it isn't given, and npy for
                          I16 and F32

A file that is there and has, byte for byte, what would be written is kept, so an export that was stopped goes on where it was.
Any other file of such a name is written anew. A picture that is refused gets a line on standard error, and the export goes on.

status: 0 where all pictures are there, 1 where the file or a picture is refused, 2 where the command is wrong or a file can't be
read or written
",
};

pub fn run(a: &Arguments) -> Result<u8, Failure> {
    let name = &a.files[0];
    let folder = EXPORT.output(a)?;
    let ending = match a.value("--as") {
        Some(word) => Some(Ending::named(word).ok_or_else(|| EXPORT.mistake(unknown(word)))?),
        None => None,
    };
    let scan = Scan::open(name)?;
    let d = &scan.description;
    let ending = ending.unwrap_or(if matches!(d.kind, Kind::U8 | Kind::U16) { Ending::Png } else { Ending::Npy });
    if let Some(why) = ending.refuses(Shape { kind: d.kind, width: d.x, height: d.y }) {
        return Err(EXPORT.mistake(why));
    }
    fs::create_dir_all(folder).map_err(|e| Failure::file(folder, e))?;
    let mut export = Export::new(&scan, name, Path::new(folder), ending);
    let done = scan.places().try_for_each(|at| export.picture(at));
    export.progress.clear();
    done?;
    export.sum_up()
}

struct Export<'a> {
    scan: &'a Scan,
    name: &'a OsStr,
    folder: &'a Path,
    ending: Ending,
    memory: Vec<u8>,
    progress: Progress,
    written: usize,
    kept: usize,
    refused: usize,
}

impl<'a> Export<'a> {
    fn new(scan: &'a Scan, name: &'a OsStr, folder: &'a Path, ending: Ending) -> Export<'a> {
        let d = &scan.description;
        let progress = Progress::new(scan.pictures(), d.x * d.y * d.kind.size());
        Export { scan, name, folder, ending, memory: Vec::new(), progress, written: 0, kept: 0, refused: 0 }
    }

    // One picture. What is refused is said and counted; what can't be written ends the export.
    fn picture(&mut self, at: At) -> Result<(), Failure> {
        let accepted = self.scan.picture(at, None).map_err(|r| Failure::PictureRefused(at, r));
        match accepted.and_then(|picture| self.keep_or_write(&picture)) {
            Ok(true) => self.kept += 1,
            Ok(false) => self.written += 1,
            Err(failure @ Failure::PictureRefused(..)) => {
                self.refused += 1;
                self.progress.clear();
                report(&failure, shown(self.name).as_bytes());
            }
            Err(failure) => return Err(failure),
        }
        self.progress.picture();
        Ok(())
    }

    // Whether what is there was kept.
    fn keep_or_write(&mut self, picture: &Picture) -> Result<bool, Failure> {
        let place = self.place(picture.at);
        may_write(&place, &self.scan.input)?;
        if same(picture, self.ending, &place, &mut self.memory)? {
            let Shape { height, .. } = picture.shape();
            self.progress.read(height * picture.shape().row());
            return Ok(true);
        }
        let progress = &mut self.progress;
        write(picture, self.ending, &place, &mut self.memory, &mut |bytes| progress.read(bytes))?;
        Ok(false)
    }

    fn place(&self, at: At) -> PathBuf {
        let mut name = stem(self.name);
        name.push(numbers(at, &self.scan.description));
        name.push(".");
        name.push(self.ending.text());
        self.folder.join(name)
    }

    fn sum_up(&self) -> Result<u8, Failure> {
        let Export { written, kept, refused, .. } = self;
        let all = pictures(self.scan.pictures());
        let mut printer = Printer::new();
        printer.put(shown(self.name).as_bytes())?;
        printer.put(format!(": {all}: {written} written, {kept} kept, {refused} refused\n").as_bytes())?;
        printer.flush()?;
        Ok(if *refused == 0 { ACCEPTED } else { REFUSED })
    }
}

// The name of a file without its folder and ending; `stdin` for standard input.
fn stem(name: &OsStr) -> OsString {
    match name.as_bytes() {
        b"-" => OsString::from("stdin"),
        _ => Path::new(name).file_stem().unwrap_or_default().to_os_string(),
    }
}

// Each number with as many digits as the largest of its sort.
fn numbers(at: At, d: &Description) -> String {
    let digits = |count: usize| (count - 1).to_string().len();
    let (s, t, c, z) = (digits(d.scenes), digits(d.t), digits(d.c), digits(d.z));
    format!("_s{:0s$}_t{:0t$}_c{:0c$}_z{:0z$}", at.scene, at.t, at.c, at.z)
}

// Whether a file is there that has just what would be written.
fn same(picture: &Picture, ending: Ending, place: &Path, memory: &mut Vec<u8>) -> Result<bool, Failure> {
    let Ok(file) = File::open(place) else { return Ok(false) };
    let mut there = Compared { there: BufReader::new(file), memory: Vec::new() };
    match ending.write(picture, memory, &mut there, &mut |_| ()) {
        Ok(()) => Ok(there.ended()),
        Err(Stopped::Writing(_)) => Ok(false),
        Err(Stopped::Refused(r)) => Err(Failure::PictureRefused(picture.at, r)),
    }
}

// Takes what would be written, and fails at the first byte that the file there doesn't have.
struct Compared<R> {
    there: R,
    memory: Vec<u8>,
}

impl<R: Read> Compared<R> {
    fn ended(&mut self) -> bool {
        matches!(self.there.read(&mut [0]), Ok(0))
    }
}

impl<R: Read> Write for Compared<R> {
    fn write(&mut self, bytes: &[u8]) -> io::Result<usize> {
        self.memory.resize(bytes.len(), 0);
        self.there.read_exact(&mut self.memory)?;
        if self.memory != bytes {
            return Err(io::Error::other("another byte"));
        }
        Ok(bytes.len())
    }

    fn flush(&mut self) -> io::Result<()> {
        Ok(())
    }
}
