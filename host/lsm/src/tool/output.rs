//! A file that appears whole or not at all: it is written beside its place, under another name, and then renamed.

use std::ffi::{CString, OsStr, OsString};
use std::fs::{self, File, OpenOptions};
use std::io::{self, BufWriter, ErrorKind, Write};
use std::os::unix::ffi::OsStrExt;
use std::path::{Path, PathBuf};

use super::failure::Failure;
use super::input::Input;
use super::signals;
use super::system::close_checked;

/// An output that is being written. Dropped before its end, it leaves nothing.
pub struct Output {
    place: PathBuf,
    beside: PathBuf,
    file: Option<BufWriter<File>>,
}

/// Looks whether an output may stand there: nothing does yet, or a file that is not the one that is read. What else stands there, as a folder or
/// a device, is not to be replaced.
pub fn may_write(place: &Path, input: &Input) -> Result<(), Failure> {
    let name = place.as_os_str();
    match fs::metadata(place) {
        Ok(m) if input.is(&m) => Err(Failure::file(name, "this is the file that is read")),
        Ok(m) if !m.is_file() => Err(Failure::file(name, "stands there already, and is no file")),
        Err(e) if e.kind() != ErrorKind::NotFound => Err(Failure::file(name, e)),
        _ => Ok(()),
    }
}

impl Output {
    /// Begins the file of this name. A stopped tool removes what is written of it.
    pub fn beside(place: &Path) -> Result<Output, Failure> {
        let failed = |e: io::Error| Failure::file(place.as_os_str(), e);
        let name = place.file_name().unwrap_or_default();
        let mut number = 0;
        loop {
            let beside = place.with_file_name(part_name(name, number));
            signals::remove_when_stopped(CString::new(beside.as_os_str().as_bytes()).ok());
            match OpenOptions::new().write(true).create_new(true).open(&beside) {
                Ok(file) => {
                    let file = Some(BufWriter::with_capacity(1 << 17, file));
                    return Ok(Output { place: place.to_path_buf(), beside, file });
                }
                Err(e) if e.kind() == ErrorKind::AlreadyExists && number < 1000 => number += 1,
                Err(e) => {
                    signals::remove_when_stopped(None);
                    return Err(failed(e));
                }
            }
        }
    }

    /// Ends the file and gives it its name.
    pub fn finish(mut self) -> io::Result<()> {
        if let Some(file) = self.file.take() {
            close_checked(file.into_inner().map_err(|e| e.into_error())?)?;
        }
        fs::rename(&self.beside, &self.place)?;
        signals::remove_when_stopped(None);
        self.beside.clear();
        Ok(())
    }
}

// `.NAME.PROCESS.part`. A process of this number that was killed may have left a file, so there is a count for these. A long name is cut, since a
// folder takes no name of more than 255 bytes.
fn part_name(name: &OsStr, number: usize) -> OsString {
    let name = &name.as_bytes()[..name.len().min(200)];
    let count = if number == 0 { String::new() } else { format!(".{number}") };
    let rest = format!(".{}{count}.part", std::process::id());
    OsStr::from_bytes(&[b".", name, rest.as_bytes()].concat()).to_os_string()
}

impl Write for Output {
    fn write(&mut self, bytes: &[u8]) -> io::Result<usize> {
        match &mut self.file {
            Some(file) => file.write(bytes),
            None => Ok(0),
        }
    }

    fn flush(&mut self) -> io::Result<()> {
        self.file.as_mut().map_or(Ok(()), BufWriter::flush)
    }
}

impl Drop for Output {
    fn drop(&mut self) {
        if self.beside.as_os_str().is_empty() {
            return;
        }
        // into_parts: dropping the writer would write what it still has
        drop(self.file.take().map(BufWriter::into_parts));
        let _ = fs::remove_file(&self.beside);
        signals::remove_when_stopped(None);
    }
}
