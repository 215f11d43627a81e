//! The bytes of a file: mapped where it is a regular file, otherwise read once into memory.

use std::ffi::{CString, OsStr};
use std::fs::{self, File, Metadata};
use std::io::{self, Read};
use std::ops::Deref;
use std::os::fd::AsFd;
use std::os::unix::ffi::OsStrExt;
use std::os::unix::fs::{FileTypeExt, MetadataExt};

use super::failure::Failure;
use super::signals;
use super::system::Mapped;

enum Bytes {
    Mapped(Mapped),
    Read(Vec<u8>),
}

/// Which file it is, whatever its name: the device and the number on it.
#[derive(Clone, Copy, PartialEq, Eq)]
pub struct Identity(u64, u64);

impl Identity {
    pub fn of(m: &Metadata) -> Identity {
        Identity(m.dev(), m.ino())
    }
}

/// A file's bytes.
pub struct Input {
    bytes: Bytes,
    identity: Option<Identity>,
}

/// A file's name as messages have it.
pub fn shown(name: &OsStr) -> &OsStr {
    match name.as_bytes() {
        b"-" => OsStr::new("standard input"),
        _ => name,
    }
}

impl Input {
    /// Opens the file of this name; `-` is standard input.
    pub fn open(name: &OsStr) -> Result<Input, Failure> {
        let opened = match name.as_bytes() {
            b"-" => standard_input(),
            _ => file(name),
        };
        opened.map_err(|why| Failure::file(shown(name), why))
    }

    /// Whether this is the file that was read.
    pub fn is(&self, m: &Metadata) -> bool {
        self.identity == Some(Identity::of(m))
    }
}

impl Deref for Input {
    type Target = [u8];

    fn deref(&self) -> &[u8] {
        match &self.bytes {
            Bytes::Mapped(m) => m,
            Bytes::Read(v) => v,
        }
    }
}

impl Drop for Input {
    fn drop(&mut self) {
        signals::say_when_unreadable(None);
    }
}

// What can't be a file is refused before it is opened: opening a device may do something, as wind a tape back.
fn file(name: &OsStr) -> Result<Input, String> {
    if let Some(what) = no_file(&fs::metadata(name).map_err(in_words)?) {
        return Err(format!("{what}, not a file"));
    }
    let mut file = File::open(name).map_err(in_words)?;
    let m = file.metadata().map_err(in_words)?;
    let bytes = if m.is_file() { mapped(name, &file, m.len())? } else { read(&mut file)? };
    Ok(Input { bytes, identity: Some(Identity::of(&m)) })
}

fn no_file(m: &Metadata) -> Option<&'static str> {
    let t = m.file_type();
    match t {
        _ if t.is_dir() => Some("a folder"),
        _ if t.is_char_device() || t.is_block_device() => Some("a device"),
        _ if t.is_socket() => Some("a socket"),
        _ => None,
    }
}

fn mapped(name: &OsStr, file: &File, len: u64) -> Result<Bytes, String> {
    let len = usize::try_from(len).map_err(|_| "larger than this machine's memory can be".to_string())?;
    let bytes = Mapped::new(file, len).map_err(in_words)?;
    let what = ": the file became shorter while it was read, or its disk can't be read\n";
    let message = [b"lsm: ", name.as_bytes(), what.as_bytes()].concat();
    signals::say_when_unreadable(CString::new(message).ok());
    Ok(Bytes::Mapped(bytes))
}

fn standard_input() -> Result<Input, String> {
    let m = io::stdin().as_fd().try_clone_to_owned().and_then(|fd| File::from(fd).metadata());
    let bytes = read(&mut io::stdin().lock())?;
    Ok(Input { bytes, identity: m.ok().map(|m| Identity::of(&m)) })
}

fn read(from: &mut impl Read) -> Result<Bytes, String> {
    let mut bytes = Vec::new();
    from.read_to_end(&mut bytes).map_err(in_words)?;
    Ok(Bytes::Read(bytes))
}

fn in_words(e: io::Error) -> String {
    e.to_string()
}
