//! The words behind a command: files, and options with their values. Words need not be UTF-8, since names of files needn't.

use std::ffi::{OsStr, OsString};
use std::os::unix::ffi::OsStrExt;

use lsm::Rect;

use super::failure::Failure;

/// What a command takes.
pub struct Command {
    pub name: &'static str,
    /// Options that take a value.
    pub values: &'static [&'static str],
    /// Options that take none.
    pub flags: &'static [&'static str],
    /// The most files.
    pub files: usize,
    /// The word for its output, where it has one.
    pub output: &'static str,
    pub help: &'static str,
}

/// What was asked for.
pub enum Asked {
    Help,
    Work(Arguments),
}

#[derive(Default)]
pub struct Arguments {
    pub files: Vec<OsString>,
    options: Vec<(&'static str, OsString)>,
}

impl Command {
    /// A mistake in the arguments, with where to read on.
    pub fn mistake(&self, what: impl std::fmt::Display) -> Failure {
        Failure::Usage(format!("{what}; see `lsm {} --help`", self.name))
    }

    /// Sorts the words behind the command. Behind `--` there are files only; `-` is a file.
    pub fn parse(&self, words: impl Iterator<Item = OsString>) -> Result<Asked, Failure> {
        let mut words = words;
        let mut a = Arguments::default();
        let mut options = true;
        while let Some(word) = words.next() {
            match word.as_bytes() {
                b"--" if options => options = false,
                b"--help" | b"-h" if options => return Ok(Asked::Help),
                [b'-', _, ..] if options => self.option(&mut a, &word, &mut words)?,
                _ => a.files.push(word),
            }
        }
        match a.files.len() {
            0 => Err(self.mistake("no file was named")),
            n if n > self.files => Err(self.mistake(format!("one file is wanted, and {n} were named"))),
            _ => Ok(Asked::Work(a)),
        }
    }

    fn option(&self, a: &mut Arguments, word: &OsStr, words: &mut impl Iterator<Item = OsString>) -> Result<(), Failure> {
        let bytes = word.as_bytes();
        let (name, value) = match bytes.iter().position(|&b| b == b'=') {
            Some(at) => (&bytes[..at], Some(OsStr::from_bytes(&bytes[at + 1..]).to_os_string())),
            None => (bytes, None),
        };
        let long = if name == b"-o" { b"--output" } else { name };
        let known = |names: &'static [&'static str]| names.iter().copied().find(|n| n.as_bytes() == long);
        let (name, value) = match (known(self.values), known(self.flags), value) {
            (Some(name), _, Some(value)) => (name, value),
            (Some(name), _, None) => (name, words.next().ok_or_else(|| self.mistake(format!("{name} wants a value")))?),
            (_, Some(name), None) => (name, OsString::new()),
            (_, Some(name), Some(_)) => return Err(self.mistake(format!("{name} takes no value"))),
            (None, None, _) => return Err(self.mistake(format!("there is no option {}", String::from_utf8_lossy(name)))),
        };
        if a.value(name).is_some() {
            return Err(self.mistake(format!("{name} was given twice")));
        }
        a.options.push((name, value));
        Ok(())
    }

    /// A number from 0 on, 0 where the option isn't there.
    pub fn number(&self, a: &Arguments, name: &str) -> Result<usize, Failure> {
        let Some(value) = a.value(name) else { return Ok(0) };
        number(value.as_bytes()).ok_or_else(|| {
            let shown = value.to_string_lossy();
            self.mistake(format!("{name} wants a number from 0 to 2^64 - 1, not `{shown}`"))
        })
    }

    /// The rectangle of `--rect`: column, row, width and height.
    pub fn rect(&self, a: &Arguments) -> Result<Option<Rect>, Failure> {
        let Some(value) = a.value("--rect") else { return Ok(None) };
        let numbers: Option<Vec<_>> = value.as_bytes().split(|&b| b == b',').map(number).collect();
        match numbers.as_deref() {
            Some(&[x, y, w, h]) => Ok(Some(Rect { x, y, w, h })),
            _ => Err(self.mistake(format!("--rect wants four numbers, X,Y,W,H, not `{}`", value.to_string_lossy()))),
        }
    }

    /// Where the output goes.
    pub fn output<'a>(&self, a: &'a Arguments) -> Result<&'a OsStr, Failure> {
        match a.value("--output") {
            Some(place) if !place.is_empty() => Ok(place),
            _ => Err(self.mistake(format!("-o {} is wanted: where the output goes", self.output))),
        }
    }
}

impl Arguments {
    /// An option's value; of a flag it is empty.
    pub fn value(&self, name: &str) -> Option<&OsStr> {
        self.options.iter().find(|(n, _)| *n == name).map(|(_, v)| v.as_os_str())
    }
}

// Digits alone: no sign, no spaces.
fn number(text: &[u8]) -> Option<usize> {
    if !text.iter().all(u8::is_ascii_digit) {
        return None;
    }
    std::str::from_utf8(text).ok()?.parse().ok()
}
