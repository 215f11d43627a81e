//! Runs the tool as a user does, in a folder of its own.

use std::ffi::OsStr;
use std::fs;
use std::io::Write;
use std::path::{Path, PathBuf};
use std::process::{Command, Output, Stdio};
use std::time::{Duration, Instant};

/// A folder that is removed with all that is in it.
pub struct Folder(pub PathBuf);

impl Folder {
    pub fn new(name: &str) -> Folder {
        let at = std::env::temp_dir().join(format!("lsm-tool-{}-{name}", std::process::id()));
        fs::create_dir_all(&at).expect("a folder");
        Folder(at)
    }

    /// Writes a file of these bytes.
    pub fn put(&self, name: &str, bytes: &[u8]) -> PathBuf {
        let at = self.0.join(name);
        fs::write(&at, bytes).expect("a file");
        at
    }

    /// The bytes of a file.
    pub fn get(&self, name: &str) -> Vec<u8> {
        fs::read(self.0.join(name)).unwrap_or_else(|e| panic!("{name}: {e}"))
    }

    /// The names of what is there, in order.
    pub fn names(&self) -> Vec<String> {
        names(&self.0)
    }
}

impl Drop for Folder {
    fn drop(&mut self) {
        let _ = fs::remove_dir_all(&self.0);
    }
}

pub fn names(folder: &Path) -> Vec<String> {
    let entries = fs::read_dir(folder).expect("a folder");
    let mut names: Vec<_> = entries.map(|e| e.expect("an entry").file_name().to_string_lossy().into_owned()).collect();
    names.sort();
    names
}

/// What a run said, and its status; -1 where a signal ended it.
#[derive(Debug, PartialEq, Eq)]
pub struct Said {
    pub status: i32,
    pub out: String,
    pub err: String,
}

impl Said {
    pub fn of(o: Output) -> Said {
        let text = |bytes: Vec<u8>| String::from_utf8_lossy(&bytes).into_owned();
        Said { status: o.status.code().unwrap_or(-1), out: text(o.stdout), err: text(o.stderr) }
    }

    /// The status and what standard error has, of a run that printed nothing.
    pub fn error(&self) -> (i32, &str) {
        assert_eq!(self.out, "");
        (self.status, &self.err)
    }
}

/// What is wanted of a run.
pub fn said(status: i32, out: &str, err: &str) -> Said {
    Said { status, out: out.to_string(), err: err.to_string() }
}

/// The tool with these words, in a folder.
pub fn tool<S: AsRef<OsStr>>(folder: &Folder, words: &[S]) -> Command {
    let mut command = Command::new(env!("CARGO_BIN_EXE_lsm"));
    command.current_dir(&folder.0).args(words).stdin(Stdio::null());
    command
}

pub fn lsm<S: AsRef<OsStr>>(folder: &Folder, words: &[S]) -> Said {
    Said::of(tool(folder, words).output().expect("the tool runs"))
}

/// With bytes on standard input.
pub fn fed<S: AsRef<OsStr>>(folder: &Folder, words: &[S], bytes: &[u8]) -> Said {
    let mut command = tool(folder, words);
    let mut child = command.stdin(Stdio::piped()).stdout(Stdio::piped()).stderr(Stdio::piped()).spawn().expect("the tool runs");
    let mut stdin = child.stdin.take().expect("a pipe");
    let bytes = bytes.to_vec();
    let writer = std::thread::spawn(move || {
        let _ = stdin.write_all(&bytes);
    });
    let said = Said::of(child.wait_with_output().expect("it ends"));
    writer.join().expect("it was fed");
    said
}

/// A line of shell, with `$LSM` as the tool.
pub fn shell(folder: &Folder, line: &str) -> Said {
    let mut command = Command::new("sh");
    command.current_dir(&folder.0).args(["-c", line]).env("LSM", env!("CARGO_BIN_EXE_lsm"));
    Said::of(command.output().expect("a shell"))
}

/// Waits until something is so, and gives it.
pub fn wait_for<T>(mut found: impl FnMut() -> Option<T>) -> T {
    let begun = Instant::now();
    loop {
        if let Some(found) = found() {
            return found;
        }
        assert!(begun.elapsed() < Duration::from_secs(20), "waited for nothing");
        std::thread::sleep(Duration::from_millis(1));
    }
}
