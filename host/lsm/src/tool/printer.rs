//! Standard output. What can't be written there is a failure, and not a panic.

use std::io::{self, BufWriter, ErrorKind, StdoutLock, Write};

use super::failure::Failure;

pub struct Printer(BufWriter<StdoutLock<'static>>);

impl Printer {
    pub fn new() -> Printer {
        Printer(BufWriter::new(io::stdout().lock()))
    }

    pub fn put(&mut self, bytes: &[u8]) -> Result<(), Failure> {
        self.0.write_all(bytes).map_err(failure)
    }

    /// Writes what is still held back.
    pub fn flush(&mut self) -> Result<(), Failure> {
        self.0.flush().map_err(failure)
    }
}

fn failure(e: io::Error) -> Failure {
    match e.kind() {
        ErrorKind::BrokenPipe => Failure::NobodyReads,
        _ => Failure::File(b"standard output".to_vec(), e.to_string()),
    }
}
