//! How far an export has come: a line on standard error where that is a terminal, which is overwritten and cleared in the end.

use std::io::{self, IsTerminal, Write};
use std::time::{Duration, Instant};

use super::facts::pictures as in_words;

/// The shortest time between two lines.
const PAUSE: Duration = Duration::from_millis(100);

pub struct Progress {
    terminal: bool,
    pictures: usize,
    /// The bytes of samples of one picture: all of a file have as many.
    each: usize,
    done: usize,
    bytes: usize,
    begun: Instant,
    shown: Option<Instant>,
}

impl Progress {
    pub fn new(pictures: usize, each: usize) -> Progress {
        let terminal = io::stderr().is_terminal();
        Progress { terminal, pictures, each, done: 0, bytes: 0, begun: Instant::now(), shown: None }
    }

    /// So many bytes of the picture that is at work were read.
    pub fn read(&mut self, bytes: usize) {
        self.bytes += bytes;
        self.show();
    }

    /// A picture is done, in whichever way.
    pub fn picture(&mut self) {
        self.done += 1;
        self.show();
    }

    fn show(&mut self) {
        if self.terminal && self.shown.map(|at| at.elapsed() >= PAUSE) != Some(false) {
            let line = line(self.done, self.pictures, self.each, self.bytes, self.begun.elapsed());
            let _ = write!(io::stderr(), "\r{line}\x1b[K");
            self.shown = Some(Instant::now());
        }
    }

    /// Takes the line away, before another message and in the end.
    pub fn clear(&mut self) {
        if self.terminal && self.shown.take().is_some() {
            let _ = write!(io::stderr(), "\r\x1b[K");
        }
    }
}

// What is left is reckoned from the pictures that are left and the time that a byte took.
fn line(done: usize, pictures: usize, each: usize, bytes: usize, time: Duration) -> String {
    let seconds = time.as_secs_f64().max(1e-3);
    let rate = bytes as f64 / seconds;
    let left = (pictures - done) as f64 * each as f64 / rate.max(1.0);
    let left = if bytes == 0 { "?".to_string() } else { left_text(left) };
    format!("{done} of {}, {:.0} MB/s, {left} left", in_words(pictures), rate / 1e6)
}

fn left_text(seconds: f64) -> String {
    let s = seconds.ceil() as u64;
    match s {
        0..=59 => format!("{s} s"),
        60..=3599 => format!("{} min {} s", s / 60, s % 60),
        _ => format!("{} h {} min", s / 3600, s / 60 % 60),
    }
}

#[cfg(test)]
mod tests {
    use super::line;
    use std::time::Duration;

    #[test]
    fn lines() {
        let second = Duration::from_secs(1);
        assert_eq!(line(0, 36, 8 << 20, 0, second), "0 of 36 pictures, 0 MB/s, ? left");
        assert_eq!(line(12, 36, 10_000_000, 120_000_000, second), "12 of 36 pictures, 120 MB/s, 2 s left");
        assert_eq!(line(1, 100, 100_000_000, 100_000_000, second), "1 of 100 pictures, 100 MB/s, 1 min 39 s left");
        assert_eq!(line(1, 10_001, 1_000_000, 1_000_000, second), "1 of 10001 pictures, 1 MB/s, 2 h 46 min left");
    }
}
