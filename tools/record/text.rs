// The lists' lines, and the numbers that every list draws on.
use crate::calibration::Calibration;
use crate::error::Error;

// A line: a letter for its kind, then numbers in hexadecimal with a space before each, then a colon and bytes where the case has
// any. `*NNBB` among the bytes stands for NN bytes BB.
pub struct Line(String);

impl Line {
    pub fn new(kind: char) -> Line {
        Line(kind.to_string())
    }

    pub fn put(mut self, n: u64) -> Line {
        self.0.push_str(&format!(" {n:x}"));
        self
    }

    pub fn all(self, numbers: &[u64]) -> Line {
        numbers.iter().fold(self, |line, &n| line.put(n))
    }

    pub fn bytes(mut self, bytes: &[u8]) -> Line {
        self.0.push(':');
        let mut i = 0;
        while i < bytes.len() {
            let run = bytes[i..].iter().take(255).take_while(|&&b| b == bytes[i]).count();
            if run < 3 {
                self.0.push_str(&format!("{:02x}", bytes[i]));
                i += 1;
            } else {
                self.0.push_str(&format!("*{run:02x}{:02x}", bytes[i]));
                i += run;
            }
        }
        self
    }

    pub fn end(self) -> String {
        self.0 + "\n"
    }
}

// A refusal's number and values.
pub fn refusal(e: &Error) -> Vec<u64> {
    match *e {
        Error::Parse(_) => vec![1],
        Error::Decode(_) => vec![2],
        Error::Unsupported(_) => vec![3],
        Error::OversizedAllocation { requested, cap } => vec![4, requested as u64, cap as u64],
        Error::SceneOutOfRange { scene, count } => vec![5, scene as u64, count as u64],
        Error::OutOfRange { scene, t, c, z } => vec![6, scene as u64, t as u64, c as u64, z as u64],
        _ => panic!("no such refusal is expected: {e}"),
    }
}

// 0 and a value, or a refusal.
pub fn answer(r: crate::error::Result<u64>) -> Vec<u64> {
    match r {
        Ok(n) => vec![0, n],
        Err(e) => refusal(&e),
    }
}

// 0 where there is no pixel size; otherwise 1, X and Y as f32 bits and what became of the Z step: 0 and its bits, 1 for none, 2
// (placeholder) or 3 (too large) and the note's figure. A figure's letters are the bytes of one number.
pub fn calibration(c: &Calibration) -> Vec<u64> {
    let Some(size) = c.px_size_um else {
        assert!(c.notes.is_empty());
        return vec![0];
    };
    let mut row = vec![1, size.x.to_bits() as u64, size.y.to_bits() as u64];
    match (size.z, c.notes.as_slice()) {
        (Some(z), []) => row.extend([0, z.to_bits() as u64]),
        (None, []) => row.push(1),
        (None, [note]) => {
            let rest = note.strip_prefix("the file's Z step (").expect(note);
            if let Some(figure) = rest.strip_suffix(" um) is a placeholder and was not used") {
                row.extend([2, letters(figure)]);
            } else if let Some(figure) =
                rest.strip_suffix(" um) is too large to be a distance between two focal planes and was not used")
            {
                row.extend([3, letters(figure)]);
            } else {
                panic!("{note}");
            }
        }
        _ => panic!("{c:?}"),
    }
    row
}

fn letters(figure: &str) -> u64 {
    assert!(1 <= figure.len() && figure.len() <= 8, "{figure}");
    figure.bytes().fold(0, |n, b| n * 256 + b as u64)
}

// Marsaglia's xorshift64.
pub struct Random(pub u64);

impl Random {
    pub fn next(&mut self) -> u64 {
        self.0 ^= self.0 << 13;
        self.0 ^= self.0 >> 7;
        self.0 ^= self.0 << 17;
        self.0
    }

    pub fn below(&mut self, n: usize) -> usize {
        ((self.next() >> 32) as usize) % n
    }

    pub fn of<T: Copy>(&mut self, choices: &[T]) -> T {
        choices[self.below(choices.len())]
    }
}
