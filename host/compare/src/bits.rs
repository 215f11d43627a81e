// Bits stated for each channel. The original reads the first value of BitsPerSample alone, and knows no refusal with 8. So the host itself says
// which files the others refuse, by document 02's words and by its own walker.
//
// "On a full page the count must be 1 or SamplesPerPixel (0 taken as 1), and all values equal. A missing tag is not checked. The other values
// are read only when the count is SamplesPerPixel, in turn, each compared before the next; one past the file is 1. [..] 8, uneven bits or a
// wrong count, after a directory's two strip arrays are found equal in length and before it is held against the first page."
//
// What comes before that in the order is the original's to say: it is asked of one directory after the other (probe.rs). A negative value is
// refused by the host too (signs.rs): in its entry's turn, or, of the further values here, "before it is compared".
use crate::signs::{self, Entries};
use crate::walk::{is_tiff, number, Walk, BITS, SAMPLES};
use original::probe::{self, Refused};
use std::collections::HashSet;

// What the rules make of a file: the first refusal of either along the chain.
#[derive(Default)]
pub struct Found {
    // 8, 9, or 1 for a further value past the file. Otherwise the original's answer is the file's.
    pub refusal: Option<usize>,
    // what is negative, where it is 9
    pub negative: Option<signs::Value>,
    // whether some full page has several values, by where they stand
    pub in_line: bool,
    pub out_of_line: bool,
}

pub fn refused(number: usize) -> Refused {
    let text = match number {
        8 => "the host: uneven bits, or a wrong count of them",
        9 => "the host: a negative value",
        _ => "the host: a further value of the bits past the file",
    };
    Refused { row: [number, 0, 0, 0, 0], text: text.to_string() }
}

pub fn found(file: &[u8], w: &Walk) -> Found {
    let mut found = Found::default();
    if is_tiff(file) {
        follow(file, w, &mut found);
    }
    found
}

impl Found {
    fn negative(&mut self, value: signs::Value) {
        (self.refusal, self.negative) = (Some(9), Some(value));
    }
}

// Stops where the original refuses, at the million, and where the chain comes back: nothing is new from there on.
fn follow(file: &[u8], w: &Walk, found: &mut Found) -> Option<()> {
    let mut seen = HashSet::new();
    let mut first = None;
    let mut at = number(file, 4, 4, w.big)? as usize;
    while at != 0 && seen.len() < 1_000_000 && seen.insert(at) {
        let said = probe::directory(file, at);
        match signs::entries(file, w, at) {
            Entries::Read => {}
            Entries::Negative(value) => {
                found.negative(value);
                return None;
            }
            Entries::Refused => {
                assert!(said.is_err(), "a directory that the host's walker refuses, and the original doesn't");
                return None;
            }
        }
        let stated = said.ok()?;
        if w.is_full(file, at) {
            page(file, w, at, found);
            if found.refusal.is_some() || *first.get_or_insert(stated) != stated {
                return None;
            }
        }
        at = w.next(file, at)?;
    }
    Some(())
}

// A full page whose entries the original accepts.
fn page(file: &[u8], w: &Walk, directory: usize, found: &mut Found) {
    let Some(entry) = w.entry(file, directory, BITS) else { return };
    let (place, size, _) = w.values(file, entry).expect("an entry that the original reads");
    let [ty, count] = [(2, 2), (4, 4)].map(|(at, n)| number(file, entry + at, n, w.big).expect("its type and count"));
    if count == 1 {
        return;
    }
    let channels = w.stated(file, directory, SAMPLES).unwrap_or(1).max(1);
    if count != channels {
        found.refusal = Some(8);
        return;
    }
    let value = |i: u64| number(file, place + size * i as usize, size, w.big);
    let first = value(0).expect("a first value, which the original reads");
    for i in 1..count {
        match value(i) {
            None => found.refusal = Some(1),
            Some(other) if signs::is_negative(ty, other) => found.negative(signs::Value::Bits),
            Some(other) if other != first => found.refusal = Some(8),
            Some(_) => continue,
        }
        return;
    }
    *if size as u64 * count <= 4 { &mut found.in_line } else { &mut found.out_of_line } = true;
}
