//! What both printouts of a file are made of.

use std::ffi::OsStr;

use lsm::{Description, Refusal, ZStep};

use super::failure::Failure;
use super::scan::Scan;

/// A channel's colour and name.
pub struct Channel {
    pub color: Option<[u8; 3]>,
    pub name: Option<Vec<u8>>,
}

impl Scan {
    /// All channels, in their order. The library refuses none below the description's number; one that does is no library to go on with.
    pub fn channels(&self, name: &OsStr) -> Result<Vec<Channel>, Failure> {
        let mut memory = [0; 3072];
        let channel = |c| match lsm::channel(&self.input, &self.description, c, &mut memory) {
            Ok(found) => Ok(Channel { color: found.colour, name: found.name.map(|n| memory[..n].to_vec()) }),
            Err(r) => Err(Failure::file(name, format!("the library refuses channel {c} of {}: {r}", self.description.c))),
        };
        (0..self.description.c).map(channel).collect()
    }
}

/// So many pictures, in words.
pub fn pictures(n: usize) -> String {
    match n {
        1 => "1 picture".to_string(),
        _ => format!("{n} pictures"),
    }
}

/// A scene's name: one is `image`, several are `image #1` and upward.
pub fn scene(d: &Description, scene: usize) -> String {
    match d.scenes {
        1 => "image".to_string(),
        _ => format!("image #{}", scene + 1),
    }
}

/// The note about a Z step that isn't used.
pub fn note(d: &Description) -> Option<String> {
    match d.pixel_size?.z {
        ZStep::Placeholder(z) => Some(format!("placeholder {}", figure(z))),
        ZStep::TooLarge(z) => Some(format!("too-large {}", figure(z))),
        ZStep::Used(_) | ZStep::None => None,
    }
}

/// A refusal's number and its values.
pub fn numbers(r: &Refusal) -> Vec<usize> {
    let values = match r {
        Refusal::OversizedAllocation { .. } | Refusal::SceneOutOfRange { .. } => 2,
        Refusal::OutOfRange { .. } => 4,
        Refusal::TooShort { .. } => 1,
        Refusal::Parse | Refusal::Decode | Refusal::Unsupported | Refusal::UnevenBits | Refusal::NegativeValue => 0,
    };
    r.row()[..1 + values].to_vec()
}

// "The exact value rounded to three digits, halves to the even digit", with "trailing zeros and a bare point dropped". So does the standard
// library round; the tests hold it to that.
fn figure(z: f32) -> String {
    let text = format!("{z:.2e}");
    let Some((digits, exponent)) = text.split_once('e') else { return text };
    format!("{}e{exponent}", digits.trim_end_matches('0').trim_end_matches('.'))
}

#[cfg(test)]
mod tests {
    use super::figure;

    // Each has its exact value between two figures in the middle: the even digit is wanted, up and down.
    #[test]
    fn halves_go_to_the_even_digit() {
        let cases = [(1015.0, "1.02e3"), (1025.0, "1.02e3"), (10150.0, "1.02e4"), (10250.0, "1.02e4"), (1035.0, "1.04e3")];
        for (z, want) in cases {
            assert_eq!(figure(z), want);
        }
        assert_eq!(figure(999.5e3), "1e6");
        assert_eq!(figure(998.5e3), "9.98e5");
    }

    #[test]
    fn the_ends_of_f32() {
        assert_eq!(figure(f32::from_bits(1)), "1.4e-45");
        assert_eq!(figure(f32::MAX), "3.4e38");
        assert_eq!(figure(1e-6), "1e-6");
        assert_eq!(figure(2.5e-7), "2.5e-7");
    }
}
