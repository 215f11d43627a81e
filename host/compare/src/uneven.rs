// The stand-in's rule for the bits that are stated for each channel, and what faulty ports make of it: the rule of bits.rs once more, in the
// way of a reader that keeps what it needs while it goes through a directory's entries.
use crate::negative::{Kept, Reader, Signs, Stop};
use crate::walk::is_tiff;
use other::probe;
use std::collections::HashSet;

#[derive(Default, Clone, Copy, PartialEq)]
pub enum Bits {
    #[default]
    Right,
    // compares the second value alone
    Second,
    // any number of values will do
    AnyCount,
    // reduced pages are held to it
    Reduced,
    // comes before the strip arrays are found equal in length
    BeforeArrays,
    // comes after the agreement with the first page
    AfterAgreement,
    // takes SamplesPerPixel as it stands when the entry is read
    AsRead,
    // compares 16 bits
    Cut,
    // wants all values in the file before it compares any
    Range,
    // compares with the first value of the first entry
    Overruled,
}

// The rule over a reader of directories (negative.rs).
struct Checker<'a> {
    reader: Reader<'a>,
    rule: Bits,
}

impl Checker<'_> {
    fn refusal(&self, kept: &Kept) -> Option<usize> {
        let v = kept.bits.as_ref()?;
        let samples = if self.rule == Bits::AsRead { v.samples } else { kept.samples };
        if v.count == 1 {
            return None;
        }
        if v.count != samples.max(1) && self.rule != Bits::AnyCount {
            return Some(8);
        }
        let value = |i: u64| self.reader.value(v.ty, v.at, i);
        if self.rule == Bits::Range && value(v.count - 1).is_none() {
            return Some(1);
        }
        let mask = if self.rule == Bits::Cut { 0xffff } else { u64::MAX };
        let first = if self.rule == Bits::Overruled { kept.overruled? } else { value(0)?.0 };
        let compared_first = self.reader.signs == Signs::AfterComparison;
        for i in 1..if self.rule == Bits::Second { 2 } else { v.count } {
            match value(i) {
                None => return Some(1),
                Some((_, true)) if !compared_first => return Some(9),
                Some((other, _)) if other & mask != first & mask => return Some(8),
                Some(_) => {}
            }
        }
        None
    }
}

// 8, 9 or 1, where the rules refuse the file. Otherwise the original's answer stands.
pub fn refusal(file: &[u8], rule: Bits, signs: Signs) -> Option<usize> {
    if !is_tiff(file) {
        return None;
    }
    let checker = Checker { reader: Reader { file, signs }, rule };
    let mut seen = HashSet::new();
    let mut first = None;
    let mut at = checker.reader.read(4, 4)?;
    while at != 0 && seen.len() < 1_000_000 && seen.insert(at) {
        let kept = match checker.reader.directory(at) {
            Ok(kept) => kept,
            Err(Stop::Negative) => return Some(9),
            Err(Stop::Original) => return None,
        };
        let stated = match probe::directory(file, at as usize) {
            Ok(stated) => Some(stated),
            Err(refused) if rule == Bits::BeforeArrays && refused.text.contains("strip offsets vs") => None,
            Err(_) => return None,
        };
        let full = kept.subfile & 5 == 0;
        let differs = full && first.is_some_and(|first| stated.is_some_and(|stated| stated != first));
        if differs && rule == Bits::AfterAgreement {
            return None;
        }
        if full || rule == Bits::Reduced {
            let refusal = checker.refusal(&kept);
            if refusal.is_some() {
                return refusal;
            }
        }
        let stated = stated?;
        if differs {
            return None;
        }
        if full {
            first.get_or_insert(stated);
        }
        at = kept.next;
    }
    None
}
