// Signed entry types. The original reads types 6, 8 and 9 as unsigned, and knows no refusal with 9. So the host itself says which files are
// refused for a negative value, by document 02's words and by its own walker.
//
// "Types 6, 8 and 9 are to be read as two's complement for scalars, arrays and the bits of request 3. Zero and above read as before. [..]
// 9, a negative value, on opening, as soon as that value is read: a scalar in its entry's turn, an array value by value, a further bits value
// before it is compared."
//
// Here are the entries of one directory; bits.rs goes along the chain, and reads the further values of the bits. Where no value is negative, the
// original's answer to the directory stands. But it reads on where this reader stops, and its own refusal may be of a later entry, or of the
// same one's limit of 65,535. So the host finds out for itself whether an entry before the negative value is refused.
use crate::walk::{number, size_of, Walk, ARRAYS, BITS, CZ, SAMPLES, SCALARS};

// What sort of value is negative, or stands in a signed type.
#[derive(Clone, Copy, PartialEq, Debug)]
pub enum Value {
    Scalar,
    Array,
    // a further value of the bits
    Bits,
}

// What reading a directory's entries in turn comes to.
pub enum Entries {
    Read,
    Negative(Value),
    // by an entry, or since the directory passes the file's end: the original refuses it too
    Refused,
}

// The scalars that must not be above 65,535: BitsPerSample, Compression, SamplesPerPixel and SampleFormat.
const LIMITED: [u64; 4] = [BITS, 259, SAMPLES, 339];
const MOST_STRIPS: u64 = 100_000;

pub fn is_signed(ty: u64) -> bool {
    matches!(ty, 6 | 8 | 9)
}

// The sign is the top bit of the type's own width: 255 is negative as an SBYTE, not as an SSHORT.
pub fn is_negative(ty: u64, value: u64) -> bool {
    is_signed(ty) && value >> (8 * size_of(ty) - 1) == 1
}

// The next pointer is read first, so a directory without one has no entry that counts.
pub fn entries(file: &[u8], w: &Walk, directory: usize) -> Entries {
    let Some(list) = w.next(file, directory).and_then(|_| w.entries(file, directory)) else { return Entries::Refused };
    for entry in list {
        match judged(file, w, entry) {
            Some(Entries::Read) => {}
            Some(other) => return other,
            None => return Entries::Refused,
        }
    }
    Entries::Read
}

// One entry: its type, its count, and then value by value its place, its sign and the limit. `None` where it is refused.
fn judged(file: &[u8], w: &Walk, entry: usize) -> Option<Entries> {
    let [tag, ty] = [entry, entry + 2].map(|at| number(file, at, 2, w.big).expect("an entry before the next pointer"));
    let count = number(file, entry + 4, 4, w.big).expect("its count");
    let array = ARRAYS.contains(&tag);
    if tag == CZ {
        return (4 < size_of(ty) * count).then_some(Entries::Read);
    }
    if !array && !SCALARS.contains(&tag) {
        return Some(Entries::Read);
    }
    // of no value an array takes every type that has a size, and a scalar none
    if count == 0 {
        return (array && size_of(ty) != 0).then_some(Entries::Read);
    }
    if !matches!(ty, 1 | 3 | 4 | 6..=9 | 11) || (array && MOST_STRIPS < count) {
        return None;
    }
    let (place, size) = (w.values(file, entry)?.0, size_of(ty) as usize);
    for i in 0..if array { count } else { 1 } {
        let value = number(file, place + size * i as usize, size, w.big)?;
        if is_negative(ty, value) {
            return Some(Entries::Negative(if array { Value::Array } else { Value::Scalar }));
        }
        if LIMITED.contains(&tag) && 0xffff < value {
            return None;
        }
    }
    Some(Entries::Read)
}

// Whether values of a file that opens stand in signed types: scalars, arrays' values, further values of the bits.
pub fn of_signed_types(file: &[u8], w: &Walk) -> Option<[bool; 3]> {
    let mut found = [false; 3];
    for directory in w.directories(file)? {
        let bits = if w.is_full(file, directory) { w.entry(file, directory, BITS) } else { None };
        for entry in w.entries(file, directory)? {
            let [tag, ty] = [number(file, entry, 2, w.big)?, number(file, entry + 2, 2, w.big)?];
            let count = number(file, entry + 4, 4, w.big)?;
            if is_signed(ty) {
                found[Value::Scalar as usize] |= SCALARS.contains(&tag);
                found[Value::Array as usize] |= ARRAYS.contains(&tag) && count != 0;
                found[Value::Bits as usize] |= bits == Some(entry) && 1 < count;
            }
        }
    }
    Some(found)
}
