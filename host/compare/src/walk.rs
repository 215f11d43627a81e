// A walker along a file's directories that shares no line with either reader. It gives what the original doesn't: how many
// directories the chain has, whether it comes back on itself, and the Z step in the CZ block as it is stored.
pub struct Walk {
    pub visited: usize,
    pub circle: bool,
    // Place and declared bytes of the first directory's CZ entry that there is; in one directory the last.
    pub cz: Option<(usize, usize)>,
    // Whether the file begins as a big-endian one.
    pub big: bool,
}

pub fn number(file: &[u8], at: usize, n: usize, big: bool) -> Option<u64> {
    let part = file.get(at..at.checked_add(n)?)?;
    let join = |sum: u64, &b: &u8| sum << 8 | b as u64;
    Some(if big { part.iter().fold(0, join) } else { part.iter().rev().fold(0, join) })
}

// The bytes of a value of a TIFF type.
pub fn size_of(ty: u64) -> u64 {
    match ty {
        1 | 2 | 6 | 7 => 1,
        3 | 8 => 2,
        4 | 9 | 11 => 4,
        5 | 10 | 12 => 8,
        _ => 0,
    }
}

// Whether a file begins with a header: the order's mark and 42.
pub fn is_tiff(file: &[u8]) -> bool {
    8 <= file.len() && (file.starts_with(b"II\x2a\0") || file.starts_with(b"MM\0\x2a"))
}

pub fn walk(file: &[u8]) -> Walk {
    let mut w = Walk { visited: 0, circle: false, cz: None, big: file.starts_with(b"M") };
    follow(file, &mut w);
    w
}

// Stops where the file ends. More visits than the file has bytes can only be a circle.
fn follow(file: &[u8], w: &mut Walk) -> Option<()> {
    let mut at = number(file, 4, 4, w.big)? as usize;
    while at != 0 {
        w.visited += 1;
        if file.len() < w.visited {
            w.circle = true;
            return None;
        }
        let count = number(file, at, 2, w.big)? as usize;
        let next = number(file, at + 2 + 12 * count, 4, w.big)? as usize;
        if w.cz.is_none() {
            for i in 0..count {
                let entry = at + 2 + 12 * i;
                if number(file, entry, 2, w.big)? == 34412 {
                    let declared = size_of(number(file, entry + 2, 2, w.big)?) * number(file, entry + 4, 4, w.big)?;
                    w.cz = Some((number(file, entry + 8, 4, w.big)? as usize, declared as usize));
                }
            }
        }
        at = next;
    }
    Some(())
}

// The tags of scalars that opening reads, and of strip arrays.
pub const SCALARS: [u64; 8] = [SUBFILE, 256, 257, BITS, 259, SAMPLES, PLANAR, 339];
pub const ARRAYS: [u64; 2] = [273, 279];
const SUBFILE: u64 = 254;
pub const BITS: u64 = 258;
pub const SAMPLES: u64 = 277;
pub const PLANAR: u64 = 284;
pub const CZ: u64 = 34412;

// The numbers of a CZ block: magic, size, five dimensions, three voxel sizes, the channel block's place, P and M.
const BLOCK: [(usize, usize); 13] =
    [(0, 4), (4, 4), (8, 4), (12, 4), (16, 4), (20, 4), (24, 4), (40, 8), (48, 8), (56, 8), (108, 4), (264, 4), (268, 4)];

// Of a file whose chain is whole and ends.
impl Walk {
    // The directories' places.
    pub fn directories(&self, file: &[u8]) -> Option<Vec<usize>> {
        let mut list = Vec::new();
        let mut at = number(file, 4, 4, self.big)? as usize;
        while at != 0 {
            list.push(at);
            at = self.next(file, at)?;
        }
        Some(list)
    }

    // Where the next directory stands; 0 for none.
    pub fn next(&self, file: &[u8], directory: usize) -> Option<usize> {
        let count = number(file, directory, 2, self.big)? as usize;
        Some(number(file, directory + 2 + 12 * count, 4, self.big)? as usize)
    }

    // The places of a directory's entries.
    pub fn entries(&self, file: &[u8], directory: usize) -> Option<impl DoubleEndedIterator<Item = usize>> {
        let count = number(file, directory, 2, self.big)? as usize;
        Some((0..count).map(move |i| directory + 2 + 12 * i))
    }

    // Place and bytes of the values that are read of an entry: the first, or all of a strip array. And whether they stand in the entry itself.
    pub fn values(&self, file: &[u8], entry: usize) -> Option<(usize, usize, bool)> {
        let field = |at: usize, n: usize| number(file, entry + at, n, self.big);
        let (tag, size, count) = (field(0, 2)?, size_of(field(2, 2)?), field(4, 4)?);
        let values = match tag {
            tag if SCALARS.contains(&tag) => 1,
            tag if ARRAYS.contains(&tag) => count,
            _ => return None,
        };
        let in_line = size * count <= 4;
        let at = if in_line { entry + 8 } else { field(8, 4)? as usize };
        Some((at, (size * values) as usize, in_line))
    }

    // Places and lengths of all that opening reads, each number by itself where it is more than a place to look at.
    pub fn read(&self, file: &[u8]) -> Option<Vec<(usize, usize)>> {
        let mut list = vec![(0, 8)];
        for at in self.directories(file)? {
            list.push((at, 2));
            let mut end = at + 2;
            for entry in self.entries(file, at)? {
                // tag, type and count
                list.push((entry, 8));
                end = entry + 12;
                if let Some((at, n, in_line)) = self.values(file, entry) {
                    list.push((at, n));
                    list.extend((!in_line).then_some((entry + 8, 4)));
                } else if number(file, entry, 2, self.big)? == CZ {
                    list.push((entry + 8, 4));
                }
            }
            list.push((end, 4));
        }
        let (block, declared) = self.cz?;
        list.extend(BLOCK.iter().filter(|&&(at, n)| at + n <= declared).map(|&(at, n)| (block + at, n)));
        Some(list)
    }

    // A tag's entry in a directory: of several the last counts.
    pub fn entry(&self, file: &[u8], directory: usize, tag: u64) -> Option<usize> {
        let is = |&entry: &usize| number(file, entry, 2, self.big) == Some(tag);
        self.entries(file, directory)?.rfind(is)
    }

    // Place and bytes of a tag's value in a directory.
    fn value(&self, file: &[u8], directory: usize, tag: u64) -> Option<(usize, usize)> {
        self.values(file, self.entry(file, directory, tag)?).map(|(at, n, _)| (at, n))
    }

    // The value itself.
    pub fn stated(&self, file: &[u8], directory: usize, tag: u64) -> Option<u64> {
        self.value(file, directory, tag).and_then(|(at, n)| number(file, at, n, self.big))
    }

    pub fn is_full(&self, file: &[u8], directory: usize) -> bool {
        self.stated(file, directory, SUBFILE).is_none_or(|n| n & 0b101 == 0)
    }

    // Places and bytes of a tag's values on the full pages that have the tag.
    pub fn of_full_pages(&self, file: &[u8], tag: u64) -> Option<Vec<(usize, usize)>> {
        let pages = self.directories(file)?.into_iter().filter(|&directory| self.is_full(file, directory));
        Some(pages.filter_map(|directory| self.value(file, directory, tag)).collect())
    }

    // The stored Z step as f32 bits in micrometres: one product in f64, then narrowed.
    pub fn z_step(&self, file: &[u8]) -> Option<u32> {
        let bits = number(file, self.cz?.0 + 56, 8, self.big)?;
        Some(((f64::from_bits(bits) * 1e6) as f32).to_bits())
    }
}
