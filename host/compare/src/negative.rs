// How the stand-in reads a directory's entries, and what faulty ports make of negative values: the rule of signs.rs once more, in the way of a
// reader that takes a value for what its type says, and keeps what it needs while it goes through the entries.
#[derive(Default, Clone, Copy, PartialEq)]
pub enum Signs {
    #[default]
    Right,
    // an SSHORT goes into 4 bytes without its sign
    Wide,
    // a FLOAT has a sign
    Float,
    // the limit of 65,535 comes first
    AfterLimit,
    // no value of a reduced page is negative
    FullPages,
    // nor one of an entry that a later one of its tag overrules
    Winners,
    // an array must lie in the file before any value of it is looked at
    Range,
    // of an array the last value alone is looked at
    Last,
    // a further value of the bits is compared first
    AfterComparison,
    // a scalar's further values are looked at too
    Further,
    // and the place in the CZ entry
    Place,
    // the sign is that of the lowest byte
    Bytes,
    // 9 is said once all of the directory's entries are read
    AtEnd,
}

// What is kept of a directory: SUBFILE, SamplesPerPixel, and of BitsPerSample the last entry's values and the first entry's first.
#[derive(Default)]
pub struct Kept {
    pub subfile: u64,
    pub samples: u64,
    pub bits: Option<Values>,
    pub overruled: Option<u64>,
    pub next: u64,
}

pub struct Values {
    pub at: u64,
    pub ty: u64,
    pub count: u64,
    // SamplesPerPixel when the entry was read
    pub samples: u64,
}

// Why a directory isn't read to its end: for a negative value, or for what the original refuses as well.
#[derive(PartialEq)]
pub enum Stop {
    Negative,
    Original,
}

struct Entry {
    tag: u64,
    ty: u64,
    count: u64,
    // where the first value stands
    at: u64,
}

pub struct Reader<'a> {
    pub file: &'a [u8],
    pub signs: Signs,
}

// The bytes of a value that is read as a number: one of a BYTE, SHORT, LONG, SBYTE, UNDEFINED, SSHORT, SLONG or FLOAT.
fn bytes_of(ty: u64) -> Option<u64> {
    Some(match ty {
        1 | 6 | 7 => 1,
        3 | 8 => 2,
        4 | 9 | 11 => 4,
        _ => return None,
    })
}

// Stops at a negative value.
fn at_sign(below: bool) -> Result<(), Stop> {
    if below { Err(Stop::Negative) } else { Ok(()) }
}

impl Reader<'_> {
    pub fn read(&self, at: u64, size: u64) -> Option<u64> {
        let bytes = self.file.get(at as usize..(at + size) as usize)?;
        let mut eight = [0; 8];
        if self.file[0] == b'M' {
            eight[8 - bytes.len()..].copy_from_slice(bytes);
            Some(u64::from_be_bytes(eight))
        } else {
            eight[..bytes.len()].copy_from_slice(bytes);
            Some(u64::from_le_bytes(eight))
        }
    }

    // Value i of a type, and whether it is below zero.
    pub fn value(&self, ty: u64, at: u64, i: u64) -> Option<(u64, bool)> {
        let size = bytes_of(ty)?;
        let n = self.read(at + i * size, size)?;
        let below = match ty {
            6 | 8 | 9 if self.signs == Signs::Bytes => (n as i8) < 0,
            6 => (n as i8) < 0,
            8 if self.signs == Signs::Wide => (n as i32) < 0,
            8 => (n as i16) < 0,
            9 => (n as i32) < 0,
            11 => self.signs == Signs::Float && (n as i32) < 0,
            _ => false,
        };
        Some((n, below))
    }

    // The entries of a directory, and its next pointer.
    fn entries(&self, place: u64) -> Option<(Vec<Entry>, u64)> {
        let number = self.read(place, 2)?;
        let next = self.read(place + 2 + 12 * number, 4)?;
        let entry = |i: u64| {
            let place = place + 2 + 12 * i;
            let [tag, ty] = [self.read(place, 2)?, self.read(place + 2, 2)?];
            let count = self.read(place + 4, 4)?;
            // values of 8 bytes, which aren't numbers, are out of line, and no type above 12 is read
            let in_line = bytes_of(ty).unwrap_or(8) * count <= 4;
            Some(Entry { tag, ty, count, at: if in_line { place + 8 } else { self.read(place + 8, 4)? } })
        };
        Some(((0..number).map(entry).collect::<Option<Vec<Entry>>>()?, next))
    }

    // Whether a faulty port looks at an entry's signs.
    fn looks(&self, entries: &[Entry], i: usize) -> bool {
        let last = |tag: u64| entries.iter().rposition(|e| e.tag == tag);
        match self.signs {
            Signs::FullPages => {
                let subfile = last(254).and_then(|i| self.value(entries[i].ty, entries[i].at, 0));
                subfile.is_none_or(|(n, _)| n & 5 == 0)
            }
            Signs::Winners => last(entries[i].tag) == Some(i),
            _ => true,
        }
    }

    // The first value.
    fn scalar(&self, e: &Entry, looked: bool) -> Result<u64, Stop> {
        if e.count == 0 {
            return Err(Stop::Original);
        }
        let (n, below) = self.value(e.ty, e.at, 0).ok_or(Stop::Original)?;
        let above = matches!(e.tag, 258 | 259 | 277 | 339) && u16::try_from(n).is_err();
        if above && self.signs == Signs::AfterLimit {
            return Err(Stop::Original);
        }
        at_sign(looked && below)?;
        if self.signs == Signs::Further {
            let mut further = (1..e.count).map_while(|i| self.value(e.ty, e.at, i));
            at_sign(further.any(|(_, below)| below))?;
        }
        if above { Err(Stop::Original) } else { Ok(n) }
    }

    // All values.
    fn array(&self, e: &Entry, looked: bool) -> Result<(), Stop> {
        if e.count == 0 {
            return if (1..=12).contains(&e.ty) { Ok(()) } else { Err(Stop::Original) };
        }
        let whole = e.count <= 100_000 && (self.signs != Signs::Range || self.value(e.ty, e.at, e.count - 1).is_some());
        for i in 0..if whole { e.count } else { 0 } {
            let (_, below) = self.value(e.ty, e.at, i).ok_or(Stop::Original)?;
            at_sign(looked && below && (self.signs != Signs::Last || i == e.count - 1))?;
        }
        if whole { Ok(()) } else { Err(Stop::Original) }
    }

    // The entry of a CZ block: more than 4 bytes, wherever they stand.
    fn block(&self, e: &Entry) -> Result<(), Stop> {
        let size = match e.ty {
            5 | 10 | 12 => 8,
            2 => 1,
            ty => bytes_of(ty).unwrap_or(0),
        };
        if size * e.count <= 4 {
            return Err(Stop::Original);
        }
        at_sign(self.signs == Signs::Place && matches!(e.ty, 6 | 8 | 9) && (e.at as u32 as i32) < 0)
    }

    pub fn directory(&self, place: u64) -> Result<Kept, Stop> {
        let (entries, next) = self.entries(place).ok_or(Stop::Original)?;
        let mut kept = Kept { samples: 1, next, ..Kept::default() };
        let mut negative = false;
        for (i, e) in entries.iter().enumerate() {
            match self.entry(e, self.looks(&entries, i), &mut kept) {
                Err(Stop::Negative) if self.signs == Signs::AtEnd => negative = true,
                other => other?,
            }
        }
        at_sign(negative)?;
        Ok(kept)
    }

    fn entry(&self, e: &Entry, looked: bool, kept: &mut Kept) -> Result<(), Stop> {
        match e.tag {
            254 => kept.subfile = self.scalar(e, looked)?,
            277 => kept.samples = self.scalar(e, looked)?,
            258 => {
                let first = self.scalar(e, looked)?;
                kept.overruled.get_or_insert(first);
                kept.bits = Some(Values { at: e.at, ty: e.ty, count: e.count, samples: kept.samples });
            }
            256 | 257 | 259 | 284 | 339 => drop(self.scalar(e, looked)?),
            273 | 279 => self.array(e, looked)?,
            34412 => self.block(e)?,
            _ => {}
        }
        Ok(())
    }
}
