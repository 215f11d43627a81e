use std::fmt;

/// Why a call was refused. Nothing was written to lent memory.
#[derive(Debug, Clone, Copy, PartialEq, Eq)]
pub enum Refusal {
    /// 1: the container is malformed.
    Parse,
    /// 2: the bytes can't be the picture that they announce.
    Decode,
    /// 3: a sort of file that the reader doesn't take.
    Unsupported,
    /// 4: a size above its limit, in bytes. A size that overflows asks for `usize::MAX`.
    OversizedAllocation { requested: usize, cap: usize },
    /// 5: the file has `count` scenes.
    SceneOutOfRange { scene: usize, count: usize },
    /// 6: no such time point, channel, plane or page. For a channel lookup scene, t and z are 0.
    OutOfRange { scene: usize, t: usize, c: usize, z: usize },
    /// 7: lent memory is too short and nothing else is in the way. The strip table counts in words, samples and names in bytes.
    TooShort { needed: usize },
    /// 8: BitsPerSample of a full page isn't one value, nor equal values, as many as there are channels.
    UnevenBits,
    /// 9: an entry of a signed type has a negative value.
    NegativeValue,
}

impl Refusal {
    /// The number that the C functions return.
    pub fn number(&self) -> usize {
        self.row()[0]
    }

    /// The number and its values, then zeros.
    pub fn row(&self) -> [usize; 5] {
        match *self {
            Refusal::Parse => [1, 0, 0, 0, 0],
            Refusal::Decode => [2, 0, 0, 0, 0],
            Refusal::Unsupported => [3, 0, 0, 0, 0],
            Refusal::OversizedAllocation { requested, cap } => [4, requested, cap, 0, 0],
            Refusal::SceneOutOfRange { scene, count } => [5, scene, count, 0, 0],
            Refusal::OutOfRange { scene, t, c, z } => [6, scene, t, c, z],
            Refusal::TooShort { needed } => [7, needed, 0, 0, 0],
            Refusal::UnevenBits => [8, 0, 0, 0, 0],
            Refusal::NegativeValue => [9, 0, 0, 0, 0],
        }
    }

    /// The refusal with this number and these values. `None` for another number, and where a word behind the values isn't 0.
    pub fn from_row(row: [usize; 5]) -> Option<Refusal> {
        let [number, a, b, c, d] = row;
        let refusal = match number {
            1 => Refusal::Parse,
            2 => Refusal::Decode,
            3 => Refusal::Unsupported,
            4 => Refusal::OversizedAllocation { requested: a, cap: b },
            5 => Refusal::SceneOutOfRange { scene: a, count: b },
            6 => Refusal::OutOfRange { scene: a, t: b, c, z: d },
            7 => Refusal::TooShort { needed: a },
            8 => Refusal::UnevenBits,
            9 => Refusal::NegativeValue,
            _ => return None,
        };
        (refusal.row() == row).then_some(refusal)
    }
}

impl fmt::Display for Refusal {
    fn fmt(&self, f: &mut fmt::Formatter<'_>) -> fmt::Result {
        match self {
            Refusal::Parse => write!(f, "malformed container"),
            Refusal::Decode => write!(f, "the bytes can't be the picture that they announce"),
            Refusal::Unsupported => write!(f, "this sort of file is not supported"),
            Refusal::OversizedAllocation { requested, cap } => write!(f, "{requested} bytes are above the limit of {cap}"),
            Refusal::SceneOutOfRange { scene, count } => write!(f, "no scene {scene} among {count}"),
            Refusal::OutOfRange { scene, t, c, z } => write!(f, "nothing at scene {scene}, t {t}, c {c}, z {z}"),
            Refusal::TooShort { needed } => write!(f, "lent memory is too short: {needed} needed"),
            Refusal::UnevenBits => write!(f, "the channels' bits are uneven, or of another number than the channels"),
            Refusal::NegativeValue => write!(f, "a value of an entry is negative"),
        }
    }
}

impl std::error::Error for Refusal {}
