use crate::c::DESCRIPTION_WORDS;

/// Byte order of a file.
#[derive(Debug, Clone, Copy, PartialEq, Eq)]
pub enum Order {
    Little,
    Big,
}

/// The type of a sample.
#[derive(Debug, Clone, Copy, PartialEq, Eq)]
pub enum Kind {
    U8,
    U16,
    I16,
    F32,
}

impl Kind {
    /// The bytes of one sample.
    pub fn size(self) -> usize {
        match self {
            Kind::U8 => 1,
            Kind::U16 | Kind::I16 => 2,
            Kind::F32 => 4,
        }
    }
}

/// What became of the Z step that a file states, in micrometres.
#[derive(Debug, Clone, Copy, PartialEq)]
pub enum ZStep {
    /// A distance that is used.
    Used(f32),
    /// The file states none.
    None,
    /// A placeholder, not used: below a millionth of a micrometre.
    Placeholder(f32),
    /// Too large for a step, not used: above 1000 micrometres.
    TooLarge(f32),
}

/// The size of a pixel in micrometres.
#[derive(Debug, Clone, Copy, PartialEq)]
pub struct PixelSize {
    pub x: f32,
    pub y: f32,
    pub z: ZStep,
}

/// What a file holds. Every scene of a file has the same dimensions.
#[derive(Debug, Clone, Copy, PartialEq)]
pub struct Description {
    pub order: Order,
    pub kind: Kind,
    /// Time points: what a caller's t is held to.
    pub t: usize,
    /// Channels.
    pub c: usize,
    /// Depth.
    pub z: usize,
    /// Height.
    pub y: usize,
    /// Width.
    pub x: usize,
    pub scenes: usize,
    /// Pages of a time point: one for each plane of its depth.
    pub pages_per_time_point: usize,
    /// Strips of a channel on a page; where the channels are [interleaved](Description::interleaved), of a page.
    pub strips_per_channel: usize,
    /// `None` where the file states no pixel size.
    pub pixel_size: Option<PixelSize>,
    /// Where the block of channel colours and names stands in the file.
    pub channel_block: Option<usize>,
    /// Time points of a scene, by which pages are counted. Opening gives the same number as [`Description::t`]. The picture at scene, t,
    /// c, z stands on page (scene × time_points + t) × pages_per_time_point + z.
    pub time_points: usize,
    /// Whether all strips of a page are every channel's. One after another they then hold the page pixel by pixel, row by row, and of each
    /// pixel a sample of channel 0, then one of channel 1, and so on. Otherwise a page has strips of channel 0, then as many of channel 1, and
    /// so on. Opening says so only of several channels.
    pub interleaved: bool,
}

impl Description {
    /// The words that the C functions take. What is absent is 0.
    pub fn words(&self) -> [usize; DESCRIPTION_WORDS] {
        let mut w = [0; DESCRIPTION_WORDS];
        w[0] = self.order as usize;
        w[1] = self.kind as usize;
        w[2..7].copy_from_slice(&[self.t, self.c, self.z, self.y, self.x]);
        w[7] = self.scenes;
        w[8] = self.pages_per_time_point;
        w[9] = self.strips_per_channel;
        if let Some(size) = self.pixel_size {
            w[10] = 1;
            w[11] = size.x.to_bits() as usize;
            w[12] = size.y.to_bits() as usize;
            (w[13], w[14]) = match size.z {
                ZStep::Used(z) => (0, z.to_bits() as usize),
                ZStep::None => (1, 0),
                ZStep::Placeholder(z) => (2, z.to_bits() as usize),
                ZStep::TooLarge(z) => (3, z.to_bits() as usize),
            };
        }
        if let Some(at) = self.channel_block {
            w[15] = 1;
            w[16] = at;
        }
        w[17] = self.time_points;
        w[18] = self.interleaved as usize;
        w
    }

    /// The description that words are. `None` for an order, kind or choice outside its numbers, and for an f32 above 32 bits or
    /// with a NaN's pattern. Words of what is absent don't count.
    pub fn from_words(w: &[usize; DESCRIPTION_WORDS]) -> Option<Description> {
        let float = |word: usize| {
            let f = f32::from_bits(u32::try_from(word).ok()?);
            (!f.is_nan()).then_some(f)
        };
        let order = match w[0] {
            0 => Order::Little,
            1 => Order::Big,
            _ => return None,
        };
        let kind = match w[1] {
            0 => Kind::U8,
            1 => Kind::U16,
            2 => Kind::I16,
            3 => Kind::F32,
            _ => return None,
        };
        let pixel_size = match w[10] {
            0 => None,
            1 => Some(PixelSize {
                x: float(w[11])?,
                y: float(w[12])?,
                z: match w[13] {
                    0 => ZStep::Used(float(w[14])?),
                    1 => ZStep::None,
                    2 => ZStep::Placeholder(float(w[14])?),
                    3 => ZStep::TooLarge(float(w[14])?),
                    _ => return None,
                },
            }),
            _ => return None,
        };
        let channel_block = match w[15] {
            0 => None,
            1 => Some(w[16]),
            _ => return None,
        };
        let interleaved = match w[18] {
            0 => false,
            1 => true,
            _ => return None,
        };
        Some(Description {
            order,
            kind,
            t: w[2],
            c: w[3],
            z: w[4],
            y: w[5],
            x: w[6],
            scenes: w[7],
            pages_per_time_point: w[8],
            strips_per_channel: w[9],
            pixel_size,
            channel_block,
            time_points: w[17],
            interleaved,
        })
    }
}
