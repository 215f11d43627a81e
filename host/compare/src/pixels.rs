// Pictures of interleaved channels, as the stand-in reads them: document 02's rule (interleaved.rs quotes it), written a second time and
// otherwise. A faulty port takes it with a fault.
use crate::standin::DESCRIPTION_WORDS;
use other::probe::Picture;

#[derive(Default, Clone, Copy, PartialEq)]
pub enum Pixels {
    #[default]
    Right,
    // reads every channel as channel 0
    First,
    // looks for a channel's samples behind those of the channels before it
    Planes,
    // the product of channels and picture is cut to 64 bits
    Cut,
    // the product is held to the limit of a picture
    Limited,
    // a rectangle of an oversized picture is read all the same, if its strips are right
    Rows,
    // a page takes strips for each channel
    Strips,
    // a rectangle's strips need only lie in the file and be long enough
    Rectangles,
    // the strips are held to one channel's size
    Size,
}

type Row = [usize; 5];
const DECODE: Row = [2, 0, 0, 0, 0];

// A call: scene, t, c, z, and a rectangle where there is one.
pub struct Call<'a> {
    pub file: &'a [u8],
    pub words: &'a [usize; DESCRIPTION_WORDS],
    pub table: &'a [usize],
    pub at: [usize; 4],
    pub rect: Option<[usize; 4]>,
    pub pixels: Pixels,
}

impl<'a> Call<'a> {
    // The words of the page's strips, all that is asked of them being so, and how many bytes they have. None of either for an empty rectangle.
    fn strips(&self) -> Result<Option<(&'a [usize], u128)>, Row> {
        let [times, channels, deep, high, wide, scenes, depth, strips] = [2, 3, 4, 5, 6, 7, 8, 9].map(|i| self.words[i]);
        let [scene, t, c, z] = self.at;
        let missing = [6, scene, t, c, z];
        if scenes <= scene {
            return Err([5, scene, scenes, 0, 0]);
        }
        if times <= t || channels <= c || deep <= z {
            return Err(missing);
        }
        if let Some([x, y, w, h]) = self.rect {
            let inside = |from: usize, n: usize, most: usize| from.checked_add(n).is_some_and(|end| end <= most);
            if !inside(x, w, wide) || !inside(y, h, high) {
                return Err(DECODE);
            }
            if w == 0 || h == 0 {
                return Ok(None);
            }
        }
        let is = |pixels| self.pixels == pixels && self.rect.is_some();
        let size = wide.checked_mul(high).and_then(|n| n.checked_mul([1, 2, 2, 4][self.words[1]]));
        let Some(size) = size.filter(|&n| n <= 1 << 32 || is(Pixels::Rows)) else {
            return Err([4, size.unwrap_or(usize::MAX), 1 << 32, 0, 0]);
        };
        let all = match self.pixels {
            Pixels::Cut => Some(size.wrapping_mul(channels)),
            Pixels::Size => Some(size),
            _ => size.checked_mul(channels),
        };
        let all = all.ok_or([4, usize::MAX, 1 << 32, 0, 0])?;
        if self.pixels == Pixels::Limited && 1 << 32 < all {
            return Err([4, all, 1 << 32, 0, 0]);
        }
        let point = scene as u128 * self.words[17] as u128 + t as u128;
        let number = point.checked_mul(depth as u128).and_then(|n| usize::try_from(n.checked_add(z as u128)?).ok()).ok_or(missing)?;
        let taken = if self.pixels == Pixels::Strips { strips.wrapping_mul(channels) } else { strips };
        let length = taken.checked_mul(2).filter(|&n| n != 0).ok_or(missing)?;
        let page = &self.table.chunks_exact(length).nth(number).ok_or(missing)?[..2 * strips];
        let mut joined = 0;
        for strip in page.chunks(2) {
            joined += strip[1] as u128;
            let lies = strip[0].checked_add(strip[1]).is_some_and(|end| end <= self.file.len());
            if !lies || ((all as u128) < joined && !is(Pixels::Rectangles)) {
                return Err(DECODE);
            }
        }
        if joined < all as u128 {
            return Err(DECODE);
        }
        Ok(Some((page, joined)))
    }

    // The strips are walked along once, since a later sample stands further on.
    pub fn answer(&self) -> Result<Picture, Row> {
        let [x, y, w, h] = self.rect.unwrap_or([0, 0, self.words[6], self.words[5]]);
        let mut bytes = Vec::new();
        let picture = |bytes| Ok(Picture { height: h, width: w, bytes });
        let Some((strips, joined)) = self.strips()?.filter(|_| w != 0) else {
            return picture(bytes);
        };
        let (wide, channels, c) = (self.words[6] as u128, self.words[3] as u128, self.at[2] as u128);
        let sample = [1, 2, 2, 4][self.words[1]];
        let (mut strip, mut before) = (0, 0u128);
        for pixel in (y..y + h).flat_map(|row| (x..x + w).map(move |column| row as u128 * wide + column as u128)) {
            let first = sample
                * match self.pixels {
                    Pixels::First => pixel * channels,
                    Pixels::Planes => pixel + c * (joined / sample / channels),
                    _ => pixel * channels + c,
                };
            let start = bytes.len();
            for k in first..first + sample {
                while before + strips[2 * strip + 1] as u128 <= k {
                    before += strips[2 * strip + 1] as u128;
                    strip += 1;
                }
                bytes.push(self.file[strips[2 * strip] + (k - before) as usize]);
            }
            if self.words[0] == 1 {
                bytes[start..].reverse();
            }
        }
        picture(bytes)
    }
}
