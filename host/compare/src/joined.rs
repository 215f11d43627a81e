// Strips of a table, one after another, and samples picked out of them byte by byte.
use crate::standin::DESCRIPTION_WORDS;

pub struct Joined<'a> {
    strips: &'a [usize],
    // where each strip ends in the joined bytes
    ends: Vec<u128>,
}

impl<'a> Joined<'a> {
    // Of a table's words: place and length of each strip.
    pub fn new(strips: &'a [usize]) -> Joined<'a> {
        let mut end = 0;
        let mut upto = |n: usize| {
            end += n as u128;
            end
        };
        Joined { strips, ends: strips.chunks(2).map(|s| upto(s[1])).collect() }
    }

    pub fn bytes(&self) -> u128 {
        self.ends.last().copied().unwrap_or(0)
    }

    // Where byte k stands in the file.
    fn place(&self, k: u128) -> usize {
        let i = self.ends.partition_point(|&end| end <= k);
        let strip = &self.strips[2 * i..2 * i + 2];
        strip[0] + (k - (self.ends[i] - strip[1] as u128)) as usize
    }

    // The samples of a rectangle, little-endian: the picture has rows of as many pixels as the description says, and a pixel has so many
    // samples, of which the one with number `own` is given.
    pub fn samples(&self, words: &[usize; DESCRIPTION_WORDS], file: &[u8], rect: [usize; 4], together: usize, own: usize) -> Vec<u8> {
        let [x, y, w, h] = rect.map(|n| n as u128);
        let (wide, sample) = (words[6] as u128, [1, 2, 2, 4][words[1]]);
        let mut out = Vec::new();
        if w == 0 {
            return out;
        }
        for row in y..y + h {
            for column in x..x + w {
                let first = ((row * wide + column) * together as u128 + own as u128) * sample;
                let bytes = (0..sample).map(|i| if words[0] == 1 { sample - 1 - i } else { i });
                out.extend(bytes.map(|i| file[self.place(first + i)]));
            }
        }
        out
    }
}
