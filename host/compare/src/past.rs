// Region on a page past those of the whole-row test, where the test says yes. Only a handed-in description asks for one: its depth is
// below its Z, or the layout's T below that of the dimensions.
//
// Document 01 names three checks there: "where every page's strips hold whole rows, the rectangle's size, the page, and all the
// channel's strips within the file". The test "runs over pages 0 to scenes × depth − 1 and all channels", with the time series of
// document 02 to scenes × T × depth − 1, so a later page is asked nothing more. What is read: "the picture meant is always the
// channel's joined strips, with the sample at row, column stored at (row × width + column) × sample size". A sample that passes the
// end of the joined strips isn't there. The papers leave the answer free where a rectangle has such a sample; it is 2.
//
// The original asks for more: its `gather_rows` refuses with 2 where the page's own strips don't hold whole rows which add up to the
// height. So what is wanted there is said here.
use crate::joined::Joined;
use crate::standin::DESCRIPTION_WORDS;

pub enum Found {
    Samples(Vec<u8>),
    Refused([usize; 5]),
    // a sample of the rectangle isn't there
    Missing,
}

impl Found {
    // The samples, or the refusal's row.
    pub fn answer(self) -> Result<Vec<u8>, [usize; 5]> {
        match self {
            Found::Samples(bytes) => Ok(bytes),
            Found::Refused(row) => Err(row),
            Found::Missing => Err([2, 0, 0, 0, 0]),
        }
    }
}

// (scene × T + t) × depth + z, with the layout's T. It is exact where it fits 128 bits, and otherwise the largest number, which passes 64
// bits as well.
pub fn page(words: &[usize; DESCRIPTION_WORDS], scene: usize, t: usize, z: usize) -> u128 {
    let points = scene as u128 * words[17] as u128 + t as u128;
    points.saturating_mul(words[8] as u128).saturating_add(z as u128)
}

// Whether the checks before the rectangle's size pass and the page is past those of the test. `at` is scene, t, c, z.
pub fn decides(words: &[usize; DESCRIPTION_WORDS], at: [usize; 4], rect: [usize; 4]) -> bool {
    let [scene, t, c, z] = at;
    let [x, y, w, h] = rect.map(|n| n as u128);
    let there = scene < words[7] && t < words[2] && c < words[3] && z < words[4];
    let inside = x + w <= words[6] as u128 && y + h <= words[5] as u128;
    let tested = page(words, words[7], 0, 0);
    there && inside && w != 0 && h != 0 && tested <= page(words, scene, t, z)
}

// The answer where `decides` and the whole-row test say yes. No sum or product can overflow: each fits 128 bits, or is tested.
pub fn region(words: &[usize; DESCRIPTION_WORDS], table: &[usize], file: &[u8], at: [usize; 4], rect: [usize; 4]) -> Found {
    let [scene, t, c, z] = at;
    let [x, y, w, h] = rect.map(|n| n as u128);
    let (wide, sample) = (words[6] as u128, [1, 2, 2, 4][words[1]]);
    // the rectangle's size
    let size = (w * h).saturating_mul(sample);
    if 1 << 32 < size {
        return Found::Refused([4, size.min(usize::MAX as u128) as usize, 1 << 32, 0, 0]);
    }
    let Some(page) = page_in(table, words[9] as u128 * words[3] as u128, page(words, scene, t, z)) else {
        return Found::Refused([6, scene, t, c, z]);
    };
    // all the channel's strips within the file
    let strips = &page[2 * words[9] * c..][..2 * words[9]];
    if strips.chunks(2).any(|s| (file.len() as u128) < s[0] as u128 + s[1] as u128) {
        return Found::Refused([2, 0, 0, 0, 0]);
    }
    // the end of the rectangle's last sample: no other sample of it lies behind
    let joined = Joined::new(strips);
    if joined.bytes() < ((y + h - 1) * wide + x + w).saturating_mul(sample) {
        return Found::Missing;
    }
    Found::Samples(joined.samples(words, file, rect, 1, 0))
}

// The words of a page of so many strips: its number has 64 bits, it has strips, and it is wholly in the table.
pub fn page_in(table: &[usize], strips: u128, page: u128) -> Option<&[usize]> {
    let number = u64::try_from(page).ok()? as u128;
    let words = strips.checked_mul(2).filter(|&n| n != 0)?;
    let end = words.checked_mul(number + 1).filter(|&end| end <= table.len() as u128)?;
    Some(&table[(end - words) as usize..end as usize])
}

// An input whose answer is settled: a description of 8 bits and one channel; of one scene and time point, where no other words are given.
pub struct Settled {
    pub words: [usize; DESCRIPTION_WORDS],
    pub table: Vec<usize>,
    pub file: Vec<u8>,
    pub at: [usize; 4],
    // the rectangle; the whole picture without one
    pub rect: Option<[usize; 4]>,
    // whether the whole-row test says yes and the page is past those that it runs over; otherwise the original answers
    pub past: bool,
    pub wanted: Result<Vec<u8>, [usize; 5]>,
}

// `sizes` are Z, height, width, depth and strips of a channel. The file has so many bytes, from 10 upwards.
fn case(sizes: [usize; 5], table: &[usize], len: u8, z: usize, rect: [usize; 4], wanted: Result<&[u8], &[usize]>) -> Settled {
    let [deep, high, wide, depth, strips] = sizes;
    let mut words = [0; DESCRIPTION_WORDS];
    words[2..10].copy_from_slice(&[1, 1, deep, high, wide, 1, depth, strips]);
    words[17] = 1;
    let row = |short: &[usize]| std::array::from_fn(|i| short.get(i).copied().unwrap_or(0));
    let wanted = wanted.map(|samples| samples.to_vec()).map_err(row);
    Settled { words, table: table.to_vec(), file: (10..10 + len).collect(), at: [0, 0, 0, z], rect: Some(rect), past: true, wanted }
}

impl Settled {
    // With other numbers of scenes, of time points that t is held to, and of the layout's; and asked at another scene and t.
    fn times(mut self, counts: [usize; 3], at: [usize; 2]) -> Settled {
        [self.words[7], self.words[2], self.words[17]] = counts;
        [self.at[0], self.at[1]] = at;
        self
    }

    // The test says no, or the page is one of its own.
    fn not_past(mut self) -> Settled {
        self.past = false;
        self
    }
}

pub fn settled() -> Vec<Settled> {
    let mut list = of_depth();
    list.extend(of_time());
    list
}

fn of_depth() -> Vec<Settled> {
    let most = usize::MAX;
    vec![
        // a strip longer than the picture: the picture is its beginning
        case([2, 1, 2, 1, 1], &[0, 2, 0, 3], 4, 1, [0, 0, 2, 1], Ok(&[10, 11])),
        // a strip outside the file, of an oversized picture
        case([2, 1, 1 << 33, 1, 1], &[0, 1 << 33, 5, 3], 4, 1, [0, 0, 1, 1], Err(&[2])),
        // that strip inside a longer file: the last sample that is there, and the next
        case([2, 1, 1 << 33, 1, 1], &[0, 1 << 33, 5, 3], 8, 1, [2, 0, 1, 1], Ok(&[17])),
        case([2, 1, 1 << 33, 1, 1], &[0, 1 << 33, 5, 3], 8, 1, [3, 0, 1, 1], Err(&[2])),
        // no page is tested; one strip of three passes the file
        case([1, most, 5, 0, 3], &[0, 5, 1, 5, 9, 5], 12, 0, [0, 0, 1, 1], Err(&[2])),
        // all three inside it: the last row that is there, the next, and the last of the picture
        case([1, most, 5, 0, 3], &[0, 5, 1, 5, 7, 5], 12, 0, [1, 2, 3, 1], Ok(&[18, 19, 20])),
        case([1, most, 5, 0, 3], &[0, 5, 1, 5, 7, 5], 12, 0, [0, 3, 1, 1], Err(&[2])),
        case([1, most, 5, 0, 3], &[0, 5, 1, 5, 7, 5], 12, 0, [4, most - 1, 1, 1], Err(&[2])),
        // the smallest with a sample that isn't there
        case([1, 1, 1, 0, 1], &[0, 0], 1, 0, [0, 0, 1, 1], Err(&[2])),
        // a row in two strips
        case([1, 1, 3, 0, 2], &[6, 1, 0, 2], 12, 0, [0, 0, 3, 1], Ok(&[16, 10, 11])),
        // the rectangle's size comes before the page, and the page before the strips
        case([1, most, 5, 0, 1], &[], 1, 0, [0, 0, 5, most], Err(&[4, most, 1 << 32])),
        case([2, 65537, 65536, 0, 1], &[], 1, 1, [0, 0, 65536, 65537], Err(&[4, 4_295_032_832, 1 << 32])),
        case([2, 1, 1, 0, 1], &[9, 1, 9], 1, 1, [0, 0, 1, 1], Err(&[6, 0, 0, 0, 1])),
    ]
}

// A picture of 2^33 columns is oversized: by rows it is read, or a strip of it outside the file is 2; by plane's checks it is 4.
fn of_time() -> Vec<Settled> {
    let wide = 1 << 33;
    let corner = [0, 0, 1, 1];
    let third = [2, 0, 1, 1];
    let oversized: Result<&[u8], &[usize]> = Err(&[4, 1 << 33, 1 << 32]);
    vec![
        // a factor of 0 makes no pages, however many scenes and time points there are: yes over none
        case([1, 1, wide, 0, 1], &[5, 3], 8, 0, third, Ok(&[17])).times([1 << 40; 3], [0, 0]),
        case([2, 1, wide, 0, 1], &[5, 3, 1, 3], 8, 1, third, Ok(&[13])).times([1 << 40; 3], [(1 << 40) - 1; 2]),
        // pages that pass 64 bits: no
        case([1, 1, wide, 1, 1], &[0, wide], 4, 0, corner, oversized).times([1 << 32; 3], [0, 0]).not_past(),
        case([1, 1, wide, 1 << 32, 1], &[0, wide], 4, 0, corner, oversized).times([1, 1 << 32, 1 << 32], [0, 0]).not_past(),
        // a later time point without whole rows sends every rectangle to plane's checks; with them the strips are outside the file
        case([1, 1, wide, 1, 1], &[0, wide, 0, 3], 4, 0, corner, oversized).times([1, 2, 2], [0, 0]).not_past(),
        case([1, 1, wide, 1, 1], &[0, wide, 0, wide], 4, 0, corner, Err(&[2])).times([1, 2, 2], [0, 0]).not_past(),
        case([1, 1, wide, 1, 1], &[0, wide, 0, wide], 4, 0, corner, oversized).times([2, 2, 2], [0, 0]).not_past(),
        // the layout's T below that of the dimensions: a page of its own, the next, and one that isn't in the table
        case([1, 1, wide, 1, 1], &[0, wide, 1, 3], 4, 0, corner, Err(&[2])).times([1, 3, 1], [0, 0]).not_past(),
        case([1, 1, wide, 1, 1], &[0, wide, 1, 3], 4, 0, third, Ok(&[13])).times([1, 3, 1], [0, 1]),
        case([1, 1, wide, 1, 1], &[0, wide, 1, 3], 4, 0, corner, Err(&[6, 0, 2, 0, 0])).times([1, 3, 1], [0, 2]),
        case([1, 1, 2, 1, 1], &[0, 2, 1, 2, 2, 2], 4, 0, [0, 0, 2, 1], Ok(&[12, 13])).times([2, 2, 1], [1, 1]),
        // a T of 0 in the layout: no page is tested, and a scene has no pages of its own
        case([1, 1, wide, 1, 1], &[9, 1, 1, 3], 4, 0, third, Ok(&[13])).times([3, 2, 0], [2, 1]),
        case([2, 1, wide, 2, 1], &[9, 1, 9, 1, 9, 1, 1, 3], 4, 1, third, Ok(&[13])).times([3, 2, 0], [2, 1]),
        // a page number that passes 64 bits; cut to 64 it would be page 0
        case([1, 1, wide, 1 << 32, 1], &[0, 3], 4, 0, corner, Err(&[6, 0, 1 << 32, 0, 0])).times([1, 1 << 33, 0], [0, 1 << 32]),
        case([2, 1, wide, usize::MAX, 1], &[0, 3], 4, 1, corner, Err(&[6, 0, 1, 0, 1])).times([1, 2, 0], [0, 1]),
        // the page 2^64 - 1, and the rectangle's size before the page
        case([1, 1, wide, usize::MAX, 1], &[0, 3], 4, 0, corner, Err(&[6, 0, 1, 0, 0])).times([1, 2, 0], [0, 1]),
        case([1, 65537, 65536, usize::MAX, 1], &[], 4, 0, [0, 0, 65536, 65537], Err(&[4, 4_295_032_832, 1 << 32]))
            .times([1, 2, 0], [0, 1]),
    ]
}
