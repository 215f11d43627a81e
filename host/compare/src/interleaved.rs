// Pictures of interleaved channels and rectangles of them. The original refuses files that have such channels. As far as it can judge their
// pictures all the same, it is asked (probe.rs). The host reckons each of these calls too, by document 02's words: the two must agree, and
// beyond what the original can be asked the host's answer is wanted.
//
// "All strips then belong to every channel. The sample at row, column, channel stands at ((row × width + column) × channels + channel) ×
// sample size in the joined strips. In turn they must keep within channels × picture size instead of the picture's size, and their total must
// be that, else 2; if that product overflows, it is 4 with 2^64 − 1, right after the picture's size. [..] Rectangles take plane's checks."
use crate::joined::Joined;
use crate::past::{page, page_in, Settled};
use crate::standin::DESCRIPTION_WORDS;
use original::probe::{Opened, Picture, Refused, RESERVE};

const LIMIT: u128 = 1 << 32;
const MOST: usize = usize::MAX;

// All checks but the buffer's, in their order: the strips that the picture is read from, and none for an empty rectangle. `at` is scene, t,
// c, z. No sum or product can overflow: each fits 128 bits, or stops at the largest number.
pub fn checked<'a>(
    words: &[usize; DESCRIPTION_WORDS],
    table: &'a [usize],
    file_len: usize,
    at: [usize; 4],
    rect: Option<[usize; 4]>,
) -> Result<&'a [usize], [usize; 5]> {
    let [scene, t, c, z] = at;
    let outside = [6, scene, t, c, z];
    let decode = [2, 0, 0, 0, 0];
    let (high, wide, sample) = (words[5] as u128, words[6] as u128, [1, 2, 2, 4][words[1]]);
    // scene; t, c, z
    if words[7] <= scene {
        return Err([5, scene, words[7], 0, 0]);
    }
    if words[2] <= t || words[3] <= c || words[4] <= z {
        return Err(outside);
    }
    // rectangle; empty
    if let Some([x, y, w, h]) = rect.map(|rect| rect.map(|n| n as u128)) {
        if wide < x + w || high < y + h {
            return Err(decode);
        }
        if w == 0 || h == 0 {
            return Ok(&[]);
        }
    }
    // the picture's size, not the rectangle's; then that of all channels
    let size = (wide * high).saturating_mul(sample);
    if LIMIT < size {
        return Err([4, size.min(MOST as u128) as usize, 1 << 32, 0, 0]);
    }
    let mut left = size * words[3] as u128;
    if (MOST as u128) < left {
        return Err([4, MOST, 1 << 32, 0, 0]);
    }
    // the page; its strips in turn, within the file and then within what is left; their total
    let strips = page_in(table, words[9] as u128, page(words, scene, t, z)).ok_or(outside)?;
    for s in strips.chunks(2) {
        if (file_len as u128) < s[0] as u128 + s[1] as u128 || left < s[1] as u128 {
            return Err(decode);
        }
        left -= s[1] as u128;
    }
    if left != 0 {
        return Err(decode);
    }
    Ok(strips)
}

// What is wanted of a call.
pub enum Wanted {
    // and whether the original judged it too
    Answer(Result<Picture, Refused>, bool),
    // accepted, with more bytes than are asked for
    Large,
}

// `Err` where the host and the original don't agree.
pub fn wanted(o: &Opened, file: &[u8], at: [usize; 4], rect: Option<[usize; 4]>) -> Result<Wanted, String> {
    let found = checked(&o.words, &o.table, file.len(), at, rect);
    let [x, y, width, height] = rect.unwrap_or([0, 0, o.words[6], o.words[5]]);
    let size = width.saturating_mul(height).saturating_mul([1, 2, 2, 4][o.words[1]]);
    if found.is_ok() && RESERVE < size {
        return Ok(Wanted::Large);
    }
    let reckoned = match found {
        Ok(strips) => {
            let joined = Joined::new(strips);
            Ok(Picture { height, width, bytes: joined.samples(&o.words, file, [x, y, width, height], o.words[3], at[2]) })
        }
        Err(row) => Err(Refused { row, text: "interleaved".to_string() }),
    };
    let original = o.interleaved(at, rect);
    let said = |found: &Result<Picture, Refused>| match found {
        Ok(p) => format!("accepted {} x {}, {:x?}", p.height, p.width, p.bytes),
        Err(r) => format!("{:?}", r.row),
    };
    match &original {
        Some(other) if said(other) != said(&reckoned) => {
            Err(format!("interleaved, {at:?} {rect:?}: the host says {}, the original {}", said(&reckoned), said(other)))
        }
        _ => Ok(Wanted::Answer(reckoned, original.is_some())),
    }
}

// An input of interleaved channels whose answer is settled. `sizes` are kind, channels, height, width and strips of a page; there is one page.
// The file has the bytes 10, 11, 12 and so on.
fn case(
    sizes: [usize; 5],
    table: &[usize],
    len: u8,
    c: usize,
    rect: Option<[usize; 4]>,
    wanted: Result<&[u8], &[usize]>,
) -> Settled {
    let [kind, channels, high, wide, strips] = sizes;
    let mut words = [0; DESCRIPTION_WORDS];
    words[1..10].copy_from_slice(&[kind, 1, channels, 1, high, wide, 1, 1, strips]);
    [words[17], words[18]] = [1, 1];
    let row = |short: &[usize]| std::array::from_fn(|i| short.get(i).copied().unwrap_or(0));
    let wanted = wanted.map(|samples| samples.to_vec()).map_err(row);
    Settled { words, table: table.to_vec(), file: (10..10 + len).collect(), at: [0, 0, c, 0], rect, past: false, wanted }
}

// Big-endian.
fn big(mut case: Settled) -> Settled {
    case.words[0] = 1;
    case
}

// As strips that each have one channel.
fn planar(mut case: Settled) -> Settled {
    case.words[18] = 0;
    case
}

pub fn settled() -> Vec<Settled> {
    let corner = Some([0, 0, 1, 1]);
    let side = 1 << 16;
    let four = side * side;
    let most: Result<&[u8], &[usize]> = Err(&[4, MOST, 1 << 32]);
    vec![
        // three channels of two pixels: each channel's own samples, from strips that end inside a pixel
        case([0, 3, 1, 2, 1], &[0, 6], 8, 0, None, Ok(&[10, 13])),
        case([0, 3, 1, 2, 1], &[1, 6], 8, 2, None, Ok(&[13, 16])),
        case([0, 3, 1, 2, 2], &[3, 5, 0, 1], 8, 1, None, Ok(&[14, 17])),
        case([0, 3, 1, 2, 2], &[3, 5, 0, 1], 8, 2, Some([1, 0, 1, 1]), Ok(&[10])),
        // two channels of two samples of 16 bits, from strips that end inside a sample; a row is two pixels
        case([1, 2, 1, 2, 2], &[5, 3, 0, 5], 8, 0, None, Ok(&[15, 16, 11, 12])),
        case([1, 2, 1, 2, 2], &[5, 3, 0, 5], 8, 1, None, Ok(&[17, 10, 13, 14])),
        big(case([1, 2, 1, 2, 2], &[5, 3, 0, 5], 8, 1, None, Ok(&[10, 17, 14, 13]))),
        case([0, 2, 2, 2, 1], &[0, 8], 8, 1, Some([0, 1, 2, 1]), Ok(&[15, 17])),
        // the total is that of all channels: a byte too few, one too many, and one channel's alone
        case([0, 2, 1, 2, 1], &[0, 3], 8, 0, None, Err(&[2])),
        case([0, 2, 1, 2, 1], &[0, 5], 8, 0, corner, Err(&[2])),
        case([0, 2, 1, 2, 1], &[0, 2], 8, 0, corner, Err(&[2])),
        // a rectangle takes plane's checks: a strip outside the file that it doesn't touch
        case([0, 2, 1, 2, 2], &[0, 2, 7, 2], 8, 0, corner, Err(&[2])),
        // an empty rectangle is held to the picture alone
        case([0, 2, 1, 2, 2], &[0, 2, 7, 2], 8, 0, Some([2, 1, 0, 0]), Ok(&[])),
        case([0, 2, 1, 2, 2], &[0, 2, 7, 2], 8, 0, Some([3, 0, 0, 0]), Err(&[2])),
        // a page takes the strips that the description says, however many channels there are
        case([0, 4, 1, 1, 1], &[0, 4], 4, 3, None, Ok(&[13])),
        planar(case([0, 4, 1, 1, 1], &[0, 4], 4, 3, None, Err(&[6, 0, 0, 3, 0]))),
        // no strips, no table, no channel
        case([0, 2, 1, 1, 0], &[0, 2], 4, 0, None, Err(&[6, 0, 0, 0, 0])),
        case([0, 2, 1, 1, 1], &[0], 4, 0, corner, Err(&[6, 0, 0, 0, 0])),
        case([0, 0, 1, 1, 1], &[0, 1], 4, 0, None, Err(&[6, 0, 0, 0, 0])),
        case([0, 0, 1, 1, 1], &[0, 1], 4, 0, Some([0, 0, 0, 0]), Err(&[6, 0, 0, 0, 0])),
        // one channel: the flag decides. Whole rows of an oversized picture give no rectangle, and its one sample of a pixel is its own
        case([0, 1, 1, 2, 1], &[1, 2], 4, 0, None, Ok(&[11, 12])),
        case([0, 1, 1, 1 << 33, 1], &[0, 1 << 33], 4, 0, corner, Err(&[4, 1 << 33, 1 << 32])),
        planar(case([0, 1, 1, 1 << 33, 1], &[0, 1 << 33], 4, 0, corner, Err(&[2]))),
        // an oversized picture of several channels: past it, empty inside it, inside it
        case([0, 2, 1, 1 << 33, 1], &[0, 1 << 34], 4, 0, Some([1 << 33, 0, 1, 1]), Err(&[2])),
        case([0, 2, 1, 1 << 33, 1], &[0, 1 << 34], 4, 0, Some([1 << 33, 0, 0, 1]), Ok(&[])),
        case([0, 2, 1, 1 << 33, 1], &[0, 1 << 34], 4, 0, corner, Err(&[4, 1 << 33, 1 << 32])),
        // the limit is on the picture, not on the product
        case([0, 2, side, side, 1], &[0, 2 * four], 4, 0, None, Err(&[2])),
        case([0, 2, side, side, 1], &[0, 2 * four], 4, 1, corner, Err(&[2])),
        case([0, 2, side, side, 1], &[], 4, 0, None, Err(&[6, 0, 0, 0, 0])),
        // the product passes 64 bits: after the picture's size, before the page. The largest that doesn't
        case([0, four, side, side, 1], &[], 4, 0, None, most),
        case([0, four, side, side, 1], &[], 4, four - 1, corner, most),
        case([0, four - 1, side, side, 1], &[], 4, 0, None, Err(&[6, 0, 0, 0, 0])),
        case([0, four, side + 1, side, 1], &[], 4, 0, None, Err(&[4, four + side, 1 << 32])),
        case([0, four, side, side, 1], &[], 4, 0, Some([side, 0, 1, 1]), Err(&[2])),
        planar(case([0, four, side, side, 1], &[], 4, 0, None, Err(&[6, 0, 0, 0, 0]))),
        case([0, MOST, 1, 1, 1], &[], 4, 0, None, Err(&[6, 0, 0, 0, 0])),
        case([1, 1 << 63, 1, 1, 1], &[], 4, 0, None, most),
        // a picture without rows has no bytes, however many channels there are
        case([0, MOST, 0, 1 << 40, 2], &[4, 0, 0, 0], 4, MOST - 1, None, Ok(&[])),
        case([0, MOST, 0, 1 << 40, 2], &[4, 0, 0, 1], 4, 0, None, Err(&[2])),
    ]
}
