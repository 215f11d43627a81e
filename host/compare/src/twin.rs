// Twins of files that the original refuses and this reader takes: series, and several channels that are interleaved. The original can't
// judge such a file as it is. It can judge a file of equal length with the same pages and the same strips in the same order, in which a few
// numbers are others. All other checks are the same for both files, and so is every number in them.
//
// - The twin of a series has 1 for the CZ block's T and T x Z for its Z: as many pages, as so many planes. Scenes x (T x Z) pages are scenes
//   x T x Z. Z takes the factor, since a block below 272 bytes has no count of scenes. No file has as many pages as the largest Z. Where the
//   product passes it, it stands for the product, and the page count is wrong either way.
// - The twin of interleaved channels has one channel: 1 for SamplesPerPixel on every full page, and for the CZ block's channels. By then the
//   pages were found to agree, and the two numbers to be equal. All strips of a page are that channel's, as they are every channel's here, and
//   they must only be more than none. Several channels always state SamplesPerPixel, so there is a value to change.
//
// A series of interleaved channels has a twin with both. A file that the host itself refuses (bits.rs, signs.rs) is asked for none: all entries
// come before the CZ block's T and the channels. So it doesn't count whether a number that is changed was negative, or stands in a signed type.
use crate::walk::{number, Walk, SAMPLES};

// Places and bytes of the numbers that are other than the file's, and the twin's.
type Changes = Vec<((usize, usize), u64)>;

// The twin of a file that the original refuses for its T, for its channels, or for both; and the file's own T, Z and channels. T and Z of 0
// count as 1. `None` where a byte that is changed is read as something else on opening too: with it changed, the file isn't the same.
pub fn twin(file: &[u8], w: &Walk, series: bool, interleaved: bool) -> Option<(Vec<u8>, [usize; 3])> {
    let block = w.cz.expect("a CZ block").0;
    let [z_at, channels_at, t_at] = [block + 16, block + 20, block + 24];
    let [t, z, c] = [t_at, z_at, channels_at].map(|at| number(file, at, 4, w.big).expect("a whole CZ block").max(1));
    let mut changes = Changes::new();
    if series {
        changes.extend([((z_at, 4), (t * z).min(i32::MAX as u64)), ((t_at, 4), 1)]);
    }
    if interleaved {
        changes.push(((channels_at, 4), 1));
        changes.extend(w.of_full_pages(file, SAMPLES)?.into_iter().map(|place| (place, 1)));
    }
    let read = w.read(file)?;
    for &(place, _) in &changes {
        // a number that several pages have at one place is changed and read so often
        let changed = changes.iter().filter(|&&(other, _)| other == place).count();
        let touched = read.iter().filter(|&&(at, n)| at < place.0 + place.1 && place.0 < at + n).count();
        if touched != changed {
            return None;
        }
    }
    let mut twin = file.to_vec();
    for ((at, n), number) in changes {
        let bytes = number.to_le_bytes();
        for (i, &b) in bytes[..n].iter().enumerate() {
            twin[if w.big { at + n - 1 - i } else { at + i }] = b;
        }
    }
    Some((twin, [t as usize, z as usize, c as usize]))
}
