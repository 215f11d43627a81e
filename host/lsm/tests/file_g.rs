// The small file G and what is near it. These tests link the library, and are left out where LSM_STATIC_DIR isn't set.
#![cfg(lsm_static)]
use lsm::{Description, Kind, Order, Refusal};

fn put16(f: &mut [u8], at: usize, n: u16) {
    f[at..at + 2].copy_from_slice(&n.to_le_bytes());
}

fn put32(f: &mut [u8], at: usize, n: u32) {
    f[at..at + 4].copy_from_slice(&n.to_le_bytes());
}

// Little-endian, 118 bytes. Directory at 8, six entries: width 2, height 1, bits 8, strip offset 116, strip byte count 2, CZ entry
// type 1 count 28 offset 88. CZ at 88. Bytes 116 and 117 are 7 and 9.
fn g() -> Vec<u8> {
    let mut f = vec![0; 118];
    f[..2].copy_from_slice(b"II");
    put16(&mut f, 2, 42);
    put32(&mut f, 4, 8);
    put16(&mut f, 8, 6);
    for (i, (tag, value)) in [(256, 2), (257, 1), (258, 8), (273, 116), (279, 2)].into_iter().enumerate() {
        let at = 10 + 12 * i;
        put16(&mut f, at, tag);
        put16(&mut f, at + 2, 3);
        put32(&mut f, at + 4, 1);
        put16(&mut f, at + 8, value);
    }
    put16(&mut f, 70, 34412);
    put16(&mut f, 72, 1);
    put32(&mut f, 74, 28);
    put32(&mut f, 78, 88);
    for (i, n) in [0x0400_494c, 28, 2, 1, 1, 1, 1].into_iter().enumerate() {
        put32(&mut f, 88 + 4 * i, n);
    }
    f[116] = 7;
    f[117] = 9;
    f
}

const STRUCTURE_SIZE: usize = 92;
const DEPTH: usize = 104;
const TIMES: usize = 112;
const DECLARED: usize = 74;
const STRIP_BYTES: usize = 10 + 12 * 4 + 8;

fn edited(at: usize, n: u32) -> Vec<u8> {
    let mut f = g();
    put32(&mut f, at, n);
    f
}

fn number(file: &[u8]) -> usize {
    let mut table = [0; 64];
    lsm::open(file, &mut table).map_or_else(|r| r.number(), |_| 0)
}

#[test]
fn g_opens() {
    let mut table = [77; 5];
    let opened = lsm::open(&g(), &mut table).unwrap();
    assert_eq!((opened.visited, opened.words), (1, 2));
    assert_eq!(table, [116, 2, 77, 77, 77]);
    let d = Description {
        order: Order::Little,
        kind: Kind::U8,
        t: 1,
        c: 1,
        z: 1,
        y: 1,
        x: 2,
        scenes: 1,
        pages_per_time_point: 1,
        strips_per_channel: 1,
        pixel_size: None,
        channel_block: None,
        time_points: 1,
        interleaved: false,
    };
    assert_eq!(opened.description, d);
}

#[test]
fn the_marked_cases_of_opening() {
    assert_eq!(number(&edited(STRUCTURE_SIZE, 0)), 0);
    assert_eq!(number(&edited(STRUCTURE_SIZE, 27)), 2);
    assert_eq!(number(&edited(DECLARED, 27)), 2);
    assert_eq!(number(&edited(DEPTH, 0)), 0);
    assert_eq!(number(&edited(TIMES, 0)), 0);
    assert_eq!(number(&edited(TIMES, 2)), 2);
    assert_eq!(number(&edited(STRIP_BYTES, 3)), 0);
}

// G as a series of two time points: a second directory at its end, as the first but for the CZ entry, with a strip of its own behind it.
fn series() -> Vec<u8> {
    let mut f = edited(TIMES, 2);
    let second = f.len();
    put32(&mut f, 82, second as u32);
    let directory = [&[5, 0], &f[10..70], &[0; 4]].concat();
    f.extend(directory);
    let strip = f.len();
    put16(&mut f, second + 2 + 12 * 3 + 8, strip as u16);
    f.extend([4, 5]);
    f
}

#[test]
fn a_series_opens() {
    let file = series();
    let mut table = [0; 4];
    let opened = lsm::open(&file, &mut table).unwrap();
    assert_eq!((opened.visited, opened.words), (2, 4));
    assert_eq!(table, [116, 2, 184, 2]);
    let d = opened.description;
    assert_eq!((d.t, d.time_points, d.z, d.scenes, d.pages_per_time_point), (2, 2, 1, 1, 1));
    assert_eq!(lsm::open(&file, &mut []), Err(Refusal::TooShort { needed: 4 }));
}

// G with three channels of 2 x 2, interleaved: its directory moved to the end with SamplesPerPixel as one more entry, and no
// PlanarConfiguration. The sample at pixel p of channel c is 16 x p + c. The first strip ends inside pixel 1, and stands behind the second.
fn interleaved() -> Vec<u8> {
    let mut f = g();
    let directory = f.len();
    let entries = f[10..82].to_vec();
    f.extend([7, 0]);
    f.extend(entries);
    f.extend([0; 16]);
    put32(&mut f, 4, directory as u32);
    let entry = |i: usize| directory + 2 + 12 * i;
    put16(&mut f, entry(1) + 8, 2);
    put16(&mut f, entry(6), 277);
    put16(&mut f, entry(6) + 2, 3);
    put32(&mut f, entry(6) + 4, 1);
    put16(&mut f, entry(6) + 8, 3);
    put32(&mut f, 88 + 12, 2);
    put32(&mut f, 88 + 20, 3);
    let samples: Vec<u8> = (0..4).flat_map(|p| [16 * p, 16 * p + 1, 16 * p + 2]).collect();
    let second = f.len();
    f.extend(&samples[5..]);
    f.extend(&samples[..5]);
    for (i, numbers) in [(3, [second + 7, second]), (4, [5, 7])] {
        put32(&mut f, entry(i) + 4, 2);
        put16(&mut f, entry(i) + 8, numbers[0] as u16);
        put16(&mut f, entry(i) + 10, numbers[1] as u16);
    }
    f
}

#[test]
fn interleaved_channels_open() {
    let file = interleaved();
    let mut table = [77; 5];
    let opened = lsm::open(&file, &mut table).unwrap();
    assert_eq!((opened.visited, opened.words), (1, 4));
    let strips = file.len() - 12;
    assert_eq!(table, [strips + 7, 5, strips, 7, 77]);
    let d = opened.description;
    assert_eq!((d.interleaved, d.c, d.y, d.x, d.strips_per_channel), (true, 3, 2, 2, 2));
    let mut name = [77; 8];
    for c in 0..3 {
        assert_eq!(lsm::channel(&file, &d, c, &mut name).map(|found| found.name), Ok(None));
    }
    assert_eq!(lsm::channel(&file, &d, 3, &mut name), Err(Refusal::OutOfRange { scene: 0, t: 0, c: 3, z: 0 }));
}

const BITS: usize = 10 + 12 * 2;

// G with so many BitsPerSample values, two of which it has room for.
fn with_bits(count: u32, second: u16) -> Vec<u8> {
    let mut f = g();
    put32(&mut f, BITS + 4, count);
    put16(&mut f, BITS + 10, second);
    f
}

// One channel states one value. More are refused, equal or not, and so is any number of values past the file.
#[test]
fn bits_of_one_channel() {
    assert_eq!(number(&with_bits(1, 9)), 0);
    assert_eq!(number(&with_bits(0, 8)), 2);
    for file in [with_bits(2, 8), with_bits(2, 9)] {
        let mut table = [77; 4];
        assert_eq!(lsm::open(&file, &mut table), Err(Refusal::UnevenBits));
        assert_eq!(table, [77; 4]);
        assert_eq!(lsm::open(&file, &mut []), Err(Refusal::UnevenBits));
    }
    // every word behind the number is 0
    let mut answer = [77; lsm::c::OPEN_WORDS];
    assert_eq!(lsm::c::open(&with_bits(2, 8), &mut [77; 4], &mut answer), 8);
    assert_eq!((answer[0], answer[1..].iter().all(|&word| word == 0)), (8, true));
}

// Where BitsPerSample stands in the directory that `interleaved` moves to G's end.
const MOVED_BITS: usize = 118 + 2 + 12 * 2;

// Three channels with these BitsPerSample values at the file's end, of which so many bytes are missing.
fn three_bits(values: [u16; 3], missing: usize) -> Vec<u8> {
    let mut f = interleaved();
    let place = f.len();
    put32(&mut f, MOVED_BITS + 4, 3);
    put32(&mut f, MOVED_BITS + 8, place as u32);
    f.extend(values.iter().flat_map(|n| n.to_le_bytes()));
    f.truncate(place + 6 - missing);
    f
}

// Further values are read in turn, and each is compared before the next.
#[test]
fn bits_of_three_channels() {
    let said = |values, missing| {
        let mut table = [77; 4];
        let opened = lsm::open(&three_bits(values, missing), &mut table);
        assert!(opened.is_ok() || table == [77; 4]);
        opened.map(|o| (o.description.kind, o.description.c))
    };
    assert_eq!(said([8, 8, 8], 0), Ok((Kind::U8, 3)));
    assert_eq!(said([16, 16, 16], 0), Ok((Kind::U16, 3)));
    assert_eq!(said([8, 8, 16], 0), Err(Refusal::UnevenBits));
    assert_eq!(said([8, 16, 8], 0), Err(Refusal::UnevenBits));
    assert_eq!(said([16, 8, 8], 0), Err(Refusal::UnevenBits));
    for missing in 1..6 {
        assert_eq!(said([8, 8, 8], missing), Err(Refusal::Parse));
    }
    for missing in 1..3 {
        assert_eq!(said([8, 16, 8], missing), Err(Refusal::UnevenBits));
    }
    // two values for three channels, though they are equal and in the file
    let mut two = interleaved();
    put32(&mut two, MOVED_BITS + 4, 2);
    put16(&mut two, MOVED_BITS + 10, 8);
    assert_eq!(number(&two), 8);
}

const WIDTH: usize = 10;
const STRIP: usize = 10 + 12 * 3;
const BYTE_COUNT: usize = 10 + 12 * 4;
const CZ: usize = 10 + 12 * 5;

// G with an entry of this type, count and field.
fn typed(entry: usize, ty: u16, count: u32, field: u32) -> Vec<u8> {
    let mut f = g();
    put16(&mut f, entry + 2, ty);
    put32(&mut f, entry + 4, count);
    put32(&mut f, entry + 8, field);
    f
}

const SBYTE: u16 = 6;
const SSHORT: u16 = 8;
const SLONG: u16 = 9;
const FLOAT: u16 = 11;

// "A museum's converter writes strip offsets as SLONG, and one file held -1."
#[test]
fn a_negative_value() {
    for file in [typed(STRIP, SLONG, 1, 0xffff_ffff), typed(WIDTH, SLONG, 1, 0xffff_ffff)] {
        let mut table = [77; 4];
        assert_eq!(lsm::open(&file, &mut table), Err(Refusal::NegativeValue));
        assert_eq!(table, [77; 4]);
        assert_eq!(lsm::open(&file, &mut []), Err(Refusal::NegativeValue));
    }
    // every word behind the number is 0
    let mut answer = [77; lsm::c::OPEN_WORDS];
    assert_eq!(lsm::c::open(&typed(STRIP, SLONG, 1, 0xffff_ffff), &mut [77; 4], &mut answer), 9);
    assert_eq!((answer[0], answer[1..].iter().all(|&word| word == 0)), (9, true));
}

// The sign is the top bit of the type's own width, and other types have none.
#[test]
fn types_with_a_sign() {
    for (ty, value) in [(SBYTE, 2), (SSHORT, 2), (SLONG, 2), (FLOAT, 2)] {
        assert_eq!(number(&typed(WIDTH, ty, 1, value)), 0);
        assert_eq!(number(&typed(BYTE_COUNT, ty, 1, value)), 0);
    }
    for (ty, top) in [(SBYTE, 0x80), (SSHORT, 0x8000), (SLONG, 1 << 31)] {
        assert_eq!(number(&typed(BYTE_COUNT, ty, 1, top)), 9);
        assert_eq!(number(&typed(BYTE_COUNT, ty, 1, top - 1)), 0);
        // the same bytes in the unsigned type of that width; of a width they are 2 by the CZ block's X
        let unsigned = match ty {
            SBYTE => 1,
            SSHORT => 3,
            _ => 4,
        };
        assert_eq!(number(&typed(BYTE_COUNT, unsigned, 1, top)), 0);
        assert_eq!(number(&typed(WIDTH, ty, 1, top - 1)), 2);
        assert_eq!(number(&typed(WIDTH, ty, 1, top | 2)), 9);
    }
    assert_eq!(number(&typed(BYTE_COUNT, SSHORT, 1, 255)), 0);
    assert_eq!(number(&typed(BYTE_COUNT, SBYTE, 1, 255)), 9);
    assert_eq!(number(&typed(BYTE_COUNT, FLOAT, 1, 0xffff_ffff)), 0);
    assert_eq!(number(&typed(WIDTH, FLOAT, 1, 1 << 31 | 2)), 2);
    // the CZ entry's field is a place, whatever its type
    assert_eq!(number(&typed(CZ, SLONG, 7, 88)), 0);
    assert_eq!(number(&typed(CZ, SLONG, 7, 0xffff_fff0)), 2);
}

// Only what is read counts: of a scalar the first value, of an array each in turn.
#[test]
fn values_that_are_read() {
    let two = |first: u32, second: u32| second << 16 | first;
    assert_eq!(number(&typed(WIDTH, SSHORT, 2, two(2, 0xffff))), 0);
    assert_eq!(number(&typed(WIDTH, SSHORT, 2, two(0xffff, 2))), 9);
    assert_eq!(number(&typed(WIDTH, SSHORT, 0, 0xffff)), 2);
    // before the test above 65,535, and before the strip arrays' lengths are compared
    assert_eq!(number(&typed(BITS, SLONG, 1, 0xffff_ffff)), 9);
    assert_eq!(number(&typed(BITS, SLONG, 1, 0x1_0000)), 2);
    assert_eq!(number(&typed(STRIP, SSHORT, 2, two(116, 0xffff))), 9);
    assert_eq!(number(&typed(STRIP, SSHORT, 2, two(116, 116))), 2);
    // places 116, -1 and 116 at the file's end, cut there
    let cut = |values: [u32; 3], missing: usize| {
        let mut f = typed(STRIP, SLONG, 3, 118);
        f.extend(values.iter().flat_map(|n| n.to_le_bytes()));
        f.truncate(118 + 12 - missing);
        number(&f)
    };
    assert_eq!(cut([116, 0xffff_ffff, 116], 1), 9);
    assert_eq!(cut([116, 0xffff_ffff, 116], 4), 9);
    assert_eq!(cut([116, 0xffff_ffff, 116], 5), 1);
    assert_eq!(cut([116, 116, 0xffff_ffff], 1), 1);
}

// A further value of the bits is negative before it is uneven; of a wrong count none is read.
#[test]
fn negative_bits() {
    assert_eq!(number(&typed(BITS, SBYTE, 2, 0xf8 << 8 | 8)), 8);
    assert_eq!(number(&typed(BITS, SBYTE, 2, 8 << 8 | 0xf8)), 9);
    let three = |values: [u8; 3]| {
        let mut f = interleaved();
        put16(&mut f, MOVED_BITS + 2, SBYTE);
        put32(&mut f, MOVED_BITS + 4, 3);
        f[MOVED_BITS + 8..MOVED_BITS + 11].copy_from_slice(&values);
        number(&f)
    };
    assert_eq!(three([8, 8, 8]), 0);
    assert_eq!(three([8, 0xf8, 8]), 9);
    assert_eq!(three([8, 8, 0xf8]), 9);
    assert_eq!(three([8, 16, 0xf8]), 8);
}

// The library looks at the flag before anything else.
#[test]
fn a_flag_above_1_is_no_description() {
    let file = interleaved();
    let mut answer = [0; lsm::c::OPEN_WORDS];
    assert_eq!(lsm::c::open(&file, &mut [0; 4], &mut answer), 0);
    let mut words = [0; lsm::c::DESCRIPTION_WORDS];
    words.copy_from_slice(&answer[3..]);
    words[18] = 2;
    let mut said = [77; lsm::c::CHANNEL_WORDS];
    assert_eq!(lsm::c::channel(&file, &words, 9, &mut [], &mut said), 2);
    assert_eq!(said, [2, 0, 0, 0, 0, 0, 0, 0]);
    let mut said = [77; lsm::c::PICTURE_WORDS];
    assert_eq!(lsm::c::plane(&file, &words, &[], [9; 4], &mut [], &mut said), 2);
    assert_eq!(said, [2, 0, 0, 0, 0]);
    assert_eq!(lsm::c::region(&file, &words, &[], [9; 4], [0; 4], &mut [], &mut said), 2);
    assert_eq!(said, [2, 0, 0, 0, 0]);
}

#[test]
fn refusals_leave_the_table() {
    for (file, refusal) in [
        (Vec::new(), Refusal::Parse),
        (g()[..7].to_vec(), Refusal::Parse),
        (edited(0, 0x002b_4949), Refusal::Parse),
        (edited(STRUCTURE_SIZE, 27), Refusal::Decode),
        (edited(TIMES, 2), Refusal::Decode),
        (edited(TIMES, u32::MAX), Refusal::Unsupported),
    ] {
        let mut table = [77; 4];
        assert_eq!(lsm::open(&file, &mut table), Err(refusal));
        assert_eq!(table, [77; 4]);
    }
    for room in 0..2 {
        let mut table = vec![77; room];
        assert_eq!(lsm::open(&g(), &mut table), Err(Refusal::TooShort { needed: 2 }));
        assert_eq!(table, vec![77; room]);
    }
}

#[test]
fn channels_of_g() {
    let mut table = [0; 2];
    let opened = lsm::open(&g(), &mut table).unwrap();
    let mut name = [77; 8];
    let found = lsm::channel(&g(), &opened.description, 0, &mut name).unwrap();
    assert_eq!((found.colour, found.name), (None, None));
    let r = Refusal::OutOfRange { scene: 0, t: 0, c: 1, z: 0 };
    assert_eq!(lsm::channel(&g(), &opened.description, 1, &mut name), Err(r));
    assert_eq!(name, [77; 8]);
}

// G with a CZ block of 112 bytes at its end that points at a channel block with a colour and the name `A` and a zero byte.
fn named() -> Vec<u8> {
    let mut f = g();
    f.resize(118 + 112 + 30, 0);
    put32(&mut f, DECLARED, 112);
    put32(&mut f, 78, 118);
    for (i, n) in [0x0400_494c, 112, 2, 1, 1, 1, 1].into_iter().enumerate() {
        put32(&mut f, 118 + 4 * i, n);
    }
    let block = 118 + 112;
    put32(&mut f, 118 + 108, block as u32);
    put32(&mut f, block + 12, 20);
    put32(&mut f, block + 16, 24);
    f[block + 20..block + 24].copy_from_slice(&[1, 2, 3, 0]);
    put32(&mut f, block + 24, 2);
    f[block + 28] = b'A';
    f
}

#[test]
fn a_name_and_a_colour() {
    let file = named();
    let mut table = [0; 2];
    let d = lsm::open(&file, &mut table).unwrap().description;
    assert_eq!(d.channel_block, Some(230));
    let mut name = [77; 3];
    let found = lsm::channel(&file, &d, 0, &mut name).unwrap();
    assert_eq!((found.colour, found.name), (Some([1, 2, 3]), Some(1)));
    assert_eq!(name, [b'A', 77, 77]);
    assert_eq!(lsm::channel(&file, &d, 0, &mut []), Err(Refusal::TooShort { needed: 1 }));
}

#[cfg(not(lsm_lacks_pictures))]
mod pictures {
    use super::*;
    use lsm::{Picture, Rect};

    #[test]
    fn samples_of_g() {
        let file = g();
        let mut table = [0; 2];
        let d = lsm::open(&file, &mut table).unwrap().description;
        let mut out = [77; 3];
        assert_eq!(lsm::plane(&file, &d, &table, 0, 0, 0, 0, &mut out), Ok(Picture { height: 1, width: 2, bytes: 2 }));
        assert_eq!(out, [7, 9, 77]);
        let mut out = [77; 2];
        let one = Rect { x: 1, y: 0, w: 1, h: 1 };
        let part = Picture { height: 1, width: 1, bytes: 1 };
        assert_eq!(lsm::region(&file, &d, &table, 0, 0, 0, 0, one, &mut out), Ok(part));
        assert_eq!(out, [9, 77]);
    }

    #[test]
    fn samples_of_each_time_point() {
        let file = series();
        let mut table = [0; 4];
        let d = lsm::open(&file, &mut table).unwrap().description;
        let whole = Picture { height: 1, width: 2, bytes: 2 };
        for (t, samples) in [(0, [7, 9]), (1, [4, 5])] {
            let mut out = [77; 3];
            assert_eq!(lsm::plane(&file, &d, &table, 0, t, 0, 0, &mut out), Ok(whole));
            assert_eq!(out, [samples[0], samples[1], 77]);
            let mut out = [77; 2];
            let last = Rect { x: 1, y: 0, w: 1, h: 1 };
            assert!(lsm::region(&file, &d, &table, 0, t, 0, 0, last, &mut out).is_ok());
            assert_eq!(out, [samples[1], 77]);
        }
        let mut out = [77; 2];
        let refusal = Refusal::OutOfRange { scene: 0, t: 2, c: 0, z: 0 };
        assert_eq!(lsm::plane(&file, &d, &table, 0, 2, 0, 0, &mut out), Err(refusal));
        assert_eq!(out, [77; 2]);
    }

    #[test]
    fn samples_of_each_interleaved_channel() {
        let file = interleaved();
        let mut table = [0; 4];
        let d = lsm::open(&file, &mut table).unwrap().description;
        for c in 0..3 {
            let sample = |pixel: u8| 16 * pixel + c as u8;
            let mut out = [77; 5];
            assert_eq!(lsm::plane(&file, &d, &table, 0, 0, c, 0, &mut out), Ok(Picture { height: 2, width: 2, bytes: 4 }));
            assert_eq!(out, [sample(0), sample(1), sample(2), sample(3), 77]);
            // the right column, and each pixel alone
            let mut out = [77; 3];
            let right = Rect { x: 1, y: 0, w: 1, h: 2 };
            let shape = Picture { height: 2, width: 1, bytes: 2 };
            assert_eq!(lsm::region(&file, &d, &table, 0, 0, c, 0, right, &mut out), Ok(shape));
            assert_eq!(out, [sample(1), sample(3), 77]);
            for pixel in 0..4 {
                let mut out = [77; 1];
                let one = Rect { x: pixel % 2, y: pixel / 2, w: 1, h: 1 };
                assert!(lsm::region(&file, &d, &table, 0, 0, c, 0, one, &mut out).is_ok());
                assert_eq!(out, [sample(pixel as u8)]);
            }
        }
    }

    #[test]
    fn interleaved_channels_refused() {
        let file = interleaved();
        let mut table = [0; 4];
        let d = lsm::open(&file, &mut table).unwrap().description;
        let corner = Rect { x: 0, y: 0, w: 1, h: 1 };
        let empty = Rect { x: 2, y: 0, w: 0, h: 2 };
        let mut out = [77; 4];
        let missing = Refusal::OutOfRange { scene: 0, t: 0, c: 3, z: 0 };
        assert_eq!(lsm::plane(&file, &d, &table, 0, 0, 3, 0, &mut out), Err(missing));
        assert_eq!(lsm::region(&file, &d, &table, 0, 0, 3, 0, corner, &mut out), Err(missing));
        assert_eq!(lsm::plane(&file, &d, &table, 0, 0, 2, 0, &mut out[..3]), Err(Refusal::TooShort { needed: 4 }));
        // A byte too few or too many: a rectangle is held to the whole page's strips, and an empty one to none.
        for total in [6, 8] {
            let mut other = table;
            other[3] = total;
            assert_eq!(lsm::plane(&file, &d, &other, 0, 0, 0, 0, &mut out), Err(Refusal::Decode));
            assert_eq!(lsm::region(&file, &d, &other, 0, 0, 0, 0, corner, &mut out), Err(Refusal::Decode));
            let nothing = Picture { height: 2, width: 0, bytes: 0 };
            assert_eq!(lsm::region(&file, &d, &other, 0, 0, 0, 0, empty, &mut out), Ok(nothing));
        }
        assert_eq!(out, [77; 4]);
        // A picture above the limit gives no rectangle, whatever rows the strips hold. Of strips that are channel 0's alone, a row of 1 byte
        // would be had here, and the strip outside the file be refused.
        let large = Description { y: (1 << 32) + 1, x: 1, ..d };
        let limit = Refusal::OversizedAllocation { requested: (1 << 32) + 1, cap: 1 << 32 };
        assert_eq!(lsm::region(&file, &large, &[0, 1, 0, 1 << 32], 0, 0, 0, 0, corner, &mut out), Err(limit));
        let planar = Description { c: 1, interleaved: false, ..large };
        assert_eq!(lsm::region(&file, &planar, &[0, 1, 0, 1 << 32], 0, 0, 0, 0, corner, &mut out), Err(Refusal::Decode));
        // So many channels that their pictures together pass 64 bits.
        let wide = Description { c: 1 << 62, ..d };
        let product = Refusal::OversizedAllocation { requested: usize::MAX, cap: 1 << 32 };
        assert_eq!(lsm::plane(&file, &wide, &[], 0, 0, 0, 0, &mut out), Err(product));
        assert_eq!(out, [77; 4]);
    }

    #[test]
    fn refused_samples_leave_the_buffer() {
        let empty = Rect { x: 2, y: 1, w: 0, h: 0 };
        for bytes in [1, 3] {
            let file = edited(STRIP_BYTES, bytes);
            let mut table = [0; 2];
            let d = lsm::open(&file, &mut table).unwrap().description;
            let mut out = [77; 4];
            assert_eq!(lsm::plane(&file, &d, &table, 0, 0, 0, 0, &mut out), Err(Refusal::Decode));
            let nothing = Picture { height: 0, width: 0, bytes: 0 };
            assert_eq!(lsm::region(&file, &d, &table, 0, 0, 0, 0, empty, &mut out), Ok(nothing));
            assert_eq!(out, [77; 4]);
        }
        let file = g();
        let mut table = [0; 2];
        let d = lsm::open(&file, &mut table).unwrap().description;
        let mut out = [77; 1];
        let call = |scene, t, out: &mut [u8]| lsm::plane(&file, &d, &table, scene, t, 0, 0, out);
        assert_eq!(call(1, 0, &mut out), Err(Refusal::SceneOutOfRange { scene: 1, count: 1 }));
        assert_eq!(call(0, 1, &mut out), Err(Refusal::OutOfRange { scene: 0, t: 1, c: 0, z: 0 }));
        assert_eq!(call(0, 0, &mut out), Err(Refusal::TooShort { needed: 2 }));
        assert_eq!(out, [77]);
    }
}
