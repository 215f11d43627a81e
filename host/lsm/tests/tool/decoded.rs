//! Small readers of what the tool writes. Each takes a file apart to the last byte and gives width, height and samples, row by row and
//! little-endian; anything else than it expects is a panic.

pub type Grey = (usize, usize, Vec<u8>);

/// By the ending of the file's name. A `.raw` has no width and height: those that are wanted are given back.
pub fn decoded(ending: &str, file: &[u8], size: usize, wanted: (usize, usize)) -> Grey {
    match ending {
        "raw" => (wanted.0, wanted.1, file.to_vec()),
        "npy" => npy(file, size),
        "pgm" => pgm(file, size),
        "png" => png(file, size),
        "pfm" => pfm(file),
        _ => panic!("{ending}"),
    }
}

// Words of a header, each with one white space behind it, and the rest.
fn words<const N: usize>(file: &[u8]) -> ([String; N], &[u8]) {
    let mut rest = file;
    let words = std::array::from_fn(|_| {
        let end = rest.iter().position(|b| b.is_ascii_whitespace()).expect("a word");
        let word = String::from_utf8(rest[..end].to_vec()).expect("ASCII");
        rest = &rest[end + 1..];
        word
    });
    (words, rest)
}

fn swapped(samples: &[u8], size: usize) -> Vec<u8> {
    samples.chunks_exact(size).flat_map(|s| s.iter().rev().copied()).collect()
}

fn pgm(file: &[u8], size: usize) -> Grey {
    let ([magic, width, height, most], samples) = words::<4>(file);
    assert_eq!((magic.as_str(), most.as_str()), ("P5", if size == 1 { "255" } else { "65535" }));
    (width.parse().unwrap(), height.parse().unwrap(), swapped(samples, size))
}

fn pfm(file: &[u8]) -> Grey {
    let ([magic, width, height, scale], samples) = words::<4>(file);
    assert_eq!((magic.as_str(), scale.as_str()), ("Pf", "-1.0"));
    let width: usize = width.parse().unwrap();
    (width, height.parse().unwrap(), samples.chunks(4 * width).rev().flatten().copied().collect())
}

fn npy(file: &[u8], size: usize) -> Grey {
    assert_eq!(&file[..8], b"\x93NUMPY\x01\x00");
    let begin = 10 + u16::from_le_bytes([file[8], file[9]]) as usize;
    assert_eq!((begin % 64, file[begin - 1]), (0, b'\n'));
    let text = std::str::from_utf8(&file[10..begin]).unwrap().trim_end();
    let text = text.strip_prefix("{'descr': '").unwrap().strip_suffix("), }").unwrap();
    let (kind, shape) = text.split_once("', 'fortran_order': False, 'shape': (").unwrap();
    assert!(["|u1", "<u2", "<i2", "<f4"].contains(&kind) && kind.ends_with(&size.to_string()), "{kind}");
    let (height, width) = shape.split_once(", ").unwrap();
    (width.parse().unwrap(), height.parse().unwrap(), file[begin..].to_vec())
}

fn png(file: &[u8], size: usize) -> Grey {
    let chunks = chunks(file.strip_prefix(b"\x89PNG\r\n\x1a\n").unwrap());
    let (first, last) = (&chunks[0], &chunks[chunks.len() - 1]);
    assert_eq!((first.0, last.0, last.1.len()), (*b"IHDR", *b"IEND", 0));
    let number = |at: usize| u32::from_be_bytes(first.1[at..at + 4].try_into().unwrap()) as usize;
    let (width, height) = (number(0), number(4));
    assert_eq!(first.1[8..], [8 * size as u8, 0, 0, 0, 0]);
    let middle = &chunks[1..chunks.len() - 1];
    assert!(middle.iter().all(|c| c.0 == *b"IDAT"));
    let stream: Vec<u8> = middle.iter().flat_map(|c| c.1).copied().collect();
    let rows = stored(&stream);
    assert_eq!(rows.len(), height * (1 + width * size));
    let unfiltered = rows.chunks(1 + width * size).flat_map(|row| {
        assert_eq!(row[0], 0);
        swapped(&row[1..], size)
    });
    (width, height, unfiltered.collect())
}

type Chunk<'a> = ([u8; 4], &'a [u8]);

fn chunks(mut file: &[u8]) -> Vec<Chunk<'_>> {
    let mut out = Vec::new();
    while !file.is_empty() {
        let n = u32::from_be_bytes(file[..4].try_into().unwrap()) as usize;
        let sum = u32::from_be_bytes(file[8 + n..12 + n].try_into().unwrap());
        assert_eq!(sum, crc(&file[4..8 + n]));
        out.push((file[4..8].try_into().unwrap(), &file[8..8 + n]));
        file = &file[12 + n..];
    }
    out
}

// The sum as PNG's appendix has it, a bit at a time.
fn crc(bytes: &[u8]) -> u32 {
    let bit = |sum: u32| if sum & 1 == 1 { 0xedb8_8320 ^ (sum >> 1) } else { sum >> 1 };
    !bytes.iter().fold(!0, |sum, &b| (0..8).fold(sum ^ u32::from(b), |sum, _| bit(sum)))
}

// The bytes of a zlib stream of stored blocks.
fn stored(stream: &[u8]) -> Vec<u8> {
    assert_eq!((stream[0] & 15, (u32::from(stream[0]) * 256 + u32::from(stream[1])) % 31), (8, 0));
    let mut rest = &stream[2..];
    let mut out = Vec::new();
    let mut last = false;
    while !last {
        last = rest[0] == 1;
        assert!(rest[0] <= 1);
        let n = u16::from_le_bytes([rest[1], rest[2]]);
        assert_eq!(!n, u16::from_le_bytes([rest[3], rest[4]]));
        out.extend_from_slice(&rest[5..5 + n as usize]);
        rest = &rest[5 + n as usize..];
    }
    let (a, b) = out.iter().fold((1u32, 0u32), |(a, b), &byte| {
        let a = (a + u32::from(byte)) % 65521;
        (a, (b + a) % 65521)
    });
    assert_eq!(rest, (b << 16 | a).to_be_bytes());
    out
}
