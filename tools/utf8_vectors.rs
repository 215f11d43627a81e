// Writes the list that crates/utf8_vectors reads: a line for each vector, the bytes and the text that they decode to, in
// hexadecimal. The texts are those of Rust's `String::from_utf8_lossy`. From the repository's folder:
//
//     rustc --edition 2021 -O -o target/utf8_vectors_list tools/utf8_vectors.rs
//     target/utf8_vectors_list | tools/wrong_lines.py utf8_vectors > crates/utf8_vectors/stdin
//
// The list is the same at every run: the sample has a seed of its own.

use std::io::Write;

// Bytes at the edges of the ranges of Unicode's Table 3-7.
const EDGES: [u8; 25] = [
    0x00, 0x41, 0x7F, 0x80, 0x8F, 0x90, 0x9F, 0xA0, 0xBF, 0xC0, 0xC1, 0xC2, 0xDF, 0xE0, 0xE1, 0xEC, 0xED, 0xEE, 0xEF, 0xF0, 0xF1,
    0xF3, 0xF4, 0xF5, 0xFF,
];

// The examples of The Unicode Standard, section 3.9, with the standard's answers.
const STANDARD: [(&[u8], &str); 4] = [
    // Table 3-8, U+FFFD for Non-Shortest Form Sequences
    (
        &[0xC0, 0xAF, 0xE0, 0x80, 0xBF, 0xF0, 0x81, 0x82, 0x41],
        "\u{FFFD}\u{FFFD}\u{FFFD}\u{FFFD}\u{FFFD}\u{FFFD}\u{FFFD}\u{FFFD}\u{0041}",
    ),
    // Table 3-9, U+FFFD for Ill-Formed Sequences for Surrogates
    (
        &[0xED, 0xA0, 0x80, 0xED, 0xBF, 0xBF, 0xED, 0xAF, 0x41],
        "\u{FFFD}\u{FFFD}\u{FFFD}\u{FFFD}\u{FFFD}\u{FFFD}\u{FFFD}\u{FFFD}\u{0041}",
    ),
    // Table 3-10, U+FFFD for Other Ill-Formed Sequences
    (
        &[0xF4, 0x91, 0x92, 0x93, 0xFF, 0x41, 0x80, 0xBF, 0x42],
        "\u{FFFD}\u{FFFD}\u{FFFD}\u{FFFD}\u{FFFD}\u{0041}\u{FFFD}\u{FFFD}\u{0042}",
    ),
    // Table 3-11, U+FFFD for Truncated Sequences
    (
        &[0xE1, 0x80, 0xE2, 0xF0, 0x91, 0x92, 0xF1, 0xBF, 0x41],
        "\u{FFFD}\u{FFFD}\u{FFFD}\u{FFFD}\u{0041}",
    ),
];

const SAMPLES: usize = 1800;

// Marsaglia's xorshift64.
struct Random(u64);

impl Random {
    fn next(&mut self) -> u64 {
        self.0 ^= self.0 << 13;
        self.0 ^= self.0 >> 7;
        self.0 ^= self.0 << 17;
        self.0
    }

    fn below(&mut self, n: usize) -> usize {
        ((self.next() >> 32) as usize) % n
    }

    fn edge(&mut self) -> u8 {
        EDGES[self.below(EDGES.len())]
    }

    // A scalar value of one to four bytes, each length as often as the others.
    fn scalar(&mut self) -> char {
        loop {
            let bits = [7, 11, 16, 21][self.below(4)];
            if let Some(c) = char::from_u32(self.below(1 << bits) as u32) {
                return c;
            }
        }
    }

    fn sample(&mut self, kind: usize) -> Vec<u8> {
        let len = 3 + self.below(6);
        let mut bytes = Vec::new();
        match kind {
            0 => bytes.extend((0..len).map(|_| self.edge())),
            1 => bytes.extend((0..len).map(|_| self.below(256) as u8)),
            // well-formed text, cut off, and for two of three with a byte changed
            _ => {
                while bytes.len() < len {
                    bytes.extend(self.scalar().to_string().bytes());
                }
                bytes.truncate(len);
                if self.below(3) > 0 {
                    let at = self.below(len);
                    bytes[at] = self.edge();
                }
            }
        }
        bytes
    }
}

fn hex(bytes: &[u8]) -> String {
    bytes.iter().map(|b| format!("{b:02x}")).collect()
}

fn main() {
    let mut list: Vec<Vec<u8>> = Vec::new();
    for (bytes, text) in STANDARD {
        assert_eq!(String::from_utf8_lossy(bytes), text);
        list.push(bytes.to_vec());
    }
    for a in EDGES {
        list.push(vec![a]);
    }
    for a in EDGES {
        for b in EDGES {
            list.push(vec![a, b]);
        }
    }
    let mut random = Random(0x9E37_79B9_7F4A_7C15);
    for i in 0..SAMPLES {
        list.push(random.sample(i % 3));
    }
    let mut out = std::io::stdout().lock();
    for bytes in list {
        let text = String::from_utf8_lossy(&bytes);
        writeln!(out, "{} {}", hex(&bytes), hex(text.as_bytes())).unwrap();
    }
}
