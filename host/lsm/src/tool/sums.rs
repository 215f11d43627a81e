//! The two sums of a PNG file: CRC-32 over each chunk, and zlib's Adler-32 over what is compressed.

/// `TABLES[0]` has what each byte adds to a sum, and `TABLES[k]` what it adds with k bytes of 0 behind it. So eight bytes are added by eight
/// look-ups that don't wait for one another.
static TABLES: [[u32; 256]; 8] = tables();

const fn tables() -> [[u32; 256]; 8] {
    let mut t = [[0; 256]; 8];
    let mut i = 0;
    while i < 8 * 256 {
        let (k, byte) = (i / 256, i % 256);
        t[k][byte] = if k == 0 { divided(byte as u32) } else { t[0][(t[k - 1][byte] & 255) as usize] ^ (t[k - 1][byte] >> 8) };
        i += 1;
    }
    t
}

// The rest of a byte in the division by the polynomial, its lowest bit first.
const fn divided(mut rest: u32) -> u32 {
    let mut bit = 0;
    while bit < 8 {
        rest = if rest & 1 == 1 { 0xedb8_8320 ^ (rest >> 1) } else { rest >> 1 };
        bit += 1;
    }
    rest
}

pub struct Crc(u32);

impl Crc {
    pub fn new() -> Crc {
        Crc(!0)
    }

    pub fn add(&mut self, bytes: &[u8]) {
        let eights = bytes.chunks_exact(8);
        let rest = eights.remainder();
        self.0 = eights.fold(self.0, |sum, b| {
            let low = sum ^ u32::from_le_bytes([b[0], b[1], b[2], b[3]]);
            let t = |k: usize, byte: u32| TABLES[k][(byte & 255) as usize];
            t(7, low) ^ t(6, low >> 8) ^ t(5, low >> 16) ^ t(4, low >> 24)
                ^ t(3, b[4].into()) ^ t(2, b[5].into()) ^ t(1, b[6].into()) ^ t(0, b[7].into())
        });
        self.0 = rest.iter().fold(self.0, |sum, &b| TABLES[0][((sum ^ u32::from(b)) & 255) as usize] ^ (sum >> 8));
    }

    pub fn value(&self) -> u32 {
        !self.0
    }
}

/// The sum of the bytes and the sum of those sums, both modulo 65,521.
pub struct Adler {
    a: u32,
    b: u32,
}

impl Adler {
    const MODULUS: u32 = 65521;
    /// Before so many bytes of 255 neither sum passes 32 bits.
    const UNREDUCED: usize = 5552;

    pub fn new() -> Adler {
        Adler { a: 1, b: 0 }
    }

    pub fn add(&mut self, bytes: &[u8]) {
        for part in bytes.chunks(Self::UNREDUCED) {
            let (a, b) = part.iter().fold((self.a, self.b), |(a, b), &byte| (a + u32::from(byte), b + a + u32::from(byte)));
            self.a = a % Self::MODULUS;
            self.b = b % Self::MODULUS;
        }
    }

    pub fn value(&self) -> u32 {
        self.b << 16 | self.a
    }
}

#[cfg(test)]
mod tests {
    use super::{Adler, Crc};

    // The check values of both sums' descriptions.
    #[test]
    fn known_sums() {
        let mut crc = Crc::new();
        crc.add(b"123456789");
        assert_eq!(crc.value(), 0xcbf4_3926);
        let mut adler = Adler::new();
        adler.add(b"Wikipedia");
        assert_eq!(adler.value(), 0x11e6_0398);
    }

    // Bytes of 255 bring both sums of Adler-32 to their largest, and the parts of the CRC end everywhere.
    #[test]
    fn parts_sum_up_as_the_whole() {
        let bytes: Vec<u8> = (0..20_000).map(|n| if n < 12_000 { 255 } else { (n * n % 251) as u8 }).collect();
        let (mut whole, mut parts) = (Crc::new(), Crc::new());
        whole.add(&bytes);
        bytes.chunks(13).for_each(|part| parts.add(part));
        assert_eq!(whole.value(), parts.value());
        let (mut whole, mut parts) = (Adler::new(), Adler::new());
        whole.add(&bytes);
        bytes.chunks(1).for_each(|part| parts.add(part));
        assert_eq!(whole.value(), parts.value());
    }
}
