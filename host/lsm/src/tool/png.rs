//! `.png`, grey, of 8 or 16 bits. The samples stand in deflate's stored blocks, which any reader of PNG takes: the file is as long as its
//! samples and some bytes more, and is written as fast as the two sums over it are taken.

use std::io::{self, Write};

use lsm::Kind;

use super::ending::{Encoder, Shape};
use super::netpbm::to_big;
use super::sums::{Adler, Crc};

/// The most bytes of a stored block.
const BLOCK: usize = 65535;

/// Each stored block is an IDAT chunk of its own.
pub struct Png {
    shape: Shape,
    /// What is left to write of the row, or 0 where the next byte begins one.
    left: usize,
    block: Vec<u8>,
    first: bool,
    sum: Adler,
}

impl Png {
    pub fn new(shape: Shape) -> Png {
        Png { shape, left: 0, block: Vec::with_capacity(BLOCK), first: true, sum: Adler::new() }
    }

    // Bytes of the stream that is compressed, which here are only cut into blocks.
    fn put(&mut self, mut bytes: &[u8], out: &mut dyn Write) -> io::Result<()> {
        while !bytes.is_empty() {
            let (now, later) = bytes.split_at(bytes.len().min(BLOCK - self.block.len()));
            self.block.extend_from_slice(now);
            bytes = later;
            if self.block.len() == BLOCK {
                self.give(false, out)?;
            }
        }
        Ok(())
    }

    // A chunk of one stored block: whether it is the last, its length, the complement of that, its bytes. The first chunk begins with zlib's two
    // bytes (deflate, a window of 32 KiB, no dictionary), the last one ends with the sum over all bytes.
    fn give(&mut self, last: bool, out: &mut dyn Write) -> io::Result<()> {
        let mut head = Vec::new();
        if std::mem::take(&mut self.first) {
            head.extend([0x78, 0x01]);
        }
        let n = self.block.len() as u16;
        head.push(last as u8);
        head.extend(n.to_le_bytes());
        head.extend((!n).to_le_bytes());
        self.sum.add(&self.block);
        let tail = if last { self.sum.value().to_be_bytes().to_vec() } else { Vec::new() };
        chunk(out, b"IDAT", &[&head, &self.block, &tail])?;
        self.block.clear();
        Ok(())
    }
}

impl Encoder for Png {
    fn begin(&mut self, out: &mut dyn Write) -> io::Result<()> {
        let Shape { kind, width, height } = self.shape;
        out.write_all(b"\x89PNG\r\n\x1a\n")?;
        // grey, deflate, PNG's five filters, not interlaced
        let depth = if kind == Kind::U8 { 8 } else { 16 };
        let sizes = [(width as u32).to_be_bytes(), (height as u32).to_be_bytes()].concat();
        chunk(out, b"IHDR", &[&sizes, &[depth, 0, 0, 0, 0]])
    }

    // Before each row stands its filter: 0, none.
    fn piece(&mut self, samples: &mut [u8], out: &mut dyn Write) -> io::Result<()> {
        to_big(self.shape.kind, samples);
        let mut samples = &*samples;
        while !samples.is_empty() {
            if self.left == 0 {
                self.put(&[0], out)?;
                self.left = self.shape.row();
            }
            let (now, later) = samples.split_at(samples.len().min(self.left));
            self.put(now, out)?;
            self.left -= now.len();
            samples = later;
        }
        Ok(())
    }

    fn end(&mut self, out: &mut dyn Write) -> io::Result<()> {
        self.give(true, out)?;
        chunk(out, b"IEND", &[])
    }
}

// A chunk: its length, its name, its bytes, and a sum over name and bytes.
fn chunk(out: &mut dyn Write, name: &[u8; 4], parts: &[&[u8]]) -> io::Result<()> {
    let n: usize = parts.iter().map(|p| p.len()).sum();
    let mut sum = Crc::new();
    out.write_all(&(n as u32).to_be_bytes())?;
    for part in std::iter::once(&name[..]).chain(parts.iter().copied()) {
        sum.add(part);
        out.write_all(part)?;
    }
    out.write_all(&sum.value().to_be_bytes())
}
