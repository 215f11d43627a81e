//! `.pgm`, Netpbm's grey maps of 8 and 16 bits, and `.pfm`, the grey maps of floats beside them.

use std::io::{self, Write};

use lsm::Kind;

use super::ending::{Encoder, Shape};

/// Turns the bytes of 16-bit samples around, since Netpbm and PNG are big-endian.
pub fn to_big(kind: Kind, samples: &mut [u8]) {
    if kind.size() == 2 {
        samples.chunks_exact_mut(2).for_each(|s| s.swap(0, 1));
    }
}

pub struct Pgm(pub Shape);

impl Encoder for Pgm {
    fn begin(&mut self, out: &mut dyn Write) -> io::Result<()> {
        let Shape { kind, width, height } = self.0;
        let most = if kind == Kind::U8 { 255 } else { 65535 };
        write!(out, "P5\n{width} {height}\n{most}\n")
    }

    fn piece(&mut self, samples: &mut [u8], out: &mut dyn Write) -> io::Result<()> {
        to_big(self.0.kind, samples);
        out.write_all(samples)
    }

    fn end(&mut self, _: &mut dyn Write) -> io::Result<()> {
        Ok(())
    }
}

/// A scale below 0 says little-endian. The lowest row comes first, so the pieces are wanted from the bottom up.
pub struct Pfm(pub Shape);

impl Encoder for Pfm {
    fn begin(&mut self, out: &mut dyn Write) -> io::Result<()> {
        let Shape { width, height, .. } = self.0;
        write!(out, "Pf\n{width} {height}\n-1.0\n")
    }

    // A piece that is a part of a row is one chunk.
    fn piece(&mut self, samples: &mut [u8], out: &mut dyn Write) -> io::Result<()> {
        samples.chunks(self.0.row()).rev().try_for_each(|row| out.write_all(row))
    }

    fn end(&mut self, _: &mut dyn Write) -> io::Result<()> {
        Ok(())
    }
}
