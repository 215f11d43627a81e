//! `.raw`, the samples and nothing else, and `.npy`, NumPy's format, version 1.0. Both are little-endian, as the library gives samples.

use std::io::{self, Write};

use lsm::Kind;

use super::ending::{Encoder, Shape};

pub struct Raw;

impl Encoder for Raw {
    fn begin(&mut self, _: &mut dyn Write) -> io::Result<()> {
        Ok(())
    }

    fn piece(&mut self, samples: &mut [u8], out: &mut dyn Write) -> io::Result<()> {
        out.write_all(samples)
    }

    fn end(&mut self, _: &mut dyn Write) -> io::Result<()> {
        Ok(())
    }
}

pub struct Npy(pub Shape);

impl Encoder for Npy {
    // The magic, the version, the length of the text behind it, and the text: a Python dictionary, filled up with spaces and a line end so that
    // the samples begin at a multiple of 64.
    fn begin(&mut self, out: &mut dyn Write) -> io::Result<()> {
        let Shape { kind, width, height } = self.0;
        let kind = match kind {
            Kind::U8 => "|u1",
            Kind::U16 => "<u2",
            Kind::I16 => "<i2",
            Kind::F32 => "<f4",
        };
        let mut text = format!("{{'descr': '{kind}', 'fortran_order': False, 'shape': ({height}, {width}), }}");
        let before = 10;
        let all = (before + text.len() + 1).next_multiple_of(64);
        text.push_str(&" ".repeat(all - before - text.len() - 1));
        text.push('\n');
        out.write_all(b"\x93NUMPY\x01\x00")?;
        out.write_all(&(text.len() as u16).to_le_bytes())?;
        out.write_all(text.as_bytes())
    }

    fn piece(&mut self, samples: &mut [u8], out: &mut dyn Write) -> io::Result<()> {
        out.write_all(samples)
    }

    fn end(&mut self, _: &mut dyn Write) -> io::Result<()> {
        Ok(())
    }
}
