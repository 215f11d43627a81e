// The CZ-LSM-Info block in small files.
use crate::lsm_cz_info::{parse, CzTag};
use crate::record_text::{calibration, refusal, Line, Random};
use crate::types::Endian;

const SEED: u64 = 0x5eed_0003;
const MAGIC: i32 = 0x0400_494c;
// about the lengths at which a field comes in
const LENGTHS: [usize; 17] = [0, 1, 7, 8, 9, 27, 28, 29, 63, 64, 65, 111, 112, 113, 271, 272, 273];
const SIGNS: [i32; 6] = [i32::MIN, -1, 0, 1, 2, i32::MAX];

#[derive(Clone, Copy)]
struct Block {
    magic: i32,
    size: i32,
    dims: [i32; 5],
    voxels: [u64; 3],
    colors: i32,
    p: i32,
    m: i32,
    // what stands in the bytes that no field has
    fill: u8,
}

impl Block {
    // 288 bytes, in an order.
    fn bytes(&self, order: Endian) -> Vec<u8> {
        let int = |n: i32| if let Endian::Little = order { n.to_le_bytes() } else { n.to_be_bytes() };
        let float = |n: u64| if let Endian::Little = order { n.to_le_bytes() } else { n.to_be_bytes() };
        let mut b = vec![self.fill; 288];
        let [x, y, z, c, t] = self.dims;
        for (at, n) in [(0, self.magic), (4, self.size), (8, x), (12, y), (16, z), (20, c), (24, t)] {
            b[at..at + 4].copy_from_slice(&int(n));
        }
        for (at, n) in [(108, self.colors), (264, self.p), (268, self.m)] {
            b[at..at + 4].copy_from_slice(&int(n));
        }
        for (k, &v) in self.voxels.iter().enumerate() {
            b[40 + 8 * k..48 + 8 * k].copy_from_slice(&float(v));
        }
        b
    }
}

struct List {
    random: Random,
    text: String,
}

// z ORDER OFFSET DECLARED ANSWER:FILE. The answer is a refusal, or 0, X, Y, Z, channels, T, P, M (the two last as the u32 of the
// same bits), the channel block's place or 2^32, and the calibration.
pub fn list() -> String {
    let mut list = List { random: Random(SEED), text: String::new() };
    list.lengths();
    list.counts();
    list.magics();
    list.offsets();
    list.voxels();
    list.random();
    list.text
}

impl List {
    fn case(&mut self, file: &[u8], offset: usize, declared: usize, order: Endian) {
        let row = match parse(file, CzTag { offset, declared_bytes: declared }, order) {
            Err(e) => refusal(&e),
            Ok(i) => {
                let mut row = vec![0];
                row.extend([i.dim_x, i.dim_y, i.dim_z, i.dim_channels, i.dim_time, i.dim_p, i.dim_m].map(|n| n as u32 as u64));
                row.push(i.channel_colors_offset.map_or(1 << 32, |at| at as u64));
                row.extend(calibration(&i.calibration));
                row
            }
        };
        let big = matches!(order, Endian::Big) as u64;
        self.text.push_str(&Line::new('z').all(&[big, offset as u64, declared as u64]).all(&row).bytes(file).end());
    }

    // The block's first bytes, as many as are present, behind a few others.
    fn block(&mut self, b: Block, declared: usize, present: usize, order: Endian) {
        let before = self.random.of(&[0, 0, 1, 3]);
        let mut file = vec![0xee; before];
        file.extend(&b.bytes(order)[..present]);
        self.case(&file, before, declared, order);
    }

    fn order(&mut self) -> Endian {
        self.random.of(&[Endian::Little, Endian::Big])
    }

    fn voxel(&mut self) -> u64 {
        let v: f64 =
            self.random.of(&[1e-7, 2.5e-7, 1e-19, 0.5, 3e-3, 0.0, -1e-7, f64::NAN, f64::INFINITY, 1e-320, 1.005e-3, 9.995e-3]);
        v.to_bits()
    }

    fn usual(&mut self) -> Block {
        Block {
            magic: MAGIC,
            size: 272,
            dims: [2, 3, 4, 1, 1],
            voxels: [1e-7f64.to_bits(), 2.5e-7f64.to_bits(), self.voxel()],
            colors: self.random.of(&[0, 1, 300]),
            p: self.random.of(&[0, 1, 3]),
            m: self.random.of(&[1, 2]),
            fill: self.random.of(&[0x00, 0xff, 0xa5]),
        }
    }

    // The declared length, the size that the block states and what is present, each by itself.
    fn lengths(&mut self) {
        let mut sizes: Vec<i32> = LENGTHS.iter().map(|&n| n as i32).collect();
        sizes.extend([-1, i32::MIN, i32::MAX]);
        for &declared in &LENGTHS {
            for &size in &sizes {
                let order = self.order();
                let b = Block { size, ..self.usual() };
                self.block(b, declared, declared, order);
            }
            for present in [declared.saturating_sub(2), declared.saturating_sub(1), declared + 1, declared + 9] {
                let order = self.order();
                let b = Block { size: declared as i32, ..self.usual() };
                self.block(b, declared, present, order);
            }
        }
    }

    // Every sign of every dimension, of P and M, and of the channel block's place.
    fn counts(&mut self) {
        for order in [Endian::Little, Endian::Big] {
            for k in 0..5 {
                for n in SIGNS {
                    let mut b = self.usual();
                    b.dims[k] = n;
                    let length = self.random.of(&[28, 40, 64]);
                    self.block(b, length, length, order);
                }
            }
            for p in SIGNS {
                for m in SIGNS {
                    let b = Block { p, m, ..self.usual() };
                    self.block(b, 272, 272, order);
                }
            }
            for colors in [i32::MIN, -1, 0, 1, 2, 255, 256, 65_536, i32::MAX] {
                for length in [111, 112, 272] {
                    let b = Block { colors, ..self.usual() };
                    self.block(b, length, length, order);
                }
            }
        }
    }

    // The magic with one byte one off, turned round, and 0.
    fn magics(&mut self) {
        for order in [Endian::Little, Endian::Big] {
            let mut wrong = vec![MAGIC.swap_bytes(), 0, -1];
            for k in 0..4 {
                wrong.extend([MAGIC + (1 << (8 * k)), MAGIC - (1 << (8 * k))]);
            }
            for magic in wrong {
                for length in [8, 28] {
                    let b = Block { magic, ..self.usual() };
                    self.block(b, length, length, order);
                }
            }
        }
    }

    // Places at, just before and past the end of the file.
    fn offsets(&mut self) {
        for length in [0usize, 5, 8, 28, 64] {
            for offset in
                [length.saturating_sub(8), length.saturating_sub(1), length, length + 1, 1 << 32, usize::MAX - 7, usize::MAX]
            {
                for declared in [0, 7, 8, usize::MAX] {
                    let order = self.order();
                    let file = self.usual().bytes(order);
                    self.case(&file[..length], offset, declared, order);
                }
            }
        }
    }

    fn voxels(&mut self) {
        for _ in 0..120 {
            let order = self.order();
            let mut b = self.usual();
            b.voxels = [self.voxel(), self.voxel(), self.voxel()];
            if self.random.below(2) == 0 {
                // any number of a microscope's order
                b.voxels = [0; 3].map(|_: u64| (1e-9 * (1.0 + self.random.below(1 << 30) as f64 / 1e3)).to_bits());
            }
            self.block(b, 64, 64, order);
        }
    }

    // Several faults at once.
    fn random(&mut self) {
        for _ in 0..340 {
            let order = self.order();
            let mut b = self.usual();
            b.size = self.random.of(&[-1, 0, 8, 27, 28, 63, 64, 111, 112, 271, 272, 300]);
            if self.random.below(4) == 0 {
                b.dims = [0; 5].map(|_: i32| self.random.of(&[1, 2, 0, -1, 9]));
            }
            if self.random.below(8) == 0 {
                b.magic += 1;
            }
            b.colors = self.random.next() as i32;
            b.p = self.random.next() as i32;
            b.m = self.random.next() as i32;
            let declared = self.random.of(&LENGTHS);
            let present = self.random.of(&[declared, declared, declared, declared + 2, declared.saturating_sub(1)]);
            self.block(b, declared, present, order);
        }
    }
}
