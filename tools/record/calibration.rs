// The calibration of three voxel sizes, as reading a block of 64 bytes gives it.
use crate::lsm_cz_info::{parse, CzTag};
use crate::record_text::{calibration, Line, Random};
use crate::types::Endian;

const SEED: u64 = 0x5eed_0002;
// micrometres as f32: the ends of what a Z step may be
const LEAST: u32 = 0x3586_37bd;
const MOST: u32 = 0x447a_0000;

// c VX VY VZ, the 64-bit patterns, then the answer
pub fn list() -> String {
    let mut list = List { random: Random(SEED), text: String::new() };
    list.bounds();
    list.specials();
    list.halves();
    list.subnormal();
    list.overflow();
    list.figures();
    list.powers();
    list.random();
    list.text
}

// A double whose product with 1e6 is p, if there is one.
fn exact(p: f64) -> Option<f64> {
    let v = (p / 1e6).to_bits();
    (v.saturating_sub(3)..v + 4).map(f64::from_bits).find(|v| (v * 1e6).to_bits() == p.to_bits())
}

// A double that becomes the f32 with this pattern.
fn metres(bits: u32) -> f64 {
    let v = f32::from_bits(bits) as f64 / 1e6;
    assert_eq!(((v * 1e6) as f32).to_bits(), bits);
    v
}

// The double between an f32 and the next.
fn between(bits: u32) -> f64 {
    let next = if bits == 0x7f7f_ffff { 2f64.powi(128) } else { f32::from_bits(bits + 1) as f64 };
    (f32::from_bits(bits) as f64 + next) / 2.0
}

struct List {
    random: Random,
    text: String,
}

impl List {
    fn case(&mut self, vx: u64, vy: u64, vz: u64) {
        let mut rows = [Endian::Little, Endian::Big].map(|order| {
            let int = |n: i32| if let Endian::Little = order { n.to_le_bytes() } else { n.to_be_bytes() };
            let float = |n: u64| if let Endian::Little = order { n.to_le_bytes() } else { n.to_be_bytes() };
            let mut block: Vec<u8> = [0x0400_494c, 64, 1, 1, 1, 1, 1, 0, 0, 0].into_iter().flat_map(int).collect();
            block.extend([vx, vy, vz].into_iter().flat_map(float));
            let info = parse(&block, CzTag { offset: 0, declared_bytes: 64 }, order).unwrap();
            calibration(&info.calibration)
        });
        assert_eq!(rows[0], rows[1]);
        let row = std::mem::take(&mut rows[0]);
        self.text.push_str(&Line::new('c').all(&[vx, vy, vz]).all(&row).end());
    }

    fn plain(&mut self) -> u64 {
        let v: f64 = self.random.of(&[1e-7, 2.5e-7, 1.25e-6, 6.6e-8, 1.0]);
        v.to_bits()
    }

    // A Z step beside plain X and Y.
    fn step(&mut self, vz: f64) {
        let (vx, vy) = (self.plain(), self.plain());
        self.case(vx, vy, vz.to_bits());
    }

    // The same sizes each way round: an X is a Z in another case.
    fn turned(&mut self, v: [u64; 3]) {
        let k = self.random.below(3);
        self.case(v[k], v[(k + 1) % 3], v[(k + 2) % 3]);
    }

    // Both ends of what is used, by single steps of f64 and of f32; the placeholder of 1e-19 m.
    fn bounds(&mut self) {
        for v in [1e-12f64, 1e-3, 1e-19] {
            for k in 0..25 {
                self.step(f64::from_bits(v.to_bits() - 12 + k));
            }
        }
        for bits in [LEAST, MOST] {
            for k in 0..13 {
                let b = bits - 6 + k;
                self.step(metres(b));
                // the last double that becomes b, and the first that becomes the next
                let (mut low, mut high) = (metres(b).to_bits(), metres(b + 1).to_bits());
                while low + 1 < high {
                    let middle = (low + high) / 2;
                    if ((f64::from_bits(middle) * 1e6) as f32).to_bits() == b {
                        low = middle;
                    } else {
                        high = middle;
                    }
                }
                self.step(f64::from_bits(low));
                self.step(f64::from_bits(high));
            }
        }
    }

    // Zeros, infinities, NaNs, negatives, the least and the largest, each beside each.
    fn specials(&mut self) {
        let specials: [u64; 19] = [
            0,
            1 << 63,
            1,
            0x8000_0000_0000_0001,
            0x000f_ffff_ffff_ffff,
            0x0010_0000_0000_0000,
            0x7fef_ffff_ffff_ffff,
            0xffef_ffff_ffff_ffff,
            0x7ff0_0000_0000_0000,
            0xfff0_0000_0000_0000,
            0x7ff8_0000_0000_0000,
            0xfff8_0000_0000_0000,
            0x7ff0_0000_0000_0001,
            0xfff0_0000_0000_0001,
            0x7fff_ffff_ffff_ffff,
            0xffff_ffff_ffff_ffff,
            0x7ff4_0000_dead_beef,
            (-2.5e-7f64).to_bits(),
            2.5e-7f64.to_bits(),
        ];
        for &vx in &specials {
            let vz = self.plain();
            let vy = self.plain();
            self.case(vx, vy, vz);
            self.case(vy, vx, vz);
            self.case(vy, vz, vx);
            for _ in 0..6 {
                let (vy, vz) = (self.random.of(&specials), self.random.of(&specials));
                self.case(vx, vy, vz);
            }
        }
    }

    // Products exactly between two f32, and the doubles beside them. The lower of the two is even and odd in turn.
    fn halves(&mut self) {
        let mut found = 0;
        while found < 420 {
            let fields = if found % 3 == 0 { 1..255 } else { 107..137 };
            let field = fields.start + self.random.below(fields.len()) as u32;
            let fraction = match self.random.below(6) {
                0 => 0x7f_ffff,
                1 => 0,
                _ => self.random.next() as u32 & 0x7f_ffff,
            };
            let bits = (field << 23) + (fraction & !1) + found % 2;
            let middle = between(bits.min(0x7f7f_fffe));
            let Some(v) = exact(middle) else { continue };
            found += 1;
            let at = v.to_bits();
            self.turned([at, at - 1, at + 1]);
        }
    }

    // Results below the least normal f32: whole, halfway, and beside halfway; half of the least one.
    fn subnormal(&mut self) {
        let edges = [0, 1, 2, 3, 4, 5, 6, 7, 0x3f_ffff, 0x40_0000, 0x7f_fffd, 0x7f_fffe, 0x7f_ffff, 0x80_0000, 0x80_0001];
        let mut found = 0;
        let mut k = 0;
        while found < 110 {
            let bits = if k < edges.len() { edges[k] } else { self.random.next() as u32 >> (9 + self.random.below(20)) };
            k += 1;
            if 0 < bits {
                self.step(metres(bits));
            }
            let Some(v) = exact(between(bits)) else { continue };
            found += 1;
            let at = v.to_bits();
            self.turned([at, at - 1, at + 1]);
            if k < edges.len() {
                self.step(v);
            }
        }
    }

    // The largest f32, half a step above it, 2^128, whole steps above that, and products that pass the largest double.
    fn overflow(&mut self) {
        let half = between(0x7f7f_ffff);
        let largest = metres(0x7f7f_ffff).to_bits();
        let limit = (half / 1e6).to_bits();
        let power = (2f64.powi(128) / 1e6).to_bits();
        let double = (f64::MAX / 1e6).to_bits();
        for middle in [largest, limit, power, double] {
            for k in 0..7 {
                let v = middle - 3 + k;
                self.step(f64::from_bits(v));
                let (a, b) = (self.plain(), self.plain());
                self.case(v, a, b);
                self.case(a, v | 1 << 63, b);
                self.case(a, b, v | 1 << 63);
            }
        }
        for k in 1..6 {
            let v = (2f64.powi(128) + k as f64 * 2f64.powi(105)) / 1e6;
            self.turned([v.to_bits(); 3]);
        }
    }

    // Notes' figures: exact halves between three digits, with the f32 on either side; and the named ones.
    fn figures(&mut self) {
        for named in [1005f32, 1015.0, 9995.0, 1e3, 1e-13, 5e-7, 2.5e-7, 1010.0, 9990.0, 99950.0, 9.995e-7] {
            for k in 0..3 {
                self.step(metres(named.to_bits() - 1 + k));
            }
        }
        for power in 0..9u32 {
            for _ in 0..26 {
                // an odd number of halves of the third digit, as an f32 holds it
                let halves = 201 + 2 * self.random.below(900) as u64;
                let value = halves * 5 * 10u64.pow(power);
                if (value as f32) as u64 != value {
                    continue;
                }
                let bits = (value as f32).to_bits();
                let side = self.random.of(&[0, 0, 0, 1, 2]);
                self.step(metres(if side == 2 { bits + 1 } else { bits - side }));
            }
        }
    }

    // Each power of ten that an f32 can hold, and the f32 on either side.
    fn powers(&mut self) {
        for power in -45..39 {
            let value: f32 = format!("1e{power}").parse().unwrap();
            for k in 0..3 {
                self.step(metres(value.to_bits() - 1 + k));
            }
        }
    }

    fn random(&mut self) {
        for _ in 0..250 {
            // any pattern; the sign is mostly plus
            let mut any = || self.random.next() & if self.random.below(6) == 0 { u64::MAX } else { u64::MAX >> 1 };
            let v = [any(), any(), any()];
            self.case(v[0], v[1], v[2]);
        }
        for _ in 0..340 {
            // sizes of a microscope's order, then a step that is noted: any f32 outside the two ends
            let mut near = || (1e-9 * (1.0 + self.random.below(1 << 30) as f64 / 1e3)).to_bits();
            let (vx, vy, vz) = (near(), near(), near());
            self.case(vx, vy, vz);
            let small = 1 + self.random.below(LEAST as usize) as u32;
            let large = MOST + 1 + self.random.below(0x7f7f_ffff - MOST as usize) as u32;
            let noted = self.random.of(&[small, large]);
            self.case(vx, vy, metres(noted).to_bits());
        }
    }
}
