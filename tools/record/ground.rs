// The byte readers, the sizes of pictures, the check of a rectangle and the layout of scenes.
use crate::lsm_bytes::{read_f64, read_i32, read_u16, read_u32, read_u8};
use crate::lsm_positions::LsmLayout;
use crate::record_text::{answer, refusal, Line, Random};
use crate::types::{checked_region, DType, Dims5, Endian, PixelRect};

const SEED: u64 = 0x5eed_0001;
const MAX: usize = usize::MAX;
const ORDERS: [Endian; 2] = [Endian::Little, Endian::Big];
const KINDS: [DType; 4] = [DType::U8, DType::U16, DType::I16, DType::F32];

pub fn list() -> String {
    let mut random = Random(SEED);
    let mut text = String::new();
    readers(&mut random, &mut text);
    sizes(&mut text);
    regions(&mut random, &mut text);
    empty(&mut text);
    layouts(&mut random, &mut text);
    text
}

// b TYPE ORDER OFFSET ANSWER:BUFFER. Types: 0 u8, 1 u16, 2 u32, 3 i32 (as the u32 of the same bits), 4 f64 (its bits).
fn readers(random: &mut Random, text: &mut String) {
    for (kind, width) in [(0, 1usize), (1, 2), (2, 4), (3, 4), (4, 8)] {
        for (o, &order) in ORDERS.iter().enumerate() {
            for length in [width - 1, width, width + 3] {
                let buffer: Vec<u8> = (0..length).map(|_| random.next() as u8).collect();
                let mut offsets = vec![0, 1, 3, 4, length, length + 1, MAX, MAX - width + 1, MAX - width, 1 << 32];
                offsets.sort();
                offsets.dedup();
                for offset in offsets {
                    let read = match kind {
                        0 => read_u8(&buffer, offset).map(u64::from),
                        1 => read_u16(&buffer, offset, order).map(u64::from),
                        2 => read_u32(&buffer, offset, order).map(u64::from),
                        3 => read_i32(&buffer, offset, order).map(|n| n as u32 as u64),
                        _ => read_f64(&buffer, offset, order).map(f64::to_bits),
                    };
                    let line = Line::new('b').all(&[kind, o as u64, offset as u64]).all(&answer(read)).bytes(&buffer);
                    text.push_str(&line.end());
                }
            }
        }
    }
}

// s WHICH X Y KIND ANSWER. Which: 0 with the limit, 1 without. Kinds: 0 U8, 1 U16, 2 I16, 3 F32.
fn sizes(text: &mut String) {
    let mut pairs = vec![(0, 0), (0, MAX), (MAX, 0), (1, 1), (7, 5), (65_536, 65_536), (65_535, 65_537), (65_537, 65_537)];
    for bits in [30, 31, 32, 61, 62, 63] {
        let n = 1usize << bits;
        pairs.extend([(n - 1, 1), (n, 1), (1, n + 1)]);
    }
    pairs.extend([
        (MAX, 1),
        (MAX, 2),
        (1 << 32, 1 << 32),
        (1 << 32, (1 << 32) - 1),
        (1 << 31, 1 << 31),
        (1 << 31, (1 << 31) - 1),
    ]);
    for (x, y) in pairs {
        for (k, &kind) in KINDS.iter().enumerate() {
            let dims = Dims5 { t: 1, c: 1, z: 1, y, x };
            for which in 0..2 {
                let size = if which == 0 { dims.checked_plane_bytes(kind) } else { dims.plane_bytes_no_ceiling(kind) };
                let line = Line::new('s').all(&[which, x as u64, y as u64, k as u64]).all(&answer(size.map(|n| n as u64)));
                text.push_str(&line.end());
            }
        }
    }
}

// A start and an extent that end before, at and past a size, or overflow.
fn side(random: &mut Random, size: usize) -> (usize, usize) {
    let start = random.of(&[0, 0, 1, size / 2, size.saturating_sub(1), size, size.saturating_add(1), MAX]);
    let left = size.saturating_sub(start);
    let room = MAX - start;
    let extent = random.of(&[0, 0, 1, left, left, left.saturating_add(1), room, room.saturating_add(1), MAX]);
    (start, extent)
}

// r T C Z Y X  SCENE T C Z  X Y W H ANSWER
fn regions(random: &mut Random, text: &mut String) {
    for _ in 0..240 {
        let dims = Dims5 {
            t: random.of(&[1, 1, 1, 0, 2]),
            c: random.of(&[1, 2, 3]),
            z: random.of(&[1, 5, 5, 0]),
            y: random.of(&[0, 1, 9, 512, MAX]),
            x: random.of(&[0, 1, 7, 1024, MAX]),
        };
        // within the scene three times of four
        let outside = random.below(4) == 0;
        let mut at = |n: usize| if outside { random.of(&[0, n, n.saturating_sub(1), MAX]) } else { n.saturating_sub(1) };
        let (t, c, z) = (at(dims.t), at(dims.c), at(dims.z));
        let scene = random.of(&[0, 1, MAX]);
        let (x, w) = side(random, dims.x);
        let (y, h) = side(random, dims.y);
        let row = match checked_region("region", &dims, scene, t, c, z, PixelRect::new(x, y, w, h)) {
            Ok(()) => vec![0],
            Err(e) => refusal(&e),
        };
        let given = [dims.t, dims.c, dims.z, dims.y, dims.x, scene, t, c, z, x, y, w, h].map(|n| n as u64);
        text.push_str(&Line::new('r').all(&given).all(&row).end());
    }
}

// m X Y W H, then 0 and 1 where the rectangle is empty, 0 and 0 where it is not
fn empty(text: &mut String) {
    for (x, y) in [(0, 0), (0, 1), (1, 0), (MAX, MAX)] {
        for w in [0, 1, MAX] {
            for h in [0, 1, MAX] {
                let is = PixelRect::new(x, y, w, h).is_empty();
                let given = [x, y, w, h].map(|n| n as u64);
                text.push_str(&Line::new('m').all(&given).all(&[0, is as u64]).end());
            }
        }
    }
}

// Counts as the u32 of the same bits. No pages expected is Decode in the Rust's reader, and no page OutOfRange.
// l P M T Z, then 0 and the scenes or 2; e P M T Z, then 0 and the pages or 2; p P M T Z SCENE t z, then 0 and the page or 6
//
// The Rust's layout has no T. (scene x T + t) x Z + z is scene x (T x Z) + (t x Z + z), so a layout of T time points is judged as one of
// T x Z planes, at plane t x Z + z. For T 1 that is the Rust's own case. Where T x Z or t x Z + z passes 64 bits, nothing is asked.
fn layouts(random: &mut Random, text: &mut String) {
    let counts = [0, 1, 3, 65_536, i32::MAX, -1, i32::MIN];
    let depths = [0, 1, 2, 3, 4, 5, 6, 1 << 32, 1 << 33, (1 << 33) + 3, MAX / 2, MAX - 1, MAX];
    for &p in &counts {
        for &m in &counts {
            for times in [1, random.of(&[0, 2, 2, 3, 40, 65_536, 1 << 33, MAX])] {
                let z = random.of(&depths);
                let new = LsmLayout::new(p, m, z).map(|l| l.scene_count() as u64);
                let scenes = new.as_ref().map_or(0, |&n| n as usize);
                let given = [p as u32 as u64, m as u32 as u64, times as u64, z as u64];
                text.push_str(&Line::new('l').all(&given).all(&answer(new)).end());
                if scenes == 0 {
                    continue;
                }
                // depths at which the pages just fit and just overflow, where there are scenes and time points enough
                let most = MAX / scenes.saturating_mul(times).max(1);
                for z in [z, most, most.saturating_add(1)] {
                    pages(random, text, [p, m], [times, z]);
                }
            }
        }
    }
    // scenes x T pass 64 bits, and with a depth of 0 are no pages all the same
    for times in [4, 1 << 33, MAX] {
        pages(random, text, [i32::MAX, i32::MAX], [times, 0]);
    }
}

// How many pages a layout has, and a few of them.
fn pages(random: &mut Random, text: &mut String, [p, m]: [i32; 2], [times, z]: [usize; 2]) {
    let Some(depth) = times.checked_mul(z) else { return };
    let layout = LsmLayout::new(p, m, depth).unwrap();
    let given = [p as u32 as u64, m as u32 as u64, times as u64, z as u64];
    let row = layout.expected_pages().map_or(vec![2], |n| vec![0, n as u64]);
    text.push_str(&Line::new('e').all(&given).all(&row).end());
    let scenes = layout.scene_count();
    for _ in 0..2 {
        let scene = random.of(&[0, 1, scenes / 2, scenes - 1, scenes - 1, scenes, MAX]);
        // the layout itself holds no t to its T
        let t = if times == 1 { 0 } else { random.of(&[0, 1, times / 2, times.saturating_sub(1), times]) };
        let room = MAX.saturating_sub(scene.saturating_mul(depth)).saturating_sub(t.saturating_mul(z));
        let plane = random.of(&[0, z.saturating_sub(1), room, room.saturating_add(1), MAX]);
        let Some(whole) = t.checked_mul(z).and_then(|n| n.checked_add(plane)) else { continue };
        let row = layout.page_index(scene, whole).map_or(vec![6], |n| vec![0, n as u64]);
        text.push_str(&Line::new('p').all(&given).all(&[scene as u64, t as u64, plane as u64]).all(&row).end());
    }
}
