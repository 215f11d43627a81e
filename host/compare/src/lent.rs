// Memory that is lent to a reader: filled with a known pattern, with more of it on both sides, so that every change is seen.
const BESIDE: usize = 8;

pub trait Pattern: Copy + PartialEq + std::fmt::Debug {
    fn at(i: usize) -> Self;
}

impl Pattern for u8 {
    fn at(i: usize) -> u8 {
        (i as u8).wrapping_mul(37) ^ 0xc5
    }
}

impl Pattern for usize {
    fn at(i: usize) -> usize {
        i.wrapping_mul(0x9e37_79b9_7f4a_7c15) ^ 0x5a5a_1234_c3c3_0f0f
    }
}

#[derive(Default)]
pub struct Lent<T: Pattern> {
    store: Vec<T>,
    // how much of the store the last loan may have changed
    used: usize,
    len: usize,
}

impl<T: Pattern> Lent<T> {
    pub fn lend(&mut self, len: usize) -> &mut [T] {
        let whole = len + 2 * BESIDE;
        for i in self.store.len()..whole {
            self.store.push(T::at(i));
        }
        for i in 0..self.used.min(self.store.len()) {
            self.store[i] = T::at(i);
        }
        self.used = whole;
        self.len = len;
        &mut self.store[BESIDE..BESIDE + len]
    }

    // Whether the loan came back with just this written at its start.
    pub fn holds(&self, written: &[T]) -> bool {
        let end = BESIDE + written.len();
        written.len() <= self.len
            && self.store[BESIDE..end] == *written
            && (0..BESIDE).chain(end..self.len + 2 * BESIDE).all(|i| self.store[i] == T::at(i))
    }

    pub fn look(&self) -> &[T] {
        &self.store[BESIDE..BESIDE + self.len]
    }

    // Where it first differs from what it should hold: place, there, wanted. Places before and behind the loan count from it.
    pub fn fault(&self, written: &[T]) -> String {
        for i in 0..self.len + 2 * BESIDE {
            let wanted = match i.checked_sub(BESIDE).and_then(|k| written.get(k)) {
                Some(&w) => w,
                None => T::at(i),
            };
            if self.store[i] != wanted {
                return format!("at {} is {:x?}, wanted {:x?}", i as isize - BESIDE as isize, self.store[i], wanted);
            }
        }
        "no fault".to_string()
    }
}
