// Numbers from a seed: Steele, Lea and Flood's splitmix64.
pub struct Random(u64);

impl Random {
    // The numbers of one case, apart from those of its neighbours.
    pub fn of_case(seed: u64, case: u64, part: u64) -> Random {
        let mut r = Random(seed);
        let a = r.next();
        let mut r = Random(a ^ case.wrapping_mul(0xd1b5_4a32_d192_ed03));
        let b = r.next();
        Random(b ^ part.wrapping_mul(0x8cb9_2ba7_2f3d_8dd7))
    }

    pub fn next(&mut self) -> u64 {
        self.0 = self.0.wrapping_add(0x9e37_79b9_7f4a_7c15);
        let mut z = self.0;
        z = (z ^ (z >> 30)).wrapping_mul(0xbf58_476d_1ce4_e5b9);
        z = (z ^ (z >> 27)).wrapping_mul(0x94d0_49bb_1331_11eb);
        z ^ (z >> 31)
    }

    pub fn below(&mut self, n: usize) -> usize {
        ((self.next() >> 32) as usize) % n
    }

    // True n times of a hundred.
    pub fn chance(&mut self, n: usize) -> bool {
        self.below(100) < n
    }

    pub fn of<T: Copy>(&mut self, choices: &[T]) -> T {
        choices[self.below(choices.len())]
    }

    pub fn shuffle<T>(&mut self, list: &mut [T]) {
        for i in (1..list.len()).rev() {
            list.swap(i, self.below(i + 1));
        }
    }
}
