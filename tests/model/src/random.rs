//! A small random generator (splitmix64), so that a seed repeats a run.

pub struct Random(pub u64);

impl Random {
    pub fn draw(&mut self) -> u64 {
        self.0 = self.0.wrapping_add(0x9e37_79b9_7f4a_7c15);
        let mut z = self.0;
        z = (z ^ (z >> 30)).wrapping_mul(0xbf58_476d_1ce4_e5b9);
        z = (z ^ (z >> 27)).wrapping_mul(0x94d0_49bb_1331_11eb);
        z ^ (z >> 31)
    }

    /// From 0 to bound − 1.
    pub fn below(&mut self, bound: u64) -> u64 {
        self.draw() % bound
    }

    /// True once in `times`.
    pub fn once_in(&mut self, times: u64) -> bool {
        self.below(times) == 0
    }

    pub fn pick<T: Copy>(&mut self, list: &[T]) -> T {
        list[self.below(list.len() as u64) as usize]
    }

    pub fn shuffle<T>(&mut self, list: &mut [T]) {
        for i in (1..list.len()).rev() {
            list.swap(i, self.below(i as u64 + 1) as usize);
        }
    }

    pub fn star_number(&mut self) -> u32 {
        1 + self.below(2_147_483_646) as u32
    }

    /// A valid position, often at a limit.
    pub fn position(&mut self) -> (u32, i32) {
        let ra = self.below(1_296_000_000) as u32;
        let dec = self.below(648_000_001) as i32 - 324_000_000;
        (self.pick(&[ra, ra, 0, 1_295_999_999]), self.pick(&[dec, dec, -324_000_000, 0, 324_000_000]))
    }
}
