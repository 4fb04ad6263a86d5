//! Random numbers from a seed.

pub struct Random(u64);

impl Random {
    pub fn new(seed: u64) -> Self {
        Self(seed ^ 0x9e37_79b9_7f4a_7c15)
    }

    /// A number of 64 random bits (splitmix64).
    pub fn bits(&mut self) -> u64 {
        self.0 = self.0.wrapping_add(0x9e37_79b9_7f4a_7c15);
        let mut bits = self.0;
        bits = (bits ^ (bits >> 30)).wrapping_mul(0xbf58_476d_1ce4_e5b9);
        bits = (bits ^ (bits >> 27)).wrapping_mul(0x94d0_49bb_1331_11eb);
        bits ^ (bits >> 31)
    }

    /// A number below this one.
    pub fn below(&mut self, end: usize) -> usize {
        (self.bits() % end as u64) as usize
    }

    /// The same, as what records hold.
    pub fn number(&mut self, end: u64) -> u64 {
        self.bits() % end
    }

    pub fn one_in(&mut self, chances: usize) -> bool {
        self.below(chances) == 0
    }

    pub fn of<T: Copy>(&mut self, choices: &[T]) -> T {
        choices[self.below(choices.len())]
    }

    /// A number as it might stand in a broken record: small, near a limit, or any.
    pub fn wild(&mut self) -> u64 {
        let limit = self.of(&[2, 4, 5, 20, 64, 255, 256, 512, 4_096, 65_535, 65_536]);
        let far = self.of(&[u64::from(u32::MAX), 1 << 32, 1 << 63, u64::MAX]);
        let bits = self.bits();
        match self.below(4) {
            0 => self.number(4),
            1 => limit + self.number(3),
            2 => far.wrapping_sub(self.number(2)),
            _ => bits,
        }
    }

    /// A number above this one: just above, or far.
    pub fn above(&mut self, most: u64) -> u64 {
        let least = most + 1;
        let far = least + self.number(u64::MAX - most);
        self.of(&[least, least + self.0 % 3 % (u64::MAX - most), far, u64::MAX])
    }
}
