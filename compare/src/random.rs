//! The generator of inputs: splitmix64, so that a seed gives the same run everywhere.

pub struct Random(pub u64);

impl Random {
    pub fn next(&mut self) -> u64 {
        self.0 = self.0.wrapping_add(0x9e37_79b9_7f4a_7c15);
        let mut z = self.0;
        z = (z ^ (z >> 30)).wrapping_mul(0xbf58_476d_1ce4_e5b9);
        z = (z ^ (z >> 27)).wrapping_mul(0x94d0_49bb_1331_11eb);
        z ^ (z >> 31)
    }

    pub fn below(&mut self, n: u64) -> u64 {
        self.next() % n
    }

    pub fn size(&mut self, n: usize) -> usize {
        self.below(n as u64) as usize
    }

    /// Yes once in `n`.
    pub fn once_in(&mut self, n: u64) -> bool {
        self.below(n) == 0
    }

    pub fn pick<T: Copy>(&mut self, from: &[T]) -> T {
        from[self.size(from.len())]
    }

    pub fn bytes(&mut self, n: usize) -> Vec<u8> {
        (0..n).map(|_| self.next() as u8).collect()
    }

    /// A word at or near one of the boundaries of 01 and of the types, or any at all.
    pub fn word(&mut self) -> u64 {
        let near = self.pick(&[0, 1 << 16, 1 << 31, 1 << 32, 1 << 62, 1 << 63]);
        match self.below(4) {
            0 => self.below(20),
            1 => near + self.below(3),
            2 => u64::wrapping_sub(near, 1 + self.below(3)),
            _ => self.next(),
        }
    }

    /// The same for 32 bits.
    pub fn word32(&mut self) -> u32 {
        let near = self.pick(&[0, 1_000_000, 1 << 16, 1 << 31]);
        match self.below(4) {
            0 => self.below(20) as u32,
            1 => near + self.below(3) as u32,
            2 => u32::wrapping_sub(near, 1 + self.below(3) as u32),
            _ => self.next() as u32,
        }
    }
}
