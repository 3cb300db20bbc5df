//! Seeded random numbers (SplitMix64) for the tests. Leans on nothing.
// each of the tests that take it in is compiled by itself, and not each draws all kinds
#![allow(dead_code)]

pub struct Rng(pub u64);

impl Rng {
    pub fn any(&mut self) -> u32 {
        self.0 = self.0.wrapping_add(0x9E37_79B9_7F4A_7C15);
        let mut z = self.0;
        z = (z ^ (z >> 30)).wrapping_mul(0xBF58_476D_1CE4_E5B9);
        z = (z ^ (z >> 27)).wrapping_mul(0x94D0_49BB_1331_11EB);
        ((z ^ (z >> 31)) >> 32) as u32
    }

    pub fn below(&mut self, n: u32) -> u32 {
        ((u64::from(self.any()) * u64::from(n)) >> 32) as u32
    }

    /// Mostly small numbers, so that counts, kinds and tags are in range often; some near a limit, some of any size.
    pub fn number(&mut self) -> u32 {
        const LIMITS: [u32; 10] = [32, 33, 64, 65, 1024, 1025, 2048, 2049, 4_294_967_103, u32::MAX];
        match self.below(8) {
            0 => self.any(),
            1 => LIMITS[self.below(10) as usize],
            2 => (0x0101_0101 * (1 + self.below(3))) & [0xff, 0xffff, 0xff_ffff, u32::MAX][self.below(4) as usize],
            _ => self.below(6),
        }
    }
}
