//! Random numbers that a seed determines (splitmix64).

pub struct Random(u64);

impl Random {
    /// Seeds that differ by one give streams that have nothing in common.
    pub fn new(seed: u64) -> Random {
        let mut first = Random(seed);
        Random(first.number())
    }

    pub fn number(&mut self) -> u64 {
        self.0 = self.0.wrapping_add(0x9e37_79b9_7f4a_7c15);
        let mut z = self.0;
        z = (z ^ (z >> 30)).wrapping_mul(0xbf58_476d_1ce4_e5b9);
        z = (z ^ (z >> 27)).wrapping_mul(0x94d0_49bb_1331_11eb);
        z ^ (z >> 31)
    }

    /// A number below n, which is not 0.
    pub fn below(&mut self, n: u32) -> u32 {
        (self.number() % u64::from(n)) as u32
    }

    /// True once in n times.
    pub fn once_in(&mut self, n: u32) -> bool {
        self.below(n) == 0
    }

    pub fn one<T: Copy>(&mut self, of: &[T]) -> T {
        of[self.below(of.len() as u32) as usize]
    }

    pub fn fill(&mut self, bytes: &mut [u8]) {
        for part in bytes.chunks_mut(8) {
            part.copy_from_slice(&self.number().to_le_bytes()[..part.len()]);
        }
    }

    /// So many bytes: random ones, or now and then the same byte throughout.
    pub fn bytes(&mut self, length: usize) -> Vec<u8> {
        let mut bytes = vec![self.one(&[0, 0, 1, 0x80, 0xff]); length];
        if !self.once_in(8) {
            self.fill(&mut bytes);
        }
        bytes
    }
}
