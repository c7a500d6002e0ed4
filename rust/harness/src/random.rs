//! A small deterministic generator (SplitMix64) with a taste for edges.

#[derive(Clone, Debug)]
pub struct Random(u64);

impl Random {
    pub fn new(seed: u64) -> Random {
        Random(seed)
    }

    pub fn word(&mut self) -> u64 {
        self.0 = self.0.wrapping_add(0x9E37_79B9_7F4A_7C15);
        let mut z = self.0;
        z = (z ^ (z >> 30)).wrapping_mul(0xBF58_476D_1CE4_E5B9);
        z = (z ^ (z >> 27)).wrapping_mul(0x94D0_49BB_1331_11EB);
        z ^ (z >> 31)
    }

    /// 0 to `bound` - 1; the slight bias does not matter here.
    pub fn below(&mut self, bound: usize) -> usize {
        ((u128::from(self.word()) * bound as u128) >> 64) as usize
    }

    /// `low` to `high`, both included.
    pub fn between(&mut self, low: usize, high: usize) -> usize {
        low + self.below(high - low + 1)
    }

    pub fn chance(&mut self, percent: usize) -> bool {
        self.below(100) < percent
    }

    pub fn flag(&mut self) -> bool {
        self.word() & 1 == 1
    }

    pub fn byte(&mut self) -> u8 {
        self.word() as u8
    }

    pub fn pick<T: Copy>(&mut self, from: &[T]) -> T {
        from[self.below(from.len())]
    }

    /// One of the edges, or else anything from `low` to `high`.
    pub fn edge_or(&mut self, edges: &[usize], low: usize, high: usize) -> usize {
        if self.chance(60) {
            self.pick(edges)
        } else {
            self.between(low, high)
        }
    }

    /// Random bytes, now and then all alike.
    pub fn fill(&mut self, bytes: &mut [u8]) {
        if self.chance(15) {
            let value = self.pick(&[0x00, 0xFF, 0x80, 0x7F]);
            bytes.fill(value);
        } else {
            for chunk in bytes.chunks_mut(8) {
                let word = self.word().to_le_bytes();
                chunk.copy_from_slice(&word[..chunk.len()]);
            }
        }
    }

    pub fn bytes(&mut self, length: usize) -> Vec<u8> {
        let mut bytes = vec![0; length];
        self.fill(&mut bytes);
        bytes
    }

    /// A number near `low` and `high`, or one that only looks like one of
    /// theirs after being cut to fewer bits.
    pub fn edge(&mut self, low: u32, high: u32) -> u32 {
        let inside = self.between(low as usize, high as usize) as u32;
        match self.below(9) {
            0 => low.wrapping_sub(1),
            1 => high + 1,
            2 => 0,
            3 => inside + 0x100,
            4 => inside + 0x1_0000,
            5 => inside | 0x8000_0000,
            6 => u32::MAX - self.below(3) as u32,
            7 => self.between(0, 300) as u32,
            _ => self.word() as u32,
        }
    }
}
