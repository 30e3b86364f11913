//! Random numbers: the same for the same seed (SplitMix64).
pub struct Rng(pub u64);

impl Rng {
    pub fn u64(&mut self) -> u64 {
        self.0 = self.0.wrapping_add(0x9E37_79B9_7F4A_7C15);
        let mut z = self.0;
        z = (z ^ (z >> 30)).wrapping_mul(0xBF58_476D_1CE4_E5B9);
        z = (z ^ (z >> 27)).wrapping_mul(0x94D0_49BB_1331_11EB);
        z ^ (z >> 31)
    }

    pub fn u32(&mut self) -> u32 {
        self.u64() as u32
    }

    pub fn byte(&mut self) -> u8 {
        self.u64() as u8
    }

    pub fn below(&mut self, n: usize) -> usize {
        (self.u64() % n as u64) as usize
    }

    /// True in so many cases of 100.
    pub fn chance(&mut self, percent: usize) -> bool {
        self.below(100) < percent
    }

    pub fn pick<T: Copy>(&mut self, from: &[T]) -> T {
        from[self.below(from.len())]
    }

    /// One of these numbers, or one below or above it.
    pub fn around(&mut self, at: &[usize]) -> usize {
        (self.pick(at) + self.below(3)).saturating_sub(1)
    }

    pub fn bytes(&mut self, n: usize) -> Vec<u8> {
        (0..n).map(|_| self.byte()).collect()
    }

    /// A byte that is often one of framing's.
    pub fn wire(&mut self) -> u8 {
        if self.chance(50) { self.pick(&[0x10, 0x02, 0x03, 0x00, 0xA0, 0xA1, 0xFF]) } else { self.byte() }
    }

    /// Bytes: any, often framing's, or all DLE.
    pub fn content(&mut self, n: usize) -> Vec<u8> {
        match self.below(10) {
            0 | 1 => vec![0x10; n],
            2..=4 => (0..n).map(|_| self.wire()).collect(),
            _ => self.bytes(n),
        }
    }

    pub fn shuffle<T>(&mut self, v: &mut [T]) {
        for i in (1..v.len()).rev() {
            v.swap(i, self.below(i + 1));
        }
    }

    /// Drops, adds, changes or flips a byte, or cuts the rest off.
    pub fn damage(&mut self, bytes: &mut Vec<u8>) {
        if bytes.is_empty() {
            return;
        }
        let i = self.below(bytes.len());
        match self.below(5) {
            0 => drop(bytes.remove(i)),
            1 => bytes.insert(i, self.wire()),
            2 => bytes[i] = self.wire(),
            3 => bytes.truncate(i),
            _ => bytes[i] ^= 1 << self.below(8),
        }
    }
}
