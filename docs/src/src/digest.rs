//! The digest of expectation files, their byte generator, and the random
//! numbers from which sample programs are made.

/// FNV-1a with 64 bits.
pub struct Digest(pub u64);

impl Default for Digest {
    fn default() -> Self {
        Digest(0xcbf2_9ce4_8422_2325)
    }
}

impl Digest {
    pub fn add(&mut self, bytes: &[u8]) {
        for &byte in bytes {
            self.0 = (self.0 ^ u64::from(byte)).wrapping_mul(0x0000_0100_0000_01b3);
        }
    }

    pub fn of(bytes: &[u8]) -> u64 {
        let mut digest = Digest::default();
        digest.add(bytes);
        digest.0
    }

    /// The digest of bytes in 16 hexadecimal digits.
    pub fn text(bytes: &[u8]) -> String {
        format!("{:016x}", Digest::of(bytes))
    }
}

/// Bytes of a linear congruential generator: for each byte first
/// x = x * 1103515245 + 12345 mod 2^32, then the byte x / 65536 % 256.
pub fn lcg_bytes(seed: u32, count: usize) -> Vec<u8> {
    let mut x = seed;
    let next = |_| {
        x = x.wrapping_mul(1_103_515_245).wrapping_add(12_345);
        (x / 65_536 % 256) as u8
    };
    (0..count).map(next).collect()
}

/// SplitMix64: random numbers for making programs.
pub struct Random(pub u64);

impl Random {
    fn next(&mut self) -> u64 {
        self.0 = self.0.wrapping_add(0x9e37_79b9_7f4a_7c15);
        let mut z = self.0;
        z = (z ^ (z >> 30)).wrapping_mul(0xbf58_476d_1ce4_e5b9);
        z = (z ^ (z >> 27)).wrapping_mul(0x94d0_49bb_1331_11eb);
        z ^ (z >> 31)
    }

    /// A number below `limit`.
    pub fn below(&mut self, limit: usize) -> usize {
        (self.next() % limit as u64) as usize
    }

    /// True in `percent` of a hundred cases.
    pub fn chance(&mut self, percent: usize) -> bool {
        self.below(100) < percent
    }

    pub fn pick<T: Copy>(&mut self, items: &[T]) -> T {
        items[self.below(items.len())]
    }
}
