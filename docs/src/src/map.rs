//! The access map: four sets of 256 addresses in 128 bytes.

/// The length of a map in bytes.
pub const MAP_BYTES: usize = 128;

/// A map of 128 bytes: left readable, left writable, right readable, right
/// writable, 32 bytes each.
#[derive(Clone, Copy)]
pub struct Map<'a> {
    bytes: &'a [u8],
}

impl<'a> Map<'a> {
    /// The map in these bytes, or 12 where there are not 128 of them.
    pub fn new(bytes: &'a [u8]) -> Result<Map<'a>, u8> {
        if bytes.len() == MAP_BYTES {
            Ok(Map { bytes })
        } else {
            Err(12)
        }
    }

    /// Address `a` is in a set when the bit of weight 2^(a mod 8) in byte a/8
    /// of that set is one.
    fn has(&self, set: usize, a: u8) -> bool {
        let byte = self.bytes[32 * set + usize::from(a) / 8];
        byte / (1 << (a % 8)) % 2 == 1
    }

    pub fn readable(&self, bank: usize, a: u8) -> bool {
        self.has(2 * bank, a)
    }

    pub fn writable(&self, bank: usize, a: u8) -> bool {
        self.has(2 * bank + 1, a)
    }

    /// An address is listed for a bank when it is in either of its sets.
    pub fn listed(&self, bank: usize, a: u8) -> bool {
        self.readable(bank, a) || self.writable(bank, a)
    }

    /// How many addresses each of the four sets has.
    pub fn counts(&self) -> [usize; 4] {
        let size = |set| (0..=255).filter(|&a| self.has(set, a)).count();
        [size(0), size(1), size(2), size(3)]
    }
}

/// The four counts of a map, or 12.
pub fn counts(bytes: &[u8]) -> Result<[usize; 4], u8> {
    Map::new(bytes).map(|map| map.counts())
}

/// The same counts, or 12, with eight bytes counted in one operation (2026-05): the ones of a
/// word of 64 bits are those of its eight bytes together.
pub fn counts_by_words(bytes: &[u8]) -> Result<[usize; 4], u8> {
    let bytes = Map::new(bytes)?.bytes;
    let word = |eight: &[u8]| u64::from_le_bytes(eight.try_into().expect("eight bytes"));
    let ones = |eight| word(eight).count_ones() as usize;
    let size = |set: usize| bytes[32 * set..][..32].chunks_exact(8).map(ones).sum();
    Ok([size(0), size(1), size(2), size(3)])
}
