//! A small deterministic generator (splitmix64): the same on every machine.

pub struct Random(u64);

impl Random {
    /// The generator for script number `number` of the series `seed`.
    pub fn new(seed: u64, number: u64) -> Random {
        let mut start = Random(seed);
        let mixed = start.next() ^ number.wrapping_mul(0xD1B5_4A32_D192_ED03);
        Random(mixed)
    }

    pub fn next(&mut self) -> u64 {
        self.0 = self.0.wrapping_add(0x9E37_79B9_7F4A_7C15);
        let mut z = self.0;
        z = (z ^ (z >> 30)).wrapping_mul(0xBF58_476D_1CE4_E5B9);
        z = (z ^ (z >> 27)).wrapping_mul(0x94D0_49BB_1331_11EB);
        z ^ (z >> 31)
    }

    /// A number from low to high, both included (low if there is none).
    pub fn between(&mut self, low: i64, high: i64) -> i64 {
        if high <= low {
            return low;
        }
        let many = (high - low) as u64 + 1;
        low + (self.next() % many) as i64
    }

    /// True in so many of a hundred cases.
    pub fn chance(&mut self, percent: i64) -> bool {
        self.between(1, 100) <= percent
    }

    /// A place in a list of this length (0 for an empty one).
    pub fn place(&mut self, length: usize) -> usize {
        self.between(0, length as i64 - 1) as usize
    }

    /// One of these. The list is not empty.
    pub fn pick<T: Clone>(&mut self, list: &[T]) -> T {
        list[self.place(list.len())].clone()
    }

    pub fn shuffle<T>(&mut self, list: &mut [T]) {
        for last in (1..list.len()).rev() {
            list.swap(last, self.place(last + 1));
        }
    }
}
