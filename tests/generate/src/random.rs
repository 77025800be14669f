//! A small random generator: the same seed and number give the same draws.

/// SplitMix64.
pub struct Random(u64);

const STEP: u64 = 0x9E37_79B9_7F4A_7C15;

fn mixed(state: u64) -> u64 {
    let state = (state ^ (state >> 30)).wrapping_mul(0xBF58_476D_1CE4_E5B9);
    let state = (state ^ (state >> 27)).wrapping_mul(0x94D0_49BB_1331_11EB);
    state ^ (state >> 31)
}

impl Random {
    /// The draws for one number (of a question, of a file) under a seed.
    pub fn new(seed: u64, number: u64) -> Self {
        Random(mixed(mixed(seed.wrapping_add(STEP)).wrapping_add(number)))
    }

    fn next(&mut self) -> u64 {
        self.0 = self.0.wrapping_add(STEP);
        mixed(self.0)
    }

    /// A number of 0 to `count` - 1; `count` is at least 1.
    pub fn below(&mut self, count: u64) -> u64 {
        self.next() % count
    }

    /// A number of `least` to `most`.
    pub fn between(&mut self, least: u64, most: u64) -> u64 {
        least + self.below(most - least + 1)
    }

    pub fn one_in(&mut self, count: u64) -> bool {
        self.below(count) == 0
    }

    pub fn pick<Item: Copy>(&mut self, items: &[Item]) -> Item {
        items[self.below(items.len() as u64) as usize]
    }

    /// A number of `least` to `most`, small ones as often as large ones.
    pub fn any_size(&mut self, least: u64, most: u64) -> u64 {
        let range = most - least;
        let bits = self.below(65 - u64::from(range.leading_zeros()));
        least + self.below(1 << bits).min(range)
    }
}
