//! A small seeded generator of random numbers (splitmix64), the same on every machine.

pub struct Random {
    state: u64,
}

fn mix(value: u64) -> u64 {
    let once = (value ^ (value >> 30)).wrapping_mul(0xBF58_476D_1CE4_E5B9);
    let twice = (once ^ (once >> 27)).wrapping_mul(0x94D0_49BB_1331_11EB);
    twice ^ (twice >> 31)
}

impl Random {
    /// One stream for each seed and index, so that any tape can be made again alone.
    pub fn new(seed: u64, index: u64) -> Random {
        Random::with_state(mix(mix(seed).wrapping_add(index)))
    }

    pub fn with_state(state: u64) -> Random {
        Random { state }
    }

    pub fn word(&mut self) -> u64 {
        self.state = self.state.wrapping_add(0x9E37_79B9_7F4A_7C15);
        mix(self.state)
    }

    /// A number in `0..bound`; 0 if the bound is 0.
    pub fn below(&mut self, bound: u64) -> u64 {
        if bound == 0 {
            return 0;
        }
        self.word() % bound
    }

    /// A number in `low..=high`.
    pub fn between(&mut self, low: u64, high: u64) -> u64 {
        low + self.below(high - low + 1)
    }

    pub fn percent(&mut self, chance: u64) -> bool {
        self.below(100) < chance
    }

    pub fn pick<T: Copy>(&mut self, items: &[T]) -> T {
        items[self.below(items.len() as u64) as usize]
    }

    /// An index of `weights`, each with its weight as chance.
    pub fn weighted(&mut self, weights: &[u64]) -> usize {
        let mut ticket = self.below(weights.iter().sum());
        for (index, &weight) in weights.iter().enumerate() {
            if ticket < weight {
                return index;
            }
            ticket -= weight;
        }
        weights.len() - 1
    }

    pub fn fill(&mut self, bytes: &mut [u8]) {
        for chunk in bytes.chunks_mut(8) {
            let word = self.word().to_le_bytes();
            chunk.copy_from_slice(&word[..chunk.len()]);
        }
    }

    /// Numbers at the ends of their range, where sums wrap.
    pub fn extreme(&mut self) -> u64 {
        let base = self.pick(&[u64::MAX, 1 << 63, 1 << 55, 1 << 49, 1 << 40, 1 << 32, u64::MAX / 512]);
        match self.below(4) {
            0 => base.wrapping_add(1),
            1 => base - 1,
            2 => base - 511,
            _ => base,
        }
    }
}
