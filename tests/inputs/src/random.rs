//! Pseudo-random numbers. The same seed gives the same numbers on every machine, and from one version of the tests to
//! the next: inputs are stored, and runs written down by their seed.

/// Splitmix64, and xorshift64 for the stored runs.
pub enum Random {
    Splitmix(u64),
    Xorshift(u64),
}

impl Random {
    pub fn new(seed: u64) -> Random {
        Random::Splitmix(seed)
    }

    /// The numbers of the stored runs. A seed is not 0.
    pub fn of_stored_runs(seed: u64) -> Random {
        Random::Xorshift(seed)
    }

    fn next(&mut self) -> u64 {
        match self {
            Random::Splitmix(state) => splitmix(state),
            Random::Xorshift(state) => xorshift(state),
        }
    }

    /// A number below `n`.
    pub fn below(&mut self, n: usize) -> usize {
        (self.next() % n as u64) as usize
    }

    /// A number from `low` to `high`, both counted.
    pub fn between(&mut self, low: u8, high: u8) -> u8 {
        low + self.below(usize::from(high - low) + 1) as u8
    }

    pub fn byte(&mut self) -> u8 {
        self.next() as u8
    }

    /// True once in `n` times.
    pub fn one_in(&mut self, n: usize) -> bool {
        self.below(n) == 0
    }

    pub fn pick<T: Copy>(&mut self, choices: &[T]) -> T {
        choices[self.below(choices.len())]
    }

    pub fn fill(&mut self, bytes: &mut [u8]) {
        for chunk in bytes.chunks_mut(8) {
            let number = self.next().to_le_bytes();
            chunk.copy_from_slice(&number[..chunk.len()]);
        }
    }

    pub fn bytes(&mut self, n: usize) -> Vec<u8> {
        let mut bytes = vec![0; n];
        self.fill(&mut bytes);
        bytes
    }

    /// Another value for a byte: near it, small, or any.
    pub fn altered(&mut self, byte: u8) -> u8 {
        loop {
            let other = match self.below(4) {
                0 => byte.wrapping_add(1),
                1 => byte.wrapping_sub(1),
                2 => self.between(0, 9),
                _ => self.byte(),
            };
            if other != byte {
                return other;
            }
        }
    }
}

fn splitmix(state: &mut u64) -> u64 {
    *state = state.wrapping_add(0x9E37_79B9_7F4A_7C15);
    let mut z = *state;
    z = (z ^ (z >> 30)).wrapping_mul(0xBF58_476D_1CE4_E5B9);
    z = (z ^ (z >> 27)).wrapping_mul(0x94D0_49BB_1331_11EB);
    z ^ (z >> 31)
}

fn xorshift(state: &mut u64) -> u64 {
    *state ^= *state << 13;
    *state ^= *state >> 7;
    *state ^= *state << 17;
    *state
}
