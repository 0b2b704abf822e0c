//! Pseudo-random numbers, the same on every run.

/// SplitMix64.
pub struct Random(u64);

impl Random {
    /// The numbers of one world of a suite. Each world has its own, so that any of them can be
    /// built by itself.
    pub fn of(suite: &str, world: u64) -> Self {
        // FNV-1a over the suite's name.
        let name = suite.bytes().fold(0xCBF2_9CE4_8422_2325, |hash, byte| {
            (hash ^ u64::from(byte)).wrapping_mul(0x100_0000_01B3)
        });
        let seed = Self(name ^ world.wrapping_mul(0xD6E8_FEB8_6659_FD93)).word();
        Self(seed)
    }

    /// Any word.
    pub fn word(&mut self) -> u64 {
        self.0 = self.0.wrapping_add(0x9E37_79B9_7F4A_7C15);
        let mut z = self.0;
        z = (z ^ (z >> 30)).wrapping_mul(0xBF58_476D_1CE4_E5B9);
        z = (z ^ (z >> 27)).wrapping_mul(0x94D0_49BB_1331_11EB);
        z ^ (z >> 31)
    }

    /// A number below a bound that isn't 0.
    pub fn below(&mut self, bound: u64) -> u64 {
        self.word() % bound
    }

    /// True once in `n` times.
    pub fn one_in(&mut self, n: u64) -> bool {
        self.below(n) == 0
    }

    /// True every second time.
    pub fn coin(&mut self) -> bool {
        self.one_in(2)
    }

    /// One of some values.
    pub fn pick<T: Copy>(&mut self, from: &[T]) -> T {
        from[self.below(from.len() as u64) as usize]
    }

    /// A number of so many bits at most, 64 at most; now and then a short one.
    pub fn bits(&mut self, width: u32) -> u64 {
        let short = if self.one_in(4) {
            self.below(u64::from(width) + 1) as u32
        } else {
            width
        };
        match short {
            0 => 0,
            short => self.word() >> (64 - short),
        }
    }
}
