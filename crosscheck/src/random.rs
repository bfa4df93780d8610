//! A small generator of random numbers (splitmix64), so that what is drawn depends on a seed and on nothing else.

/// A stream of random numbers.
pub struct Random {
    state: u64,
}

impl Random {
    /// The stream of a case: other seeds and other case numbers have other streams.
    pub fn of_case(seed: u64, number: u64) -> Random {
        let mut stream = Random { state: seed };
        let start = stream.number() ^ number;
        stream.state = start;
        stream.number();
        stream
    }

    /// Any number.
    pub fn number(&mut self) -> u64 {
        self.state = self.state.wrapping_add(0x9e37_79b9_7f4a_7c15);
        let mut z = self.state;
        z = (z ^ (z >> 30)).wrapping_mul(0xbf58_476d_1ce4_e5b9);
        z = (z ^ (z >> 27)).wrapping_mul(0x94d0_49bb_1331_11eb);
        z ^ (z >> 31)
    }

    /// A number of two bytes.
    pub fn field(&mut self) -> u16 {
        (self.number() >> 48) as u16
    }

    /// A number below a bound that is not 0.
    pub fn below(&mut self, bound: usize) -> usize {
        // The bounds are small, so the remainder is even enough.
        (self.number() % bound as u64) as usize
    }

    /// A number from `low` to `high`, both included.
    pub fn within(&mut self, low: usize, high: usize) -> usize {
        low + self.below(high - low + 1)
    }

    /// Yes with so many parts of a hundred.
    pub fn percent(&mut self, parts: usize) -> bool {
        self.below(100) < parts
    }

    /// One of some things, each as likely.
    pub fn pick<T: Clone>(&mut self, things: &[T]) -> T {
        things[self.below(things.len())].clone()
    }

    /// One of some things, each as likely as its weight says.
    pub fn weighted<T: Clone>(&mut self, things: &[(usize, T)]) -> T {
        let mut left = self.below(things.iter().map(|thing| thing.0).sum());
        for (weight, thing) in things {
            if left < *weight {
                return thing.clone();
            }
            left -= weight;
        }
        unreachable!("the weights sum up to more than what is left")
    }
}
