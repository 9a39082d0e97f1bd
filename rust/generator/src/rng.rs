//! A small deterministic source of numbers (splitmix64).

/// A stream of numbers that its seed determines.
#[derive(Clone, Debug)]
pub struct Rng {
    state: u64,
}

impl Rng {
    /// The stream of one seed.
    pub fn new(seed: u64) -> Self {
        Self { state: seed }
    }

    /// The stream of case `index` under `seed`; streams of neighbours share nothing.
    pub fn of_case(seed: u64, index: u64) -> Self {
        let mut rng = Self::new(seed ^ index.wrapping_mul(0xD134_2543_DE82_EF95));
        Self::new(rng.word() ^ seed.rotate_left(32))
    }

    /// The next 64 bits.
    pub fn word(&mut self) -> u64 {
        self.state = self.state.wrapping_add(0x9E37_79B9_7F4A_7C15);
        let mut z = self.state;
        z = (z ^ (z >> 30)).wrapping_mul(0xBF58_476D_1CE4_E5B9);
        z = (z ^ (z >> 27)).wrapping_mul(0x94D0_49BB_1331_11EB);
        z ^ (z >> 31)
    }

    /// A number below `bound`, which must not be 0.
    pub fn below(&mut self, bound: usize) -> usize {
        ((u128::from(self.word()) * bound as u128) >> 64) as usize
    }

    /// A number from `least` to `most`, both included.
    pub fn between(&mut self, least: usize, most: usize) -> usize {
        least + self.below(most - least + 1)
    }

    /// True once in `times`.
    pub fn once_in(&mut self, times: usize) -> bool {
        self.below(times) == 0
    }

    /// One of `items`, which must not be empty.
    pub fn pick<T: Copy>(&mut self, items: &[T]) -> T {
        items[self.below(items.len())]
    }

    /// One of two places.
    pub fn either<'a, T>(&mut self, one: &'a mut T, other: &'a mut T) -> &'a mut T {
        if self.once_in(2) {
            one
        } else {
            other
        }
    }

    /// Any byte.
    pub fn byte(&mut self) -> u8 {
        self.word() as u8
    }

    /// Any unsigned 16-bit number.
    pub fn u16(&mut self) -> u16 {
        self.word() as u16
    }

    /// A signed 16-bit number, often small or extreme.
    pub fn i16(&mut self) -> i16 {
        match self.below(8) {
            0 => self.pick(&[i16::MIN, i16::MIN + 1, -1, 0, 1, i16::MAX - 1, i16::MAX]),
            1..=3 => self.below(17) as i16 - 8,
            _ => self.word() as i16,
        }
    }

    /// `count` bytes.
    pub fn bytes(&mut self, count: usize) -> Vec<u8> {
        (0..count).map(|_| self.byte()).collect()
    }
}
