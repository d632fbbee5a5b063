//! Numbers from a seed (splitmix64): the same on every machine, with no crate to have.

pub struct Chance(u64);

impl Chance {
    /// The numbers of case `i`.
    pub fn new(seed: u64, i: u64) -> Self {
        let mut of_seed = Self(seed);
        let mixed = of_seed.next();
        Self(mixed ^ i.wrapping_mul(0xD6E8_FEB8_6659_FD93))
    }

    fn next(&mut self) -> u64 {
        self.0 = self.0.wrapping_add(0x9E37_79B9_7F4A_7C15);
        let mut z = self.0;
        z = (z ^ (z >> 30)).wrapping_mul(0xBF58_476D_1CE4_E5B9);
        z = (z ^ (z >> 27)).wrapping_mul(0x94D0_49BB_1331_11EB);
        z ^ (z >> 31)
    }

    /// A number below `n`, which isn't 0.
    pub fn below(&mut self, n: u64) -> u64 {
        (u128::from(self.next()) * u128::from(n) >> 64) as u64
    }

    pub fn up_to(&mut self, n: usize) -> usize {
        self.below(n as u64 + 1) as usize
    }

    /// A number of the range, both ends in it.
    pub fn within(&mut self, from: usize, to: usize) -> usize {
        from + self.up_to(to - from)
    }

    /// Once in `n`.
    pub fn once_in(&mut self, n: u64) -> bool {
        self.below(n) == 0
    }

    pub fn byte(&mut self) -> u8 {
        self.below(256) as u8
    }

    pub fn pick<'a, T: ?Sized>(&mut self, of: &[&'a T]) -> &'a T {
        of[self.up_to(of.len() - 1)]
    }

    pub fn one_of<T: Copy>(&mut self, of: &[T]) -> T {
        of[self.up_to(of.len() - 1)]
    }
}
