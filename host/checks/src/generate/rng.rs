//! A small generator of numbers (splitmix64): the same seed gives the same inputs.

pub struct Rng(u64);

impl Rng {
    pub fn new(seed: u64) -> Rng {
        Rng(seed.wrapping_mul(0x9E37_79B9_7F4A_7C15) ^ 0x5851_F42D_4C95_7F2D)
    }

    fn bits(&mut self) -> u64 {
        self.0 = self.0.wrapping_add(0x9E37_79B9_7F4A_7C15);
        let mut z = self.0;
        z = (z ^ (z >> 30)).wrapping_mul(0xBF58_476D_1CE4_E5B9);
        z = (z ^ (z >> 27)).wrapping_mul(0x94D0_49BB_1331_11EB);
        z ^ (z >> 31)
    }

    /// A number from 0 to `limit` - 1; `limit` is at least 1.
    pub fn below(&mut self, limit: usize) -> usize {
        (self.bits() % limit as u64) as usize
    }

    /// Both ends belong to it.
    pub fn between(&mut self, from: usize, to: usize) -> usize {
        from + self.below(to - from + 1)
    }

    pub fn one_in(&mut self, n: usize) -> bool {
        self.below(n) == 0
    }

    pub fn pick<'a, T: ?Sized>(&mut self, choices: &[&'a T]) -> &'a T {
        choices[self.below(choices.len())]
    }

    pub fn byte(&mut self) -> u8 {
        self.bits() as u8
    }

    /// A byte other than the one given.
    pub fn other_byte(&mut self, byte: u8) -> u8 {
        byte.wrapping_add(self.between(1, 255) as u8)
    }

    pub fn digits(&mut self, k: usize) -> Vec<u8> {
        self.from_alphabet(b"0123456789", k)
    }

    pub fn from_alphabet(&mut self, alphabet: &[u8], k: usize) -> Vec<u8> {
        (0..k).map(|_| alphabet[self.below(alphabet.len())]).collect()
    }
}
