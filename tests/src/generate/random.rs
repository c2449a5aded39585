//! A small seeded source of random numbers (splitmix64).

/// The source; the same seed gives the same numbers.
#[derive(Clone, Debug)]
pub struct Random(u64);

impl Random {
    /// A source with a seed.
    pub fn new(seed: u64) -> Self {
        Random(seed)
    }

    /// The next 64 random bits.
    pub fn bits(&mut self) -> u64 {
        self.0 = self.0.wrapping_add(0x9e37_79b9_7f4a_7c15);
        let mixed = (self.0 ^ (self.0 >> 30)).wrapping_mul(0xbf58_476d_1ce4_e5b9);
        let mixed = (mixed ^ (mixed >> 27)).wrapping_mul(0x94d0_49bb_1331_11eb);
        mixed ^ (mixed >> 31)
    }

    /// A number below `n`, which is not 0.
    pub fn below(&mut self, n: usize) -> usize {
        (self.bits() % n as u64) as usize
    }

    /// True once in `n` times.
    pub fn once_in(&mut self, n: usize) -> bool {
        self.below(n) == 0
    }

    /// One of the choices, of which there are some.
    pub fn pick<T: Copy>(&mut self, choices: &[T]) -> T {
        choices[self.below(choices.len())]
    }

    /// A random byte.
    pub fn byte(&mut self) -> u8 {
        self.bits() as u8
    }

    /// Random bytes.
    pub fn bytes(&mut self, length: usize) -> Vec<u8> {
        (0..length).map(|_| self.byte()).collect()
    }

    /// An identifier or address; often close to others, so that orders are decided late.
    pub fn array<const N: usize>(&mut self) -> [u8; N] {
        if self.once_in(3) {
            return std::array::from_fn(|_| self.byte());
        }
        let mut array = [self.pick(&[0, 1, 0x7f, 0x80, 0xff]); N];
        array[self.below(N)] = self.byte();
        array
    }

    /// A list's length: mostly short, at times longer.
    pub fn few(&mut self) -> usize {
        if self.once_in(12) {
            self.below(20)
        } else {
            self.below(4)
        }
    }

    /// A 32-bit number, with those at the edges of signed and unsigned ones.
    pub fn number32(&mut self) -> u32 {
        match self.below(4) {
            0 => self.pick(&[0, 1, 0x7fff_ffff, 0x8000_0000, u32::MAX]),
            1 => self.bits() as u32,
            _ => self.below(10) as u32,
        }
    }

    /// A 64-bit number, with those at the edges.
    pub fn number64(&mut self) -> u64 {
        match self.below(3) {
            0 => self.pick(&[0, 1, i64::MAX as u64, 1 << 63, u64::MAX]),
            1 => self.bits(),
            _ => self.below(1000) as u64,
        }
    }
}
