//! A small generator of random numbers (splitmix64), the same for the same seed everywhere.

pub struct Random(u64);

impl Random {
    pub fn new(seed: u64) -> Self {
        Random(seed)
    }

    pub fn u64(&mut self) -> u64 {
        self.0 = self.0.wrapping_add(0x9E37_79B9_7F4A_7C15);
        let mixed = (self.0 ^ self.0 >> 30).wrapping_mul(0xBF58_476D_1CE4_E5B9);
        let mixed = (mixed ^ mixed >> 27).wrapping_mul(0x94D0_49BB_1331_11EB);
        mixed ^ mixed >> 31
    }

    /// 0 to `n` - 1; 0 for `n` 0.
    pub fn below(&mut self, n: usize) -> usize {
        (self.u64() >> 16).checked_rem(n as u64).unwrap_or(0) as usize
    }

    pub fn between(&mut self, low: usize, high: usize) -> usize {
        low + self.below(high + 1 - low.min(high))
    }

    pub fn one_in(&mut self, n: usize) -> bool {
        self.below(n) == 0
    }

    pub fn percent(&mut self, percent: usize) -> bool {
        self.below(100) < percent
    }

    pub fn byte(&mut self) -> u8 {
        self.u64() as u8
    }

    pub fn u16(&mut self) -> u16 {
        self.u64() as u16
    }

    pub fn pick<T: Copy>(&mut self, from: &[T]) -> T {
        from[self.below(from.len())]
    }

    pub fn bytes(&mut self, count: usize) -> Vec<u8> {
        (0..count).map(|_| self.byte()).collect()
    }

    pub fn array<const N: usize>(&mut self) -> [u8; N] {
        std::array::from_fn(|_| self.byte())
    }

    /// A number near the ends of two bytes as often as not.
    pub fn edge_u16(&mut self) -> u16 {
        match self.below(6) {
            0 => self.pick(&[0, 1, 2, 255, 256, 257]),
            1 => self.pick(&[65535, 65534, 32768, 32767]),
            2 => 500 + self.below(1000) as u16,
            _ => self.u16(),
        }
    }

    pub fn near_u16(&mut self, value: u16) -> u16 {
        match self.below(3) {
            0 => value.wrapping_sub(1),
            1 => value,
            _ => value.wrapping_add(1),
        }
    }

    /// `count` different numbers below `n`, in random order.
    pub fn distinct(&mut self, count: usize, n: usize) -> Vec<usize> {
        let mut numbers: Vec<usize> = (0..n).collect();
        for at in 0..n {
            let other = self.between(at, n - 1);
            numbers.swap(at, other);
        }
        numbers.truncate(count);
        numbers
    }
}
