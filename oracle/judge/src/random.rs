//! Numbers from a seed: splitmix64, the same on every machine.

pub struct Random(u64);

impl Random {
    pub fn new(seed: u64) -> Self {
        Self(seed)
    }

    /// The stream of one case: two that differ in seed or index share nothing.
    pub fn of_case(seed: u64, index: u64) -> Self {
        let mut first = Self::new(seed);
        let mut second = Self::new(first.next() ^ index);
        Self::new(second.next())
    }

    pub fn next(&mut self) -> u64 {
        self.0 = self.0.wrapping_add(0x9e37_79b9_7f4a_7c15);
        let mut z = self.0;
        z = (z ^ (z >> 30)).wrapping_mul(0xbf58_476d_1ce4_e5b9);
        z = (z ^ (z >> 27)).wrapping_mul(0x94d0_49bb_1331_11eb);
        z ^ (z >> 31)
    }

    /// Below `bound`, which is not 0.
    pub fn below(&mut self, bound: u64) -> u64 {
        self.next() % bound
    }

    pub fn chance(&mut self, one_in: u64) -> bool {
        self.below(one_in) == 0
    }

    pub fn pick<T: Clone>(&mut self, list: &[T]) -> T {
        list[self.below(list.len() as u64) as usize].clone()
    }

    pub fn bytes(&mut self, len: usize) -> Vec<u8> {
        (0..len).map(|_| self.next() as u8).collect()
    }

    /// A number of any size: as many low bits as chance gives, or near a power of two.
    pub fn number(&mut self) -> u64 {
        let bits = self.below(65);
        let power = if bits == 64 { 0 } else { 1_u64 << bits };
        match self.below(4) {
            0 => power,
            1 => power.wrapping_sub(1),
            2 => power.wrapping_add(1),
            _ => self.next() & power.wrapping_sub(1),
        }
    }

    pub fn word(&mut self) -> u32 {
        match self.below(3) {
            0 => self.below(300) as u32,
            1 => self.number().min(u32::MAX.into()) as u32,
            _ => self.next() as u32,
        }
    }
}
