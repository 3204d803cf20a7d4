//! Numbers that look random and are the same in every run (xorshift, 64 bits).

pub struct Numbers(u64);

impl Numbers {
    /// The numbers of a seed. Seed 0 would give zeros only.
    pub fn new(seed: u64) -> Numbers {
        assert_ne!(seed, 0);
        Numbers(seed)
    }

    /// The numbers of one part of a run, the same whatever the other parts do. Seeds and parts that
    /// are near each other have numbers that are not alike (splitmix, 64 bits).
    pub fn of_part(seed: u64, part: u64) -> Numbers {
        let mut mixed = seed.wrapping_add(part.wrapping_mul(0x9e37_79b9_7f4a_7c15));
        mixed = (mixed ^ mixed >> 30).wrapping_mul(0xbf58_476d_1ce4_e5b9);
        mixed = (mixed ^ mixed >> 27).wrapping_mul(0x94d0_49bb_1331_11eb);
        Numbers::new((mixed ^ mixed >> 31).max(1))
    }

    pub fn number(&mut self) -> u32 {
        self.0 ^= self.0 << 13;
        self.0 ^= self.0 >> 7;
        self.0 ^= self.0 << 17;
        (self.0 >> 32) as u32
    }

    /// A number below the bound.
    pub fn below(&mut self, bound: usize) -> usize {
        self.number() as usize % bound
    }

    /// True once in `times` times.
    pub fn one_in(&mut self, times: usize) -> bool {
        self.below(times) == 0
    }

    /// A row of entries of a buffer.
    pub fn entries(&mut self, length: usize) -> Vec<u16> {
        (0..length).map(|_| self.number() as u16).collect()
    }

    /// A row of bytes.
    pub fn bytes(&mut self, length: usize) -> Vec<u8> {
        (0..length).map(|_| self.number() as u8).collect()
    }

    /// The items in another order.
    pub fn shuffle<T>(&mut self, items: &mut [T]) {
        for i in (1..items.len()).rev() {
            items.swap(i, self.below(i + 1));
        }
    }
}
