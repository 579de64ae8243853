//! A small seeded generator of random numbers (splitmix64): the same seed, the same run.

pub struct Rng(u64);

impl Rng {
    pub fn new(seed: u64) -> Rng {
        Rng(seed)
    }

    pub fn word(&mut self) -> u64 {
        self.0 = self.0.wrapping_add(0x9E37_79B9_7F4A_7C15);
        let mut mixed = self.0;
        mixed = (mixed ^ (mixed >> 30)).wrapping_mul(0xBF58_476D_1CE4_E5B9);
        mixed = (mixed ^ (mixed >> 27)).wrapping_mul(0x94D0_49BB_1331_11EB);
        mixed ^ (mixed >> 31)
    }

    pub fn byte(&mut self) -> u8 {
        self.word() as u8
    }

    /// A number under `limit`, which is not 0.
    pub fn below(&mut self, limit: usize) -> usize {
        (self.word() % limit as u64) as usize
    }

    /// A number from `least` to `most`, where each end comes up often.
    pub fn between(&mut self, least: u8, most: u8) -> u8 {
        match self.below(8) {
            0 => least,
            1 => most,
            _ => least + self.below(usize::from(most - least) + 1) as u8,
        }
    }

    /// One of the items, of which there is at least one.
    pub fn pick<'a, T>(&mut self, items: &'a [T]) -> &'a T {
        &items[self.below(items.len())]
    }

    /// One bit of a set that is not empty.
    pub fn bit_of(&mut self, set: u64) -> u32 {
        let place = self.below(set.count_ones() as usize);
        (0..64).filter(|bit| set >> bit & 1 == 1).nth(place).expect("the set has that many bits")
    }

    /// A part of a set: none of it, little, half, most or all.
    pub fn part_of(&mut self, set: u64) -> u64 {
        let (a, b, c) = (self.word(), self.word(), self.word());
        set & *self.pick(&[0, a & b & c, a, a | b | c, u64::MAX])
    }

    /// The numbers under `count` in any order.
    pub fn order(&mut self, count: usize) -> Vec<usize> {
        let mut order: Vec<usize> = (0..count).collect();
        for place in 1..count {
            order.swap(place, self.below(place + 1));
        }
        order
    }

    pub fn bytes(&mut self, count: usize) -> Vec<u8> {
        (0..count).map(|_| self.byte()).collect()
    }
}
