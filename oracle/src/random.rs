//! Numbers from a seed, the same on every machine.

pub struct Random(u64);

impl Random {
    /// The numbers of one case of a seed.
    pub fn of_case(seed: u64, index: u64) -> Random {
        let mut random = Random(seed);
        let mixed = random.draw() ^ index.wrapping_mul(0xd134_2543_de82_ef95);
        Random(mixed)
    }

    /// The next 64 bits, by the splitmix steps.
    pub fn draw(&mut self) -> u64 {
        self.0 = self.0.wrapping_add(0x9e37_79b9_7f4a_7c15);
        let mut mixed = self.0;
        mixed = (mixed ^ (mixed >> 30)).wrapping_mul(0xbf58_476d_1ce4_e5b9);
        mixed = (mixed ^ (mixed >> 27)).wrapping_mul(0x94d0_49bb_1331_11eb);
        mixed ^ (mixed >> 31)
    }

    pub fn below(&mut self, limit: usize) -> usize {
        (self.draw() % limit as u64) as usize
    }

    /// A number of an inclusive range.
    pub fn between(&mut self, least: usize, most: usize) -> usize {
        least + self.below(most - least + 1)
    }

    /// Yes once in so many times.
    pub fn once_in(&mut self, times: usize) -> bool {
        self.below(times) == 0
    }

    pub fn pick<'a, T>(&mut self, from: &'a [T]) -> &'a T {
        &from[self.below(from.len())]
    }

    /// Any 32-bit number, the edges and the small ones more often.
    pub fn number(&mut self) -> u32 {
        match self.below(8) {
            0 => 0,
            1 => 1,
            2 => u32::MAX - self.below(2) as u32,
            3 => 1 << self.below(32),
            4 => self.draw() as u32,
            _ => self.below(12) as u32,
        }
    }

    pub fn numbers(&mut self, count: usize) -> Vec<u32> {
        (0..count).map(|_| self.number()).collect()
    }
}
