//! Numbers out of a seed, the same on every machine.

pub struct Random(u64);

impl Random {
    /// One stream for each part of each group, so that the cases do not depend on how many threads there are.
    pub fn new(seed: u64, group: usize, part: u32) -> Self {
        let mut random = Random(seed ^ (group as u64) << 48 ^ (part as u64) << 16);
        random.next();
        random.0 ^= random.next();
        random
    }
    pub fn next(&mut self) -> u64 {
        self.0 = self.0.wrapping_add(0x9E37_79B9_7F4A_7C15);
        let mut word = self.0;
        word = (word ^ word >> 30).wrapping_mul(0xBF58_476D_1CE4_E5B9);
        word = (word ^ word >> 27).wrapping_mul(0x94D0_49BB_1331_11EB);
        word ^ word >> 31
    }
    pub fn below(&mut self, bound: usize) -> usize {
        (((self.next() >> 32) * bound as u64) >> 32) as usize
    }
    pub fn one_in(&mut self, chance: usize) -> bool {
        self.below(chance) == 0
    }
    pub fn pick<T: Copy>(&mut self, from: &[T]) -> T {
        from[self.below(from.len())]
    }
    /// A byte that is at an edge more often than chance would have it.
    pub fn byte(&mut self) -> u8 {
        if self.one_in(4) {
            self.pick(&[0, 1, 2, 3, 4, 8, 15, 127, 128, 253, 254, 255])
        } else {
            self.next() as u8
        }
    }
    pub fn bytes(&mut self, many: usize) -> Vec<u8> {
        (0..many).map(|_| self.byte()).collect()
    }
    pub fn word(&mut self) -> u16 {
        u16::from_le_bytes([self.byte(), self.byte()])
    }
    pub fn long(&mut self) -> u32 {
        u32::from(self.word()) << 16 | u32::from(self.word())
    }
}
