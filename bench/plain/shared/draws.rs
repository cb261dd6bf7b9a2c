// A linear congruential generator: the state is 0 at first, and a draw is the remainder of its upper 31 bits.
pub struct Draws(pub u64);

impl Draws {
    pub fn below(&mut self, n: u32) -> u32 {
        self.0 = self.0.wrapping_mul(6_364_136_223_846_793_005).wrapping_add(1_442_695_040_888_963_407);
        (self.0 >> 33) as u32 % n
    }
}
