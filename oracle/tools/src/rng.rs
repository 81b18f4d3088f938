//! A small random number generator: the same numbers from the same seed on every machine.

/// splitmix64
#[derive(Clone)]
pub struct Rng(pub u64);
impl Rng {
    pub fn next(&mut self) -> u64 {
        self.0 = self.0.wrapping_add(0x9E3779B97F4A7C15);
        let mut z = self.0;
        z = (z ^ (z >> 30)).wrapping_mul(0xBF58476D1CE4E5B9);
        z = (z ^ (z >> 27)).wrapping_mul(0x94D049BB133111EB);
        z ^ (z >> 31)
    }
    pub fn below(&mut self, n: u64) -> u64 {
        (self.next() >> 11) % n
    }
    pub fn range(&mut self, a: i32, b: i32) -> i32 {
        a + self.below((b - a + 1) as u64) as i32
    }
    pub fn pct(&mut self, p: u64) -> bool {
        self.below(100) < p
    }
}
