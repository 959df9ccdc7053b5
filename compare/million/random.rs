//! Random numbers from a seed: the same seed, the same numbers.

#[derive(Clone)]
pub struct Random(u64);

impl Random {
  pub fn new(seed: u64) -> Random {
    Random(seed ^ 0x9e37_79b9_7f4a_7c15)
  }

  /// SplitMix64.
  pub fn word(&mut self) -> u64 {
    self.0 = self.0.wrapping_add(0x9e37_79b9_7f4a_7c15);
    let mut z = self.0;
    z = (z ^ (z >> 30)).wrapping_mul(0xbf58_476d_1ce4_e5b9);
    z = (z ^ (z >> 27)).wrapping_mul(0x94d0_49bb_1331_11eb);
    z ^ (z >> 31)
  }

  pub fn number(&mut self) -> u32 {
    self.word() as u32
  }

  /// One of 0 to n - 1.
  pub fn below(&mut self, n: usize) -> usize {
    (self.word() % n as u64) as usize
  }

  pub fn between(&mut self, from: usize, to: usize) -> usize {
    from + self.below(to - from + 1)
  }

  /// True once in n times.
  pub fn once_in(&mut self, n: usize) -> bool {
    self.below(n) == 0
  }

  pub fn pick<T: Clone>(&mut self, items: &[T]) -> T {
    items[self.below(items.len())].clone()
  }

  pub fn list<T>(&mut self, n: usize, mut item: impl FnMut(&mut Random) -> T) -> Vec<T> {
    (0..n).map(|_| item(self)).collect()
  }
}
