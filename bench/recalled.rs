//! Random types that share much, unified with a memory and without: each word of the nodes and the answer must be equal.
//! It goes on until so many stores made so many visits that something could be remembered.

use std::time::{Duration, Instant};

use crate::{
  ours::{Core, NEVER},
  shapes::{INVERSE, Pair, Side},
  shared::{FEW, entries, full},
};

const STORES: usize = 3000;
const NODES: usize = 40;
const SEED: u64 = 13;

struct Random(u64);

impl Random {
  fn below(&mut self, bound: usize) -> usize {
    self.0 = self.0.wrapping_mul(6364136223846793005).wrapping_add(1442695040888963407);
    (self.0 >> 33) as usize % bound
  }

  fn once_in(&mut self, turns: usize) -> bool {
    self.below(turns) == 0
  }

  fn of(&mut self, types: &[u32]) -> u32 {
    types[self.below(types.len())]
  }

  /// A type or, once in so many, its inverse.
  fn inverted(&mut self, t: u32, turns: usize) -> u32 {
    if self.once_in(turns) { t ^ INVERSE } else { t }
  }
}

/// Four variables, in half of the stores with a path of two steps to a root, and nil, never and an error.
fn leaves(side: &mut Core, random: &mut Random) -> Vec<u32> {
  let vars: Vec<u32> = (0..4).map(|_| side.var()).collect();
  if random.once_in(2) {
    [(0, 1), (2, 3), (1, 3)].iter().take(1 + random.below(3)).for_each(|&(i, j)| side.merge(vars[i], vars[j]));
  }
  let more = [side.tuple(&[]), side.kind(NEVER, &[]), side.error()];
  [vars, more.to_vec()].concat()
}

/// Bottoms that mostly do not unify: two leaves, or a variable and its inverse.
fn bottoms(leaves: &[u32], random: &mut Random) -> Pair {
  let (a, b) = (random.of(leaves), random.of(leaves));
  if random.once_in(3) { (a, a ^ INVERSE) } else { (a, random.inverted(b, 4)) }
}

/// A node over two of the level below and, where the level says so, a leaf between them or after.
fn over(side: &mut Core, random: &mut Random, below: &[u32], leaves: &[u32], leaf: Option<usize>, object: bool) -> u32 {
  let mut kid = |()| {
    let t = random.of(below);
    random.inverted(t, 16)
  };
  let mut kids = vec![kid(()), kid(())];
  if let Some(place) = leaf {
    let t = random.of(leaves);
    kids.insert(place, random.inverted(t, 4));
  }
  if object { side.object(&kids) } else { side.tuple(&kids) }
}

/// Two types of 12 to 14 levels, one or two nodes a side at each, at most 40 nodes in all.
fn store(random: &mut Random) -> (Core, Pair) {
  let mut side = Core::opened(NODES);
  let leaves = leaves(&mut side, random);
  let (a, b) = bottoms(&leaves, random);
  let mut sides = [vec![a], vec![b]];
  let levels = 12 + random.below(3);
  for level in 1..=levels {
    let leaf = random.once_in(4).then(|| 1 + random.below(2));
    let object = random.once_in(3);
    let spare = NODES - side.count() - 2 * (levels - level + 1);
    for below in &mut sides {
      let wide = 1 + (spare > 1 && random.once_in(3)) as usize;
      *below = (0..wide).map(|_| over(&mut side, random, below, &leaves, leaf, object)).collect();
    }
  }
  assert_eq!(side.refusal(), 0);
  (side, (sides[0][0], sides[1][0]))
}

/// What a memory may hold at the start: anything at all, or entries that stand where their pair is looked for, with the
/// clock's first number and any answer.
fn litter(memory: &mut [u32], nodes: usize, random: &mut Random) {
  let wild = random.once_in(3);
  memory.iter_mut().for_each(|word| *word = (random.below(1 << 31) * 2 + 1) as u32);
  if wild || memory.len() < 6 {
    return;
  }
  let (row, count) = (2 * nodes, (memory.len() - 2) / 4);
  for (i, entry) in memory[2..].chunks_exact_mut(4).enumerate() {
    let pair = i + count * random.below(row * row / count + 1);
    let word = |code: usize| if code % 2 == 1 { code as u32 / 2 ^ INVERSE } else { code as u32 / 2 };
    entry.copy_from_slice(&[word(pair / row), word(pair % row), 1, 1 + random.below(2) as u32]);
  }
}

/// Seven lengths, not all of them whole entries.
fn memories(nodes: usize) -> [Vec<u32>; 7] {
  let odd = [entries(2), vec![0; 3]].concat();
  [vec![0; 5], entries(1), odd, entries(7), entries(100), entries(FEW), full(nodes)]
}

#[derive(Default)]
struct Tally {
  tried: usize,
  kept: usize,
  answers: [usize; 3],
  /// Where a node changed after something could be remembered.
  changed: usize,
  without: Duration,
  with: Duration,
}

/// One store with every memory, the last with an entry for each pair.
fn compare(tally: &mut Tally, random: &mut Random) {
  let (before, (a, b)) = store(random);
  let mut plain = before.clone();
  let start = Instant::now();
  let answer = plain.unify(a, b) as u32;
  let without = start.elapsed();
  let (mut clock, mut with) = (0, without);
  for mut memory in memories(before.count()) {
    litter(&mut memory, before.count(), random);
    let mut side = before.clone();
    let start = Instant::now();
    assert_eq!(side.unify_recalling(&mut memory, a, b), answer);
    with = start.elapsed();
    assert_eq!(side.words(), plain.words());
    clock = memory[0];
  }
  tally.tried += 1;
  if clock == 0 {
    return;
  }
  tally.kept += 1;
  tally.answers[answer as usize] += 1;
  tally.changed += (clock > 1) as usize;
  tally.without += without;
  tally.with += with;
}

pub fn report() {
  let mut random = Random(SEED);
  let mut tally = Tally::default();
  while tally.kept < STORES {
    compare(&mut tally, &mut random);
  }
  let Tally { tried, kept, answers: [success, failure, indeterminate], changed, without, with } = tally;
  println!("random types that share, seed {SEED}, {tried} stores, each with 7 memories: all equal");
  println!("  {kept} begin to remember: {success} Success, {failure} Failure, {indeterminate} Indeterminate");
  println!("  in {changed} of these a node changes after that");
  println!("  in all they take {without:?} without a memory, {with:?} with an entry for each pair");
}
