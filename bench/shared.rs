//! Types that share much and do not unify: the remembering form beside the plain one and the Rust. Each level is a pair
//! over the level below, so the plain rule visits 2^levels pairs.

use std::{
  hint::black_box,
  time::{Duration, Instant},
};

use crate::{
  least, line,
  ours::Core,
  recalled,
  shapes::{Pair, Side},
  vine::Vine,
};

const LEVELS: usize = 120;

/// So many visits are made before anything is remembered.
const VISITS: u32 = 4096;

/// What a memory is made of: two words, and four an entry.
pub fn entries(count: usize) -> Vec<u32> {
  vec![0; 131 + 4 * count]
}

/// An entry for each pair of types of so many nodes.
pub fn full(nodes: usize) -> Vec<u32> {
  entries((2 * nodes).pow(2))
}

/// A small memory, in which pairs share entries.
pub const FEW: usize = 2047;

/// What the bottoms of two types answer.
#[derive(Clone, Copy)]
enum Bottom {
  Failure = 1,
  Indeterminate = 2,
}

use Bottom::{Failure, Indeterminate};

impl Bottom {
  /// A pair of new nodes that answers this: nil and a Ref, nil and an error.
  fn pair<S: Side>(self, side: &mut S) -> Pair {
    let nil = side.tuple(&[]);
    let other = match self {
      Failure => side.reference(nil),
      Indeterminate => side.error(),
    };
    (nil, other)
  }
}

type Shape<S> = fn(&mut S, usize, Bottom) -> Pair;

/// Each level is a pair of the one below twice.
fn twice<S: Side>(side: &mut S, levels: usize, bottom: Bottom) -> Pair {
  let (a, b) = bottom.pair(side);
  let mut tower = |end| (0..levels).fold(end, |kid, _| side.tuple(&[kid, kid]));
  (tower(a), tower(b))
}

/// Each level has two nodes a side, different but alike, over the two below; one of the four has them in the other order, so
/// that each of a level is met with both of the other side.
fn alike<S: Side>(side: &mut S, levels: usize, bottom: Bottom) -> Pair {
  let ((mut a, mut b), (mut c, mut d)) = (bottom.pair(side), bottom.pair(side));
  for _ in 0..levels {
    let (e, f) = (side.tuple(&[a, c]), side.tuple(&[c, a]));
    let (g, h) = (side.tuple(&[b, d]), side.tuple(&[b, d]));
    (a, c, b, d) = (e, f, g, h);
  }
  (a, b)
}

/// Each level has the one below twice, and between them a variable, so that a node changes between the two visits and all is
/// forgotten.
fn binding<S: Side>(side: &mut S, levels: usize, bottom: Bottom) -> Pair {
  let (a, b) = bottom.pair(side);
  let mut tower = |end| {
    (0..levels).fold(end, |kid, _| {
      let var = side.var();
      side.tuple(&[kid, var, kid])
    })
  };
  (tower(a), tower(b))
}

/// As `alike`, but the two pairs that are met at a level have one entry in a memory of 2,047, if the store has 256 nodes: the
/// numbers are chosen for that. Each takes the other's place, and nothing is gained.
fn clashing<S: Side>(side: &mut S, levels: usize, bottom: Bottom) -> Pair {
  let (mut a, mut b) = bottom.pair(side);
  let (mut c, mut d) = (a, b);
  let mut made = 2;
  for _ in 0..levels {
    let e = side.tuple(&[a, c]);
    let (g, h) = (side.tuple(&[d, b]), side.tuple(&[d, b]));
    side.var();
    let f = side.tuple(&[a, c]);
    (a, c, b, d) = (e, f, g, h);
    made += 5;
  }
  (made..256).for_each(|_| _ = side.var());
  (a, d)
}

/// A shape's time by the core with that memory, which begins as the turn before left it.
fn recalling(shape: Shape<Core>, levels: usize, bottom: Bottom, memory: impl Fn(usize) -> Vec<u32>) -> (f64, usize) {
  let mut side = Core::opened(1024);
  let (a, b) = shape(&mut side, levels, bottom);
  let mut memory = memory(side.count());
  let work = |side: &mut Core| assert_eq!(side.unify_recalling(&mut memory, a, b), bottom as u32);
  (least(|| side.clone(), work), side.count())
}

/// The least of three turns: what does not succeed here changes no node.
fn plain<S: Side>(shape: Shape<S>, levels: usize, bottom: Bottom) -> f64 {
  let mut side = S::opened(1024);
  let (a, b) = shape(&mut side, levels, bottom);
  let mut least = Duration::MAX;
  for _ in 0..3 {
    let start = Instant::now();
    assert_eq!(side.unify(a, b), bottom as u64);
    least = least.min(start.elapsed());
  }
  black_box(&side);
  least.as_nanos() as f64
}

/// The visits that the memory counted, before it began to remember.
fn counted(shape: Shape<Core>, levels: usize, bottom: Bottom) -> u32 {
  let mut side = Core::opened(1024);
  let (a, b) = shape(&mut side, levels, bottom);
  let mut memory = entries(1);
  side.unify_recalling(&mut memory, a, b);
  assert_eq!(memory[0], 0);
  VISITS - memory[1]
}

/// A pair and the two below it, each time: 2^(levels + 1) - 1, as the rule says.
fn visits() {
  for (what, shape) in [("a pair twice", twice as Shape<Core>), ("different but alike", alike)] {
    for bottom in [Failure, Indeterminate] {
      (0..=11).for_each(|levels| assert_eq!(counted(shape, levels, bottom), (2 << levels) - 1));
    }
    println!("visits of {what}, 0 to 11 levels: 2^(levels + 1) - 1");
  }
}

fn small(_: usize) -> Vec<u32> {
  entries(FEW)
}

fn one(_: usize) -> Vec<u32> {
  entries(1)
}

fn deep() {
  for (what, shape) in [("a pair twice", twice as Shape<Core>), ("different but alike", alike)] {
    for (bottom, answer) in [(Failure, "Failure"), (Indeterminate, "Indeterminate")] {
      let (time, nodes) = recalling(shape, LEVELS, bottom, full);
      line(&format!("{what}, {LEVELS} levels, {answer}, an entry for each pair"), nodes, time, None);
      let (time, nodes) = recalling(shape, LEVELS, bottom, small);
      line(&format!("{what}, {LEVELS} levels, {answer}, {FEW} entries"), nodes, time, None);
    }
  }
  for (what, memory) in [("an entry for each pair", full as fn(usize) -> Vec<u32>), ("2047 entries", small)] {
    let (time, nodes) = recalling(binding, LEVELS, Failure, memory);
    line(&format!("a variable between, {LEVELS} levels, Failure, {what}"), nodes, time, None);
  }
  let (time, nodes) = recalling(twice, LEVELS, Failure, one);
  line(&format!("a pair twice, {LEVELS} levels, Failure, 1 entry"), nodes, time, None);
  let (time, nodes) = recalling(clashing, 50, Failure, full);
  line("clashing, 50 levels, Failure, an entry for each pair", nodes, time, None);
}

fn growing() {
  for levels in [16, 18, 20, 22] {
    let rust = plain::<Vine>(twice, levels, Failure);
    let core = plain::<Core>(twice, levels, Failure);
    let (time, nodes) = recalling(twice, levels, Failure, small);
    line(&format!("a pair twice, {levels} levels, remembering"), nodes, time, Some(time / rust));
    line(&format!("a pair twice, {levels} levels, plain"), nodes, core, Some(core / rust));
    line(&format!("a pair twice, {levels} levels, Rust"), nodes, rust, Some(1.0));
  }
  for levels in [16, 18, 20] {
    let (time, nodes) = recalling(clashing, levels, Failure, small);
    line(&format!("clashing, {levels} levels, {FEW} entries"), nodes, time, None);
  }
}

pub fn report() {
  println!("what, nodes of store, nanoseconds a call, ratio to the Rust");
  visits();
  deep();
  growing();
  recalled::report();
}
