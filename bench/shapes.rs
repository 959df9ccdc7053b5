//! The stores that are timed, built alike on each side. Nodes are numbered in the order made, on both sides.

/// A store of one side: ours by core functions, ours by public calls, or the Rust's.
pub trait Side: Clone {
  /// How many calls of `unify` are timed at once, so that a turn stays short.
  const AT_ONCE: usize;
  /// Room for `nodes` nodes and four times as many children.
  fn opened(nodes: usize) -> Self;
  fn var(&mut self) -> u32;
  fn tuple(&mut self, kids: &[u32]) -> u32;
  /// The names are the first ones of `name`, in order.
  fn object(&mut self, kids: &[u32]) -> u32;
  fn reference(&mut self, kid: u32) -> u32;
  fn structure(&mut self, kids: &[u32]) -> u32;
  fn error(&mut self) -> u32;
  /// Two types that unify, where no time is taken.
  fn merge(&mut self, a: u32, b: u32);
  /// 0 Success, 1 Failure, 2 Indeterminate.
  fn unify(&mut self, a: u32, b: u32) -> u64;
  /// What is timed: so many calls of one maker.
  fn makes(&mut self, maker: Maker, calls: usize);
}

/// The bit of a type that says its inverse.
pub const INVERSE: u32 = 1 << 31;

pub type Pair = (u32, u32);

/// Once a large block was freed the allocator keeps such blocks at hand. Else each fresh store would be mapped anew, and its pages'
/// first touch timed.
pub fn warm() {
  drop(std::hint::black_box(vec![1u8; 16 << 20]));
}

/// How many nodes a maker makes while it is timed, at the least.
pub const MAKES: usize = 32;

/// How many variables a call of `new_vars` makes.
pub const VARS: usize = 8;

/// The children of each tuple, struct and union that is timed: nodes that each filled store has.
pub const KIDS: [u32; 3] = [0, 1, 2];

#[derive(Clone, Copy, PartialEq)]
pub enum Maker {
  Var,
  Vars,
  Tuple,
  Struct,
  Union,
  Error,
  Nil,
}

impl Maker {
  pub const ALL: [Maker; 7] =
    [Maker::Var, Maker::Vars, Maker::Tuple, Maker::Struct, Maker::Union, Maker::Error, Maker::Nil];

  pub fn name(self) -> &'static str {
    match self {
      Maker::Var => "new_var",
      Maker::Vars => "new_vars of 8",
      Maker::Tuple => "new of a 3-tuple",
      Maker::Struct => "new_struct over 3",
      Maker::Union => "new_union over 3",
      Maker::Error => "error",
      Maker::Nil => "nil",
    }
  }

  /// How many nodes are made while it is timed, in a store that ends with `size`. What takes a nanosecond or two is called often, so
  /// that the clock's own time is little of a turn; what allocates on the Rust's side is not, so that its allocator has the room of a
  /// store that was dropped at hand.
  pub fn nodes(self, size: usize) -> usize {
    if matches!(self, Maker::Var | Maker::Error | Maker::Nil) { (size / 4).max(MAKES) } else { MAKES }
  }

  /// How many calls make them; `error` and `nil` make theirs at the first.
  pub fn calls(self, nodes: usize) -> usize {
    if self == Maker::Vars { nodes / VARS } else { nodes }
  }

  /// `new_struct` and `new_union` are `new` in the core.
  pub fn has_core(self) -> bool {
    !matches!(self, Maker::Struct | Maker::Union)
  }
}

/// The i-th name: three bytes, strictly ascending.
pub fn name(i: usize) -> String {
  format!("n{i:02}")
}

/// `nodes` nodes: variables, some merged, tuples, objects, structs and Refs over nodes made before.
pub fn fill<S: Side>(side: &mut S, nodes: usize) {
  let mut seed: u32 = 1;
  for at in 0..nodes as u32 {
    let mut any = || {
      seed = seed.wrapping_mul(1664525).wrapping_add(1013904223);
      (seed >> 8) % at
    };
    let made = match at % 8 {
      2 => side.tuple(&[any(), any(), any()]),
      3 => side.object(&[any(), any()]),
      4 => side.reference(any()),
      5 => side.structure(&[any(), any()]),
      6 => side.tuple(&[any(), any(), any(), any()]),
      _ => side.var(),
    };
    assert_eq!(made, at);
    if at % 8 == 1 {
      side.merge(at - 1, at);
    }
  }
}

/// `nodes` nodes with four times as many children, over nodes made before.
pub fn crowd<S: Side>(side: &mut S, nodes: usize) {
  let mut seed: u32 = 1;
  for at in 0..nodes as u32 {
    let mut kids = |count: usize| -> Vec<u32> {
      let any = |_| {
        seed = seed.wrapping_mul(1664525).wrapping_add(1013904223);
        (seed >> 8) % at
      };
      (0..count).map(any).collect()
    };
    let made = match at % 8 {
      2 => side.tuple(&kids(8)),
      3 => side.object(&kids(8)),
      4 => side.reference(kids(1)[0]),
      5 => side.structure(&kids(7)),
      6 => side.tuple(&kids(8)),
      _ => side.var(),
    };
    assert_eq!(made, at);
    if at % 8 == 1 {
      side.merge(at - 1, at);
    }
  }
}

/// A variable, then tuples of four nodes made before, and at the end one of eight.
pub fn fours<S: Side>(side: &mut S, nodes: usize) {
  let mut seed: u32 = 1;
  side.var();
  for at in 1..nodes as u32 {
    let any = |_| {
      seed = seed.wrapping_mul(1664525).wrapping_add(1013904223);
      (seed >> 8) % at
    };
    let count = if at as usize == nodes - 1 { 8 } else { 4 };
    let kids: Vec<u32> = (0..count).map(any).collect();
    side.tuple(&kids);
  }
}

pub const VARIABLES: usize = 2048;

/// Each variable of the first half with one of the second.
pub fn variables<S: Side>(side: &mut S) -> Vec<Pair> {
  (0..2 * VARIABLES).for_each(|_| _ = side.var());
  (0..VARIABLES as u32).map(|i| (i, i + VARIABLES as u32)).collect()
}

pub const CHAIN: usize = 2048;

/// A chain of so many nodes: Refs down to a variable.
pub fn chain<S: Side>(side: &mut S, nodes: usize) -> u32 {
  let end = side.var();
  (1..nodes).fold(end, |kid, _| side.reference(kid))
}

/// Two chains of Refs, each down to a variable.
pub fn chains<S: Side>(side: &mut S) -> Vec<Pair> {
  vec![(chain(side, CHAIN), chain(side, CHAIN))]
}

pub const TUPLES: usize = 8;
pub const WIDTH: usize = 255;

fn vars<S: Side>(side: &mut S, count: usize) -> Vec<u32> {
  (0..count).map(|_| side.var()).collect()
}

/// Pairs of tuples of 255 variables.
pub fn tuples<S: Side>(side: &mut S) -> Vec<Pair> {
  let mut tuple = |()| {
    let kids = vars(side, WIDTH);
    side.tuple(&kids)
  };
  (0..TUPLES).map(|_| (tuple(()), tuple(()))).collect()
}

/// Tuples over the same 255 variables.
pub fn alike<S: Side>(side: &mut S) -> Vec<u32> {
  let kids = vars(side, WIDTH);
  (0..TUPLES).map(|_| side.tuple(&kids)).collect()
}

pub const OBJECTS: usize = 31;
pub const NAMES: usize = 64;

/// Pairs of objects of 64 names over variables.
pub fn objects<S: Side>(side: &mut S) -> Vec<Pair> {
  let mut object = |()| {
    let kids = vars(side, NAMES);
    side.object(&kids)
  };
  (0..OBJECTS).map(|_| (object(()), object(()))).collect()
}

/// How many small pairs of a kind are timed.
pub const SMALL: usize = 512;

/// A variable and a tuple of three others, each pair its own.
pub fn triples<S: Side>(side: &mut S) -> Vec<Pair> {
  let mut triple = |_| {
    let kids = vars(side, 3);
    (side.var(), side.tuple(&kids))
  };
  (0..SMALL).map(&mut triple).collect()
}

/// A variable and an empty tuple, each pair its own.
pub fn nils<S: Side>(side: &mut S) -> Vec<Pair> {
  (0..SMALL).map(|_| (side.var(), side.tuple(&[]))).collect()
}

/// Empty tuples, each with its own inverse.
pub fn inverses<S: Side>(side: &mut S) -> Vec<Pair> {
  let mut pair = |_| {
    let nil = side.tuple(&[]);
    (nil, nil | INVERSE)
  };
  (0..SMALL).map(&mut pair).collect()
}

pub const DOUBLINGS: usize = 120;

/// Tuples over a variable, each with the one before as both children.
pub fn doubled<S: Side>(side: &mut S) -> u32 {
  let end = side.var();
  (0..DOUBLINGS).fold(end, |kid, _| side.tuple(&[kid, kid]))
}

/// A variable, and 120 doublings over another.
pub fn doublings<S: Side>(side: &mut S) -> Vec<Pair> {
  vec![(side.var(), doubled(side))]
}
