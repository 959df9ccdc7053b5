//! Times crates/bench beside Vine's own `types.rs`, in one run. README.md says what each line is.

mod asks;
mod imports;
mod ours;
mod recalled;
mod shapes;
mod shared;
mod sound;
mod stack;
mod texts;
mod vine;

/// The stand-ins of compare/, and `types.rs` unchanged.
#[allow(dead_code)]
#[path = "../compare/rust/structures"]
mod structures {
  pub mod ast;
  pub mod chart;
  pub mod diag;
  pub mod signatures;
  pub mod tir;
  pub mod types;
}

use std::{
  hint::black_box,
  time::{Duration, Instant},
};

use ours::{Core, Public};
use shapes::{MAKES, Maker, Pair, Side};
use vine::Vine;

const SIZES: [usize; 3] = [64, 512, 4096];

/// A line of the report.
fn line(what: &str, size: usize, nanoseconds: f64, ratio: Option<f64>) {
  let ratio = ratio.map_or("-".into(), |ratio| format!("{ratio:.2}"));
  println!("{what}, {size}, {nanoseconds:.1}, {ratio}");
}

/// The least time of `work` over many turns, each on a fresh copy. Whatever else runs on the machine
/// only adds.
fn least<T>(mut fresh: impl FnMut() -> T, mut work: impl FnMut(&mut T)) -> f64 {
  let begun = Instant::now();
  let mut least = Duration::MAX;
  let mut turns = 0;
  while turns < 9 || turns < 3000 && begun.elapsed() < Duration::from_millis(400) {
    let mut copy = fresh();
    let start = Instant::now();
    work(&mut copy);
    least = least.min(start.elapsed());
    black_box(&copy);
    turns += 1;
  }
  least.as_nanos() as f64
}

fn filled<S: Side>(size: usize, nodes: usize) -> S {
  let mut side = S::opened(size);
  shapes::fill(&mut side, nodes);
  side
}

/// A maker's time a call, where the store ends with `size` nodes.
fn making<S: Side>(size: usize, maker: Maker, nodes: usize, mut makes: impl FnMut(&mut S, Maker, usize)) -> f64 {
  let calls = maker.calls(nodes);
  least(|| filled::<S>(size, size - nodes), |side| makes(side, maker, calls)) / calls as f64
}

fn makers() {
  for maker in Maker::ALL {
    let name = maker.name();
    let mut core = Vec::new();
    for size in SIZES {
      let nodes = maker.nodes(size);
      let rust = making(size, maker, nodes, Vine::makes_called);
      if maker.has_core() {
        let time = making(size, maker, nodes, Core::makes);
        core.push(time);
        line(&format!("{name} core"), size, time, Some(time / rust));
      }
      let time = making(size, maker, MAKES, Public::makes);
      line(&format!("{name} public"), size, time, Some(time / rust));
      line(&format!("{name} Rust"), size, rust, Some(1.0));
      let inlined = making(size, maker, nodes, Vine::makes);
      line(&format!("{name} Rust, inlined"), size, inlined, Some(inlined / rust));
    }
    if let [small, .., large] = core[..] {
      let grew = large / small;
      println!(
        "  {grew:.1} times the time at 64 times the store: {}",
        if grew <= 2.0 { "flat" } else { "NOT flat" }
      );
    }
  }
}

fn opening() {
  for size in SIZES {
    let core = least(|| Core::opened(size), |side| side.open());
    line("open core", size, core, None);
    let public = least(|| Public::opened(size), |side| side.open());
    line("open public", size, public, None);
  }
}

/// A shape's time a pair, of all `count` pairs that are met on the way down. Each answers Success.
fn unifying<S: Side>(shape: fn(&mut S) -> Vec<Pair>, count: usize) -> f64 {
  unifying_by(shape, count, S::unify)
}

fn unifying_by<S: Side>(
  shape: fn(&mut S) -> Vec<Pair>,
  count: usize,
  mut unify: impl FnMut(&mut S, u32, u32) -> u64,
) -> f64 {
  let mut full = S::opened(4096);
  let mut pairs = shape(&mut full);
  let each = count / pairs.len();
  pairs.truncate(S::AT_ONCE);
  let work = |side: &mut S| pairs.iter().for_each(|&(a, b)| assert_eq!(unify(side, a, b), 0));
  least(|| full.clone(), work) / (each * pairs.len()) as f64
}

macro_rules! unify {
  ($what:literal, $shape:path, $count:expr) => {
    let rust = unifying::<Vine>($shape, $count);
    let core = unifying::<Core>($shape, $count);
    line(concat!("unify ", $what, " core"), 4096, core, Some(core / rust));
    let mut memory = shared::entries(shared::FEW);
    let lent = |side: &mut Core, a, b| side.unify_recalling(&mut memory, a, b) as u64;
    let lent = unifying_by::<Core>($shape, $count, lent);
    line(concat!("unify ", $what, " core with a memory"), 4096, lent, Some(lent / rust));
    let public = unifying::<Public>($shape, $count);
    line(concat!("unify ", $what, " public"), 4096, public, Some(public / rust));
    line(concat!("unify ", $what, " Rust"), 4096, rust, Some(1.0));
  };
}

fn unify() {
  unify!("variables", shapes::variables, shapes::VARIABLES);
  unify!("chain of Refs", shapes::chains, shapes::CHAIN);
  unify!("wide tuples", shapes::tuples, shapes::TUPLES * shapes::WIDTH);
  unify!("objects of 64 names", shapes::objects, shapes::OBJECTS * shapes::NAMES);
  unify!("a variable and a 3-tuple", shapes::triples, shapes::SMALL);
  unify!("a variable and nil", shapes::nils, shapes::SMALL);
  unify!("nil and its own inverse", shapes::inverses, shapes::SMALL);
  let time = unifying::<Core>(shapes::doublings, 1);
  line("unify a variable and 120 doublings core", 122, time, None);
  let time = unifying::<Public>(shapes::doublings, 1);
  line("unify a variable and 120 doublings public", 122, time, None);
}

/// Deep recursion wants more than a main thread may have.
fn deep(work: fn()) {
  std::thread::Builder::new().stack_size(256 << 20).spawn(work).unwrap().join().unwrap();
}

fn main() {
  shapes::warm();
  let words: Vec<String> = std::env::args().collect();
  if let [_, chain, bytes] = &words[..] {
    return stack::descend(chain, bytes.parse().expect("not a number"));
  }
  if words.get(1).is_some_and(|word| word == "texts") {
    return texts::report();
  }
  if words.get(1).is_some_and(|word| word == "makers") {
    return makers();
  }
  if words.get(1).is_some_and(|word| word == "sound") {
    return sound::report();
  }
  if words.get(1).is_some_and(|word| word == "shared") {
    return shared::report();
  }
  if words.get(1).is_some_and(|word| word == "unify") {
    return deep(unify);
  }
  if words.get(1).is_some_and(|word| word == "asks") {
    return asks::report();
  }
  if words.get(1).is_some_and(|word| word == "stack") {
    return stack::report();
  }
  if words.get(1).is_some_and(|word| word == "import") {
    return imports::report();
  }
  println!("what, nodes of store, nanoseconds a call (unify: a pair), ratio to the Rust");
  sound::report();
  makers();
  opening();
  asks::report();
  deep(unify);
  imports::report();
  texts::report();
  shared::report();
  stack::report();
}
