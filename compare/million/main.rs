//! Random lists of calls through the crate and through Vine's own `types.rs`, in one process. README.md says more.

mod answer;
mod call;
mod limits;
mod make;
mod names;
mod ours;
mod random;
mod rules;
mod run;
mod sound;
mod vine;
mod words;
mod world;

/// The stand-ins of compare/, and `types.rs` unchanged.
#[allow(dead_code)]
#[path = "../rust/structures"]
mod structures {
  pub mod ast;
  pub mod chart;
  pub mod diag;
  pub mod signatures;
  pub mod tir;
  pub mod types;
}

use std::{process::exit, time::Instant};

use random::Random;
use run::Count;
use world::World;

/// The calls that a run makes if it isn't told, and the stores whose words it changes.
const CALLS: u64 = 1_000_000;
const STORES: u64 = 40;

struct Options {
  seed: u64,
  calls: u64,
  stores: u64,
  /// Short lists alone, on small stores.
  small: bool,
  /// One list of the run alone.
  list: Option<u64>,
}

fn options() -> Options {
  let mut options = Options { seed: 1, calls: CALLS, stores: STORES, small: false, list: None };
  let mut words = std::env::args().skip(1);
  while let Some(word) = words.next() {
    let mut number = || words.next().and_then(|word| word.parse().ok()).expect("a number is missing");
    match word.as_str() {
      "--seed" => options.seed = number(),
      "--calls" => options.calls = number(),
      "--stores" => options.stores = number(),
      "--small" => options.small = true,
      "--list" => options.list = Some(number()),
      _ => panic!("not an option: {word}"),
    }
  }
  options
}

/// A list's own random numbers, from the run's seed and its place.
fn random(seed: u64, list: u64) -> Random {
  Random::new(seed.wrapping_mul(1 << 32).wrapping_add(list))
}

fn one(seed: u64, list: u64, small: bool, count: &mut Count) {
  let mut random = random(seed, list);
  let world = World::new(&mut random);
  let calls = make::list(&mut random, &world, small);
  if run::run(&world, &calls, count).is_err() {
    let (short, difference) = run::shrink(&world, calls);
    println!("seed {seed}, list {list}: a difference; {} calls are enough:", short.ops.len());
    println!("rooms {:?}", short.rooms);
    difference.done.iter().for_each(|line| println!("  {line}"));
    println!("{}", difference.what);
    println!("repeat with --seed {seed} --list {list}{}", if small { " --small" } else { "" });
    exit(1);
  }
}

fn lists() {
  let Options { seed, calls, stores, small, list } = options();
  let begun = Instant::now();
  let mut count = Count::default();
  if let Some(list) = list {
    std::panic::set_hook(Box::new(|_| {}));
    one(seed, list, small, &mut count);
    return count.report();
  }
  limits::run();
  if let Err(what) = words::run(seed, stores).and_then(|()| names::run(seed, stores)) {
    println!("{what}");
    exit(1);
  }
  println!("  {:.0} s", begun.elapsed().as_secs_f64());
  std::panic::set_hook(Box::new(|_| {}));
  let begun = Instant::now();
  let mut list = 0;
  let mut said = 0;
  while count.calls < calls {
    one(seed, list, small, &mut count);
    list += 1;
    if count.calls / 100_000 > said {
      said = count.calls / 100_000;
      eprintln!("{} calls in {} lists, {:.0} s", count.calls, list, begun.elapsed().as_secs_f64());
    }
  }
  println!("seed {seed}, {list} lists, {:.0} s", begun.elapsed().as_secs_f64());
  count.report();
}

fn main() {
  // Deep recursion wants more than a main thread may have.
  std::thread::Builder::new().stack_size(1 << 30).spawn(lists).unwrap().join().unwrap();
}
