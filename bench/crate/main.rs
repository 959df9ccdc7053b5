//! Times the crate in rust/ beside Vine's own `types.rs`, in one run: what their users would see. README.md of bench/ says
//! what each line is.

mod calls;
mod floor;
mod ours;
#[allow(dead_code)]
#[path = "../shapes.rs"]
mod shapes;
#[allow(dead_code)]
#[path = "../vine.rs"]
mod vine;

/// The stand-ins of compare/, and `types.rs` unchanged.
#[allow(dead_code)]
#[path = "../../compare/rust/structures"]
mod structures {
  pub mod ast;
  pub mod chart;
  pub mod diag;
  pub mod signatures;
  pub mod tir;
  pub mod types;
}

use std::{
  cell::RefCell,
  hint::black_box,
  time::{Duration, Instant},
};

use faroalder::{
  Types as Store, Words,
  lent::{Lent, names_words, open_names},
};
use ours::Ours;
use shapes::{Maker, Pair, Side};
use structures::types::{TypeCtx, Types, view};
use vine::Vine;

const NODES: usize = 4096;

/// The most that ours may take, to the Rust.
const ALLOWED: f64 = 1.2;

fn line(what: &str, ours: f64, rust: f64) {
  let ratio = ours / rust;
  let verdict = if ratio <= ALLOWED { "" } else { ", OVER" };
  println!("{what}, {ours:.1}, {rust:.1}, {ratio:.2}{verdict}");
}

/// A line of a time that the Rust has none of.
fn alone(what: &str, ours: f64) {
  println!("{what}, {ours:.1}, -, -");
}

/// The least of many turns. Whatever else runs on the machine only adds.
fn least_turn(mut turn: impl FnMut() -> Duration) -> f64 {
  let begun = Instant::now();
  let mut least = Duration::MAX;
  let mut turns = 0;
  while turns < 9 || turns < 3000 && begun.elapsed() < Duration::from_millis(400) {
    least = least.min(turn());
    turns += 1;
  }
  least.as_nanos() as f64
}

/// The time of `work` on a fresh copy.
fn once<T>(fresh: impl FnOnce() -> T, work: impl FnOnce(&mut T)) -> Duration {
  let mut copy = fresh();
  let start = Instant::now();
  work(&mut copy);
  let time = start.elapsed();
  black_box(&copy);
  time
}

/// The least time of `work` over many turns, each on a fresh copy.
fn least<T>(mut fresh: impl FnMut() -> T, mut work: impl FnMut(&mut T)) -> f64 {
  least_turn(|| once(&mut fresh, &mut work))
}

fn filled<S: Side>(nodes: usize) -> S {
  let mut side = S::opened(NODES);
  shapes::fill(&mut side, nodes);
  side
}

/// What is small: beside the Rust's behind a function that is not inlined, so that there is one call on each side, and
/// beside the Rust's in the driver's loop.
fn small(what: &str, called: [f64; 2], inlined: [f64; 2]) {
  line(what, called[0], called[1]);
  line(&format!("{what}, the Rust's inlined"), inlined[0], inlined[1]);
}

fn makers() {
  fn making<S: Side>(maker: Maker, makes: fn(&mut S, Maker, usize)) -> f64 {
    let nodes = maker.nodes(NODES);
    let calls = maker.calls(nodes);
    // Filled anew each time: the Rust's vector has room then, as one that grew has.
    least(|| filled::<S>(NODES - nodes), |side| makes(side, maker, calls)) / calls as f64
  }
  for maker in Maker::ALL {
    let called = [making(maker, Ours::makes_called), making(maker, Vine::makes_called)];
    let inlined = [making(maker, Ours::makes), making(maker, Vine::makes)];
    small(maker.name(), called, inlined);
  }
}

/// A call for each node of a filled store.
fn finding() {
  let ours: Ours = filled(NODES);
  let rust: Vine = filled(NODES);
  macro_rules! each {
    ($side:ident, $call:ident) => {
      least(|| (), |()| (0..NODES as u32).for_each(|node| _ = black_box($side.$call(node)))) / NODES as f64
    };
    (mut $side:ident, $call:ident) => {
      least(|| $side.clone(), |side| (0..NODES as u32).for_each(|node| _ = black_box(side.$call(node)))) / NODES as f64
    };
  }
  let mine = each!(ours, find);
  small("find", [mine, each!(rust, find_called)], [mine, each!(rust, find)]);
  let mine = each!(mut ours, find_mut);
  small("find_mut", [mine, each!(mut rust, find_mut_called)], [mine, each!(mut rust, find_mut)]);
  let [mine, called, inlined] = [each!(ours, kids), each!(rust, kids_called), each!(rust, kids)];
  small("kind and its children", [mine, called], [mine, inlined]);
  let mine = each!(ours, children);
  small("children", [mine, called], [mine, inlined]);
}

fn unifying() {
  fn time<S: Side>(shape: fn(&mut S) -> Vec<Pair>, count: usize) -> f64 {
    let mut full = S::opened(NODES);
    let pairs = shape(&mut full);
    let work = |side: &mut S| pairs.iter().for_each(|&(a, b)| assert_eq!(side.unify(a, b), 0));
    least(|| full.clone(), work) / count as f64
  }
  macro_rules! both {
    ($what:literal, $shape:path, $count:expr) => {
      line($what, time::<Ours>($shape, $count), time::<Vine>($shape, $count));
    };
  }
  both!("unify variables", shapes::variables, shapes::VARIABLES);
  both!("unify a chain of Refs", shapes::chains, shapes::CHAIN);
  both!("unify wide tuples", shapes::tuples, shapes::TUPLES * shapes::WIDTH);
  both!("unify objects of 64 names", shapes::objects, shapes::OBJECTS * shapes::NAMES);
}

/// What is imported: a filled store's every fourth type, a chain of Refs, wide tuples, a tree shared at every level.
fn mixed<S: Side>(side: &mut S) -> Vec<u32> {
  shapes::fill(side, 512);
  (0..512).step_by(4).collect()
}

fn chain<S: Side>(side: &mut S) -> Vec<u32> {
  vec![shapes::chain(side, shapes::CHAIN)]
}

fn shared<S: Side>(side: &mut S) -> Vec<u32> {
  vec![shapes::doubled(side)]
}

/// Into an empty store with room for all of it: the time a node of the source.
fn importing() {
  macro_rules! both {
    ($what:literal, $shape:path) => {{
      let (mut ours, mut rust) = (Ours::opened(NODES), Vine::opened(NODES));
      let (types, others) = ($shape(&mut ours), $shape(&mut rust));
      assert_eq!(types, others);
      let listed = ours::tys(&types);
      let nodes = ours.types.figures().nodes as f64;
      let open = || Ours::opened(NODES);
      let mine = least(open, |side| _ = black_box(side.types.import_types(&ours.types, &listed, None).unwrap()));
      let inner: Vec<_> = types.iter().map(|&node| view::make(node as usize, false)).collect();
      let source = TypeCtx { types: rust.types, inner };
      let theirs = least(Types::default, |types| _ = black_box(types.import(&source, None)));
      line(concat!("import of ", $what), mine / nodes, theirs / nodes);
      let mine = least(|| (), |()| _ = black_box(ours.types.export(&listed).unwrap()));
      let theirs = least(|| (), |()| _ = black_box(source.types.export(|t| t.transfer(&source.inner))));
      line(concat!("export of ", $what), mine / nodes, theirs / nodes);
    }};
  }
  both!("a mixed store", mixed);
  both!("a chain of Refs", chain);
  both!("wide tuples over the same variables", shapes::alike);
  both!("a tree shared at every level", shared);
}

/// The texts of a short type and of one of 16,706 bytes: the whole call.
fn showing() {
  const CALLS: usize = 20;
  const LONG: usize = 255;
  let names: Vec<String> = (0..shapes::NAMES).map(|i| format!("{i:03}").repeat(LONG / 3)).collect();
  let mut ours = Ours::with_rule(names.concat(), 64);
  let mut rust = Vine::opened(64);
  let (kid, other) = (ours.var(), rust.var());
  let tops = [
    ("show of 9 bytes", ours.tuple(&[kid, kid]), rust.tuple(&[other, other])),
    ("show of 16,706 bytes", ours.named(&names, kid), rust.named(&names, other)),
  ];
  for (what, top, theirs) in tops {
    assert_eq!(ours.show(top), rust.show(theirs));
    let mine = least(|| (), |()| (0..CALLS).for_each(|_| _ = black_box(ours.show(top))));
    let theirs = least(|| (), |()| (0..CALLS).for_each(|_| _ = black_box(rust.show(theirs))));
    line(what, mine / CALLS as f64, theirs / CALLS as f64);
  }
}

/// Two towers of so many levels, each level a pair of the one below twice, that differ at the bottom.
fn towers<S: Side>(side: &mut S, levels: usize) -> Pair {
  let tower = |side: &mut S, bottom| (0..levels).fold(bottom, |kid, _| side.tuple(&[kid, kid]));
  let var = side.var();
  let (one, two) = (side.tuple(&[]), side.reference(var));
  (tower(side, one), tower(side, two))
}

/// What is gained on shared types that fail.
fn failing() {
  fn time<S: Side>(levels: usize) -> f64 {
    let mut full = S::opened(NODES);
    let (a, b) = towers(&mut full, levels);
    least(|| full.clone(), |side| assert_eq!(side.unify(a, b), 1))
  }
  for levels in [4, 10, 16] {
    let what = format!("towers of {levels} that differ at the bottom, the whole call");
    line(&what, time::<Ours>(levels), time::<Vine>(levels));
  }
  alone("towers of 120 that differ at the bottom, the whole call", time::<Ours>(120));
}

fn report() {
  shapes::warm();
  println!("what, nanoseconds a call (unify: a pair) by the crate, by the Rust, ratio");
  floor::report();
  makers();
  finding();
  unifying();
  importing();
  showing();
  failing();
  naming();
}

/// Naming, returning and dropping: the crate's time, that of a plain copy of as many bytes, and that of the Rust's clone.
/// The stores have room for 4,096 nodes. Then naming by the first family of C names, which tests store and names buffer.
fn naming() {
  for nodes in [64, 512, NODES] {
    let ours = RefCell::new(filled::<Ours>(nodes).types);
    let rust: Vine = filled(nodes);
    let children = ours.borrow().figures().children as usize;
    let from = vec![1u32; 8 + 12 * nodes + 4 * children];
    let mut to = from.clone();
    let copy = least(|| (), |()| black_box(&mut to).copy_from_slice(black_box(&from)));
    let clone = least(|| (), |()| _ = black_box(rust.types.clone()));
    let name = || ours.borrow_mut().name("state").unwrap();
    let compared = |what: &str, time: f64| {
      println!("{what} {nodes} nodes, {time:.1}, {copy:.1}, {:.2}, {clone:.1}", time / copy);
    };
    compared("name", least(|| (), |()| name()));
    compared("return_to", least(|| (), |()| ours.borrow_mut().return_to("state").unwrap()));
    let dropped = least(name, |()| ours.borrow_mut().drop_name("state").unwrap());
    println!("drop_name {nodes} nodes, {dropped:.1}");
    tested(&ours.borrow(), nodes);
  }
}

/// Naming, by the first family, with one state held and with eight.
fn tested(types: &Store, nodes: usize) {
  let rules = types.chart();
  let Words { mut h, mut ws, mut ks } = types.clone().into_words();
  let mut names = vec![0; names_words(h[2], h[3])];
  assert_eq!(open_names(&mut names, h[2], h[3]), 0);
  let lent = Lent { rules: rules.rules(), h: &mut h, ws: &mut ws, ks: &mut ks };
  for held in [1, 8] {
    (0..held).for_each(|i| assert_eq!(lent.name_state(&mut names, &[i]), 0));
    let time = least(|| (), |()| assert_eq!(lent.name_state(&mut names, &[0]), 0));
    println!("name {nodes} nodes, with the tests, {held} held, {time:.1}");
  }
}

fn main() {
  // Deep recursion wants more than a main thread may have.
  let part = match std::env::args().nth(1).as_deref() {
    None => report,
    Some("calls") => calls::report,
    Some(other) => panic!("no such part: {other}"),
  };
  std::thread::Builder::new().stack_size(256 << 20).spawn(part).unwrap().join().unwrap();
}
