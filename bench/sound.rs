//! The soundness test, beside one read of the same words, a word a step; and the worst that lent words can make it do.

use std::{hint::black_box, ptr::read_volatile};

use crate::{
  SIZES, filled, least, line,
  ours::{Core, OBJECT, TUPLE},
  shapes::{self, Side},
};

const CALLS: usize = 20;

/// The time of a test, whose answer is `refusal`.
fn testing(store: &mut Core, refusal: u32) -> f64 {
  least(|| (), |()| (0..CALLS).for_each(|_| assert_eq!(store.refusal(), refusal))) / CALLS as f64
}

/// One read of all words of a store, a word a step: their sum.
fn reading(store: &Core) -> f64 {
  let sum = |words: &[u32]| words.iter().fold(0, |sum: u32, word| sum.wrapping_add(unsafe { read_volatile(word) }));
  least(|| (), |()| (0..CALLS).for_each(|_| _ = black_box(store.words().map(sum)))) / CALLS as f64
}

/// `nodes` nodes with four times as many children.
fn crowded(nodes: usize) -> Core {
  let mut side = Core::opened(nodes);
  shapes::crowd(&mut side, nodes);
  side
}

/// Tuples of four.
fn fours(nodes: usize) -> Core {
  let mut side = Core::opened(nodes);
  shapes::fours(&mut side, nodes);
  side
}

/// Stores of each size; whether eight times the store takes at most ten times the time.
fn growth(what: &str, make: fn(usize) -> Core) {
  let mut before = None;
  for size in SIZES {
    let mut store = make(size);
    let time = testing(&mut store, 0);
    line(&format!("soundness test, {what}"), size, time, None);
    let read = reading(&store);
    line("  one read of its words", size, read, None);
    println!("  {:.2} times one read", time / read);
    if let Some(before) = before {
      let grew: f64 = time / before;
      println!(
        "  {grew:.1} times the time for eight times the store: {}",
        if grew <= 10.0 { "linear" } else { "NOT linear" }
      );
    }
    before = Some(time);
  }
}

const NODES: usize = 4096;
const WIDTH: usize = 255;

/// A Known node's words: 255 children from the first on.
fn wide(code: u32) -> [u32; 12] {
  [3, 0, 1, 0, code, 0, 0, 0, 0, 0, 0, WIDTH as u32]
}

/// 4,096 nodes of which all but one are wide kinds over one run: children of the first node. Names of `len` bytes, which
/// differ in the last.
fn overlapping(code: u32, len: u32) -> Core {
  let mut ws = vec![1, 7, 1, 0, 0, 0, 0, 0, 0, 0, 0, 0];
  (1..NODES).for_each(|_| ws.extend(wide(code)));
  let mut rule = Vec::new();
  let mut ks = Vec::new();
  for i in 0..WIDTH {
    if len == 0 {
      ks.extend([0, 0, 0, 0]);
      continue;
    }
    ks.extend([0, 0, rule.len() as u32, len]);
    rule.extend(vec![b'a'; len as usize - 1]);
    rule.push(i as u8);
  }
  let h = vec![NODES as u32, WIDTH as u32, NODES as u32, WIDTH as u32, u32::MAX, u32::MAX, 0, 0];
  Core::lent(rule, h, ws, ks)
}

fn worst(what: &str, mut store: Core) {
  let time = least(|| (), |()| assert_eq!(store.refusal(), 0));
  line(&format!("soundness test, {what}"), NODES, time, None);
  println!("  {}", if time < 20e6 { "below 20 ms" } else { "NOT below 20 ms" });
}

pub fn report() {
  growth("as the makers' stores", |size| filled(size, size));
  growth("four children a node", crowded);
  growth("tuples of four", fours);
  worst("tuples of 255 over one run", overlapping(TUPLE, 0));
  worst("objects of 255 names of one byte over one run", overlapping(OBJECT, 1));
  worst("objects of 255 names of 255 bytes over one run", overlapping(OBJECT, 255));
}
