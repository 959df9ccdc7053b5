//! Every word of sound stores changed, to several values, through the calls that test everything: 8 exactly where
//! `sound` says so, 9 where the words are an import's source, 2 where the chart is changed, and no word written.

use faroalder::{
  Types, Words,
  lent::{Lent, REFUSED, Rules},
};

use crate::{
  call::{Arg, Op},
  make,
  ours::Ours,
  random::Random,
  sound,
  world::World,
};

#[derive(Default)]
pub struct Count {
  stores: u64,
  changed: u64,
  unsound: u64,
  charts: u64,
  bad_charts: u64,
}

/// A store that a random list left, with most of its room used.
fn store(random: &mut Random, world: &World) -> Words {
  let (nodes, children) = (random.between(4, 24) as u32, random.between(4, 60) as u32);
  let mut ours = Ours { world, stores: Vec::new() };
  ours.stores = (0..make::STORES).map(|_| Types::open(&world.ours, nodes, children).unwrap()).collect();
  while ours.stores[0].len() + 2 < nodes as usize {
    let Op { call, .. } = make::one(random, world);
    let nodes: Vec<u32> = ours.stores.iter().map(|types| types.len() as u32).collect();
    let op = Op { store: 0, call }.map(|store, t: Arg| t.among(nodes[store]));
    if let Some(op) = op.filter(|op| !["reset", "export", "set_room", "finish_inference"].contains(&op.name())) {
      ours.run(&op);
    }
  }
  ours.stores.swap_remove(0).into_words()
}

/// What a word becomes.
pub fn values(random: &mut Random, was: u32, among: &[u32]) -> Vec<u32> {
  let mut values = vec![
    was ^ 1,
    was.wrapping_add(1),
    was.wrapping_sub(1),
    was ^ 1 << 31,
    0,
    1,
    2,
    3,
    15,
    255,
    u32::MAX,
    random.pick(among),
    random.number(),
  ];
  values.retain(|&value| value != was);
  values.sort();
  values.dedup();
  values
}

/// The refusal that a call gives, or 0.
fn refused(answer: u64) -> u32 {
  if answer < REFUSED { 0 } else { (answer - REFUSED) as u32 }
}

/// How many of the calls.
const CALLS: usize = 17;

/// One of the calls: each must give the same number, and write nothing.
fn called(rules: &Rules, words: &mut Words, which: usize) -> u32 {
  let Words { h, ws, ks } = words;
  let mut lent = Lent { rules, h, ws, ks };
  let (mut out, mut buf, mut one) = ([0; 12], [b'.'; 8], [0; 1]);
  let unwritten = |answer: u64, free: bool| {
    assert!(free, "a refused call wrote its answer");
    refused(answer)
  };
  match which % CALLS {
    0 => refused(lent.new_var(1)),
    1 => refused(lent.new_kind([1, 0, 0, 0, 0, 0], &[])),
    2 => refused(lent.error()),
    3 => refused(lent.nil()),
    4 => refused(lent.find(9999)),
    5 => refused(lent.find_mut(9999)),
    6 => {
      let answer = lent.node(9999, &mut out);
      unwritten(answer, out == [0; 12])
    }
    7 => {
      let answer = lent.figures(&mut out);
      unwritten(answer, out == [0; 12])
    }
    8 => refused(lent.unify(9999, 0)),
    9 => refused(lent.unify_types(&[9999], &[], false)),
    10 => {
      let answer = lent.force_kind(9999, &mut out);
      unwritten(answer, out == [0; 12])
    }
    11 => refused(lent.finish_inference()),
    12 => refused(lent.reset(&mut [])),
    15 => refused(lent.return_to(&[], b"a")),
    13 => {
      let answer = lent.show(9999, &mut buf);
      unwritten(answer, buf == [b'.'; 8])
    }
    14 => {
      let (mut fh, mut fw, mut fk) = ([7; 8], [7; 12], [7; 4]);
      let answer = lent.export([&mut fh, &mut fw, &mut fk], [1, 1], &[9999], &mut one);
      unwritten(answer, (fh, fw, fk, one) == ([7; 8], [7; 12], [7; 4], [0; 1]))
    }
    _ => refused(lent.get_mod(9999, &mut one)),
  }
}

/// The words as an import's source: into a store of their own rules.
fn as_source(rules: &Rules, words: &Words) -> u32 {
  let (mut h, mut ws, mut ks) = ([0; 8], [0; 12], [0; 4]);
  let mut lent = Lent { rules, h: &mut h, ws: &mut ws, ks: &mut ks };
  assert_eq!(lent.open(1, 1), 0);
  refused(lent.import([&words.h, &words.ws, &words.ks], &[], None, &mut []))
}

/// One changed word, or an unchanged store: the test and, where it is broken, one of the calls.
fn check(rules: &Rules, words: &mut Words, which: usize) -> Result<bool, String> {
  let before = words.clone();
  let says = sound::refusal(rules, &words.h, &words.ws, &words.ks);
  let Words { h, ws, ks } = words;
  let answer = Lent { rules, h, ws, ks }.refusal();
  if answer != says {
    return Err(format!("01 says {says}, the test {answer}"));
  }
  if says != 0 {
    let answer = called(rules, words, which);
    if answer != says {
      return Err(format!("01 says {says}, call {} says {answer}", which % CALLS));
    }
  }
  let wants = if says == 8 { 9 } else { says };
  let answer = if says == 2 { 2 } else { as_source(rules, words) };
  if answer != wants {
    return Err(format!("01 says {wants} of an import's source, the call {answer}"));
  }
  if *words != before {
    return Err("a word changed".into());
  }
  Ok(says != 0)
}

fn changes(random: &mut Random, rules: &Rules, words: &mut Words, count: &mut Count) -> Result<(), String> {
  let among: Vec<u32> = words.h.iter().chain(&words.ws).chain(&words.ks).copied().collect();
  if check(rules, words, 0)? {
    return Err("the store as it was made is unsound".into());
  }
  let lengths = [words.h.len(), words.ws.len(), words.ks.len()];
  for part in 0..3 {
    for i in 0..lengths[part] {
      let was = [&words.h, &words.ws, &words.ks][part][i];
      for value in values(random, was, &among) {
        [&mut words.h, &mut words.ws, &mut words.ks][part][i] = value;
        let which = count.changed as usize;
        let broken = check(rules, words, which).map_err(|what| {
          format!("word {i} of the {} from {was} to {value}: {what}", ["header", "nodes", "children"][part])
        })?;
        count.changed += 1;
        count.unsound += u64::from(broken);
      }
      [&mut words.h, &mut words.ws, &mut words.ks][part][i] = was;
    }
  }
  // A word too few for the room, in each part.
  for (part, enough) in [8, 12 * words.h[2] as usize, 4 * words.h[3] as usize].into_iter().enumerate() {
    let mut less = words.clone();
    [&mut less.h, &mut less.ws, &mut less.ks][part].truncate(enough.saturating_sub(1));
    let broken = check(rules, &mut less, 4).map_err(|what| format!("part {part} a word too short: {what}"))?;
    count.changed += 1;
    count.unsound += u64::from(broken);
  }
  Ok(())
}

/// The chart's words and what stands beside it, changed likewise.
fn charts(random: &mut Random, rules: &Rules, words: &mut Words, count: &mut Count) -> Result<(), String> {
  let among = rules.chart.clone();
  let places = rules.chart.len().min(200);
  for i in 0..places + 13 {
    let i = if i < places { random.below(rules.chart.len()) } else { rules.chart.len() + i - places };
    let mut changed = rules.clone();
    let was = *word(&mut changed, i);
    for value in values(random, was, if among.is_empty() { &[9] } else { &among }) {
      *word(&mut changed, i) = value;
      let broken =
        check(&changed, words, i).map_err(|what| format!("word {i} of the chart from {was} to {value}: {what}"))?;
      count.charts += 1;
      count.bad_charts += u64::from(broken);
    }
  }
  Ok(())
}

/// The chart's words, then the fn trait, then the sigils'.
fn word(rules: &mut Rules, i: usize) -> &mut u32 {
  let n = rules.chart.len();
  if i < n {
    &mut rules.chart[i]
  } else if i == n {
    &mut rules.fn_trait
  } else {
    &mut rules.sigils[i - n - 1]
  }
}

pub fn run(seed: u64, stores: u64) -> Result<(), String> {
  let mut count = Count::default();
  for at in 0..stores {
    let mut random = Random::new(seed.wrapping_mul(1 << 32).wrapping_add(at) ^ 0x5eed);
    let world = World::new(&mut random);
    let rules = world.ours.rules();
    let mut words = store(&mut random, &world);
    // Words past the room are no part of the store.
    words.ws.extend([5, 6]);
    words.ks.push(7);
    words.h.push(8);
    changes(&mut random, rules, &mut words, &mut count)
      .and_then(|()| charts(&mut random, rules, &mut words, &mut count))
      .map_err(|what| format!("seed {seed}, store {at}: {what}"))?;
    count.stores += 1;
  }
  println!(
    "{} changed words of {} sound stores: {} give 8, and 9 as an import's source, where 01 says so; {} changed words of \
     their charts: {} give 2 or 8",
    count.changed, count.stores, count.unsound, count.charts, count.bad_charts
  );
  Ok(())
}
