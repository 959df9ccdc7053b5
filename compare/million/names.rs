//! Every word of names buffers changed, to several values, through the C names that test everything: 8 exactly where
//! `sound` says so of the buffer, and no word of store or buffer written.

use faroalder::{
  Types, Words,
  lent::{Lent, REFUSED, Rules, names_words, open_names},
};

use crate::{
  call::{Arg, Op},
  make,
  ours::Ours,
  random::Random,
  sound, words,
  world::World,
};

#[derive(Default)]
struct Count {
  buffers: u64,
  held: u64,
  changed: u64,
  unsound: u64,
  charts: u64,
  bad_charts: u64,
}

/// What is lent: a store's words and a names buffer's.
#[derive(Clone, PartialEq)]
struct All {
  words: Words,
  bs: Vec<u32>,
}

impl All {
  fn lent<'a>(&'a mut self, rules: &'a Rules) -> (Lent<'a>, &'a mut Vec<u32>) {
    let All { words: Words { h, ws, ks }, bs } = self;
    (Lent { rules, h, ws, ks }, bs)
  }
}

/// The names that are used; the last is never held.
const NAMES: [&[u8]; 9] = [b"a", b"ab", b"b", &[0], &[255, 255], &[7; 254], &[7; 255], b"state", b"none"];

/// A store that a random list left, and some of its states on the way, held under names.
fn store(random: &mut Random, world: &World, rules: &Rules) -> (All, u64) {
  let (nodes, children) = (random.between(2, 9) as u32, random.between(2, 16) as u32);
  let mut bs = vec![0; names_words(nodes, children) + 3];
  // Any words, or zeros: behind what a state uses these are what a store's unused words are.
  if random.once_in(2) {
    bs.fill_with(|| random.number());
  }
  assert_eq!(open_names(&mut bs, nodes, children), 0);
  let mut ours = Ours { world, stores: Vec::new() };
  ours.stores = (0..make::STORES).map(|_| Types::open(&world.ours, nodes, children).unwrap()).collect();
  let states = random.between(1, 8);
  let mut names = NAMES[..8].to_vec();
  let mut all = All { words: Words::default(), bs };
  for state in 0..=states {
    all.words = ours.stores[0].clone().into_words();
    if state < states {
      let name = names.swap_remove(random.below(names.len()));
      let (lent, bs) = all.lent(rules);
      assert_eq!(lent.name_state(bs, name), 0);
    }
    let most = ours.stores[0].len() + random.between(1, 3);
    for _ in 0..400 {
      if ours.stores[0].len() >= most {
        break;
      }
      let Op { call, .. } = make::one(random, world);
      let nodes: Vec<u32> = ours.stores.iter().map(|types| types.len() as u32).collect();
      let op = Op { store: 0, call }.map(|store, t: Arg| t.among(nodes[store]));
      let left = ["reset", "export", "set_room", "finish_inference"];
      if let Some(op) = op.filter(|op| !left.contains(&op.name())) {
        ours.run(&op);
      }
    }
  }
  // A place that was held and is free has words that are no part of the buffer.
  if states > 1 && random.once_in(2) {
    let name = NAMES.into_iter().find(|name| !names.contains(name)).unwrap();
    let (lent, bs) = all.lent(rules);
    assert_eq!(lent.drop_name(bs, name), 0);
    return (all, states as u64 - 1);
  }
  (all, states as u64)
}

fn refused(answer: u64) -> u32 {
  if answer < REFUSED { 0 } else { (answer - REFUSED) as u32 }
}

/// The test, and one of the calls: 2 or 8 where `sound` says so, else 12 of a name that is not held. No word is written.
fn check(rules: &Rules, all: &mut All, which: usize) -> Result<bool, String> {
  let before = all.clone();
  let says = sound::names_refusal(rules, &all.words.h, &all.words.ws, &all.words.ks, &all.bs);
  let (mut lent, bs) = all.lent(rules);
  let answer = lent.names_refusal(bs);
  if answer != says {
    return Err(format!("02 says {says}, the test {answer}"));
  }
  let wants = if says == 0 { 12 } else { says };
  let answer = match which % 6 {
    0 => lent.name_state(bs, &[]),
    1 => lent.name_state(bs, &[1; 256]),
    2 => lent.return_to(bs, b"none"),
    3 => lent.drop_name(bs, b"none"),
    4 => lent.return_to(bs, &[]),
    _ if says == 0 => lent.drop_name(bs, &[7; 256]),
    _ => lent.reset(bs),
  };
  if refused(answer) != wants {
    return Err(format!("02 says {wants}, call {} says {}", which % 6, refused(answer)));
  }
  if *all != before {
    return Err("a word changed".into());
  }
  Ok(says != 0)
}

fn changes(random: &mut Random, rules: &Rules, all: &mut All, count: &mut Count) -> Result<(), String> {
  let among = all.bs.clone();
  if check(rules, all, 2)? {
    return Err("the names buffer as it was made is unsound".into());
  }
  for i in 0..all.bs.len() {
    let was = all.bs[i];
    for value in words::values(random, was, &among) {
      all.bs[i] = value;
      let broken = check(rules, all, count.changed as usize)
        .map_err(|what| format!("word {i} of the names buffer from {was} to {value}: {what}"))?;
      count.changed += 1;
      count.unsound += u64::from(broken);
    }
    all.bs[i] = was;
  }
  // Two places' names made one, a buffer too short, one for other capacities.
  let size = (all.bs.len() - 5) / 8;
  for i in 0..8 {
    for j in 0..8 {
      let mut changed = all.clone();
      changed.bs.copy_within(2 + i * size..2 + i * size + 256, 2 + j * size);
      let broken = check(rules, &mut changed, i).map_err(|what| format!("name {i} at place {j}: {what}"))?;
      count.changed += 1;
      count.unsound += u64::from(broken);
    }
  }
  for len in [0, 1, 2, 3, 2 + size, 2 + 8 * size - 1, 2 + 8 * size] {
    let mut less = all.clone();
    less.bs.truncate(len);
    let broken = check(rules, &mut less, len).map_err(|what| format!("{len} words: {what}"))?;
    count.changed += 1;
    count.unsound += u64::from(broken);
  }
  Ok(())
}

/// The chart changed, and the store empty: what is refused with 8 then is a held state, under the present chart.
fn charts(random: &mut Random, rules: &Rules, all: &mut All, count: &mut Count) -> Result<(), String> {
  let [nodes, children] = [all.words.h[2], all.words.h[3]];
  let (mut lent, _) = all.lent(rules);
  assert_eq!(lent.open(nodes, children), 0);
  for i in 0..rules.chart.len().min(200) {
    let mut changed = rules.clone();
    let was = changed.chart[i];
    for value in words::values(random, was, &rules.chart) {
      changed.chart[i] = value;
      let broken =
        check(&changed, all, i).map_err(|what| format!("word {i} of the chart from {was} to {value}: {what}"))?;
      count.charts += 1;
      count.bad_charts += u64::from(broken);
    }
  }
  Ok(())
}

pub fn run(seed: u64, buffers: u64) -> Result<(), String> {
  let mut count = Count::default();
  for at in 0..buffers {
    let mut random = Random::new(seed.wrapping_mul(1 << 32).wrapping_add(at) ^ 0xb00c);
    let world = World::new(&mut random);
    let rules = world.ours.rules();
    let (mut all, held) = store(&mut random, &world, rules);
    count.held += held;
    changes(&mut random, rules, &mut all, &mut count)
      .and_then(|()| charts(&mut random, rules, &mut all, &mut count))
      .map_err(|what| format!("seed {seed}, names buffer {at}: {what}"))?;
    count.buffers += 1;
  }
  println!(
    "{} changed words of {} names buffers with {} states: {} give 8 where 02 says so; {} changed words of their charts: \
     {} give 2 or 8",
    count.changed, count.buffers, count.held, count.unsound, count.charts, count.bad_charts
  );
  Ok(())
}
