//! Any words at all, of any lengths, to the calls that test everything: an answer or a refusal comes out, and a refusal
//! has written nothing. What makes this worth running is a tool that watches memory.

use faroalder::lent::{Lent, OUT, REFUSED, Rules, names_words, open_names};

/// Random numbers from a seed.
struct Random(u64);

impl Random {
  fn next(&mut self) -> u32 {
    self.0 = self.0.wrapping_mul(6_364_136_223_846_793_005).wrapping_add(1_442_695_040_888_963_407);
    (self.0 >> 33) as u32
  }

  fn below(&mut self, n: u32) -> u32 {
    self.next() % n
  }

  /// A number that is small, mostly.
  fn word(&mut self) -> u32 {
    match self.below(12) {
      0 => self.next(),
      1 => u32::MAX - self.below(3),
      2 => (1 << 31) + self.below(6),
      3 => 4094 + self.below(4),
      _ => self.below(6),
    }
  }

  fn words(&mut self, most: u32) -> Vec<u32> {
    (0..self.below(most + 1)).map(|_| self.word()).collect()
  }

  fn bytes(&mut self, most: u32) -> Vec<u8> {
    (0..self.below(most + 1)).map(|_| self.next() as u8).collect()
  }
}

fn rules(random: &mut Random) -> Rules {
  let chart = if random.below(3) == 0 { random.words(30) } else { Vec::new() };
  let mut sigils = [0; 12];
  if random.below(4) == 0 {
    sigils.fill_with(|| random.word());
  }
  let fn_trait = if random.below(4) == 0 { random.word() } else { u32::MAX };
  Rules { chart, fn_trait, sigils, rule: random.bytes(20), text: random.bytes(20) }
}

/// Every call once, with random arguments. What it answers isn't looked at, only that a refusal writes nothing.
fn every_call(random: &mut Random, rules: &Rules, words: [&mut [u32]; 4]) {
  let [h, ws, ks, bs] = words;
  let mut lent = Lent { rules, h, ws, ks };
  for call in 0..34 {
    let before = [lent.h.to_vec(), lent.ws.to_vec(), lent.ks.to_vec(), bs.to_vec()];
    let (a, b) = (random.word(), random.word());
    let (xs, ys) = (random.words(8), random.words(8));
    let mut out = random.words(8);
    let mut bytes = random.bytes(16);
    let (mut one, mut three, mut twelve) = ([7], [7; 3], [7; OUT]);
    let flag = random.below(2) == 1;
    let answer = match call {
      0 => lent.new_var(a),
      1 => lent.new_vars(a, b, &mut out),
      2 => {
        lent.new_kind([a % 17, b, random.word(), random.word(), random.word(), random.word()], &xs)
      }
      3 => lent.new_struct(a, &xs),
      4 => lent.new_union(a, &xs),
      5 => lent.error(),
      6 => lent.nil(),
      7 => lent.find(a),
      8 => lent.find_mut(a),
      9 => lent.node(a, &mut twelve),
      10 => lent.child(a, b, &mut one),
      11 => lent.child_name(a, b, &mut three),
      12 => lent.figures(&mut twelve),
      13 => lent.is_nil(a),
      14 => lent.self_inverse_param(a, flag),
      15 => lent.get_mod(a, &mut one),
      16 => lent.find_related(&mut bytes, a),
      17 => lent.force_kind(a, &mut twelve),
      18 => lent.finish_inference_where(&bytes),
      19 => lent.unify(a, b),
      20 => lent.unify_types(&xs, &ys, flag),
      21 => lent.unify_objects(&xs, &ys, flag),
      22 => lent.unify_fn_sig(&xs, a, &ys, b),
      23 => lent.unify_impl_type((a, &xs), (b, &ys)),
      24 => lent.approx_eq((a, &xs), (b, &ys)),
      25 => lent.show(a, &mut bytes),
      26 => lent.show_impl_type((a, &xs), &mut bytes),
      27 => {
        let source = [random.words(10), random.words(30), random.words(10)];
        let params = flag.then_some(&ys[..]);
        lent.import([&source[0], &source[1], &source[2]], &xs, params, &mut out)
      }
      28 => {
        let mut into = [random.words(10), random.words(30), random.words(10)];
        let [fh, fw, fk] = &mut into;
        lent.export([fh, fw, fk], [a, b], &xs, &mut out)
      }
      29 if flag => lent.finish_inference(),
      30 if random.below(8) == 0 => lent.reset(bs),
      31 => lent.name_state(bs, &bytes[..bytes.len().min(2)]),
      32 => lent.return_to(bs, &bytes[..bytes.len().min(2)]),
      33 => lent.drop_name(bs, &bytes[..bytes.len().min(2)]),
      _ => 0,
    };
    if answer >= REFUSED {
      assert!((1..=13).contains(&(answer - REFUSED)), "call {call} answers {answer}");
      let now = [lent.h.to_vec(), lent.ws.to_vec(), lent.ks.to_vec(), bs.to_vec()];
      assert!(before == now, "call {call} wrote");
      assert!((one, three, twelve) == ([7], [7; 3], [7; OUT]), "call {call} wrote its answer");
    }
  }
}

#[test]
fn words_of_any_sort() {
  let mut random = Random(1);
  for _ in 0..300 {
    let rules = rules(&mut random);
    let [mut h, mut ws, mut ks] = [random.words(10), random.words(60), random.words(30)];
    let mut bs = random.words(3000);
    every_call(&mut random, &rules, [&mut h, &mut ws, &mut ks, &mut bs]);
  }
}

#[test]
fn stores_that_are_opened_and_one_word_of_which_is_changed() {
  let mut random = Random(2);
  for _ in 0..300 {
    let rules = rules(&mut random);
    let (nodes, children) = (random.below(8), random.below(12));
    let mut h = vec![0; 8];
    let mut ws = vec![0; 12 * nodes as usize];
    let mut ks = vec![0; 4 * children as usize];
    assert_eq!(
      Lent { rules: &rules, h: &mut h, ws: &mut ws, ks: &mut ks }.open(nodes, children),
      0
    );
    let mut bs = vec![7; names_words(nodes, children)];
    assert_eq!(open_names(&mut bs, nodes, children), 0);
    for _ in 0..4 {
      every_call(&mut random, &rules, [&mut h, &mut ws, &mut ks, &mut bs]);
    }
    let parts = [&mut h, &mut ws, &mut ks, &mut bs];
    let part = parts.into_iter().nth(random.below(4) as usize).unwrap();
    if !part.is_empty() {
      let i = random.below(part.len() as u32) as usize;
      part[i] = random.word();
    }
    every_call(&mut random, &rules, [&mut h, &mut ws, &mut ks, &mut bs]);
  }
}

#[test]
fn nothing_is_lent() {
  let rules =
    Rules { chart: vec![], fn_trait: u32::MAX, sigils: [0; 12], rule: vec![], text: vec![] };
  every_call(&mut Random(3), &rules, [&mut [], &mut [], &mut [], &mut []]);
  let mut lent = Lent { rules: &rules, h: &mut [0; 8], ws: &mut [], ks: &mut [] };
  assert_eq!(lent.open(0, 0), 0);
  assert_eq!(lent.refusal(), 0);
  assert_eq!(lent.new_var(1), REFUSED + 10);
}

/// A node's children are the words where its own words say, which is where the crate reads them.
#[test]
fn children_lie_where_a_node_says() {
  const TUPLE: u32 = 1;
  const OBJECT: u32 = 2;
  let rules =
    Rules { chart: vec![], fn_trait: u32::MAX, sigils: [0; 12], rule: b"xy".into(), text: vec![] };
  let mut lent = Lent { rules: &rules, h: &mut [0; 8], ws: &mut [0; 48], ks: &mut [0; 16] };
  assert_eq!(lent.open(4, 4), 0);
  assert_eq!(lent.new_var(7), 0);
  assert_eq!(lent.new_kind([TUPLE, 0, 0, 0, 0, 0], &[1 << 31, 0, 0, 0, 0, 0, 0, 0]), 1);
  assert_eq!(lent.new_kind([OBJECT, 0, 0, 0, 0, 0], &[1, 0, 0, 1, 1 << 31, 0, 1, 1]), 2);
  for t in 0..3 {
    let mut out = [0; OUT];
    assert_eq!(lent.node(t, &mut out), if t == 0 { 1 } else { 3 });
    let [.., first, count] = out;
    for j in 0..count {
      let (mut ty, mut name) = ([0], [0; 3]);
      assert_eq!(lent.child(t, j, &mut ty), 1);
      assert_eq!(lent.child_name(t, j, &mut name), (t == 2).into());
      assert_eq!(lent.ks[4 * (first + j) as usize..][..4], [ty[0], name[0], name[1], name[2]]);
    }
    assert_eq!(count, if t == 0 { 0 } else { 2 });
  }
}
