//! The stores that hostile.rs times, as words. Children's runs may overlap and parents may stand in a long chain: both are
//! sound, and no list of calls makes them.

use faroalder::lent::{Lent, Rules};

pub const NODES: usize = 4096;
pub const CHILDREN: usize = 16384;
pub const WIDTH: usize = 255;

const NONE: u32 = u32::MAX;
const INVERSE: u32 = 1 << 31;

const CHILD: u32 = 0;
const UNKNOWN: u32 = 1;
const KNOWN: u32 = 3;

const PARAM: u32 = 0;
const TUPLE: u32 = 1;
const OBJECT: u32 = 2;
const CLOSURE: u32 = 8;
const REF: u32 = 9;
const NEVER: u32 = 12;

const NODE_WORDS: usize = 12;
const SIZE: usize = 2;

/// Header, nodes and children.
#[derive(Clone)]
pub struct Words {
  h: Vec<u32>,
  ws: Vec<u32>,
  ks: Vec<u32>,
}

impl Words {
  pub fn lent<'a>(&'a mut self, rules: &'a Rules) -> Lent<'a> {
    Lent { rules, h: &mut self.h, ws: &mut self.ws, ks: &mut self.ks }
  }

  pub fn parts(&self) -> [&[u32]; 3] {
    [&self.h, &self.ws, &self.ks]
  }

  pub fn parts_mut(&mut self) -> [&mut [u32]; 3] {
    [&mut self.h, &mut self.ws, &mut self.ks]
  }
}

/// Words for a full store, not opened.
pub fn blank() -> Words {
  Words { h: vec![0; 8], ws: vec![0; NODES * NODE_WORDS], ks: vec![0; CHILDREN * 4] }
}

pub struct Store {
  pub name: String,
  pub rules: Rules,
  pub words: Words,
  /// Types that are asked about and copied.
  pub asked: Vec<u32>,
  /// Pairs to unify.
  pub pairs: Vec<(u32, u32)>,
  /// Pairs that fail in many places, to unify with a memory alone.
  pub failing: Vec<(u32, u32)>,
  /// Lists to unify.
  pub lists: Vec<(Vec<u32>, Vec<u32>)>,
  /// Whether every slot has a name of two bytes of the rule text.
  named: bool,
}

/// A struct, a union and a trait, ten words each: sort, name and path (text, start, length), def, flag, trait.
fn rules() -> Rules {
  let chart = [[1, 1, 0, 5, 1, 0, 5, 0, 0, 0], [3, 1, 5, 5, 1, 5, 5, 1, 0, 0], [6, 1, 0, 5, 1, 0, 5, 2, 0, 0]];
  Rules {
    chart: chart.as_flattened().to_vec(),
    fn_trait: NONE,
    sigils: [0; 12],
    rule: Vec::new(),
    text: b"pointshape".to_vec(),
  }
}

impl Store {
  fn new(name: impl Into<String>) -> Self {
    let h = vec![0, 0, NODES as u32, CHILDREN as u32, NONE, NONE, 0, 0];
    let words = Words { h, ws: Vec::new(), ks: Vec::new() };
    Store {
      name: name.into(),
      rules: rules(),
      words,
      asked: Vec::new(),
      pairs: Vec::new(),
      failing: Vec::new(),
      lists: Vec::new(),
      named: false,
    }
  }

  fn nodes(&self) -> usize {
    self.words.ws.len() / NODE_WORDS
  }

  fn slots(&self) -> usize {
    self.words.ks.len() / 4
  }

  fn push(&mut self, node: [u32; NODE_WORDS]) -> u32 {
    self.words.ws.extend(node);
    self.nodes() as u32 - 1
  }

  fn var(&mut self) -> u32 {
    self.push([UNKNOWN, 7, 1, 0, 0, 0, 0, 0, 0, 0, 0, 0])
  }

  /// A kind over the children from `first` on, so many.
  fn kind(&mut self, code: u32, first: usize, count: usize) -> u32 {
    self.push([KNOWN, first as u32, 1, 0, code, 0, 0, 0, 0, 0, 0, count as u32])
  }

  /// A Param of number 0; its name is the first byte of the chart text.
  fn param(&mut self) -> u32 {
    self.push([KNOWN, 0, 1, 0, PARAM, 0, 0, 0, 1, 0, 1, 0])
  }

  /// Slots without names, and where they begin.
  fn run(&mut self, types: &[u32]) -> usize {
    let first = self.slots();
    types.iter().for_each(|&t| self.words.ks.extend([t, 0, 0, 0]));
    first
  }

  /// A kind over its own children.
  fn over(&mut self, code: u32, types: &[u32]) -> u32 {
    let first = self.run(types);
    self.kind(code, first, types.len())
  }

  /// So many nodes, each the child of the one before, from a root on: the last of them.
  fn chain(&mut self, root: u32, count: usize) -> u32 {
    self.words.ws[root as usize * NODE_WORDS + SIZE] += count as u32;
    let inverse = |i: usize| if i % 2 == 0 { INVERSE } else { 0 };
    (0..count).fold(root, |up, i| self.push([CHILD, up | inverse(i), 0, 0, 0, 0, 0, 0, 0, 0, 0, 0]))
  }

  /// Kinds of 255 children, each over the 255 slots before its own, of which every `stride`-th has the kind made then and
  /// the others have `fill`: the last kind, which leads to all.
  fn windows(&mut self, code: u32, count: usize, stride: usize, fill: u32) -> u32 {
    let start = self.run(&[fill; WIDTH]);
    let mut last = 0;
    for i in 0..count {
      last = self.kind(code, start + i * stride, WIDTH);
      self.run(&vec![fill; stride - 1]);
      self.run(&[last]);
    }
    last
  }

  /// So many sets of 255 variables in a tuple, and as many tuples over one type: unified, each variable meets it.
  fn meets(&mut self, sets: usize, top: u32) -> (u32, u32) {
    let tops = self.run(&[top; WIDTH]);
    let [mut left, mut right] = [Vec::new(), Vec::new()];
    for _ in 0..sets {
      let vars: Vec<u32> = (0..WIDTH).map(|_| self.var()).collect();
      left.push(self.over(TUPLE, &vars));
      right.push(self.kind(TUPLE, tops, WIDTH));
    }
    (self.over(TUPLE, &left), self.over(TUPLE, &right))
  }

  /// Every slot gets a name of two bytes, in ascending order.
  fn named(mut self) -> Self {
    self.named = true;
    for (i, slot) in self.words.ks.chunks_mut(4).enumerate() {
      self.rules.rule.extend((i as u16).to_be_bytes());
      slot[2..].copy_from_slice(&[2 * i as u32, 2]);
    }
    self
  }

  fn full(mut self) -> Self {
    assert!(self.nodes() <= NODES && self.slots() <= CHILDREN, "{}", self.name);
    self.words.h[0] = self.nodes() as u32;
    self.words.h[1] = self.slots() as u32;
    self.words.ws.resize(NODES * NODE_WORDS, 0);
    self.words.ks.resize(CHILDREN * 4, 0);
    self
  }
}

/// A list as entries: with the names of the store's first slots, or with none where it has no names.
pub fn entries(store: &Store, list: &[u32]) -> Vec<u32> {
  let name = |i: usize| if store.named { [0, 2 * i as u32, 2] } else { [1, i as u32 % 10, 1] };
  let count = if store.named { list.len().min(store.slots()) } else { 1 };
  (0..count).flat_map(|i| [list[i], name(i)[0], name(i)[1], name(i)[2]]).collect()
}

/// A tuple of 255 variables: what is imported into the others.
pub fn small() -> Words {
  let mut store = Store::new("small");
  let first = store.run(&[1; WIDTH]);
  store.kind(TUPLE, first, WIDTH);
  store.var();
  store.full().words
}

fn chain(known: bool) -> Store {
  let mut s = Store::new(if known { "parent chain to nil" } else { "parent chain to a variable" });
  let root = if known { s.kind(TUPLE, 0, 0) } else { s.var() };
  let end = s.chain(root, NODES - 2);
  let other = s.var();
  s.asked = vec![end];
  s.pairs = vec![(end, other), (other, end), (end, end | INVERSE), (end, root)];
  s.full()
}

/// The kinds all have the same 255 children.
fn one_run(code: u32) -> Store {
  let mut s = Store::new(format!("kinds of code {code} over one run"));
  let var = s.var();
  let first = s.run(&[var; WIDTH]);
  let kinds: Vec<u32> = (1..NODES).map(|_| s.kind(code, first, WIDTH)).collect();
  s.asked = vec![kinds[0]];
  s.pairs = vec![(kinds[0], kinds[1])];
  s.lists = vec![(kinds[..WIDTH].to_vec(), kinds[WIDTH..2 * WIDTH].to_vec())];
  if code == OBJECT { s.named().full() } else { s.full() }
}

fn windows(code: u32) -> Store {
  let mut s = Store::new(format!("windows of code {code}"));
  let end = s.kind(TUPLE, 0, 0);
  let top = s.windows(code, NODES - 2, 1, end);
  let var = s.var();
  s.asked = vec![top];
  s.pairs = vec![(var, top), (top, top | INVERSE)];
  if code == OBJECT { s.named().full() } else { s.full() }
}

/// Windows over the end of a parent chain: half the nodes each.
fn half_and_half(code: u32, root: &str) -> Store {
  let mut s = Store::new(format!("windows of code {code} over the end of a parent chain to {root}"));
  let half = NODES / 2 - 1;
  let node = match root {
    "nil" => s.kind(TUPLE, 0, 0),
    "a Param" => s.param(),
    "never" => s.kind(NEVER, 0, 0),
    _ => s.var(),
  };
  let end = s.chain(node, half);
  let top = s.windows(code, half, (CHILDREN - WIDTH) / half, end);
  let var = s.var();
  s.asked = vec![top];
  s.pairs = vec![(var, top), (top, top | INVERSE), (end, top), (end, var)];
  if code == OBJECT { s.named().full() } else { s.full() }
}

/// 64 tuples of 255, which share no slot, over the end of a parent chain: what an import copies whole.
fn tuples_and_chain(root: &str) -> Store {
  let mut s = Store::new(format!("64 tuples of 255 over the end of a parent chain to {root}"));
  let node = if root == "a Param" { s.param() } else { s.var() };
  let end = s.chain(node, NODES - 64 - 2);
  let kids = |last: u32| {
    let mut kids = [end; WIDTH];
    kids[0] = last;
    kids
  };
  let top = (0..64).fold(end, |last, _| s.over(TUPLE, &kids(last)));
  s.asked = vec![top];
  s.full()
}

/// 62 tuples of 255, all over one closure, whose return is the end of a parent chain.
fn closures_and_chain(root: &str) -> Store {
  let mut s = Store::new(format!("closures over the end of a parent chain to {root}"));
  let node = if root == "nil" { s.over(TUPLE, &[]) } else { s.var() };
  let end = s.chain(node, NODES - 62 - 3);
  let closure = s.over(CLOSURE, &[end]);
  let kids = |last: u32| {
    let mut kids = [closure; WIDTH];
    kids[0] = last;
    kids
  };
  let top = (0..62).fold(closure, |last, _| s.over(TUPLE, &kids(last)));
  s.asked = vec![top];
  s.full()
}

fn refs() -> Store {
  let mut s = Store::new("Refs in a chain");
  let end = s.var();
  let top = (1..NODES - 1).fold(end, |kid, _| s.over(REF, &[kid]));
  let var = s.var();
  s.asked = vec![top];
  s.pairs = vec![(top, top - 1), (var, top)];
  s.full()
}

/// Refs whose child is the end of a parent chain to the next.
fn refs_and_chains() -> Store {
  let mut s = Store::new("Refs over parent chains of 63");
  let end = s.var();
  let top = (1..64).fold(end, |kid, _| {
    let kid = s.chain(kid, 63);
    s.over(REF, &[kid])
  });
  s.asked = vec![top];
  s.full()
}

fn doublings() -> Store {
  let mut s = Store::new("doublings");
  let end = s.kind(TUPLE, 0, 0);
  let top = (1..NODES - 1).fold(end, |kid, _| s.over(TUPLE, &[kid, kid]));
  let var = s.var();
  s.asked = vec![top];
  s.pairs = vec![(var, top), (top, top | INVERSE)];
  s.full()
}

/// Two sets of windows, alike.
fn twice(code: u32) -> Store {
  let mut s = Store::new(format!("two sets of windows of code {code}"));
  let half = NODES / 2 - 1;
  let [v, w] = [s.var(), s.var()];
  let first = s.windows(code, half, 1, v);
  // The second set has the slots of its own, with the same names.
  let second = s.windows(code, half, 1, w);
  s.pairs = vec![(first, second)];
  if code == OBJECT { s.named().full() } else { s.full() }
}

/// Variables, 255 to a tuple, and as many tuples over the last of a set of windows: each variable meets it, so that each
/// asks whether it occurs there. The windows are near each other, or as far apart as there are slots.
fn variables(sets: usize, apart: bool) -> Store {
  let how = if apart { "windows apart" } else { "windows" };
  let mut s = Store::new(format!("{} variables and {how}", sets * WIDTH));
  let end = s.kind(TUPLE, 0, 0);
  let count = NODES - 1 - sets * (WIDTH + 2) - 2;
  let stride = if apart { (CHILDREN - (sets + 2) * WIDTH - 2 * sets) / count } else { 1 };
  let top = s.windows(TUPLE, count, stride, end);
  s.pairs = vec![s.meets(sets, top)];
  s.full()
}

/// The same, where each meets a tuple of tuples over every node of one parent chain.
fn variables_and_chain(sets: usize) -> Store {
  let mut s = Store::new(format!("{} variables and a parent chain", sets * WIDTH));
  let end = s.kind(TUPLE, 0, 0);
  let count = NODES - 1 - sets * (WIDTH + 2) - 3 - NODES / WIDTH;
  s.chain(end, count);
  let nodes: Vec<u32> = (1..=count as u32).collect();
  let over: Vec<u32> = nodes.chunks(WIDTH).map(|part| s.over(TUPLE, part)).collect();
  let top = s.over(TUPLE, &over);
  s.pairs = vec![s.meets(sets, top)];
  s.full()
}

/// So many tuples over a run, 255 to a tuple, each from where it says.
fn side(s: &mut Store, count: usize, first: impl Fn(usize) -> usize) -> u32 {
  let kinds: Vec<u32> = (0..count).map(|i| s.kind(TUPLE, first(i), WIDTH)).collect();
  let tuples: Vec<u32> = kinds.chunks(WIDTH).map(|part| s.over(TUPLE, part)).collect();
  s.over(TUPLE, &tuples)
}

/// So many tuples over one run and as many over another: unified, each slot of a run meets one of the other.
fn tuples(s: &mut Store, [a, b]: [usize; 2], count: usize, next: impl Fn(usize) -> usize) -> (u32, u32) {
  (side(s, count, |i| a + next(i)), side(s, count, |i| b + next(i)))
}

/// The nodes of so many tuples on both sides.
fn tuple_nodes(count: usize) -> usize {
  2 * (count + count.div_ceil(WIDTH) + 1)
}

/// The last of a set of windows meets its own inverse, in so many tuples.
fn inverses(count: usize) -> Store {
  let mut s = Store::new(format!("the last of windows and its inverse, in {count} tuples"));
  let end = s.kind(TUPLE, 0, 0);
  let top = s.windows(TUPLE, NODES - 1 - tuple_nodes(count), 1, end);
  let runs = [s.run(&[top; WIDTH]), s.run(&[top | INVERSE; WIDTH])];
  s.pairs = vec![tuples(&mut s, runs, count, |_| 0)];
  s.full()
}

/// The last of a set of windows that lead to a variable meets that variable, in so many tuples: it occurs there.
fn occurs(count: usize) -> Store {
  let mut s = Store::new(format!("a variable and windows that lead to it, in {count} tuples"));
  let var = s.var();
  let top = s.windows(TUPLE, NODES - 1 - tuple_nodes(count), 1, var);
  let runs = [s.run(&[var; WIDTH]), s.run(&[top; WIDTH])];
  s.failing = vec![tuples(&mut s, runs, count, |_| 0)];
  s.full()
}

/// Each of 255 variables meets other windows in each of so many tuples, and occurs there: no pair comes twice.
fn occurs_each(count: usize) -> Store {
  let mut s = Store::new(format!("255 variables and windows that lead to all, in {count} tuples"));
  let vars: Vec<u32> = (0..WIDTH).map(|_| s.var()).collect();
  let all = s.over(TUPLE, &vars);
  s.windows(TUPLE, NODES - 1 - WIDTH - tuple_nodes(count), 1, all);
  let tops = s.slots() - WIDTH;
  let run = s.run(&[vars.as_slice(), &vars].concat());
  s.failing = vec![(side(&mut s, count, |i| run + i % WIDTH), side(&mut s, count, |_| tops))];
  s.full()
}

/// The last of windows over a variable meets its own inverse: a variable is not its own.
fn no_inverses(count: usize) -> Store {
  let mut s = Store::new(format!("windows over a variable and their inverse, in {count} tuples"));
  let var = s.var();
  let top = s.windows(TUPLE, NODES - 1 - tuple_nodes(count), 1, var);
  let runs = [s.run(&[top; WIDTH]), s.run(&[top | INVERSE; WIDTH])];
  s.failing = vec![tuples(&mut s, runs, count, |_| 0)];
  s.full()
}

/// Each of a set of windows meets its own inverse, in so many tuples that begin apart: from the first on, so that each leads
/// to those that met before, or from the last on.
fn inverses_of_each(count: usize, last_first: bool) -> Store {
  let order = if last_first { ", the last first" } else { "" };
  let mut s = Store::new(format!("each of windows and its inverse{order}, in {count} tuples"));
  let end = s.kind(TUPLE, 0, 0);
  let windows = NODES - 1 - tuple_nodes(count);
  let first = s.slots() + WIDTH;
  s.windows(TUPLE, windows, 1, end);
  let mut each: Vec<u32> = (first..first + windows).map(|i| s.words.ks[4 * i]).collect();
  if last_first {
    each.reverse();
  }
  let inverse: Vec<u32> = each.iter().map(|t| t | INVERSE).collect();
  let runs = [s.run(&each), s.run(&inverse)];
  s.pairs = vec![tuples(&mut s, runs, count, |i| 7 * i % (windows - WIDTH))];
  s.full()
}

/// Objects alike over two runs of long names, one in each text, that differ in the last byte.
fn alike(sets: usize) -> Store {
  let mut s = Store::new(format!("{} objects alike over long names", 2 * sets * WIDTH));
  let names: Vec<u8> = (0..WIDTH).flat_map(|i| [[b'a'; WIDTH - 1].as_slice(), &[i as u8]].concat()).collect();
  let sides = [0, 1].map(|text| {
    let var = s.var();
    let first = s.slots();
    (0..WIDTH).for_each(|i| s.words.ks.extend([var, text, (WIDTH * i) as u32, WIDTH as u32]));
    let tuples: Vec<u32> = (0..sets)
      .map(|_| {
        let objects: Vec<u32> = (0..WIDTH).map(|_| s.kind(OBJECT, first, WIDTH)).collect();
        s.over(TUPLE, &objects)
      })
      .collect();
    s.over(TUPLE, &tuples)
  });
  s.rules.rule = names.clone();
  s.rules.text = names;
  s.pairs = vec![(sides[0], sides[1])];
  s.full()
}

/// Objects without a shared name, in two lists. Names of 255 bytes, parts of one text, that differ late.
fn strangers() -> Store {
  let mut s = Store::new("objects without a shared name");
  let var = s.var();
  let mut text = Vec::new();
  let mut lists = [Vec::new(), Vec::new()];
  for (list, letter) in lists.iter_mut().zip([b'b', b'c']) {
    let start = text.len() as u32;
    text.extend([b'a'; WIDTH]);
    text.push(letter);
    text.extend([b'a'; WIDTH]);
    let first = s.slots();
    for i in 0..WIDTH as u32 {
      s.words.ks.extend([var, 0, start + 1 + i, WIDTH as u32]);
    }
    *list = (0..WIDTH).map(|_| s.kind(OBJECT, first, WIDTH)).collect();
  }
  s.rules.rule = text;
  let [a, b] = lists;
  s.lists = vec![(a, b)];
  s.full()
}

/// Objects over one run of names of 255 bytes that differ in the last.
fn long_names() -> Store {
  let mut s = Store::new("objects over one run of long names");
  let var = s.var();
  for i in 0..WIDTH {
    let start = s.rules.rule.len() as u32;
    s.rules.rule.extend([b'a'; WIDTH - 1]);
    s.rules.rule.push(i as u8);
    s.words.ks.extend([var, 0, start, WIDTH as u32]);
  }
  (1..NODES).for_each(|_| _ = s.kind(OBJECT, 0, WIDTH));
  s.full()
}

pub fn all() -> Vec<Store> {
  let mut all = vec![chain(true), chain(false), refs(), refs_and_chains(), doublings(), long_names(), strangers()];
  all.extend(["a Param", "a variable"].map(tuples_and_chain));
  all.extend(["nil", "a variable"].map(closures_and_chain));
  for code in [TUPLE, OBJECT] {
    all.extend([one_run(code), windows(code), twice(code)]);
    all.extend(["nil", "never", "a variable", "a Param"].map(|root| half_and_half(code, root)));
  }
  all.extend([1, 4, 8, 12].map(|sets| variables(sets, false)));
  all.extend([1, 4, 8, 12, 14].map(|sets| variables(sets, true)));
  all.extend([1, 4].map(variables_and_chain));
  all.extend([255, 1000].map(inverses));
  for last_first in [false, true] {
    all.extend([250, 500, 1000, 1500].map(|count| inverses_of_each(count, last_first)));
  }
  all.extend([255, 1000].map(occurs));
  all.extend([255, 1000].map(no_inverses));
  all.push(occurs_each(25));
  all.push(alike(7));
  all
}
