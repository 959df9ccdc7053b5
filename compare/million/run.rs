//! Runs a list on both sides and holds one to the other.

use std::{
  collections::{BTreeMap, HashMap},
  panic::{AssertUnwindSafe, catch_unwind},
};

use faroalder::Types;

use crate::{
  answer::{Answer, KINDS},
  call::{Arg, Call, Op, Ty},
  make::{List, STORES},
  ours::{self, Ours},
  rules,
  structures::types::view,
  vine::{self, Vine},
  world::World,
};

/// What only ours has: the room, and the children that were made; and by its name how many nodes and children a held state
/// has.
#[derive(Clone, Default)]
pub struct Book {
  pub room: [u32; 2],
  pub children: u32,
  pub held: BTreeMap<Vec<u8>, [u32; 2]>,
}

/// Types whose trees have more nodes than this, each counted as often as it is met, are left alone: the Rust would go
/// through all of them.
const LARGE: u64 = 10_000;

#[derive(Default)]
pub struct Count {
  pub calls: u64,
  pub refused: u64,
  pub skipped: u64,
  pub too_large: u64,
  pub nodes: u64,
  pub most_nodes: u32,
  pub states: u64,
  pub answers: BTreeMap<(&'static str, String), u64>,
  pub kinds: [u64; 15],
}

/// What went on in a list up to the call that differed.
#[derive(Debug)]
pub struct Difference {
  pub done: Vec<String>,
  pub what: String,
}

pub struct Run<'w> {
  world: &'w World,
  ours: Ours<'w>,
  vine: Vine<'w>,
  books: [Book; STORES],
  said: Vec<String>,
}

/// Unfolded: how many nodes the trees of these have, each counted as often as it is met.
fn unfolded(nodes: &[u32], below: &impl Fn(u32) -> (u32, Vec<u32>)) -> u64 {
  fn go(node: u32, met: &mut HashMap<u32, u64>, below: &impl Fn(u32) -> (u32, Vec<u32>)) -> u64 {
    let (root, kids) = below(node);
    if let Some(&size) = met.get(&root) {
      return size;
    }
    let size = kids.into_iter().fold(1u64, |sum, kid| sum.saturating_add(go(kid, met, below)));
    met.insert(root, size);
    size
  }
  let mut met = HashMap::new();
  nodes.iter().fold(0u64, |sum, &node| sum.saturating_add(go(node, &mut met, below)))
}

fn below_ours(types: &Types, node: u32) -> (u32, Vec<u32>) {
  let t = faroalder::TypeIdx::new(node as u16).into();
  let root = types.find(t).expect("a node");
  let kids = types.children(root).expect("a node").map(|t| ours::seen(t).node).collect();
  (ours::seen(root).node, kids)
}

/// The types that a call may walk down.
fn walked(call: &Call<Ty>) -> Option<Vec<u32>> {
  let nodes = |ts: &[Ty]| ts.iter().map(|t| t.node).collect::<Vec<u32>>();
  Some(match call {
    Call::Unify(a, b) => nodes(&[*a, *b]),
    Call::UnifyTypes(a, b, _) => nodes(&[&a[..], b].concat()),
    Call::UnifyObjects(a, b, _) => a.iter().chain(b).map(|(_, t)| t.node).collect(),
    Call::UnifyImplType(a, b) => nodes(&[a.types(), b.types()].concat()),
    Call::UnifyFnSig(a, r, b, q) => nodes(&[&a[..], &[*r], b, &[*q]].concat()),
    Call::SelfInverse(t, _) | Call::Show(t) => nodes(&[*t]),
    Call::ShowImplType(a) => nodes(a.types()),
    _ => return None,
  })
}

fn unifies(call: &Call<Ty>) -> bool {
  matches!(
    call,
    Call::Unify(..) | Call::UnifyTypes(..) | Call::UnifyObjects(..) | Call::UnifyImplType(..) | Call::UnifyFnSig(..)
  )
}

/// A panic's words.
fn words(panic: Box<dyn std::any::Any + Send>) -> String {
  let text = panic.downcast_ref::<String>().cloned();
  text.or(panic.downcast_ref::<&str>().map(|text| text.to_string())).unwrap_or("a panic".into())
}

impl<'w> Run<'w> {
  fn new(world: &'w World, rooms: &[[u32; 2]; STORES]) -> Run<'w> {
    let open = |[nodes, children]: &[u32; 2]| Types::open(&world.ours, *nodes, *children).expect("within the limits");
    Run {
      world,
      ours: Ours { world, stores: rooms.iter().map(open).collect() },
      vine: Vine { world, stores: (0..STORES).map(|_| vine::Store::default()).collect() },
      books: rooms.map(|room| Book { room, ..Book::default() }),
      said: Vec::new(),
    }
  }

  /// A call on ours; none where it made a type too large for the Rust, and then nothing has happened.
  fn ours(&mut self, op: &Op<Ty>) -> Option<Answer> {
    let Some(nodes) = walked(&op.call) else { return Some(self.ours.run(op)) };
    let types = &self.vine.stores[op.store].types;
    let below = |node: u32| {
      let (root, kids) = view::below(types, node as usize);
      (root as u32, kids.into_iter().map(|kid| kid as u32).collect())
    };
    if unfolded(&nodes, &below) > LARGE {
      return None;
    }
    if !unifies(&op.call) {
      return Some(self.ours.run(op));
    }
    let before = self.ours.stores[op.store].clone();
    let answer = self.ours.run(op);
    let after = &self.ours.stores[op.store];
    if unfolded(&nodes, &|node| below_ours(after, node)) > LARGE {
      self.ours.stores[op.store] = before;
      return None;
    }
    Some(answer)
  }

  /// A call that must be refused, and leave the store as it is.
  fn refused(&mut self, op: &Op<Ty>, number: u32) -> Result<(), String> {
    let before = self.ours.stores.clone();
    let answer = self.ours.run(op);
    if answer != Answer::Refused(number) {
      return Err(format!("01 says refused {number}, ours says {answer:?}"));
    }
    for (was, is) in before.into_iter().zip(&self.ours.stores) {
      if was.names() != is.names() || was.into_words() != is.clone().into_words() {
        return Err(format!("refused {number}, and the store changed"));
      }
    }
    Ok(())
  }

  /// The room and the children after a call.
  fn note(&mut self, op: &Op<Ty>, needs: rules::Needs) {
    let nodes = self.vine.nodes(op.store);
    let book = &mut self.books[op.store];
    match &op.call {
      Call::New(k) => book.children += k.kids.len() as u32,
      Call::NewStruct(_, ts) | Call::NewUnion(_, ts) => book.children += ts.len() as u32,
      Call::Import(..) => book.children += needs.children,
      Call::Export(to, _, room) => self.books[*to] = Book { room: *room, children: needs.children, ..Book::default() },
      Call::Reset => {
        book.children = 0;
        book.held.clear();
      }
      Call::Adopt => book.held.clear(),
      Call::NameState(name) => {
        book.held.insert(name.clone(), [nodes, book.children]);
      }
      Call::ReturnTo(name) => book.children = book.held[name][1],
      Call::DropName(name) => {
        book.held.remove(name);
      }
      Call::SetRoom(room) => book.room = *room,
      _ => {}
    }
  }

  fn call(&mut self, op: &Op<Arg>, count: &mut Count) -> Result<(), String> {
    let nodes: Vec<u32> = (0..STORES).map(|at| self.vine.nodes(at)).collect();
    let Some(op) = op.map(|store, t| t.among(nodes[store])) else {
      count.skipped += 1;
      return Ok(());
    };
    self.said.push(format!("store {}: {:?}", op.store, op.call));
    if let Some(number) = rules::refusal(self.world, &self.vine, &self.books, &op) {
      count.refused += 1;
      *count.answers.entry((op.name(), format!("refused {number}"))).or_default() += 1;
      return self.refused(&op, number);
    }
    let needs = match &op.call {
      Call::Import(from, ts, params) => {
        let source = &self.vine.stores[*from].types;
        rules::needs(source, ts.iter().map(|t| t.node as usize), params.as_ref().map(Vec::len))
      }
      Call::Export(_, ts, _) => rules::exported(&self.vine.stores[op.store].types, ts),
      _ => rules::Needs::default(),
    };
    let Some(ours) = self.ours(&op) else {
      count.too_large += 1;
      self.said.pop();
      return Ok(());
    };
    let vine = self.vine.run(&op);
    count.calls += 1;
    *count.answers.entry((op.name(), vine.name())).or_default() += 1;
    if let Call::New(k) = &op.call {
      count.kinds[k.code as usize] += 1;
    }
    if ours != vine {
      return Err(format!("ours {ours:?}\nRust {vine:?}"));
    }
    self.said.last_mut().unwrap().push_str(&format!(" = {vine:?}"));
    self.note(&op, needs);
    Ok(())
  }

  /// Every node of every state that is held, by returning to each.
  fn states(&mut self, count: &mut Count) -> Result<(), String> {
    for store in 0..STORES {
      for name in self.books[store].held.keys().cloned().collect::<Vec<_>>() {
        count.states += 1;
        self.call(&Op { store, call: Call::ReturnTo(name) }, count)?;
        self.stores(count)?;
      }
    }
    Ok(())
  }

  /// Every node of every store, and what only ours has.
  fn stores(&self, count: &mut Count) -> Result<(), String> {
    for at in 0..STORES {
      let (ours, vine) = (self.ours.whole(at), self.vine.whole(at));
      count.nodes += vine.nodes.len() as u64;
      count.most_nodes = count.most_nodes.max(vine.nodes.len() as u32);
      if ours != vine {
        let differ = ours.nodes.iter().zip(&vine.nodes).enumerate().find(|(_, (a, b))| a != b);
        return Err(match differ {
          Some((i, (a, b))) => format!("store {at}, node {i}\nours {a:?}\nRust {b:?}"),
          None => format!("store {at}: other counts, remembered types or reports"),
        });
      }
      let figures = self.ours.stores[at].figures();
      let Book { room: [node_room, child_room], children, ref held } = self.books[at];
      let mut names = self.ours.stores[at].names();
      names.sort();
      if !names.iter().eq(held.keys()) {
        return Err(format!("store {at} holds {names:?}, expected {:?}", held.keys()));
      }
      if [figures.node_room, figures.child_room, figures.children] != [node_room, child_room, children] {
        return Err(format!(
          "store {at}: {figures:?}, expected room {node_room}, {child_room} and {children} children"
        ));
      }
    }
    Ok(())
  }
}

/// Runs the list: every call, then every node.
pub fn run(world: &World, list: &List, count: &mut Count) -> Result<(), Difference> {
  let mut run = Run::new(world, &list.rooms);
  for op in &list.ops {
    let result = catch_unwind(AssertUnwindSafe(|| run.call(op, count)));
    let result = result.unwrap_or_else(|panic| Err(format!("panicked: {}", words(panic))));
    if let Err(what) = result {
      return Err(Difference { done: run.said, what });
    }
  }
  let result = catch_unwind(AssertUnwindSafe(|| run.stores(count).and_then(|()| run.states(count))));
  let result = result.unwrap_or_else(|panic| Err(format!("panicked: {}", words(panic))));
  result.map_err(|what| Difference { done: run.said, what })
}

/// A short list that still differs: parts are left out as long as that is so.
pub fn shrink(world: &World, list: List) -> (List, Difference) {
  let differs = |list: &List| run(world, list, &mut Count::default()).err();
  let mut best = list;
  let mut found = differs(&best).expect("the list differs");
  let mut part = best.ops.len().div_ceil(2);
  while part > 0 {
    let mut from = 0;
    let mut shorter = false;
    while from < best.ops.len() {
      let to = (from + part).min(best.ops.len());
      let ops = [&best.ops[..from], &best.ops[to..]].concat();
      let less = List { rooms: best.rooms, ops };
      match differs(&less) {
        Some(difference) => {
          (best, found, shorter) = (less, difference, true);
        }
        None => from = to,
      }
    }
    if !shorter || part > 1 {
      part /= 2;
    }
  }
  (best, found)
}

impl Count {
  pub fn report(&self) {
    println!(
      "{} calls answered alike, {} refused as 01 says; {} nodes compared, stores of up to {} nodes",
      self.calls, self.refused, self.nodes, self.most_nodes
    );
    println!("{} named states compared at the lists' ends, every node", self.states);
    println!("left out: {} that named no node, {} on types too large for the Rust", self.skipped, self.too_large);
    let mut calls: BTreeMap<&str, Vec<String>> = BTreeMap::new();
    for ((call, answer), n) in &self.answers {
      calls.entry(call).or_default().push(format!("{answer} {n}"));
    }
    for (call, answers) in calls {
      println!("  {call}: {}", answers.join(", "));
    }
    let kinds: Vec<String> = KINDS.iter().zip(self.kinds).map(|(kind, n)| format!("{kind} {n}")).collect();
    println!("  kinds made by new: {}", kinds.join(", "));
  }
}
