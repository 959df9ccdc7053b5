//! Which refusal documents 01 and 02 give a call, by rules of its own: on the Rust's store, the room that was chosen and
//! the names that are held.

use std::collections::HashSet;

use faroalder::Sort;

use crate::{
  answer::{CLOSURE, KEY, OBJECT, PARAM},
  call::{Call, Impl, Kind, Name, Op, Ty},
  run::Book,
  structures::types::{Types, view},
  vine::Vine,
  world::World,
};

const MAX: usize = 255;

/// The first test that stands.
fn first<const N: usize>(tests: [(bool, u32); N]) -> Option<u32> {
  tests.into_iter().find(|(stands, _)| *stands).map(|(_, number)| number)
}

/// What an import or export takes.
#[derive(Default)]
pub struct Needs {
  pub nodes: u32,
  pub children: u32,
  pub missing: bool,
}

/// Every root that the types lead to, each once; with a parameter list a Param is replaced and not copied.
pub fn needs(source: &Types, types: impl Iterator<Item = usize>, params: Option<usize>) -> Needs {
  let mut needs = Needs::default();
  let mut met = HashSet::new();
  let mut left: Vec<usize> = types.collect();
  while let Some(node) = left.pop() {
    let (root, kids) = view::below(source, node);
    if !met.insert(root) {
      continue;
    }
    if let (Some(len), Some(number)) = (params, view::param(source, root)) {
      needs.missing |= number >= len;
      continue;
    }
    needs.nodes += 1;
    needs.children += kids.len() as u32;
    left.extend(kids);
  }
  needs
}

fn ascending(world: &World, names: &[Name]) -> bool {
  names.iter().all(|&name| world.pool[name].ok)
    && names.is_sorted_by(|&a, &b| world.pool[a].text.as_bytes() < world.pool[b].text.as_bytes())
}

fn makeable(world: &World, k: &Kind<Ty>) -> bool {
  let named: Vec<Name> = k.names.iter().flatten().copied().collect();
  let names = match k.code {
    OBJECT => ascending(world, &named),
    PARAM | KEY | CLOSURE => named.iter().all(|&name| world.pool[name].ok),
    _ => true,
  };
  k.kids.len() <= MAX && names
}

fn defined(world: &World, code: u32, number: u32) -> bool {
  let is = |sort| world.is(number, sort);
  match code {
    3 => is(Sort::Opaque),
    4 => is(Sort::Struct),
    5 => is(Sort::Enum),
    6 => is(Sort::Union),
    7 => is(Sort::ConcreteFn) || is(Sort::TraitFn),
    11 => is(Sort::Const),
    _ => true,
  }
}

fn impls(world: &World, n: u32, all: &[&Impl<Ty>]) -> Option<u32> {
  let outside = all.iter().any(|a| a.types().iter().any(|t| t.node >= n));
  let many = all.iter().any(|a| a.types().len() > MAX);
  let undefined = all.iter().any(|a| matches!(a, Impl::Trait(number, _) if !world.is(*number, Sort::Trait)));
  first([(outside, 3), (many, 4), (undefined, 5)])
}

/// What the call is refused with, if it is.
pub fn refusal(world: &World, vine: &Vine<'_>, books: &[Book], op: &Op<Ty>) -> Option<u32> {
  let n = vine.nodes(op.store);
  let Book { room: [node_room, child_room], children, held } = &books[op.store];
  let (node_room, child_room, children) = (*node_room, *child_room, *children);
  let outside = |ts: &[Ty]| ts.iter().any(|t| t.node >= n);
  let full = |more: usize| n as usize + more > node_room as usize;
  let filled = |more: usize| children as usize + more > child_room as usize;
  let over = |code: u32, number: u32, ts: &[Ty]| {
    first([
      (outside(ts), 3),
      (ts.len() > MAX, 4),
      (!defined(world, code, number), 5),
      (full(1), 10),
      (filled(ts.len()), 11),
    ])
  };
  match &op.call {
    Call::New(k) => first([
      (outside(&k.kids), 3),
      (!makeable(world, k), 4),
      (!defined(world, k.code, k.number), 5),
      (full(1), 10),
      (filled(k.kids.len()), 11),
    ]),
    Call::NewVar(_) => first([(full(1), 10)]),
    Call::NewVars(_, count) => first([(full((*count).min(1 << 20)), 10)]),
    Call::NewStruct(number, ts) => over(4, *number, ts),
    Call::NewUnion(number, ts) => over(6, *number, ts),
    Call::Error => first([(view::remembered(&vine.stores[op.store].types).0.is_none() && full(1), 10)]),
    Call::Nil => first([(view::remembered(&vine.stores[op.store].types).1.is_none() && full(1), 10)]),
    Call::Unify(a, b) => first([(outside(&[*a, *b]), 3)]),
    Call::UnifyTypes(a, b, _) => first([(outside(a) || outside(b), 3), (a.len() > MAX || b.len() > MAX, 4)]),
    Call::UnifyObjects(a, b, _) => {
      let types = |es: &[(Name, Ty)]| es.iter().map(|(_, t)| *t).collect::<Vec<_>>();
      let bad =
        |es: &[(Name, Ty)]| es.len() > MAX || !ascending(world, &es.iter().map(|(name, _)| *name).collect::<Vec<_>>());
      first([(outside(&types(a)) || outside(&types(b)), 3), (bad(a) || bad(b), 4)])
    }
    Call::UnifyImplType(a, b) | Call::ApproxEq(a, b) => impls(world, n, &[a, b]),
    Call::ShowImplType(a) => impls(world, n, &[a]),
    Call::UnifyFnSig(a, r, b, q) => {
      first([(outside(a) || outside(b) || outside(&[*r, *q]), 3), (a.len() > MAX || b.len() > MAX, 4)])
    }
    Call::ForceKind(t)
    | Call::Find(t)
    | Call::FindMut(t)
    | Call::GetKind(t)
    | Call::SelfInverse(t, _)
    | Call::IsNil(t)
    | Call::GetMod(t)
    | Call::Show(t) => first([(outside(&[*t]), 3)]),
    Call::FindRelated(t, _, less) => first([(outside(&[*t]), 3), (*less > 0, 7)]),
    Call::Import(from, ts, params) => {
      let source = &vine.stores[*from].types;
      let there = vine.nodes(*from);
      let listed = params.as_deref().unwrap_or(&[]);
      if let number @ Some(_) =
        first([(ts.iter().any(|t| t.node >= there) || outside(listed), 3), (ts.len() > MAX || listed.len() > MAX, 4)])
      {
        return number;
      }
      let needs = needs(source, ts.iter().map(|t| t.node as usize), params.as_ref().map(Vec::len));
      first([(needs.missing, 6), (full(needs.nodes as usize), 10), (filled(needs.children as usize), 11)])
    }
    Call::Export(_, ts, [nodes, children]) => {
      if let number @ Some(_) = first([(*nodes > 4096 || *children > 16384, 1), (outside(ts), 3), (ts.len() > MAX, 4)])
      {
        return number;
      }
      let needs = exported(&vine.stores[op.store].types, ts);
      first([(needs.nodes > *nodes, 10), (needs.children > *children, 11)])
    }
    Call::SetRoom([nodes, more]) => {
      let most_nodes = held.values().map(|state| state[0]).fold(n, u32::max);
      let most_children = held.values().map(|state| state[1]).fold(children, u32::max);
      first([(*nodes > 4096 || *more > 16384, 1), (most_nodes > *nodes, 10), (most_children > *more, 11)])
    }
    // "An unheld name, or one of a wrong length, is refused with 12 and a ninth with 13", "12 first"
    Call::NameState(name) => {
      first([(!(1..=MAX).contains(&name.len()), 12), (!held.contains_key(name) && held.len() == 8, 13)])
    }
    Call::ReturnTo(name) | Call::DropName(name) => first([(!held.contains_key(name), 12)]),
    Call::FinishInference | Call::FinishInferenceWhere(_) | Call::Reset | Call::Adopt => None,
  }
}

/// What an export takes: the remembered types come with it.
pub fn exported(source: &Types, ts: &[Ty]) -> Needs {
  let (error, nil) = view::remembered(source);
  let first = error.into_iter().chain(nil).map(view::node);
  needs(source, first.chain(ts.iter().map(|t| t.node as usize)), None)
}
