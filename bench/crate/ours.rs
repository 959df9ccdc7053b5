//! The crate's side.

use std::hint::black_box;

use faroalder::{Chart, DefId, Name, Refusal, Span, StructId, Type, TypeIdx, TypeKind, Types, UnifyResult, UnionId};

use crate::{
  shapes::{KIDS, Maker, NAMES, Side, VARS, name},
  structures::types::view,
  vine::Vine,
};

const SPAN: Span = Span(7);

#[derive(Clone)]
pub struct Ours {
  pub types: Types,
}

pub fn ty(node: u32) -> Type {
  TypeIdx::new(node as u16).into()
}

pub fn tys(nodes: &[u32]) -> Vec<Type> {
  nodes.iter().map(|&node| ty(node)).collect()
}

fn node(t: Type) -> u32 {
  t.idx().get() as u32
}

/// A struct, a union and a trait.
fn chart(rule: String) -> Chart {
  let mut builder = Chart::builder();
  builder.structure("point", "point", DefId(0), false);
  builder.union("shape", "shape", DefId(1), false);
  builder.trait_("blend", "blend", DefId(2));
  builder.rule(rule).build().unwrap()
}

fn repeat<T>(turns: usize, mut call: impl FnMut() -> T) {
  (0..turns).for_each(|_| _ = black_box(call()));
}

impl Ours {
  /// A store whose names lie in this rule text.
  pub fn with_rule(rule: String, nodes: usize) -> Ours {
    Ours { types: Types::open(&chart(rule), nodes as u32, 4 * nodes as u32).unwrap() }
  }

  fn new(&mut self, kind: TypeKind<'_>) -> u32 {
    node(self.types.new(kind).unwrap())
  }

  /// An object with names of one length that follow one another in the rule text, over one type.
  pub fn named(&mut self, names: &[String], kid: u32) -> u32 {
    let len = names[0].len() as u32;
    let fields: Vec<(Name, Type)> = (0..names.len() as u32).map(|i| (Name::in_rule(i * len, len), ty(kid))).collect();
    self.new(TypeKind::Object(&fields))
  }

  pub fn show(&self, node: u32) -> String {
    self.types.show(ty(node)).unwrap()
  }

  pub fn find(&self, node: u32) -> Type {
    self.types.find(ty(node)).unwrap()
  }

  pub fn find_mut(&mut self, node: u32) -> Type {
    self.types.find_mut(ty(node)).unwrap()
  }

  /// Goes through the children of a type's kind.
  pub fn kids(&self, at: u32) -> u32 {
    self.types.kind(ty(at)).unwrap().map_or(0, |(_, kind)| kind.children().map(node).sum())
  }

  /// Goes through a type's children; what its kind is isn't asked.
  pub fn children(&self, at: u32) -> u32 {
    self.types.children(ty(at)).unwrap().map(node).sum()
  }
}

impl Vine {
  #[inline(always)]
  pub fn find(&self, node: u32) -> usize {
    view::node(view::find(&self.types, view::make(node as usize, false)))
  }

  #[inline(always)]
  pub fn find_mut(&mut self, node: u32) -> usize {
    view::node(view::find_mut(&mut self.types, view::make(node as usize, false)))
  }

  #[inline(always)]
  pub fn kids(&self, node: u32) -> usize {
    view::sum(&self.types, view::make(node as usize, false))
  }
}

/// The same by functions that are called, as the crate's end in a call of the library.
impl Vine {
  #[inline(never)]
  pub fn find_called(&self, node: u32) -> usize {
    self.find(node)
  }

  #[inline(never)]
  pub fn find_mut_called(&mut self, node: u32) -> usize {
    self.find_mut(node)
  }

  #[inline(never)]
  pub fn kids_called(&self, node: u32) -> usize {
    self.kids(node)
  }
}

impl Side for Ours {
  const AT_ONCE: usize = 2048;

  fn opened(nodes: usize) -> Ours {
    Ours::with_rule((0..NAMES).map(name).collect(), nodes)
  }

  fn var(&mut self) -> u32 {
    node(self.types.new_var(SPAN).unwrap())
  }

  fn tuple(&mut self, kids: &[u32]) -> u32 {
    self.new(TypeKind::Tuple(&tys(kids)))
  }

  fn object(&mut self, kids: &[u32]) -> u32 {
    let fields: Vec<(Name, Type)> = (0..).zip(kids).map(|(i, &kid)| (Name::in_rule(3 * i, 3), ty(kid))).collect();
    self.new(TypeKind::Object(&fields))
  }

  fn reference(&mut self, kid: u32) -> u32 {
    self.new(TypeKind::Ref(ty(kid)))
  }

  fn structure(&mut self, kids: &[u32]) -> u32 {
    node(self.types.new_struct(StructId::at(0), &tys(kids)).unwrap())
  }

  fn error(&mut self) -> u32 {
    node(self.types.error().unwrap())
  }

  fn merge(&mut self, a: u32, b: u32) {
    assert_eq!(self.unify(a, b), 0);
  }

  fn unify(&mut self, a: u32, b: u32) -> u64 {
    match self.types.unify(ty(a), ty(b)).unwrap() {
      UnifyResult::Success => 0,
      UnifyResult::Failure => 1,
      UnifyResult::Indeterminate => 2,
    }
  }

  fn makes(&mut self, maker: Maker, turns: usize) {
    let types = &mut self.types;
    let kids = black_box(KIDS).map(ty);
    match maker {
      Maker::Var => repeat(turns, || types.new_var(SPAN)),
      Maker::Vars => repeat(turns, || types.new_vars(SPAN, VARS)),
      Maker::Tuple => repeat(turns, || types.new(TypeKind::Tuple(&kids))),
      Maker::Struct => repeat(turns, || types.new_struct(StructId::at(0), &kids)),
      Maker::Union => repeat(turns, || types.new_union(UnionId::at(1), &kids)),
      Maker::Error => repeat(turns, || types.error()),
      Maker::Nil => repeat(turns, || types.nil()),
    }
  }
}

/// `error` and `nil` call the library once; after that the crate answers by itself. So these are put behind functions where
/// the Rust's are.
pub mod called {
  use super::*;

  #[inline(never)]
  pub fn error(types: &mut Types) -> Result<Type, Refusal> {
    types.error()
  }

  #[inline(never)]
  pub fn nil(types: &mut Types) -> Result<Type, Refusal> {
    types.nil()
  }
}

impl Ours {
  /// `makes`, with one call in each.
  pub fn makes_called(&mut self, maker: Maker, turns: usize) {
    let types = &mut self.types;
    match maker {
      Maker::Error => repeat(turns, || called::error(types)),
      Maker::Nil => repeat(turns, || called::nil(types)),
      _ => self.makes(maker, turns),
    }
  }
}
