//! Vine's own `types.rs`, as compare/ compiles it.

use std::{hint::black_box, rc::Rc};

use crate::{
  shapes::{INVERSE, KIDS, Maker, Side, VARS, name},
  structures::{
    ast::{Ident, Span},
    chart::{Chart, DefId, StructDef, StructId, TraitDef, UnionDef, UnionId},
    diag::ErrorGuaranteed,
    types::{Type, TypeCtx, TypeKind, Types, UnifyResult, view},
  },
};

const SPAN: Span = Span(7);

#[derive(Clone)]
pub struct Vine {
  pub types: Types,
  pub chart: Rc<Chart>,
}

pub fn ty(word: u32) -> Type {
  view::make((word & !INVERSE) as usize, word & INVERSE != 0)
}

pub fn tys(nodes: &[u32]) -> Vec<Type> {
  nodes.iter().map(|&node| ty(node)).collect()
}

/// A struct, a union and a trait.
fn chart() -> Chart {
  let mut chart = Chart::default();
  let ident = |name: &str| Ident(name.into());
  _ = chart.structs.push(StructDef { def: DefId(0), name: ident("point"), self_dual: false });
  _ = chart.unions.push(UnionDef { def: DefId(1), name: ident("shape"), self_dual: false });
  _ = chart.traits.push(TraitDef { def: DefId(2), name: ident("blend"), fns: Default::default() });
  chart
}

impl Vine {
  /// An object with these names over one type.
  pub fn named(&mut self, names: &[String], kid: u32) -> u32 {
    let fields = names.iter().map(|name| (Ident(name.clone()), ty(kid)));
    let kind = TypeKind::Object(fields.collect());
    self.new(kind)
  }

  pub fn show(&self, node: u32) -> String {
    self.types.show(&self.chart, ty(node))
  }

  /// Types of this store, as an import takes them.
  pub fn lent(self, nodes: &[u32]) -> TypeCtx<Vec<Type>> {
    TypeCtx { types: self.types, inner: tys(nodes) }
  }

  fn new(&mut self, kind: TypeKind) -> u32 {
    view::node(self.types.new(kind)) as u32
  }
}

fn repeat<T>(turns: usize, mut call: impl FnMut() -> T) {
  (0..turns).for_each(|_| _ = black_box(call()));
}

impl Side for Vine {
  const AT_ONCE: usize = 2048;

  /// Its vector grows as nodes are made.
  fn opened(_: usize) -> Self {
    Vine { types: Types::default(), chart: Rc::new(chart()) }
  }

  fn var(&mut self) -> u32 {
    view::node(self.types.new_var(SPAN)) as u32
  }

  fn tuple(&mut self, kids: &[u32]) -> u32 {
    self.new(TypeKind::Tuple(tys(kids)))
  }

  fn object(&mut self, kids: &[u32]) -> u32 {
    let fields = kids.iter().enumerate().map(|(i, &kid)| (Ident(name(i)), ty(kid)));
    let kind = TypeKind::Object(fields.collect());
    self.new(kind)
  }

  fn reference(&mut self, kid: u32) -> u32 {
    self.new(TypeKind::Ref(ty(kid)))
  }

  fn structure(&mut self, kids: &[u32]) -> u32 {
    view::node(self.types.new_struct(&self.chart, StructId(0), tys(kids))) as u32
  }

  fn error(&mut self) -> u32 {
    view::node(self.types.error(ErrorGuaranteed::new_unchecked())) as u32
  }

  fn merge(&mut self, a: u32, b: u32) {
    assert_eq!(self.unify(a, b), 0);
  }

  fn unify(&mut self, a: u32, b: u32) -> u64 {
    match self.types.unify(ty(a), ty(b)) {
      UnifyResult::Success => 0,
      UnifyResult::Failure => 1,
      UnifyResult::Indeterminate(_) => 2,
    }
  }

  fn makes(&mut self, maker: Maker, calls: usize) {
    let Vine { types, chart } = self;
    match maker {
      Maker::Var => repeat(calls, || types.new_var(SPAN)),
      Maker::Vars => repeat(calls, || types.new_vars(SPAN, VARS)),
      Maker::Tuple => repeat(calls, || types.new(TypeKind::Tuple(tys(&KIDS)))),
      Maker::Struct => repeat(calls, || types.new_struct(chart, StructId(0), tys(&KIDS))),
      Maker::Union => repeat(calls, || types.new_union(chart, UnionId(0), tys(&KIDS))),
      Maker::Error => repeat(calls, || types.error(ErrorGuaranteed::new_unchecked())),
      Maker::Nil => repeat(calls, || types.nil()),
    }
  }
}

/// The makers, each behind a function of its own.
#[allow(dead_code)]
mod called {
  use super::*;

  #[inline(never)]
  pub fn new_var(types: &mut Types) -> Type {
    types.new_var(SPAN)
  }

  #[inline(never)]
  pub fn new_vars(types: &mut Types) -> Vec<Type> {
    types.new_vars(SPAN, VARS)
  }

  #[inline(never)]
  pub fn tuple(types: &mut Types, kids: &[u32]) -> Type {
    types.new(TypeKind::Tuple(tys(kids)))
  }

  #[inline(never)]
  pub fn structure(types: &mut Types, chart: &Chart, kids: &[u32]) -> Type {
    types.new_struct(chart, StructId(0), tys(kids))
  }

  #[inline(never)]
  pub fn union(types: &mut Types, chart: &Chart, kids: &[u32]) -> Type {
    types.new_union(chart, UnionId(0), tys(kids))
  }

  #[inline(never)]
  pub fn error(types: &mut Types) -> Type {
    types.error(ErrorGuaranteed::new_unchecked())
  }

  #[inline(never)]
  pub fn nil(types: &mut Types) -> Type {
    types.nil()
  }
}

#[allow(dead_code)]
impl Vine {
  /// The same by a function that is called, as ours are.
  pub fn makes_called(&mut self, maker: Maker, calls: usize) {
    let Vine { types, chart } = self;
    match maker {
      Maker::Var => repeat(calls, || called::new_var(types)),
      Maker::Vars => repeat(calls, || called::new_vars(types)),
      Maker::Tuple => repeat(calls, || called::tuple(types, &KIDS)),
      Maker::Struct => repeat(calls, || called::structure(types, chart, &KIDS)),
      Maker::Union => repeat(calls, || called::union(types, chart, &KIDS)),
      Maker::Error => repeat(calls, || called::error(types)),
      Maker::Nil => repeat(calls, || called::nil(types)),
    }
  }
}
