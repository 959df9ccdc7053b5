//! Stand-in for Vine's `chart.rs` and the builtins: the fields that `types.rs` reads.

use std::{collections::BTreeMap, ops::Index};

use vine_util::{idx::IdxVec, new_idx};

use super::ast::Ident;

#[derive(Debug, Default)]
pub struct Chart {
  pub defs: Defs,
  pub concrete_consts: IdxVec<ConcreteConstId, ConcreteConstDef>,
  pub concrete_fns: IdxVec<ConcreteFnId, ConcreteFnDef>,
  pub opaque_types: IdxVec<OpaqueTypeId, OpaqueTypeDef>,
  pub structs: IdxVec<StructId, StructDef>,
  pub enums: IdxVec<EnumId, EnumDef>,
  pub unions: IdxVec<UnionId, UnionDef>,
  pub traits: IdxVec<TraitId, TraitDef>,
  pub builtins: Builtins,
}

#[derive(Debug, Default)]
pub struct Builtins {
  pub fn_: Option<TraitId>,
}

new_idx!(pub DefId);
#[derive(Debug)]
pub struct Def {
  pub path: String,
}

/// A map in place of Vine's vector, so that a def number can be any u32.
#[derive(Debug, Default)]
pub struct Defs(pub BTreeMap<DefId, Def>);

impl Index<DefId> for Defs {
  type Output = Def;
  fn index(&self, def: DefId) -> &Def {
    &self.0[&def]
  }
}

#[derive(Debug, Clone, Copy, PartialEq, Eq)]
pub enum FnId {
  Concrete(ConcreteFnId),
  Abstract(TraitId, TraitFnId),
}

new_idx!(pub ConcreteConstId);
#[derive(Debug)]
pub struct ConcreteConstDef {
  pub def: DefId,
}

new_idx!(pub ConcreteFnId);
#[derive(Debug)]
pub struct ConcreteFnDef {
  pub def: DefId,
}

new_idx!(pub OpaqueTypeId);
#[derive(Debug)]
pub struct OpaqueTypeDef {
  pub def: DefId,
  pub name: Ident,
}

new_idx!(pub StructId);
#[derive(Debug)]
pub struct StructDef {
  pub def: DefId,
  pub name: Ident,
  pub self_dual: bool,
}

new_idx!(pub EnumId);
#[derive(Debug)]
pub struct EnumDef {
  pub def: DefId,
  pub name: Ident,
}

new_idx!(pub UnionId);
#[derive(Debug)]
pub struct UnionDef {
  pub def: DefId,
  pub name: Ident,
  pub self_dual: bool,
}

new_idx!(pub TraitId);
#[derive(Debug)]
pub struct TraitDef {
  pub def: DefId,
  pub name: Ident,
  pub fns: IdxVec<TraitFnId, TraitFn>,
}

new_idx!(pub TraitFnId);
#[derive(Debug)]
pub struct TraitFn {
  pub name: Ident,
}
