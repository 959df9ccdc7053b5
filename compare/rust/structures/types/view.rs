//! Hands out what `types.rs` keeps to itself.

use super::*;

pub fn make(node: usize, inv: bool) -> Type {
  Type::new(Inverted(inv), TypeIdx(node))
}

pub fn node(ty: Type) -> usize {
  ty.idx().0
}

pub fn inv(ty: Type) -> bool {
  ty.inv().0
}

pub fn find(types: &Types, ty: Type) -> Type {
  types.find(ty)
}

pub fn find_mut(types: &mut Types, ty: Type) -> Type {
  types.find_mut(ty)
}

/// The remembered error and nil types.
pub fn remembered(types: &Types) -> (Option<Type>, Option<Type>) {
  (types.error, types.nil)
}

/// A node as it stands, with nothing followed.
pub enum Seen<'a> {
  Child(Type),
  Unknown(usize, Span),
  Failed(usize),
  Known(usize, Inverted, &'a TypeKind),
}

pub fn nodes(types: &Types) -> impl Iterator<Item = Seen<'_>> {
  types.types.values().map(|node| match node {
    Child(parent) => Seen::Child(*parent),
    Root { state: Unknown(span), size } => Seen::Unknown(*size, *span),
    Root { state: InferenceFailed(_), size } => Seen::Failed(*size),
    Root { state: Known(inv, kind), size } => Seen::Known(*size, *inv, kind),
  })
}

pub fn count(types: &Types) -> usize {
  types.types.len()
}

/// A type's root, and the nodes of its kind's children.
pub fn below(types: &Types, node: usize) -> (usize, Vec<usize>) {
  let root = types.find(make(node, false));
  let kids = types.kind(root).map_or(Vec::new(), |(_, kind)| kind.children().map(|t| t.idx().0).collect());
  (root.idx().0, kids)
}

/// A root's Param number.
pub fn param(types: &Types, root: usize) -> Option<usize> {
  match types.kind(make(root, false)) {
    Some((_, TypeKind::Param(number, _))) => Some(*number),
    _ => None,
  }
}

/// The nodes of a type's children, added up.
pub fn sum(types: &Types, ty: Type) -> usize {
  types.kind(ty).map_or(0, |(_, kind)| kind.children().map(|t| t.idx().0).sum())
}

/// Room for so many nodes more.
pub fn reserve(types: &mut Types, nodes: usize) {
  types.types.vec.reserve(nodes);
}
