//! The fifteen kinds: as a maker takes them, and as a store shows them.

use std::fmt;

use crate::{
  chart::{ConcreteConstId, EnumId, FnId, Name, OpaqueTypeId, StructId, TraitId, UnionId},
  raw::{Child, NONE, code},
  ty::Type,
};

/// A closure's number: any at all.
#[derive(Debug, Clone, Copy, PartialEq, Eq, PartialOrd, Ord, Hash)]
pub struct ClosureId(pub u32);

/// How a closure's value may be used.
#[derive(Debug, Clone, Copy, PartialEq, Eq, PartialOrd, Ord, Hash)]
#[repr(u32)]
pub enum Flex {
  /// Once.
  None = 0,
  /// It may be copied.
  Fork = 1,
  /// It may be dropped.
  Drop = 2,
  /// Both.
  Full = 3,
}

impl Flex {
  /// All of them, in the order of their numbers.
  pub const ALL: [Flex; 4] = [Flex::None, Flex::Fork, Flex::Drop, Flex::Full];
}

/// A closure's signature. There is a name or none for each parameter.
#[derive(Debug, Clone, Copy, PartialEq, Eq)]
pub struct FnSig<'a> {
  /// The parameters' names.
  pub names: &'a [Option<Name>],
  /// The parameters' types, as many.
  pub param_tys: &'a [Type],
  /// What it returns.
  pub ret_ty: Type,
}

/// A kind, for [`Types::new`](crate::Types::new). A struct's or union's self-duality is the chart's.
#[derive(Debug, Clone, Copy, PartialEq, Eq)]
pub enum TypeKind<'a> {
  /// A type parameter: its number, any at all, and its name.
  Param(u32, Name),
  /// A tuple.
  Tuple(&'a [Type]),
  /// An object: its fields, strictly ascending by their names' bytes; see
  /// [`Chart::sort_fields`](crate::Chart::sort_fields).
  Object(&'a [(Name, Type)]),
  /// An opaque type over parameters.
  Opaque(OpaqueTypeId, &'a [Type]),
  /// A struct over parameters.
  Struct(StructId, &'a [Type]),
  /// An enum over parameters.
  Enum(EnumId, &'a [Type]),
  /// A union over parameters.
  Union(UnionId, &'a [Type]),
  /// A fn's own type.
  Fn(FnId),
  /// A closure.
  Closure(ClosureId, Flex, FnSig<'a>),
  /// A reference.
  Ref(Type),
  /// A key.
  Key(Name),
  /// One type or another, by a const.
  IfConst(ConcreteConstId, Type, Type),
  /// The type without a value.
  Never,
  /// What inference leaves where nothing is known.
  Default,
  /// An error's type.
  Error,
}

/// An impl's type: a trait over types, or an error.
#[derive(Debug, Clone, PartialEq, Eq)]
pub enum ImplType {
  /// A trait over types.
  Trait(TraitId, Vec<Type>),
  /// An error.
  Error,
}

impl ImplType {
  /// The trait's place, or the number that means an error; and the types.
  pub(crate) fn parts(&self) -> (u32, &[Type]) {
    match self {
      // No chart has a record there either.
      ImplType::Trait(id, types) => (id.place().min(NONE - 1), types),
      ImplType::Error => (NONE, &[]),
    }
  }
}

/// What of a kind is neither child nor name of a child. Its children are laid out in words: type, name's text, start,
/// length.
pub(crate) struct Head {
  pub code: u32,
  pub number: u32,
  pub flex: u32,
  pub name: [u32; 3],
}

const NO_NAME: [u32; 3] = [0; 3];

/// A name without bytes that isn't zeros, which the library turns back in its place among the refusals.
const BAD_NAME: [u32; 3] = [1, 0, 0];

fn plain(entries: &mut Vec<u32>, types: &[Type]) {
  for t in types {
    entries.extend_from_slice(&[t.word(), 0, 0, 0]);
  }
}

pub(crate) fn fields(entries: &mut Vec<u32>, fields: &[(Name, Type)]) {
  for (name, t) in fields {
    let [text, start, len] = name.words();
    entries.extend_from_slice(&[t.word(), text, start, len]);
  }
}

/// A parameter's name, or none: zeros. A name of no bytes would be zeros too.
fn parameter(name: Option<Name>) -> [u32; 3] {
  match name.map(Name::words) {
    None => NO_NAME,
    Some([.., 0]) => BAD_NAME,
    Some(words) => words,
  }
}

fn signature(entries: &mut Vec<u32>, sig: FnSig<'_>) {
  for (i, t) in sig.param_tys.iter().enumerate() {
    let [text, start, len] = sig.names.get(i).map_or(BAD_NAME, |&name| parameter(name));
    entries.extend_from_slice(&[t.word(), text, start, len]);
  }
  plain(entries, &[sig.ret_ty]);
}

/// An object's head.
fn object(entries: &mut Vec<u32>, given: &[(Name, Type)]) -> Head {
  entries.clear();
  fields(entries, given);
  Head { code: code::OBJECT, number: 0, flex: 0, name: NO_NAME }
}

/// A closure's.
fn closure(entries: &mut Vec<u32>, id: ClosureId, flex: Flex, sig: FnSig<'_>) -> Head {
  entries.clear();
  signature(entries, sig);
  let name = if sig.names.len() > sig.param_tys.len() { BAD_NAME } else { NO_NAME };
  Head { code: code::CLOSURE, number: id.0, flex: flex as u32, name }
}

/// That of one type or another.
fn if_const(entries: &mut Vec<u32>, id: ConcreteConstId, types: [Type; 2]) -> Head {
  entries.clear();
  plain(entries, &types);
  Head { code: code::IF_CONST, number: id.place(), flex: 0, name: NO_NAME }
}

/// That of a kind with a name of its own.
fn own(entries: &mut Vec<u32>, code: u32, number: u32, name: Name) -> Head {
  entries.clear();
  Head { code, number, flex: 0, name: name.words() }
}

/// A kind as the library takes it: a code, a number and types without names; or a head, with the children laid out.
pub(crate) enum Given<'a> {
  Over(u32, u32, &'a [Type]),
  Laid(Head),
}

impl TypeKind<'_> {
  /// Lays the children out where they have names, or don't stand in a row.
  #[inline]
  pub(crate) fn given(&self, entries: &mut Vec<u32>) -> Given<'_> {
    match *self {
      TypeKind::Param(number, name) => Given::Laid(own(entries, code::PARAM, number, name)),
      TypeKind::Tuple(types) => Given::Over(code::TUPLE, 0, types),
      TypeKind::Object(given) => Given::Laid(object(entries, given)),
      TypeKind::Opaque(id, types) => Given::Over(code::OPAQUE, id.place(), types),
      TypeKind::Struct(id, types) => Given::Over(code::STRUCT, id.place(), types),
      TypeKind::Enum(id, types) => Given::Over(code::ENUM, id.place(), types),
      TypeKind::Union(id, types) => Given::Over(code::UNION, id.place(), types),
      TypeKind::Fn(id) => Given::Over(code::FN, id.place(), &[]),
      TypeKind::Closure(id, flex, sig) => Given::Laid(closure(entries, id, flex, sig)),
      TypeKind::Ref(ref t) => Given::Over(code::REF, 0, std::slice::from_ref(t)),
      TypeKind::Key(name) => Given::Laid(own(entries, code::KEY, 0, name)),
      TypeKind::IfConst(id, then, else_) => Given::Laid(if_const(entries, id, [then, else_])),
      TypeKind::Never => Given::Over(code::NEVER, 0, &[]),
      TypeKind::Default => Given::Over(code::DEFAULT, 0, &[]),
      TypeKind::Error => Given::Over(code::ERROR, 0, &[]),
    }
  }
}

/// A kind as a store has it. Its children are a part of the store, borrowed.
#[derive(Debug, Clone, Copy)]
pub enum Kind<'t> {
  /// A type parameter: its number and its name.
  Param(u32, Name),
  /// A tuple.
  Tuple(Children<'t>),
  /// An object.
  Object(Fields<'t>),
  /// An opaque type over parameters.
  Opaque(OpaqueTypeId, Children<'t>),
  /// A struct, whether it is self-dual, and its parameters.
  Struct(StructId, bool, Children<'t>),
  /// An enum over parameters.
  Enum(EnumId, Children<'t>),
  /// A union, whether it is self-dual, and its parameters.
  Union(UnionId, bool, Children<'t>),
  /// A fn's own type.
  Fn(FnId),
  /// A closure.
  Closure(ClosureId, Flex, Signature<'t>),
  /// A reference.
  Ref(Type),
  /// A key.
  Key(Name),
  /// One type or another, by a const.
  IfConst(ConcreteConstId, Type, Type),
  /// The type without a value.
  Never,
  /// What inference leaves where nothing is known.
  Default,
  /// An error's type.
  Error,
}

/// A node's words, as a store answers them: what the variants of [`Kind`] are made of, but for its children.
pub(crate) struct Parts {
  pub code: u32,
  pub number: u32,
  pub dual: bool,
  pub flex: u32,
  pub name: [u32; 3],
}

impl<'t> Kind<'t> {
  #[inline]
  pub(crate) fn of(parts: Parts, all: Children<'t>) -> Kind<'t> {
    let Parts { code, number, dual, flex, name } = parts;
    let own = Name::from_words(name);
    match code {
      code::PARAM => Kind::Param(number, own),
      code::TUPLE => Kind::Tuple(all),
      code::OBJECT => Kind::Object(Fields(all)),
      code::OPAQUE => Kind::Opaque(OpaqueTypeId::at(number), all),
      code::STRUCT => Kind::Struct(StructId::at(number), dual, all),
      code::ENUM => Kind::Enum(EnumId::at(number), all),
      code::UNION => Kind::Union(UnionId::at(number), dual, all),
      code::FN => Kind::Fn(FnId::at(number)),
      code::CLOSURE => {
        Kind::Closure(ClosureId(number), Flex::ALL[flex as usize], Signature { all })
      }
      code::REF => Kind::Ref(all.at(0)),
      code::KEY => Kind::Key(own),
      code::IF_CONST => Kind::IfConst(ConcreteConstId::at(number), all.at(0), all.at(1)),
      code::NEVER => Kind::Never,
      code::DEFAULT => Kind::Default,
      _ => Kind::Error,
    }
  }

  /// Its children in order; a closure's return is the last.
  #[inline]
  pub fn children(self) -> impl ExactSizeIterator<Item = Type> + 't {
    let two = |a, b, n| Listed::Two([a, b].into_iter().take(n));
    match self {
      Kind::Tuple(all)
      | Kind::Object(Fields(all))
      | Kind::Opaque(_, all)
      | Kind::Struct(_, _, all)
      | Kind::Enum(_, all)
      | Kind::Union(_, _, all)
      | Kind::Closure(_, _, Signature { all }) => Listed::All(all),
      Kind::Ref(t) => two(t, t, 1),
      Kind::IfConst(_, then, else_) => two(then, else_, 2),
      Kind::Param(..) | Kind::Fn(_) | Kind::Key(_) | Kind::Never | Kind::Default | Kind::Error => {
        Listed::None
      }
    }
  }

  /// Whether its inverse is the kind over its children's inverses.
  #[inline]
  pub fn self_dual(self) -> bool {
    match self {
      Kind::Tuple(_) | Kind::Object(_) | Kind::IfConst(..) | Kind::Default | Kind::Error => true,
      Kind::Struct(_, self_dual, _) | Kind::Union(_, self_dual, _) => self_dual,
      _ => false,
    }
  }
}

enum Listed<'t> {
  None,
  Two(std::iter::Take<std::array::IntoIter<Type, 2>>),
  All(Children<'t>),
}

impl Iterator for Listed<'_> {
  type Item = Type;

  #[inline]
  fn next(&mut self) -> Option<Type> {
    match self {
      Listed::None => None,
      Listed::Two(types) => types.next(),
      Listed::All(types) => types.next(),
    }
  }

  #[inline]
  fn fold<B, F: FnMut(B, Type) -> B>(self, init: B, each: F) -> B {
    match self {
      Listed::None => init,
      Listed::Two(types) => types.fold(init, each),
      Listed::All(types) => types.fold(init, each),
    }
  }

  fn size_hint(&self) -> (usize, Option<usize>) {
    match self {
      Listed::None => (0, Some(0)),
      Listed::Two(types) => types.size_hint(),
      Listed::All(types) => types.size_hint(),
    }
  }
}

impl ExactSizeIterator for Listed<'_> {}

/// A kind's children, in order.
#[derive(Clone, Copy)]
pub struct Children<'t>(&'t [Child]);

impl<'t> Children<'t> {
  #[inline]
  pub(crate) fn of(children: &'t [Child]) -> Children<'t> {
    Children(children)
  }

  #[inline]
  fn at(self, j: usize) -> Type {
    type_of(&self.0[j])
  }
}

#[inline]
fn type_of(&[word, ..]: &Child) -> Type {
  Type::from_word(word)
}

/// A child's name; zeros for none.
fn name_of(&[_, text, start, len]: &Child) -> Option<Name> {
  (len != 0).then_some(Name::from_words([text, start, len]))
}

impl Iterator for Children<'_> {
  type Item = Type;

  #[inline]
  fn next(&mut self) -> Option<Type> {
    let child = self.0.split_off_first()?;
    Some(type_of(child))
  }

  fn size_hint(&self) -> (usize, Option<usize>) {
    (self.0.len(), Some(self.0.len()))
  }
}

impl ExactSizeIterator for Children<'_> {}

impl fmt::Debug for Children<'_> {
  fn fmt(&self, f: &mut fmt::Formatter<'_>) -> fmt::Result {
    f.debug_list().entries(*self).finish()
  }
}

/// An object's fields, ascending by their names' bytes.
#[derive(Clone, Copy)]
pub struct Fields<'t>(Children<'t>);

impl Iterator for Fields<'_> {
  type Item = (Name, Type);

  #[inline]
  fn next(&mut self) -> Option<(Name, Type)> {
    let child = self.0.0.split_off_first()?;
    Some((name_of(child).expect("an object's child has a name"), type_of(child)))
  }

  fn size_hint(&self) -> (usize, Option<usize>) {
    self.0.size_hint()
  }
}

impl ExactSizeIterator for Fields<'_> {}

impl fmt::Debug for Fields<'_> {
  fn fmt(&self, f: &mut fmt::Formatter<'_>) -> fmt::Result {
    f.debug_list().entries(*self).finish()
  }
}

/// A closure's signature.
#[derive(Debug, Clone, Copy)]
pub struct Signature<'t> {
  all: Children<'t>,
}

impl<'t> Signature<'t> {
  /// Its parameters; its return is the last child.
  fn params(self) -> &'t [Child] {
    &self.all.0[..self.all.0.len() - 1]
  }

  /// The parameters' types.
  pub fn param_tys(self) -> impl ExactSizeIterator<Item = Type> + 't {
    Children(self.params())
  }

  /// The parameters' names, a name or none for each.
  pub fn names(self) -> impl ExactSizeIterator<Item = Option<Name>> + 't {
    self.params().iter().map(name_of)
  }

  /// What it returns.
  pub fn ret_ty(self) -> Type {
    self.all.at(self.params().len())
  }
}
