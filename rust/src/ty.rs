//! A type, a node's number, an inversion, a span: never exchanged for one another.

use std::{
  fmt::{self, Debug, Write},
  ops::{BitXor, BitXorAssign, Not},
};

/// A type variable, or its inverse: a node's number and an inversion. It means something in the store that handed it
/// out; another store refuses it or takes it for a node of its own.
#[derive(Clone, Copy, PartialEq, Eq, PartialOrd, Ord, Hash)]
#[repr(transparent)]
pub struct Type(u32);

/// A node's number, from 0.
#[derive(Clone, Copy, PartialEq, Eq, PartialOrd, Ord, Hash)]
pub struct TypeIdx(u16);

/// Whether something is inverted.
#[derive(Debug, Clone, Copy, PartialEq, Eq, Default, Hash)]
pub struct Inverted(pub bool);

/// Where an inference error would be reported.
#[derive(Debug, Clone, Copy, PartialEq, Eq, PartialOrd, Ord, Hash)]
pub struct Span(pub u32);

const INV_BIT: u32 = 1 << 31;

impl Span {
  /// No place.
  pub const NONE: Span = Span(u32::MAX);
}

impl TypeIdx {
  /// The node of this number; whether a store has it shows when it is used there.
  pub const fn new(node: u16) -> TypeIdx {
    TypeIdx(node)
  }

  /// Its number.
  pub const fn get(self) -> usize {
    self.0 as usize
  }
}

impl Type {
  /// The node's type, inverted if `inv` says so.
  pub fn new(inv: Inverted, idx: TypeIdx) -> Type {
    Type::from(idx).invert_if(inv)
  }

  /// Whether its inversion bit is set.
  pub fn inv(self) -> Inverted {
    Inverted(self.0 & INV_BIT != 0)
  }

  /// Its node.
  pub fn idx(self) -> TypeIdx {
    // A node's number is below 4,096 in every store; words from elsewhere are tested before they become a store.
    TypeIdx((self.0 & !INV_BIT).min(u16::MAX.into()) as u16)
  }

  /// The inverse if `inv` says so, else the type itself.
  pub fn invert_if(self, inv: Inverted) -> Type {
    if inv.0 { self.inverse() } else { self }
  }

  /// The inverse, as `!` gives it too.
  ///
  /// ```
  /// use faroalder::{Type, TypeIdx};
  ///
  /// let t = Type::from(TypeIdx::new(3));
  /// assert_eq!(format!("{t:?} {:?}", !t), "t3 ~t3");
  /// assert_eq!(t.inverse().inverse(), t);
  /// ```
  pub fn inverse(self) -> Type {
    Type(self.0 ^ INV_BIT)
  }

  pub(crate) const fn from_word(word: u32) -> Type {
    Type(word)
  }

  pub(crate) const fn word(self) -> u32 {
    self.0
  }
}

impl From<TypeIdx> for Type {
  fn from(idx: TypeIdx) -> Type {
    Type(idx.0.into())
  }
}

impl Not for Type {
  type Output = Type;
  fn not(self) -> Type {
    self.inverse()
  }
}

impl BitXor for Inverted {
  type Output = Inverted;
  fn bitxor(self, other: Inverted) -> Inverted {
    Inverted(self.0 ^ other.0)
  }
}

impl BitXorAssign for Inverted {
  fn bitxor_assign(&mut self, other: Inverted) {
    self.0 ^= other.0;
  }
}

impl Debug for TypeIdx {
  fn fmt(&self, f: &mut fmt::Formatter<'_>) -> fmt::Result {
    write!(f, "t{}", self.0)
  }
}

impl Debug for Type {
  fn fmt(&self, f: &mut fmt::Formatter<'_>) -> fmt::Result {
    if self.inv().0 {
      f.write_char('~')?;
    }
    write!(f, "{:?}", self.idx())
  }
}

#[cfg(test)]
mod tests {
  use super::*;

  #[test]
  fn a_type_is_a_node_and_an_inversion() {
    for node in [0, 1, 4095, u16::MAX] {
      for inv in [false, true] {
        let t = Type::new(Inverted(inv), TypeIdx::new(node));
        assert_eq!((t.idx(), t.inv()), (TypeIdx::new(node), Inverted(inv)));
        assert_eq!(!t, Type::new(Inverted(!inv), TypeIdx::new(node)));
        assert_eq!(t.invert_if(Inverted(true)), !t);
        assert_eq!(Type::from_word(t.word()), t);
      }
    }
  }

  #[test]
  fn inversions_combine_by_exclusive_or() {
    for (a, b) in [(false, false), (false, true), (true, false), (true, true)] {
      let mut both = Inverted(a);
      both ^= Inverted(b);
      assert_eq!((both, Inverted(a) ^ Inverted(b)), (Inverted(a != b), Inverted(a != b)));
    }
  }
}
