//! What goes from one store to another.

use crate::{kind::ImplType, ty::Type, types::Types};

/// A value of a store of its own, as [`Types::export`] hands it out and [`Types::import`] takes it.
#[derive(Debug, Clone)]
pub struct TypeCtx<T> {
  /// The store that the value's types belong to.
  pub types: Types,
  /// The value.
  pub inner: T,
}

/// A value with types in it, which a transfer replaces.
pub trait TransferTypes: Sized {
  /// Lists its types, in order.
  fn list(&self, types: &mut Vec<Type>);

  /// The same value with other types, as many, in the same order.
  fn with(&self, types: &mut dyn Iterator<Item = Type>) -> Self;
}

impl TransferTypes for Type {
  fn list(&self, types: &mut Vec<Type>) {
    types.push(*self);
  }

  fn with(&self, types: &mut dyn Iterator<Item = Type>) -> Type {
    types.next().expect("as many types as were listed")
  }
}

impl TransferTypes for ImplType {
  fn list(&self, types: &mut Vec<Type>) {
    if let ImplType::Trait(_, own) = self {
      own.list(types);
    }
  }

  fn with(&self, types: &mut dyn Iterator<Item = Type>) -> ImplType {
    match self {
      ImplType::Trait(id, own) => ImplType::Trait(*id, own.with(types)),
      ImplType::Error => ImplType::Error,
    }
  }
}

impl<T: TransferTypes> TransferTypes for Option<T> {
  fn list(&self, types: &mut Vec<Type>) {
    self.iter().for_each(|value| value.list(types));
  }

  fn with(&self, types: &mut dyn Iterator<Item = Type>) -> Option<T> {
    self.as_ref().map(|value| value.with(types))
  }
}

impl<T: TransferTypes> TransferTypes for Vec<T> {
  fn list(&self, types: &mut Vec<Type>) {
    self.iter().for_each(|value| value.list(types));
  }

  fn with(&self, types: &mut dyn Iterator<Item = Type>) -> Vec<T> {
    self.iter().map(|value| value.with(types)).collect()
  }
}

impl<A: TransferTypes, B: TransferTypes> TransferTypes for (A, B) {
  fn list(&self, types: &mut Vec<Type>) {
    self.0.list(types);
    self.1.list(types);
  }

  fn with(&self, types: &mut dyn Iterator<Item = Type>) -> (A, B) {
    (self.0.with(types), self.1.with(types))
  }
}
