//! What calls answer.

use crate::{
  chart::DefId,
  kind::Kind,
  ty::{Inverted, Span, Type},
};

/// What came of a unification. Failure outranks Indeterminate, which outranks Success.
#[must_use]
#[derive(Debug, Clone, Copy, PartialEq, Eq, PartialOrd, Ord, Hash)]
pub enum UnifyResult {
  /// The two are one now.
  Success,
  /// They can't be one; what was bound on the way stays bound.
  Failure,
  /// An error type is among them.
  Indeterminate,
}

use UnifyResult::*;

impl UnifyResult {
  /// Both together.
  pub fn and(self, other: UnifyResult) -> UnifyResult {
    match (self, other) {
      (Failure, _) | (_, Failure) => Failure,
      (Indeterminate, _) | (_, Indeterminate) => Indeterminate,
      (Success, Success) => Success,
    }
  }

  /// All of them together; Success of none.
  pub fn all(results: impl IntoIterator<Item = UnifyResult>) -> UnifyResult {
    results.into_iter().fold(Success, UnifyResult::and)
  }

  /// Success or Failure.
  pub fn from_bool(b: bool) -> UnifyResult {
    if b { Success } else { Failure }
  }

  /// Whether it is Success.
  pub fn is_success(self) -> bool {
    self == Success
  }

  /// Whether it is Failure.
  pub fn is_failure(self) -> bool {
    self == Failure
  }
}

/// What [`Types::get_mod`](crate::Types::get_mod) answers.
#[derive(Debug, Clone, Copy, PartialEq, Eq, Hash)]
pub enum Mod {
  /// The type has no definition.
  None,
  /// The definition's module.
  Def(DefId),
  /// An error type.
  Error,
}

/// What [`Types::force_kind`](crate::Types::force_kind) answers.
#[derive(Debug, Clone, Copy)]
pub enum Forced<'t> {
  /// The kind, and whether the type is its inverse.
  Known(Inverted, Kind<'t>),
  /// There was no kind. The report, at this span, was counted.
  Reported(Span),
  /// There was no kind, and that was reported before.
  Failed,
}

impl<'t> Forced<'t> {
  /// The kind as Vine has it: an Error, uninverted, where there was none.
  pub fn kind(self) -> (Inverted, Kind<'t>) {
    match self {
      Forced::Known(inv, kind) => (inv, kind),
      Forced::Reported(_) | Forced::Failed => (Inverted(false), Kind::Error),
    }
  }
}

/// A node as it stands, with nothing followed.
#[derive(Debug, Clone, Copy)]
pub enum Node<'t> {
  /// It is its parent's child.
  Child(Type),
  /// A root without a kind.
  Unknown {
    /// Where an error would be reported.
    span: Span,
    /// How many nodes its tree has.
    size: u32,
  },
  /// A root without a kind, which was reported.
  InferenceFailed {
    /// How many nodes its tree has.
    size: u32,
  },
  /// A root with a kind.
  Known {
    /// Whether the root is the kind's inverse.
    inverted: Inverted,
    /// Its kind.
    kind: Kind<'t>,
    /// How many nodes its tree has.
    size: u32,
  },
}

/// What of a store is no node.
#[derive(Debug, Clone, Copy, PartialEq, Eq)]
pub struct Figures {
  /// Nodes made.
  pub nodes: u32,
  /// Children made, over all nodes.
  pub children: u32,
  /// How many nodes there is room for.
  pub node_room: u32,
  /// How many children there is room for.
  pub child_room: u32,
  /// What [`Types::error`](crate::Types::error) returns again.
  pub error: Option<Type>,
  /// What [`Types::nil`](crate::Types::nil) returns again.
  pub nil: Option<Type>,
  /// How often [`Types::force_kind`](crate::Types::force_kind) reported; `reset` leaves it.
  pub reports: u64,
}

#[cfg(test)]
mod tests {
  use super::*;

  #[test]
  fn failure_outranks_indeterminate_outranks_success() {
    let rank =
      |result| [Success, Indeterminate, Failure].iter().position(|&other| other == result).unwrap();
    for a in [Success, Failure, Indeterminate] {
      for b in [Success, Failure, Indeterminate] {
        assert_eq!(rank(a.and(b)), rank(a).max(rank(b)));
      }
    }
    assert_eq!(UnifyResult::all([]), Success);
    assert_eq!(UnifyResult::all([Success, Indeterminate, Failure, Success]), Failure);
    assert!(
      UnifyResult::from_bool(true).is_success() && UnifyResult::from_bool(false).is_failure()
    );
  }
}
