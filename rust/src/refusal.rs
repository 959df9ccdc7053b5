//! What a call is turned back with.

use std::{error::Error, fmt};

/// Why a call was turned back. It then left everything as it was, except that a printer which ran out of room has
/// filled its buffer with the text's first bytes.
///
/// Where several reasons stand, the answer is the first of: 1, 2, 8, 9, 3, 4, 5, 12, 13, 6, 10, 11, 7.
///
/// ```
/// use faroalder::Refusal;
///
/// assert_eq!(Refusal::Outside.number(), 3);
/// assert_eq!(Refusal::Outside.to_string(), "refused 3: a type's node isn't in the store");
/// assert_eq!(Refusal::from_number(3), Some(Refusal::Outside));
/// ```
#[derive(Debug, Clone, Copy, PartialEq, Eq, PartialOrd, Ord, Hash)]
#[repr(u32)]
pub enum Refusal {
  /// A capacity is above its limit, or buffers are too short for it.
  Unopenable = 1,
  /// The chart or a text breaks a limit, sort, flag or range.
  BadChart = 2,
  /// A type's node isn't in the store.
  Outside = 3,
  /// A kind can't be made: a bad name, over 255 children, object names not strictly ascending; or over 255 types or
  /// parameters are listed.
  Unmakeable = 4,
  /// A definition isn't in the chart, or is of another sort.
  Undefined = 5,
  /// An import with a parameter list reached a `Param` that has no entry there.
  NoEntry = 6,
  /// The answer's buffer is too short.
  Short = 7,
  /// The store is unsound, or its names buffer is.
  Unsound = 8,
  /// An import's source is unsound.
  SourceUnsound = 9,
  /// The nodes made and those needed exceed the capacity.
  NodesFull = 10,
  /// The children made and those needed exceed the capacity.
  ChildrenFull = 11,
  /// No state is held under the name, or the name isn't 1 to 255 bytes long.
  Unheld = 12,
  /// Eight states are held under other names.
  NoPlace = 13,
}

impl Refusal {
  /// All of them, in the order of their numbers.
  pub const ALL: [Refusal; 13] = [
    Refusal::Unopenable,
    Refusal::BadChart,
    Refusal::Outside,
    Refusal::Unmakeable,
    Refusal::Undefined,
    Refusal::NoEntry,
    Refusal::Short,
    Refusal::Unsound,
    Refusal::SourceUnsound,
    Refusal::NodesFull,
    Refusal::ChildrenFull,
    Refusal::Unheld,
    Refusal::NoPlace,
  ];

  /// Its number, 1 to 13.
  pub const fn number(self) -> u32 {
    self as u32
  }

  /// The refusal of a number, if there is one.
  pub fn from_number(number: u32) -> Option<Refusal> {
    Refusal::ALL.into_iter().find(|refusal| refusal.number() == number)
  }

  /// What stands in the way, in plain words.
  pub const fn text(self) -> &'static str {
    match self {
      Refusal::Unopenable => "a capacity is above the limit or the buffers are too short",
      Refusal::BadChart => "the chart or a text breaks a limit, sort, flag or range",
      Refusal::Outside => "a type's node isn't in the store",
      Refusal::Unmakeable => "a kind can't be made, or over 255 types are listed",
      Refusal::Undefined => "a definition is absent or of another sort",
      Refusal::NoEntry => "an import reached a Param with no entry",
      Refusal::Short => "the answer's buffer is too short",
      Refusal::Unsound => "the store or its names buffer is unsound",
      Refusal::SourceUnsound => "the import's source is unsound",
      Refusal::NodesFull => "there is no room for more nodes",
      Refusal::ChildrenFull => "there is no room for more children",
      Refusal::Unheld => "no state is held under the name, or it isn't 1 to 255 bytes long",
      Refusal::NoPlace => "eight states are held under other names",
    }
  }
}

impl fmt::Display for Refusal {
  fn fmt(&self, f: &mut fmt::Formatter<'_>) -> fmt::Result {
    write!(f, "refused {}: {}", self.number(), self.text())
  }
}

impl Error for Refusal {}

#[cfg(test)]
mod tests {
  use super::*;

  #[test]
  fn numbers_are_one_to_thirteen() {
    assert_eq!(Refusal::ALL.map(Refusal::number), [1, 2, 3, 4, 5, 6, 7, 8, 9, 10, 11, 12, 13]);
    for refusal in Refusal::ALL {
      assert_eq!(Refusal::from_number(refusal.number()), Some(refusal));
      assert!(refusal.to_string().ends_with(refusal.text()));
    }
    assert_eq!((Refusal::from_number(0), Refusal::from_number(14)), (None, None));
  }
}
