//! Stand-in for Vine's `ast.rs`.

#[derive(Debug, Clone, PartialEq, Eq, PartialOrd, Ord, Hash)]
pub struct Ident(pub String);

/// A span is a number here; in Vine it is a file with two positions.
#[derive(Debug, Clone, Copy, PartialEq, Eq)]
pub struct Span(pub u32);

impl Span {
  pub const NONE: Span = Span(u32::MAX);
}

#[derive(Debug, Clone, Copy, PartialEq, Eq)]
pub enum Flex {
  None,
  Fork,
  Drop,
  Full,
}

impl Flex {
  pub fn sigil(self) -> &'static str {
    match self {
      Flex::None => "",
      Flex::Fork => "+",
      Flex::Drop => "?",
      Flex::Full => "*",
    }
  }
}
