//! What both sides answer, in one form.

use crate::call::Ty;

/// A kind as either side has it.
#[derive(Debug, Clone, PartialEq)]
pub struct Seen {
  pub code: u32,
  pub number: u32,
  pub dual: bool,
  pub flex: u32,
  pub names: Vec<Option<Vec<u8>>>,
  pub kids: Vec<Ty>,
}

pub const PARAM: u32 = 0;
pub const OBJECT: u32 = 2;
pub const CLOSURE: u32 = 8;
pub const KEY: u32 = 10;

pub const KINDS: [&str; 15] = [
  "Param", "Tuple", "Object", "Opaque", "Struct", "Enum", "Union", "Fn", "Closure", "Ref", "Key", "IfConst", "Never",
  "Default", "Error",
];

#[derive(Debug, Clone, PartialEq)]
pub enum Answer {
  Type(Ty),
  Types(Vec<Ty>),
  /// 0 Success, 1 Failure, 2 Indeterminate.
  Unify(u8),
  Bool(bool),
  /// None, a definition's number, or an error.
  Mod(Option<Result<u32, ()>>),
  Nodes(Vec<u32>),
  Text(Vec<u8>),
  Kind(Option<(bool, Seen)>),
  Forced {
    inv: bool,
    kind: Seen,
    report: Option<u32>,
  },
  Done,
  Refused(u32),
}

/// A node, with nothing followed.
#[derive(Debug, Clone, PartialEq)]
pub enum Node {
  Child(Ty),
  Unknown { span: u32, size: u32 },
  Failed { size: u32 },
  Known { inv: bool, kind: Seen, size: u32 },
}

/// All of a store that both sides have.
#[derive(Debug, Clone, PartialEq)]
pub struct Whole {
  pub nodes: Vec<Node>,
  pub error: Option<Ty>,
  pub nil: Option<Ty>,
  pub reports: u64,
}

impl Answer {
  /// For the count of answers.
  pub fn name(&self) -> String {
    match self {
      Answer::Unify(n) => ["Success", "Failure", "Indeterminate"][*n as usize].into(),
      Answer::Bool(b) => b.to_string(),
      Answer::Mod(None) => "none".into(),
      Answer::Mod(Some(Ok(_))) => "def".into(),
      Answer::Mod(Some(Err(()))) => "error".into(),
      Answer::Kind(None) => "none".into(),
      Answer::Kind(Some((_, kind))) => KINDS[kind.code as usize].into(),
      Answer::Forced { report: Some(_), .. } => "reported".into(),
      Answer::Forced { kind, .. } => KINDS[kind.code as usize].into(),
      Answer::Refused(n) => format!("refused {n}"),
      _ => "answered".into(),
    }
  }
}
