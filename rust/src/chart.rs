//! The chart: what is defined, under which names, and the two texts that names are parts of.

use std::{fmt, ops::Range};

use crate::{
  raw::{self, Rules, Tested},
  refusal::Refusal,
  ty::Type,
};

/// A part of the rule text or of the chart text. Two names are the same name if their bytes are; see
/// [`Chart::bytes`].
#[derive(Debug, Clone, Copy, PartialEq, Eq, Hash)]
pub struct Name {
  text: u32,
  start: u32,
  len: u32,
}

const RULE_TEXT: u32 = 0;
const CHART_TEXT: u32 = 1;

impl Name {
  /// A part of the rule text, wherever it ends; one that the text lacks is refused where it is used.
  pub const fn in_rule(start: u32, len: u32) -> Name {
    Name { text: RULE_TEXT, start, len }
  }

  /// A part of the chart text, likewise.
  pub const fn in_chart(start: u32, len: u32) -> Name {
    Name { text: CHART_TEXT, start, len }
  }

  pub(crate) const fn from_words([text, start, len]: [u32; 3]) -> Name {
    Name { text, start, len }
  }

  pub(crate) const fn words(self) -> [u32; 3] {
    [self.text, self.start, self.len]
  }

  fn range(self) -> Range<usize> {
    let start = self.start as usize;
    start..start.saturating_add(self.len as usize)
  }
}

macro_rules! ids {
  ($($(#[$doc:meta])* $id:ident;)*) => {$(
    $(#[$doc])*
    #[derive(Debug, Clone, Copy, PartialEq, Eq, PartialOrd, Ord, Hash)]
    pub struct $id(u32);

    impl $id {
      /// The definition at this place of the chart, from 0. What is no such definition is refused where it is used.
      pub const fn at(place: u32) -> $id {
        $id(place)
      }

      /// Its place in the chart.
      pub const fn place(self) -> u32 {
        self.0
      }
    }
  )*};
}

ids! {
  /// An opaque type of the chart.
  OpaqueTypeId;
  /// A struct of the chart.
  StructId;
  /// An enum of the chart.
  EnumId;
  /// A union of the chart.
  UnionId;
  /// A concrete fn of the chart, or a trait's fn.
  FnId;
  /// A const of the chart.
  ConcreteConstId;
  /// A trait of the chart.
  TraitId;
}

/// A module's number, as [`Types::get_mod`](crate::Types::get_mod) answers it: any at all.
#[derive(Debug, Clone, Copy, PartialEq, Eq, PartialOrd, Ord, Hash)]
pub struct DefId(pub u32);

/// What a record defines.
#[derive(Debug, Clone, Copy, PartialEq, Eq, PartialOrd, Ord, Hash)]
#[repr(u32)]
pub enum Sort {
  /// An opaque type.
  Opaque = 0,
  /// A struct.
  Struct = 1,
  /// An enum.
  Enum = 2,
  /// A union.
  Union = 3,
  /// A concrete fn.
  ConcreteFn = 4,
  /// A const.
  Const = 5,
  /// A trait.
  Trait = 6,
  /// A fn of a trait.
  TraitFn = 7,
}

impl Sort {
  const ALL: [Sort; 8] = [
    Sort::Opaque,
    Sort::Struct,
    Sort::Enum,
    Sort::Union,
    Sort::ConcreteFn,
    Sort::Const,
    Sort::Trait,
    Sort::TraitFn,
  ];
}

/// A definition. Its number is its place in the chart, from 0.
#[derive(Debug, Clone, Copy, PartialEq, Eq)]
pub struct Record {
  /// What it defines.
  pub sort: Sort,
  /// Its name, 1 to 255 bytes.
  pub name: Name,
  /// Its path, 1 to 255 bytes.
  pub path: Name,
  /// Its module.
  pub def: DefId,
  /// Whether a struct or union is self-dual; false of every other sort.
  pub self_dual: bool,
  /// A trait fn's trait; none of every other sort.
  pub trait_: Option<TraitId>,
}

impl Record {
  fn raw(&self) -> raw::Record {
    raw::Record {
      sort: self.sort as u32,
      name: self.name.words(),
      path: self.path.words(),
      def: self.def.0,
      dual: self.self_dual.into(),
      trait_: self.trait_.map_or(0, TraitId::place),
    }
  }
}

/// The chart with what stands beside it and both texts: what every call on a store reads and none writes. It is tested
/// once, when it is built, and shared from then on; a copy is cheap.
///
/// ```
/// use faroalder::{Chart, DefId, Refusal};
///
/// let mut builder = Chart::builder();
/// let point = builder.structure("Point", "shapes::Point", DefId(3), true);
/// let chart = builder.rule("a b").build()?;
/// assert_eq!(chart.bytes(chart.record(point.place()).unwrap().path), b"shapes::Point");
/// assert!(chart.name("b").is_some());
/// # Ok::<(), Refusal>(())
/// ```
#[derive(Clone)]
pub struct Chart(pub(crate) Tested);

impl Chart {
  /// Begins a chart: no record, no fn trait, Vine's sigils, an empty rule text.
  pub fn builder() -> ChartBuilder {
    ChartBuilder::default()
  }

  /// The chart without a record, with this rule text.
  pub fn empty(rule: impl Into<Vec<u8>>) -> Result<Chart, Refusal> {
    Chart::builder().rule(rule).build()
  }

  /// The same records, fn trait, sigils and chart text beside another rule text.
  pub fn with_rule(&self, rule: impl Into<Vec<u8>>) -> Result<Chart, Refusal> {
    Chart::tested(Rules { rule: rule.into(), ..self.rules().clone() })
  }

  fn tested(rules: Rules) -> Result<Chart, Refusal> {
    rules.tested().map(Chart).map_err(refused)
  }

  /// The chart in the words that [`lent`](crate::lent)'s calls take.
  pub fn rules(&self) -> &Rules {
    self.0.rules()
  }

  /// The rule text.
  pub fn rule_text(&self) -> &[u8] {
    &self.rules().rule
  }

  /// The chart text.
  pub fn chart_text(&self) -> &[u8] {
    &self.rules().text
  }

  /// A name's bytes, by which it is compared and printed; none of a part that its text lacks.
  pub fn bytes(&self, name: Name) -> &[u8] {
    let text = if name.text == RULE_TEXT { self.rule_text() } else { self.chart_text() };
    text.get(name.range()).unwrap_or(&[])
  }

  /// A name of these bytes, if one of the texts has them: the first place in the rule text, else in the chart text.
  pub fn name(&self, bytes: impl AsRef<[u8]>) -> Option<Name> {
    let bytes = bytes.as_ref();
    let in_text = |text: u32, all: &[u8]| {
      place(all, bytes).map(|start| Name { text, start, len: bytes.len() as u32 })
    };
    in_text(RULE_TEXT, self.rule_text()).or_else(|| in_text(CHART_TEXT, self.chart_text()))
  }

  /// How many records there are.
  pub fn record_count(&self) -> u32 {
    (self.rules().chart.len() / raw::RECORD_WORDS) as u32
  }

  /// The record at a place.
  pub fn record(&self, place: u32) -> Option<Record> {
    let words = self.rules().chart.chunks_exact(raw::RECORD_WORDS).nth(place as usize)?;
    let word = |i: usize| words[i];
    let sort = Sort::ALL[word(0) as usize];
    Some(Record {
      sort,
      name: Name::from_words([word(1), word(2), word(3)]),
      path: Name::from_words([word(4), word(5), word(6)]),
      def: DefId(word(7)),
      self_dual: word(8) == 1,
      trait_: (sort == Sort::TraitFn).then(|| TraitId(word(9))),
    })
  }

  /// The builtin fn trait, if there is one.
  pub fn fn_trait(&self) -> Option<TraitId> {
    let place = self.rules().fn_trait;
    (place != raw::NONE).then_some(TraitId(place))
  }

  /// Puts an object's fields into the order that an object needs: ascending by their names' bytes.
  pub fn sort_fields(&self, fields: &mut [(Name, Type)]) {
    fields.sort_by(|(a, _), (b, _)| self.bytes(*a).cmp(self.bytes(*b)));
  }
}

impl fmt::Debug for Chart {
  fn fmt(&self, f: &mut fmt::Formatter<'_>) -> fmt::Result {
    f.debug_struct("Chart")
      .field("records", &self.record_count())
      .field("rule_text", &self.rule_text().len())
      .field("chart_text", &self.chart_text().len())
      .finish()
  }
}

/// Where bytes stand in a text; no bytes stand nowhere, since a name isn't empty.
fn place(text: &[u8], bytes: &[u8]) -> Option<u32> {
  if bytes.is_empty() {
    return None;
  }
  text.windows(bytes.len()).position(|part| part == bytes).map(|start| start as u32)
}

pub(crate) fn refused(number: u32) -> Refusal {
  Refusal::from_number(number).expect("the library refuses with 1 to 11")
}

/// Puts a chart together; see [`Chart::builder`].
///
/// A definition's name and path are put into the chart text, unless it has these bytes already. [`record`] takes names
/// that the caller has placed, in either text.
///
/// [`record`]: ChartBuilder::record
#[derive(Debug, Clone)]
pub struct ChartBuilder {
  records: Vec<Record>,
  rule: Vec<u8>,
  text: Vec<u8>,
  fn_trait: Option<TraitId>,
  sigils: [Name; 4],
}

impl Default for ChartBuilder {
  fn default() -> ChartBuilder {
    let none = Name::in_chart(0, 0);
    let mut builder = ChartBuilder {
      records: Vec::new(),
      rule: Vec::new(),
      text: Vec::new(),
      fn_trait: None,
      sigils: [none; 4],
    };
    builder.sigils(["", "+", "?", "*"]);
    builder
  }
}

impl ChartBuilder {
  /// The rule text, in place of the one before.
  pub fn rule(&mut self, text: impl Into<Vec<u8>>) -> &mut ChartBuilder {
    self.rule = text.into();
    self
  }

  /// A name in the chart text, which gets the bytes if it lacks them.
  pub fn name(&mut self, bytes: impl AsRef<[u8]>) -> Name {
    let bytes = bytes.as_ref();
    let start = place(&self.text, bytes).unwrap_or(self.text.len() as u32);
    if start as usize == self.text.len() {
      self.text.extend_from_slice(bytes);
    }
    Name::in_chart(start, bytes.len() as u32)
  }

  /// The four texts of `sigil` for [`Flex`](crate::Flex), in its order; they alone may be empty.
  pub fn sigils(&mut self, sigils: [&str; 4]) -> &mut ChartBuilder {
    self.sigils = sigils.map(|sigil| self.name(sigil));
    self
  }

  /// The builtin fn trait.
  pub fn fn_trait(&mut self, id: TraitId) -> &mut ChartBuilder {
    self.fn_trait = Some(id);
    self
  }

  /// A record as it is given; its place is the answer.
  pub fn record(&mut self, record: Record) -> u32 {
    self.records.push(record);
    self.records.len() as u32 - 1
  }

  fn define(&mut self, sort: Sort, name: &str, path: &str, def: DefId) -> Record {
    let (name, path) = (self.name(name), self.name(path));
    Record { sort, name, path, def, self_dual: false, trait_: None }
  }

  /// Defines an opaque type.
  pub fn opaque(&mut self, name: &str, path: &str, def: DefId) -> OpaqueTypeId {
    let record = self.define(Sort::Opaque, name, path, def);
    OpaqueTypeId(self.record(record))
  }

  /// Defines a struct.
  pub fn structure(&mut self, name: &str, path: &str, def: DefId, self_dual: bool) -> StructId {
    let record = self.define(Sort::Struct, name, path, def);
    StructId(self.record(Record { self_dual, ..record }))
  }

  /// Defines an enum.
  pub fn enumeration(&mut self, name: &str, path: &str, def: DefId) -> EnumId {
    let record = self.define(Sort::Enum, name, path, def);
    EnumId(self.record(record))
  }

  /// Defines a union.
  pub fn union(&mut self, name: &str, path: &str, def: DefId, self_dual: bool) -> UnionId {
    let record = self.define(Sort::Union, name, path, def);
    UnionId(self.record(Record { self_dual, ..record }))
  }

  /// Defines a concrete fn.
  pub fn concrete_fn(&mut self, name: &str, path: &str, def: DefId) -> FnId {
    let record = self.define(Sort::ConcreteFn, name, path, def);
    FnId(self.record(record))
  }

  /// Defines a const.
  pub fn concrete_const(&mut self, name: &str, path: &str, def: DefId) -> ConcreteConstId {
    let record = self.define(Sort::Const, name, path, def);
    ConcreteConstId(self.record(record))
  }

  /// Defines a trait.
  pub fn trait_(&mut self, name: &str, path: &str, def: DefId) -> TraitId {
    let record = self.define(Sort::Trait, name, path, def);
    TraitId(self.record(record))
  }

  /// Defines a fn of a trait.
  pub fn trait_fn(&mut self, trait_: TraitId, name: &str, path: &str, def: DefId) -> FnId {
    let record = self.define(Sort::TraitFn, name, path, def);
    FnId(self.record(Record { trait_: Some(trait_), ..record }))
  }

  /// Tests the chart and the texts: at most 1,024 records, texts of at most 65,535 bytes, names and paths of 1 to 255
  /// bytes inside their texts, a flag and a trait where the sort has one, and a fn trait that is a trait. Else
  /// [`Refusal::BadChart`].
  pub fn build(&self) -> Result<Chart, Refusal> {
    let records: Vec<raw::Record> = self.records.iter().map(Record::raw).collect();
    let mut chart = vec![0; records.len() * raw::RECORD_WORDS];
    assert_eq!(raw::load(&records, &mut chart), 0, "there is room for every record");
    Chart::tested(Rules {
      chart,
      fn_trait: self.fn_trait.map_or(raw::NONE, TraitId::place),
      sigils: self
        .sigils
        .map(Name::words)
        .as_flattened()
        .try_into()
        .expect("four times three words"),
      rule: self.rule.clone(),
      text: self.text.clone(),
    })
  }
}

#[cfg(test)]
mod tests {
  use super::*;

  #[test]
  fn a_builder_says_the_same_bytes_once() {
    let mut builder = Chart::builder();
    let long = builder.name("blend");
    let part = builder.name("len");
    let chart = builder.build().unwrap();
    assert_eq!((chart.bytes(long), chart.bytes(part)), (&b"blend"[..], &b"len"[..]));
    assert_eq!(chart.chart_text(), b"+?*blend");
    assert_eq!(chart.name("end"), Some(Name::in_chart(5, 3)));
    assert_eq!((chart.name(""), chart.name("x")), (None, None));
    assert_eq!(chart.bytes(Name::in_chart(7, 2)), b"");
    assert_eq!(chart.bytes(Name::in_rule(u32::MAX, u32::MAX)), b"");
  }

  #[test]
  fn records_come_back() {
    let mut builder = Chart::builder();
    let of = builder.trait_("T", "m::T", DefId(7));
    let by_hand = Record {
      sort: Sort::TraitFn,
      name: Name::in_rule(0, 1),
      path: Name::in_rule(1, 2),
      def: DefId(u32::MAX),
      self_dual: false,
      trait_: Some(of),
    };
    assert_eq!(builder.record(by_hand), 1);
    let chart = builder.rule("abc").fn_trait(of).build().unwrap();
    assert_eq!((chart.record(1), chart.record(2), chart.record_count()), (Some(by_hand), None, 2));
    assert_eq!(chart.fn_trait(), Some(of));
    assert_eq!(format!("{chart:?}"), "Chart { records: 2, rule_text: 3, chart_text: 8 }");
  }
}
