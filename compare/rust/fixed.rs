//! The two texts and the chart that every case shares.

use vine_util::idx::IdxVec;

use crate::structures::{
  ast::{Flex, Ident},
  chart::{
    Chart, ConcreteConstDef, ConcreteConstId, ConcreteFnDef, Def, DefId, EnumDef, EnumId, FnId,
    OpaqueTypeDef, OpaqueTypeId, StructDef, StructId, TraitDef, TraitFn, TraitId, UnionDef,
    UnionId,
  },
};

/// What a record's place stands for.
#[derive(Debug, Clone, Copy, PartialEq, Eq)]
pub enum Id {
  Opaque(OpaqueTypeId),
  Struct(StructId),
  Enum(EnumId),
  Union(UnionId),
  Fn(FnId),
  Const(ConcreteConstId),
  Trait(TraitId),
}

pub struct Record {
  sort: usize,
  name: Ident,
  path: String,
  def: DefId,
  flag: bool,
  /// The place of a trait fn's trait.
  trait_: usize,
}

#[derive(Default)]
pub struct Fixed {
  texts: Vec<Vec<u8>>,
  pub chart: Chart,
  /// By a record's place.
  pub ids: Vec<Id>,
}

/// The sorts in the order of their numbers.
const TRAIT_FN: usize = 7;

impl Fixed {
  /// `text HEX`: the rule text first, then the chart text.
  pub fn add_text(&mut self, hex: &str) {
    let byte = |i| u8::from_str_radix(&hex[i..i + 2], 16).expect("not hex");
    self.texts.push((0..hex.len()).step_by(2).map(byte).collect());
  }

  /// `TEXT.START.LEN`
  pub fn name(&self, word: &str) -> Ident {
    let parts: Vec<usize> = word.split('.').map(|part| part.parse().expect("not a name")).collect();
    let [text, start, len] = parts[..] else { panic!("not a name: {word}") };
    Ident(String::from_utf8(self.texts[text][start..start + len].to_vec()).expect("not UTF-8"))
  }

  /// `SORT NAME PATH DEF FLAG TRAIT`
  pub fn record(&self, words: &[&str]) -> Record {
    let number = |i: usize| words[i].parse::<usize>().expect("not a number");
    Record {
      sort: number(0),
      name: self.name(words[1]),
      path: self.name(words[2]).0,
      def: DefId(number(3)),
      flag: number(4) == 1,
      trait_: number(5),
    }
  }

  /// Trait fns come last, since they go into their trait.
  pub fn chart(&mut self, records: &[Record]) {
    let mut order: Vec<usize> = (0..records.len()).collect();
    order.sort_by_key(|&place| records[place].sort == TRAIT_FN);
    let mut ids = vec![Id::Trait(TraitId(0)); records.len()];
    for place in order {
      let record = &records[place];
      ids[place] =
        if record.sort == TRAIT_FN { self.trait_fn(record, &ids) } else { self.define(record) };
      self.chart.defs.0.insert(record.def, Def { path: record.path.clone() });
    }
    self.ids = ids;
  }

  fn define(&mut self, record: &Record) -> Id {
    let Record { sort, def, flag: self_dual, .. } = *record;
    let name = record.name.clone();
    let chart = &mut self.chart;
    match sort {
      0 => Id::Opaque(chart.opaque_types.push(OpaqueTypeDef { def, name })),
      1 => Id::Struct(chart.structs.push(StructDef { def, name, self_dual })),
      2 => Id::Enum(chart.enums.push(EnumDef { def, name })),
      3 => Id::Union(chart.unions.push(UnionDef { def, name, self_dual })),
      4 => Id::Fn(FnId::Concrete(chart.concrete_fns.push(ConcreteFnDef { def }))),
      5 => Id::Const(chart.concrete_consts.push(ConcreteConstDef { def })),
      6 => Id::Trait(chart.traits.push(TraitDef { def, name, fns: IdxVec::new() })),
      _ => panic!("no such sort: {sort}"),
    }
  }

  fn trait_fn(&mut self, record: &Record, ids: &[Id]) -> Id {
    let Id::Trait(trait_id) = ids[record.trait_] else { panic!("not a trait's record") };
    let fns = &mut self.chart.traits[trait_id].fns;
    Id::Fn(FnId::Abstract(trait_id, fns.push(TraitFn { name: record.name.clone() })))
  }

  /// `builtins FN_TRAIT SIGIL SIGIL SIGIL SIGIL`
  pub fn builtins(&mut self, words: &[&str]) {
    let place: usize = words[0].parse().expect("not a number");
    let Id::Trait(trait_id) = self.ids[place] else { panic!("not a trait's record") };
    self.chart.builtins.fn_ = Some(trait_id);
    for (flex, word) in [Flex::None, Flex::Fork, Flex::Drop, Flex::Full].into_iter().zip(&words[1..]) {
      assert_eq!(self.name(word).0, flex.sigil(), "the chart's sigil is not the Rust's");
    }
  }

  pub fn place(&self, id: Id) -> usize {
    self.ids.iter().position(|&other| other == id).expect("an id without a record")
  }
}
