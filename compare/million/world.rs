//! A chart for both sides, at random: records, names, texts.

use std::collections::BTreeMap;

use faroalder::{self as f, DefId, Sort};
use vine_util::idx::IdxVec;

use crate::{
  random::Random,
  structures::{
    ast::Ident,
    chart::{
      self as v, ConcreteConstDef, ConcreteFnDef, Def, EnumDef, FnId, OpaqueTypeDef, StructDef, TraitDef, TraitFn,
      UnionDef,
    },
  },
};

const WORDS: [&str; 14] = [
  "a",
  "ab",
  "abc",
  "b",
  "ba",
  "x",
  "y",
  "fo",
  "foo",
  "bar",
  "é",
  "aé",
  "~",
  "a name with blanks, of forty-one bytes..",
];

/// What a new builder's chart text has already.
const SIGILS: &str = "+?*";

/// A name of the pool: its place for ours, its string for the Rust, and whether it can be a name at all.
pub struct Pooled {
  pub name: f::Name,
  pub text: String,
  pub ok: bool,
}

/// What a record's place stands for in the Rust.
#[derive(Clone, Copy, Debug, PartialEq)]
pub enum Id {
  Opaque(v::OpaqueTypeId),
  Struct(v::StructId),
  Enum(v::EnumId),
  Union(v::UnionId),
  Fn(FnId),
  Const(v::ConcreteConstId),
  Trait(v::TraitId),
}

pub struct World {
  pub ours: f::Chart,
  pub vine: v::Chart,
  pub pool: Vec<Pooled>,
  /// By a record's place.
  pub ids: Vec<Id>,
  pub sorts: Vec<Sort>,
}

/// Words in a random order, a blank between.
fn text(random: &mut Random, long: &str) -> String {
  let mut words: Vec<&str> = WORDS.into_iter().chain([long]).collect();
  for i in (1..words.len()).rev() {
    words.swap(i, random.below(i + 1));
  }
  words.join(" ")
}

/// The places of a word in a text.
fn places(text: &str, word: &str) -> Vec<u32> {
  text.match_indices(word).map(|(at, _)| at as u32).collect()
}

const SORTS: [Sort; 8] =
  [Sort::Opaque, Sort::Struct, Sort::Enum, Sort::Union, Sort::ConcreteFn, Sort::Const, Sort::Trait, Sort::TraitFn];

impl World {
  pub fn new(random: &mut Random) -> World {
    let long = "n".repeat(255);
    let (rule, chart_text) = (text(random, &long), SIGILS.to_owned() + &text(random, &long));
    let mut pool = Vec::new();
    for word in WORDS.into_iter().chain([long.as_str()]) {
      let len = word.len() as u32;
      let text = word.to_string();
      for at in places(&rule, word).into_iter().take(2) {
        pool.push(Pooled { name: f::Name::in_rule(at, len), text: text.clone(), ok: true });
      }
      for at in places(&chart_text, word).into_iter().take(2) {
        pool.push(Pooled { name: f::Name::in_chart(at, len), text: text.clone(), ok: true });
      }
    }
    let good = pool.len();
    // One byte past a text, no byte, a byte too many, far outside.
    let (r, c) = (rule.len() as u32, chart_text.len() as u32);
    for name in [
      f::Name::in_rule(r, 1),
      f::Name::in_chart(c - 1, 2),
      f::Name::in_rule(3, 0),
      f::Name::in_rule(0, 0),
      f::Name::in_rule(0, 256),
      f::Name::in_chart(u32::MAX, 1),
    ] {
      pool.push(Pooled { name, text: String::new(), ok: false });
    }

    let count = if random.once_in(50) { 1024 } else { random.between(0, 24) };
    let mut sorts: Vec<Sort> = random.list(count, |r| r.pick(&SORTS));
    if !sorts.contains(&Sort::Trait) {
      sorts.iter_mut().filter(|sort| **sort == Sort::TraitFn).for_each(|sort| *sort = Sort::Enum);
    }
    let traits: Vec<u32> = (0..count as u32).filter(|&i| sorts[i as usize] == Sort::Trait).collect();

    let mut builder = f::Chart::builder();
    builder.rule(rule.as_bytes());
    builder.name(&chart_text[SIGILS.len()..]);

    let mut vine = v::Chart::default();
    let mut ids = vec![Id::Trait(v::TraitId(0)); count];
    let mut trait_fns = Vec::new();
    for place in 0..count {
      let sort = sorts[place];
      let [name, path] = [(); 2].map(|()| random.below(good));
      let def = def_number(random, place);
      let self_dual = matches!(sort, Sort::Struct | Sort::Union) && random.once_in(2);
      let trait_ = (sort == Sort::TraitFn).then(|| random.pick(&traits));
      builder.record(f::Record {
        sort,
        name: pool[name].name,
        path: pool[path].name,
        def: DefId(def),
        self_dual,
        trait_: trait_.map(f::TraitId::at),
      });
      let (name, path) = (Ident(pool[name].text.clone()), pool[path].text.clone());
      let def = v::DefId(def as usize);
      vine.defs.0.insert(def, Def { path });
      ids[place] = match sort {
        Sort::Opaque => Id::Opaque(vine.opaque_types.push(OpaqueTypeDef { def, name })),
        Sort::Struct => Id::Struct(vine.structs.push(StructDef { def, name, self_dual })),
        Sort::Enum => Id::Enum(vine.enums.push(EnumDef { def, name })),
        Sort::Union => Id::Union(vine.unions.push(UnionDef { def, name, self_dual })),
        Sort::ConcreteFn => Id::Fn(FnId::Concrete(vine.concrete_fns.push(ConcreteFnDef { def }))),
        Sort::Const => Id::Const(vine.concrete_consts.push(ConcreteConstDef { def })),
        Sort::Trait => Id::Trait(vine.traits.push(TraitDef { def, name, fns: IdxVec::new() })),
        Sort::TraitFn => {
          trait_fns.push((place, trait_.unwrap(), name));
          continue;
        }
      };
    }
    // Trait fns come last, since they go into their trait.
    for (place, trait_, name) in trait_fns {
      let Id::Trait(id) = ids[trait_ as usize] else { unreachable!() };
      ids[place] = Id::Fn(FnId::Abstract(id, vine.traits[id].fns.push(TraitFn { name })));
    }
    if !traits.is_empty() && !random.once_in(4) {
      let place = random.pick(&traits);
      builder.fn_trait(f::TraitId::at(place));
      let Id::Trait(id) = ids[place as usize] else { unreachable!() };
      vine.builtins.fn_ = Some(id);
    }
    let ours = builder.build().expect("the chart is good");
    assert_eq!(ours.chart_text(), chart_text.as_bytes());
    World { ours, vine, pool, ids, sorts }
  }

  /// A record's place, of an id.
  pub fn place(&self, id: Id) -> u32 {
    self.ids.iter().position(|&other| other == id).expect("an id without a record") as u32
  }

  /// Whether a number is a record of this sort.
  pub fn is(&self, number: u32, sort: Sort) -> bool {
    self.sorts.get(number as usize) == Some(&sort)
  }

  /// The names that can be used, once each by their bytes, ascending; each by any of its places.
  pub fn ascending(&self, random: &mut Random) -> Vec<usize> {
    let mut by_text: BTreeMap<&[u8], Vec<usize>> = BTreeMap::new();
    for (i, pooled) in self.pool.iter().enumerate().filter(|(_, pooled)| pooled.ok) {
      by_text.entry(pooled.text.as_bytes()).or_default().push(i);
    }
    by_text.into_values().map(|places| random.pick(&places)).collect()
  }
}

/// Any number, and one of its own for each record.
fn def_number(random: &mut Random, place: usize) -> u32 {
  let place = place as u32;
  if random.once_in(3) { u32::MAX - place } else { place }
}
