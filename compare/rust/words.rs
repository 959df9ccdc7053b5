//! Reads the words of a line: a call's name and its arguments.

use std::{collections::BTreeMap, str::SplitWhitespace};

use crate::{
  fixed::{Fixed, Id},
  structures::{
    ast::{Flex, Ident, Span},
    diag::ErrorGuaranteed,
    signatures::FnSig,
    tir::ClosureId,
    types::{ImplType, Inverted, Type, TypeKind, view},
  },
};

pub struct Words<'a> {
  words: SplitWhitespace<'a>,
  fixed: &'a Fixed,
}

impl<'a> Words<'a> {
  pub fn new(line: &'a str, fixed: &'a Fixed) -> Self {
    Words { words: line.split_whitespace(), fixed }
  }

  pub fn word(&mut self) -> &'a str {
    self.words.next().expect("a word is missing")
  }

  pub fn number(&mut self) -> usize {
    self.word().parse().expect("not a number")
  }

  pub fn flag(&mut self) -> bool {
    self.number() != 0
  }

  pub fn inverted(&mut self) -> Inverted {
    Inverted(self.flag())
  }

  pub fn span(&mut self) -> Span {
    Span(self.word().parse().expect("not a span"))
  }

  /// `3`, or `~3` inverted.
  pub fn ty(&mut self) -> Type {
    let word = self.word();
    let node = word.trim_start_matches('~');
    view::make(node.parse().expect("not a type"), node != word)
  }

  /// A count, then the items.
  pub fn list<T>(&mut self, mut item: impl FnMut(&mut Self) -> T) -> Vec<T> {
    (0..self.number()).map(|_| item(self)).collect()
  }

  pub fn types(&mut self) -> Vec<Type> {
    self.list(Self::ty)
  }

  /// `-` for none.
  pub fn optional_types(&mut self) -> Option<Vec<Type>> {
    if self.skip_dash() { None } else { Some(self.types()) }
  }

  fn name(&mut self) -> Ident {
    let word = self.word();
    self.fixed.name(word)
  }

  fn optional_name(&mut self) -> Option<Ident> {
    if self.skip_dash() { None } else { Some(self.name()) }
  }

  fn skip_dash(&mut self) -> bool {
    let mut ahead = self.words.clone();
    let dash = ahead.next() == Some("-");
    if dash {
      self.words = ahead;
    }
    dash
  }

  /// A record's place, turned into the id of its sort.
  pub fn id(&mut self) -> Id {
    let place = self.number();
    self.fixed.ids[place]
  }

  pub fn object(&mut self) -> BTreeMap<Ident, Type> {
    let names = self.list(Self::name);
    let kids = self.types();
    assert!(names.is_sorted_by(|a, b| a < b), "names not strictly ascending");
    assert_eq!(names.len(), kids.len());
    names.into_iter().zip(kids).collect()
  }

  pub fn fn_sig(&mut self) -> FnSig {
    let param_tys = self.types();
    FnSig { names: vec![None; param_tys.len()], param_tys, ret_ty: self.ty() }
  }

  pub fn impl_type(&mut self) -> ImplType {
    match self.word() {
      "error" => ImplType::Error(ErrorGuaranteed::new_unchecked()),
      "trait" => {
        let Id::Trait(id) = self.id() else { panic!("not a trait") };
        ImplType::Trait(id, self.types())
      }
      word => panic!("not an impl type: {word}"),
    }
  }

  /// The kind's name, then its own arguments.
  pub fn kind(&mut self) -> TypeKind {
    match self.word() {
      "Param" => TypeKind::Param(self.number(), self.name()),
      "Tuple" => TypeKind::Tuple(self.types()),
      "Object" => TypeKind::Object(self.object()),
      "Opaque" | "Struct" | "Enum" | "Union" | "Fn" | "IfConst" => self.defined_kind(),
      "Closure" => self.closure(),
      "Ref" => TypeKind::Ref(self.ty()),
      "Key" => TypeKind::Key(self.name()),
      "Never" => TypeKind::Never,
      "Default" => TypeKind::Default,
      "Error" => TypeKind::Error(ErrorGuaranteed::new_unchecked()),
      word => panic!("not a kind: {word}"),
    }
  }

  /// The record's sort says which kind it is.
  fn defined_kind(&mut self) -> TypeKind {
    let chart = &self.fixed.chart;
    match self.id() {
      Id::Opaque(id) => TypeKind::Opaque(id, self.types()),
      Id::Struct(id) => TypeKind::Struct(id, chart.structs[id].self_dual, self.types()),
      Id::Enum(id) => TypeKind::Enum(id, self.types()),
      Id::Union(id) => TypeKind::Union(id, chart.unions[id].self_dual, self.types()),
      Id::Fn(id) => TypeKind::Fn(id),
      Id::Const(id) => TypeKind::IfConst(id, self.ty(), self.ty()),
      Id::Trait(_) => panic!("a trait is no kind"),
    }
  }

  fn closure(&mut self) -> TypeKind {
    let id = ClosureId(self.number());
    let flex = [Flex::None, Flex::Fork, Flex::Drop, Flex::Full][self.number()];
    let names = self.list(Self::optional_name);
    let param_tys = self.types();
    assert_eq!(names.len(), param_tys.len());
    TypeKind::Closure(id, flex, FnSig { names, param_tys, ret_ty: self.ty() })
  }
}
