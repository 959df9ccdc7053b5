//! Runs one call on one store and writes its answer.

use std::collections::HashSet;

use crate::{
  fixed::{Fixed, Id},
  json,
  structures::{
    chart::DefId,
    diag::{Diag, Diags, ErrorGuaranteed},
    types::{Type, TypeCtx, TypeIdx, TypeTransfer, Types, view},
  },
  words::Words,
};

#[derive(Default)]
pub struct Store {
  pub types: Types,
  pub diags: Diags,
}

impl Store {
  pub fn dump(&self, fixed: &Fixed) -> String {
    json::store(fixed, &self.types, self.diags.errors.len())
  }
}

/// A case's two stores; `source` is finished when the calls on `store` that may import begin.
pub struct Run<'a> {
  pub fixed: &'a Fixed,
  pub source: &'a Types,
  pub store: &'a mut Store,
}

fn type_answer(ty: Type) -> String {
  format!(r#"{{"is":"type","type":{}}}"#, json::ty(ty))
}

fn types_answer(types: &[Type]) -> String {
  format!(r#"{{"is":"types","types":{}}}"#, json::types(types))
}

fn bool_answer(bool: bool) -> String {
  format!(r#"{{"is":"bool","bool":{}}}"#, bool as u8)
}

fn text_answer(text: String) -> String {
  format!(r#"{{"is":"text","bytes":{}}}"#, json::bytes(&text))
}

fn mod_answer(found: Result<Option<DefId>, ErrorGuaranteed>) -> String {
  let (word, def) = match found {
    Ok(None) => ("none", 0),
    Ok(Some(def)) => ("def", def.0),
    Err(_) => ("error", 0),
  };
  format!(r#"{{"is":"mod","mod":"{word}","def":{def}}}"#)
}

const DONE: &str = r#"{"is":"done"}"#;

impl Run<'_> {
  pub fn call(mut self, name: &str, words: &mut Words<'_>) -> String {
    self
      .make(name, words)
      .or_else(|| self.unify(name, words))
      .or_else(|| self.change(name, words))
      .or_else(|| self.read(name, words))
      .or_else(|| self.transfer(name, words))
      .unwrap_or_else(|| panic!("no such call: {name}"))
  }

  fn make(&mut self, name: &str, words: &mut Words<'_>) -> Option<String> {
    let types = &mut self.store.types;
    let made = match name {
      "new" => types.new(words.kind()),
      "new_var" => types.new_var(words.span()),
      "new_struct" => {
        let Id::Struct(id) = words.id() else { panic!("not a struct") };
        types.new_struct(&self.fixed.chart, id, words.types())
      }
      "new_union" => {
        let Id::Union(id) = words.id() else { panic!("not a union") };
        types.new_union(&self.fixed.chart, id, words.types())
      }
      "new_vars" => return Some(types_answer(&types.new_vars(words.span(), words.number()))),
      "error" => types.error(ErrorGuaranteed::new_unchecked()),
      "nil" => types.nil(),
      _ => return None,
    };
    Some(type_answer(made))
  }

  fn unify(&mut self, name: &str, words: &mut Words<'_>) -> Option<String> {
    let types = &mut self.store.types;
    let result = match name {
      "unify" => types.unify(words.ty(), words.ty()),
      "unify_types" => types.unify_types(&words.types(), &words.types(), words.inverted()),
      "unify_objects" => types.unify_objects(&words.object(), &words.object(), words.inverted()),
      "unify_impl_type" => types.unify_impl_type(&words.impl_type(), &words.impl_type()),
      "unify_fn_sig" => types.unify_fn_sig(&words.fn_sig(), &words.fn_sig()),
      _ => return None,
    };
    Some(json::unify(result))
  }

  fn change(&mut self, name: &str, words: &mut Words<'_>) -> Option<String> {
    let types = &mut self.store.types;
    match name {
      "force_kind" => return Some(self.force_kind(words.ty())),
      "finish_inference" => types.finish_inference(),
      "finish_inference_where" => {
        let bytes = words.list(Words::number);
        types.finish_inference_where(|node| bytes.get(node.0).is_some_and(|&byte| byte != 0));
      }
      "reset" => types.reset(),
      _ => return None,
    }
    Some(DONE.into())
  }

  fn force_kind(&mut self, ty: Type) -> String {
    let Store { types, diags } = &mut *self.store;
    let before = diags.errors.len();
    let (inv, kind) = types.force_kind(diags, ty);
    let report = diags.errors.get(before).map(|Diag::CannotInfer { span }| span.0.to_string());
    format!(
      r#"{{"is":"forced","inv":{},"kind":{},"report":{}}}"#,
      inv.0 as u8,
      json::kind(self.fixed, kind),
      report.unwrap_or("null".into()),
    )
  }

  fn read(&mut self, name: &str, words: &mut Words<'_>) -> Option<String> {
    let types = &mut self.store.types;
    let chart = &self.fixed.chart;
    Some(match name {
      "find" => type_answer(view::find(types, words.ty())),
      "find_mut" => type_answer(view::find_mut(types, words.ty())),
      "self_inverse" => bool_answer(types._self_inverse(words.ty(), words.flag())),
      "is_nil" => bool_answer(types.is_nil(words.ty())),
      "approx_eq" => bool_answer(words.impl_type().approx_eq(&words.impl_type())),
      "get_mod" => mod_answer(types.get_mod(chart, words.ty())),
      "find_related" => self.find_related(words.ty(), words.list(Words::number)),
      "show" => text_answer(types.show(chart, words.ty())),
      "show_impl_type" => text_answer(types.show_impl_type(chart, &words.impl_type())),
      _ => return None,
    })
  }

  fn find_related(&self, ty: Type, marks: Vec<usize>) -> String {
    let mut set: HashSet<TypeIdx> = marks.into_iter().map(TypeIdx).collect();
    self.store.types.find_related(ty, &mut set);
    let mut nodes: Vec<usize> = set.into_iter().map(|node| node.0).collect();
    nodes.sort();
    format!(r#"{{"is":"nodes","nodes":{}}}"#, json::numbers(&nodes))
  }

  fn transfer(&mut self, name: &str, words: &mut Words<'_>) -> Option<String> {
    match name {
      "import" => {
        let source = TypeCtx { types: self.source.clone(), inner: words.types() };
        let params = words.optional_types();
        Some(types_answer(&self.store.types.import(&source, params.as_deref())))
      }
      "export" => {
        let listed = words.types();
        let made = self.store.types.export(|t: &mut TypeTransfer<'_>| t.transfer(&listed));
        let (types, store) = (json::types(&made.inner), json::store(self.fixed, &made.types, 0));
        Some(format!(r#"{{"is":"export","types":{types},"store":{store}}}"#))
      }
      _ => None,
    }
  }
}
