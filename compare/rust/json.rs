//! Writes answers and stores. Every object of one sort has the same members.

use crate::{
  fixed::{Fixed, Id},
  structures::{
    ast::Ident,
    types::{Type, TypeKind, Types, UnifyResult, view},
  },
};

pub fn list(items: impl IntoIterator<Item = String>) -> String {
  format!("[{}]", items.into_iter().collect::<Vec<_>>().join(","))
}

pub fn bytes(text: &str) -> String {
  list(text.bytes().map(|byte| byte.to_string()))
}

pub fn numbers(numbers: &[usize]) -> String {
  list(numbers.iter().map(usize::to_string))
}

pub fn ty(ty: Type) -> String {
  format!(r#"{{"node":{},"inv":{}}}"#, view::node(ty), view::inv(ty) as u8)
}

pub fn types(types: &[Type]) -> String {
  list(types.iter().map(|&t| ty(t)))
}

fn optional(text: Option<String>) -> String {
  text.unwrap_or("null".into())
}

pub fn unify(result: UnifyResult) -> String {
  let word = match result {
    UnifyResult::Success => "Success",
    UnifyResult::Failure => "Failure",
    UnifyResult::Indeterminate(_) => "Indeterminate",
  };
  format!(r#"{{"is":"unify","unify":"{word}"}}"#)
}

/// A kind's parts; what a kind lacks is 0 or empty.
#[derive(Default)]
struct Parts {
  number: usize,
  flex: u8,
  flag: bool,
  names: Vec<Option<String>>,
  kids: Vec<Type>,
}

fn named(name: &Ident) -> Option<String> {
  Some(bytes(&name.0))
}

fn parts(fixed: &Fixed, kind: &TypeKind) -> (&'static str, Parts) {
  let def = |id, flag, kids: &[Type]| Parts {
    number: fixed.place(id),
    flag,
    kids: kids.to_vec(),
    ..Parts::default()
  };
  let none = Parts::default;
  match kind {
    TypeKind::Param(n, name) => ("Param", Parts { number: *n, names: vec![named(name)], ..none() }),
    TypeKind::Tuple(kids) => ("Tuple", Parts { kids: kids.clone(), ..none() }),
    TypeKind::Object(fields) => {
      let names = fields.keys().map(named).collect();
      ("Object", Parts { names, kids: fields.values().copied().collect(), ..none() })
    }
    TypeKind::Opaque(id, kids) => ("Opaque", def(Id::Opaque(*id), false, kids)),
    TypeKind::Struct(id, flag, kids) => ("Struct", def(Id::Struct(*id), *flag, kids)),
    TypeKind::Enum(id, kids) => ("Enum", def(Id::Enum(*id), false, kids)),
    TypeKind::Union(id, flag, kids) => ("Union", def(Id::Union(*id), *flag, kids)),
    TypeKind::Fn(id) => ("Fn", def(Id::Fn(*id), false, &[])),
    TypeKind::Closure(id, flex, sig) => {
      let names = sig.names.iter().map(|name| name.as_ref().and_then(named)).collect();
      let kids = sig.param_tys.iter().copied().chain([sig.ret_ty]).collect();
      ("Closure", Parts { number: id.0, flex: *flex as u8, names, kids, ..none() })
    }
    TypeKind::Ref(kid) => ("Ref", Parts { kids: vec![*kid], ..none() }),
    TypeKind::Key(name) => ("Key", Parts { names: vec![named(name)], ..none() }),
    TypeKind::IfConst(id, then, else_) => ("IfConst", def(Id::Const(*id), false, &[*then, *else_])),
    TypeKind::Never => ("Never", none()),
    TypeKind::Default => ("Default", none()),
    TypeKind::Error(_) => ("Error", none()),
  }
}

pub fn kind(fixed: &Fixed, kind: &TypeKind) -> String {
  let (name, Parts { number, flex, flag, names, kids }) = parts(fixed, kind);
  format!(
    r#"{{"kind":"{name}","number":{number},"flex":{flex},"flag":{},"names":{},"kids":{}}}"#,
    flag as u8,
    list(names.into_iter().map(optional)),
    types(&kids),
  )
}

fn node(fixed: &Fixed, node: view::Seen<'_>) -> String {
  let (size, state) = match node {
    view::Seen::Child(parent) => return format!(r#"{{"is":"child","type":{}}}"#, ty(parent)),
    view::Seen::Unknown(size, span) => (size, format!(r#"{{"is":"unknown","span":{}}}"#, span.0)),
    view::Seen::Failed(size) => (size, r#"{"is":"failed"}"#.into()),
    view::Seen::Known(size, inv, known) => {
      let (inv, kind) = (inv.0 as u8, kind(fixed, known));
      (size, format!(r#"{{"is":"known","inv":{inv},"kind":{kind}}}"#))
    }
  };
  format!(r#"{{"is":"root","size":{size},"state":{state}}}"#)
}

pub fn store(fixed: &Fixed, types: &Types, reports: usize) -> String {
  let (error, nil) = view::remembered(types);
  format!(
    r#"{{"nodes":{},"error":{},"nil":{},"reports":{reports}}}"#,
    list(view::nodes(types).map(|n| node(fixed, n))),
    optional(error.map(ty)),
    optional(nil.map(ty)),
  )
}
