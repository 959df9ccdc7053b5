//! Stand-in for Vine's `signatures.rs`.

use super::{ast::Ident, types::Type};

#[derive(Debug, Clone)]
pub struct FnSig {
  pub names: Vec<Option<Ident>>,
  pub param_tys: Vec<Type>,
  pub ret_ty: Type,
}
