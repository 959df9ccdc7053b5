//! Stand-in for Vine's `diag.rs`: a list of the inferences that failed.

use super::ast::Span;

#[derive(Debug, Default)]
pub struct Diags {
  pub errors: Vec<Diag>,
}

impl Diags {
  pub fn error(&mut self, diag: Diag) -> ErrorGuaranteed {
    self.errors.push(diag);
    ErrorGuaranteed(())
  }
}

#[derive(Debug)]
pub enum Diag {
  CannotInfer { span: Span },
}

#[derive(Debug, Clone, Copy, PartialEq, Eq, PartialOrd, Ord)]
pub struct ErrorGuaranteed(());

impl ErrorGuaranteed {
  pub const fn new_unchecked() -> Self {
    ErrorGuaranteed(())
  }
}
