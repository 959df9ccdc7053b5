//! `types.rs` reaches its helpers under this path. All but `types` are stand-ins.

pub mod ast;
pub mod chart;
pub mod diag;
pub mod signatures;
pub mod tir;
#[allow(dead_code)]
pub mod types;
