//! Stand-in for Vine's `tir.rs`.

vine_util::new_idx!(pub ClosureId);
