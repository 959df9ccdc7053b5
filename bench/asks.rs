//! Core functions that ask, beside the Rust's behind a function that is called, as ours are: on full stores, a call for each node, or for the 3-tuple beside it.

use std::{collections::HashSet, hint::black_box};

use crate::{
  SIZES, filled, least, line,
  ours::{self, Core},
  structures::types::{Type, Types, view},
  vine::{Vine, ty},
};

/// The 3-tuple among the eight nodes around this one.
fn triple(node: u32) -> u32 {
  node & !7 | 2
}

/// The Rust's, each behind a function of its own.
mod called {
  use super::*;
  use crate::structures::chart::{Chart, DefId};

  #[inline(never)]
  pub fn find(types: &Types, t: Type) -> Type {
    view::find(types, t)
  }

  #[inline(never)]
  pub fn find_mut(types: &mut Types, t: Type) -> Type {
    view::find_mut(types, t)
  }

  #[inline(never)]
  pub fn is_nil(types: &Types, t: Type) -> bool {
    types.is_nil(t)
  }

  #[inline(never)]
  pub fn self_inverse(types: &Types, t: Type) -> bool {
    types.self_inverse(t)
  }

  #[inline(never)]
  pub fn get_mod(types: &Types, chart: &Chart, t: Type) -> Option<DefId> {
    types.get_mod(chart, t).ok().flatten()
  }

  #[inline(never)]
  pub fn find_related(types: &Types, t: Type) -> usize {
    let mut set = HashSet::new();
    types.find_related(t, &mut set);
    set.len()
  }
}

/// The time a call.
fn asked<S: Clone>(full: &S, size: usize, mut ask: impl FnMut(&mut S, u32)) -> f64 {
  let all = |side: &mut S| (0..size as u32).for_each(|node| ask(side, node));
  least(|| full.clone(), all) / size as f64
}

/// A line for each side and size.
fn both(what: &str, ask: impl Fn(&mut Core, u32, u32, &mut [u8]), other: impl Fn(&mut Vine, u32)) {
  for size in SIZES {
    let (mut marks, ours, theirs) = (vec![0; size], filled::<Core>(size, size), filled::<Vine>(size, size));
    let core = asked(&ours, size, |side, node| ask(side, size as u32, node, &mut marks));
    let rust = asked(&theirs, size, |side, node| other(side, node));
    line(&format!("{what} core"), size, core, Some(core / rust));
    line(&format!("{what} Rust"), size, rust, Some(1.0));
  }
}

pub fn report() {
  both(
    "find",
    |s, n, t, _| _ = black_box(ours::find(s, n, t)),
    |s, t| _ = black_box(called::find(&s.types, ty(t))),
  );
  both(
    "find_mut",
    |s, n, t, _| _ = black_box(ours::find_mut(s, n, t)),
    |s, t| _ = black_box(called::find_mut(&mut s.types, ty(t))),
  );
  both(
    "is_nil",
    |s, n, t, _| _ = black_box(ours::is_nil(s, n, t)),
    |s, t| _ = black_box(called::is_nil(&s.types, ty(t))),
  );
  both(
    "self_inverse of a 3-tuple",
    |s, n, t, _| _ = black_box(ours::self_inverse(s, n, triple(t))),
    |s, t| _ = black_box(called::self_inverse(&s.types, ty(triple(t)))),
  );
  both(
    "get_mod",
    |s, n, t, _| _ = black_box(ours::get_mod(s, n, t)),
    |s, t| _ = black_box(called::get_mod(&s.types, &s.chart, ty(t))),
  );
  both(
    "find_related of a 3-tuple, its marks cleared",
    |s, n, t, marks| ours::find_related(s, n, triple(t), marks),
    |s, t| _ = black_box(called::find_related(&s.types, ty(triple(t)))),
  );
}
