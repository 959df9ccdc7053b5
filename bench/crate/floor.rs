//! What a call through the C boundary takes that does nothing: the least that a call of the library can take.

use std::{hint::black_box, sync::Arc};

use crate::{NODES, alone, least};

type P = *const u32;
type M = *mut u32;
type N = usize;
type Lean = extern "C" fn(M, N, M, N, u32) -> u64;
type Whole = extern "C" fn(P, N, u32, P, *const u8, N, *const u8, N, M, N, M, N, M, N, u32) -> u64;

extern "C" fn lean(_: M, _: N, _: M, _: N, _: u32) -> u64 {
  0
}

#[allow(clippy::too_many_arguments)]
#[rustfmt::skip]
extern "C" fn whole(
  _: P, _: N, _: u32, _: P, _: *const u8, _: N, _: *const u8, _: N, _: M, _: N, _: M, _: N, _: M, _: N, _: u32,
) -> u64 {
  0
}

/// As the crate's store has them.
struct Rules {
  chart: Vec<u32>,
  fn_trait: u32,
  sigils: [u32; 12],
  rule: Vec<u8>,
  text: Vec<u8>,
}

struct Store {
  rules: Arc<Rules>,
  h: Vec<u32>,
  ws: Vec<u32>,
  ks: Vec<u32>,
}

pub fn report() {
  let words = || vec![0; 64];
  let text = || vec![0; 64];
  let rules = || Rules { chart: words(), fn_trait: 0, sigils: [0; 12], rule: text(), text: text() };
  let store = || Store { rules: Arc::new(rules()), h: words(), ws: words(), ks: words() };
  let calls = NODES as u32;
  // Called by pointers that nothing is known of.
  let (lean, whole) = (black_box(lean as Lean), black_box(whole as Whole));
  let time = least(store, |s| {
    (0..calls).for_each(|n| _ = black_box(lean(s.h.as_mut_ptr(), s.h.len(), s.ws.as_mut_ptr(), s.ws.len(), n)))
  });
  alone("a call that does nothing, lent header, nodes and a number", time / calls as f64);
  let time = least(store, |s| {
    (0..calls).for_each(|n| {
      let Store { rules: r, h, ws, ks } = &mut *s;
      let (chart, sigils, rule, text) = (r.chart.as_ptr(), r.sigils.as_ptr(), r.rule.as_ptr(), r.text.as_ptr());
      let lens = (r.chart.len(), r.rule.len(), r.text.len());
      let (hs, wss, kss) = (h.as_mut_ptr(), ws.as_mut_ptr(), ks.as_mut_ptr());
      _ = black_box(whole(
        chart,
        lens.0,
        r.fn_trait,
        sigils,
        rule,
        lens.1,
        text,
        lens.2,
        hs,
        h.len(),
        wss,
        ws.len(),
        kss,
        ks.len(),
        n,
      ));
    })
  });
  alone("a call that does nothing, lent rules, store and a number", time / calls as f64);
}
