//! crates/library and crates/bench, as they are linked, over a store in three vectors. A slice is lent
//! as a pointer and a length.

use crate::shapes::{KIDS, Maker, NAMES, Side, VARS, name};

type P = *const u32;
type B = *const u8;
type M = *mut u32;
type N = usize;

// A public call takes the chart, the fn trait, the sigils, the rule text, the chart text, then the
// store's header, nodes and children; the core takes the last three.
#[rustfmt::skip]
unsafe extern "C" {
  fn faroalder_refusal(_: P, _: N, _: u32, _: P, _: B, _: N, _: B, _: N, h: P, _: N, ws: P, _: N, ks: P, _: N) -> u32;
  fn faroalder_open(h: M, _: N, ws: M, _: N, ks: M, _: N, nodes: u32, children: u32) -> u64;
  fn faroalder_new_var(_: P, _: N, _: u32, _: P, _: B, _: N, _: B, _: N, h: M, _: N, ws: M, _: N, ks: P, _: N, span: u32) -> u64;
  fn faroalder_new_vars(_: P, _: N, _: u32, _: P, _: B, _: N, _: B, _: N, h: M, _: N, ws: M, _: N, ks: P, _: N, span: u32, count: u32, out: M, _: N) -> u64;
  fn faroalder_new(_: P, _: N, _: u32, _: P, _: B, _: N, _: B, _: N, h: M, _: N, ws: M, _: N, ks: M, _: N, code: u32, number: u32, flex: u32, name: u32, _: u32, _: u32, entries: P, _: N) -> u64;
  fn faroalder_new_struct(_: P, _: N, _: u32, _: P, _: B, _: N, _: B, _: N, h: M, _: N, ws: M, _: N, ks: M, _: N, number: u32, types: P, _: N) -> u64;
  fn faroalder_new_union(_: P, _: N, _: u32, _: P, _: B, _: N, _: B, _: N, h: M, _: N, ws: M, _: N, ks: M, _: N, number: u32, types: P, _: N) -> u64;
  fn faroalder_error(_: P, _: N, _: u32, _: P, _: B, _: N, _: B, _: N, h: M, _: N, ws: M, _: N, ks: P, _: N) -> u64;
  fn faroalder_nil(_: P, _: N, _: u32, _: P, _: B, _: N, _: B, _: N, h: M, _: N, ws: M, _: N, ks: P, _: N) -> u64;
  fn faroalder_unify(_: P, _: N, _: u32, _: P, _: B, _: N, _: B, _: N, h: P, _: N, ws: M, _: N, ks: P, _: N, a: u32, b: u32) -> u64;
  fn faroalder_show(_: P, _: N, _: u32, _: P, _: B, _: N, _: B, _: N, h: P, _: N, ws: P, _: N, ks: P, _: N, t: u32, buf: *mut u8, _: N) -> u64;
  fn faroalder_direct_open(h: M, _: N, ws: M, _: N, ks: M, _: N, nodes: u32, children: u32);
  fn faroalder_direct_new_var(h: M, _: N, ws: M, _: N, ks: P, _: N, span: u32) -> u32;
  fn faroalder_direct_new_vars(h: M, _: N, ws: M, _: N, ks: P, _: N, span: u32, count: u32, out: M, _: N);
  fn faroalder_direct_new(h: M, _: N, ws: M, _: N, ks: M, _: N, code: u32, number: u32, entries: P, _: N) -> u32;
  fn faroalder_direct_error(h: M, _: N, ws: M, _: N, ks: P, _: N) -> u32;
  fn faroalder_direct_nil(h: M, _: N, ws: M, _: N, ks: P, _: N) -> u32;
  fn faroalder_direct_import(sw: P, _: N, sk: P, _: N, n: u32, h: M, _: N, ws: M, _: N, ks: M, _: N, ts: P, _: N, out: M, _: N);
  fn faroalder_direct_show(_: P, _: N, _: B, _: N, _: B, _: N, ws: P, _: N, ks: P, _: N, n: u32, t: u32, buf: *mut u8, _: N) -> usize;
  fn faroalder_direct_find(ws: P, _: N, n: u32, t: u32) -> u32;
  fn faroalder_direct_find_mut(ws: M, _: N, n: u32, t: u32) -> u32;
  fn faroalder_direct_is_nil(ws: P, _: N, n: u32, t: u32) -> u32;
  fn faroalder_direct_self_inverse(ws: P, _: N, ks: P, _: N, n: u32, t: u32) -> u32;
  fn faroalder_direct_get_mod(ws: P, _: N, ks: P, _: N, n: u32, chart: P, _: N, t: u32) -> u32;
  fn faroalder_direct_find_related(ws: P, _: N, ks: P, _: N, n: u32, marks: *mut u8, _: N, t: u32);
  fn faroalder_direct_unify(ws: M, _: N, ks: P, _: N, n: u32, rule: B, _: N, text: B, _: N, a: u32, b: u32) -> u32;
  fn faroalder_direct_unify_recalling(ws: M, _: N, ks: P, _: N, n: u32, rule: B, _: N, text: B, _: N, memory: M, _: N, a: u32, b: u32) -> u32;
}

/// A public call's answer from here on is a refusal.
const REFUSED: u64 = 1 << 32;

pub const TUPLE: u32 = 1;
pub const OBJECT: u32 = 2;
const STRUCT: u32 = 4;
pub const CLOSURE: u32 = 8;
pub const REF: u32 = 9;
pub const NEVER: u32 = 12;

const SPAN: u32 = 7;
const CHART_TEXT: &[u8] = b"pointshape";

/// A struct and a union, ten words each: sort, name and path (text, start, length), def, flag, trait.
const CHART: [u32; 20] = [1, 1, 0, 5, 1, 0, 5, 0, 0, 0, 3, 1, 5, 5, 1, 5, 5, 1, 0, 0];
/// No fn trait, and four empty sigils.
const NO_TRAIT: u32 = u32::MAX;
const SIGILS: [u32; 12] = [0; 12];
const STRUCT_RECORD: u32 = 0;
const UNION_RECORD: u32 = 1;

/// A store; what is timed goes through the public calls, or through the core.
#[derive(Clone)]
pub struct Ours<const PUBLIC: bool> {
  rule: Vec<u8>,
  h: Vec<u32>,
  ws: Vec<u32>,
  ks: Vec<u32>,
}

pub type Core = Ours<false>;
pub type Public = Ours<true>;

macro_rules! public {
  ($s:expr, $f:ident $(, $more:expr)*) => {
    unsafe {
      $f(
        CHART.as_ptr(), CHART.len(), NO_TRAIT, SIGILS.as_ptr(), $s.rule.as_ptr(), $s.rule.len(),
        CHART_TEXT.as_ptr(), CHART_TEXT.len(), $s.h.as_mut_ptr(), $s.h.len(),
        $s.ws.as_mut_ptr(), $s.ws.len(), $s.ks.as_mut_ptr(), $s.ks.len() $(, $more)*
      )
    }
  };
}

macro_rules! core {
  ($s:expr, $f:ident $(, $more:expr)*) => {
    unsafe {
      $f(
        $s.h.as_mut_ptr(), $s.h.len(), $s.ws.as_mut_ptr(), $s.ws.len(),
        $s.ks.as_mut_ptr(), $s.ks.len() $(, $more)*
      )
    }
  };
}

/// Calls that must not be refused.
fn repeat(turns: usize, mut call: impl FnMut() -> u64) {
  (0..turns).for_each(|_| assert!(call() < REFUSED));
}

/// Children without names, four words each.
fn entries(kids: &[u32]) -> Vec<u32> {
  kids.iter().flat_map(|&kid| [kid, 0, 0, 0]).collect()
}

/// Children with the names in order, each three bytes of the rule text.
fn fields(kids: &[u32]) -> Vec<u32> {
  kids.iter().zip(0..).flat_map(|(&kid, i)| [kid, 0, 3 * i, 3]).collect()
}

impl<const PUBLIC: bool> Ours<PUBLIC> {
  /// A store of these words, whatever they are.
  pub fn lent(rule: Vec<u8>, h: Vec<u32>, ws: Vec<u32>, ks: Vec<u32>) -> Self {
    Ours { rule, h, ws, ks }
  }

  /// Its words: the header's, the nodes', the children's.
  pub fn words(&self) -> [&[u32]; 3] {
    [&self.h, &self.ws, &self.ks]
  }

  /// 0 for a store that passes the soundness test.
  pub fn refusal(&mut self) -> u32 {
    public!(self, faroalder_refusal)
  }

  /// Opens the store anew.
  pub fn open(&mut self) {
    let (nodes, children) = (self.ws.len() as u32 / 12, self.ks.len() as u32 / 4);
    if PUBLIC {
      assert_eq!(core!(self, faroalder_open, nodes, children), 0);
    } else {
      core!(self, faroalder_direct_open, nodes, children);
    }
  }

  /// A kind over children as entries, by the core.
  pub fn kind(&mut self, code: u32, entries: &[u32]) -> u32 {
    core!(self, faroalder_direct_new, code, 0, entries.as_ptr(), entries.len())
  }

  fn direct_unify(&mut self, a: u32, b: u32) -> u32 {
    let Ours { rule, h, ws, ks } = self;
    unsafe {
      faroalder_direct_unify(
        ws.as_mut_ptr(),
        ws.len(),
        ks.as_ptr(),
        ks.len(),
        h[0],
        rule.as_ptr(),
        rule.len(),
        CHART_TEXT.as_ptr(),
        CHART_TEXT.len(),
        a,
        b,
      )
    }
  }

  /// The core unify with a lent memory, whatever it holds.
  pub fn unify_recalling(&mut self, memory: &mut [u32], a: u32, b: u32) -> u32 {
    let Ours { rule, h, ws, ks } = self;
    unsafe {
      faroalder_direct_unify_recalling(
        ws.as_mut_ptr(),
        ws.len(),
        ks.as_ptr(),
        ks.len(),
        h[0],
        rule.as_ptr(),
        rule.len(),
        CHART_TEXT.as_ptr(),
        CHART_TEXT.len(),
        memory.as_mut_ptr(),
        memory.len(),
        a,
        b,
      )
    }
  }

  /// What the types of another store become here, by the core: this one has the room.
  pub fn import(&mut self, from: &Self, types: &[u32], out: &mut [u32]) {
    assert!(types.len() <= out.len());
    let (sw, sk) = (&from.ws, &from.ks);
    let Ours { h, ws, ks, .. } = self;
    unsafe {
      faroalder_direct_import(
        sw.as_ptr(),
        sw.len(),
        sk.as_ptr(),
        sk.len(),
        from.h[0],
        h.as_mut_ptr(),
        h.len(),
        ws.as_mut_ptr(),
        ws.len(),
        ks.as_mut_ptr(),
        ks.len(),
        types.as_ptr(),
        types.len(),
        out.as_mut_ptr(),
        out.len(),
      )
    }
  }

  /// How many nodes there are.
  pub fn count(&self) -> usize {
    self.h[0] as usize
  }

  /// A store whose names lie in another rule text.
  pub fn with_rule(rule: Vec<u8>, nodes: usize) -> Self {
    Ours { rule, ..Self::opened(nodes) }
  }

  /// A text's length, or none where the buffer is full.
  pub fn show(&mut self, t: u32, buf: &mut [u8]) -> Option<usize> {
    if PUBLIC {
      let n = public!(self, faroalder_show, t, buf.as_mut_ptr(), buf.len());
      assert!(n < REFUSED || n == REFUSED + 7);
      return (n < REFUSED).then_some(n as usize);
    }
    let Ours { rule, h, ws, ks } = self;
    let end = unsafe {
      faroalder_direct_show(
        CHART.as_ptr(),
        CHART.len(),
        rule.as_ptr(),
        rule.len(),
        CHART_TEXT.as_ptr(),
        CHART_TEXT.len(),
        ws.as_ptr(),
        ws.len(),
        ks.as_ptr(),
        ks.len(),
        h[0],
        t,
        buf.as_mut_ptr(),
        buf.len(),
      )
    };
    (end <= buf.len()).then_some(end)
  }

  fn makes_public(&mut self, maker: Maker, turns: usize) {
    let lent = KIDS.map(|kid| [kid, 0, 0, 0]);
    let lent = lent.as_flattened();
    let mut out = [0; VARS];
    match maker {
      Maker::Var => repeat(turns, || public!(self, faroalder_new_var, SPAN)),
      Maker::Vars => repeat(turns, || {
        public!(self, faroalder_new_vars, SPAN, VARS as u32, out.as_mut_ptr(), VARS)
      }),
      Maker::Tuple => {
        repeat(turns, || public!(self, faroalder_new, TUPLE, 0, 0, 0, 0, 0, lent.as_ptr(), lent.len()))
      }
      Maker::Struct => repeat(turns, || {
        public!(self, faroalder_new_struct, STRUCT_RECORD, KIDS.as_ptr(), KIDS.len())
      }),
      Maker::Union => repeat(turns, || {
        public!(self, faroalder_new_union, UNION_RECORD, KIDS.as_ptr(), KIDS.len())
      }),
      Maker::Error => repeat(turns, || public!(self, faroalder_error)),
      Maker::Nil => repeat(turns, || public!(self, faroalder_nil)),
    }
  }

  fn makes_core(&mut self, maker: Maker, turns: usize) {
    let lent = KIDS.map(|kid| [kid, 0, 0, 0]);
    let lent = lent.as_flattened();
    let mut out = [0; VARS];
    match maker {
      Maker::Var => repeat(turns, || core!(self, faroalder_direct_new_var, SPAN) as u64),
      Maker::Vars => repeat(turns, || {
        core!(self, faroalder_direct_new_vars, SPAN, VARS as u32, out.as_mut_ptr(), VARS);
        0
      }),
      Maker::Tuple => repeat(turns, || self.kind(TUPLE, lent) as u64),
      Maker::Error => repeat(turns, || core!(self, faroalder_direct_error) as u64),
      Maker::Nil => repeat(turns, || core!(self, faroalder_direct_nil) as u64),
      Maker::Struct | Maker::Union => unreachable!(),
    }
  }
}

impl<const PUBLIC: bool> Side for Ours<PUBLIC> {
  const AT_ONCE: usize = if PUBLIC { 32 } else { 2048 };

  fn opened(nodes: usize) -> Self {
    let rule = (0..NAMES).flat_map(|i| name(i).into_bytes()).collect();
    let mut side = Ours { rule, h: vec![0; 8], ws: vec![0; 12 * nodes], ks: vec![0; 16 * nodes] };
    side.open();
    side
  }

  fn var(&mut self) -> u32 {
    core!(self, faroalder_direct_new_var, SPAN)
  }

  fn tuple(&mut self, kids: &[u32]) -> u32 {
    self.kind(TUPLE, &entries(kids))
  }

  fn object(&mut self, kids: &[u32]) -> u32 {
    self.kind(OBJECT, &fields(kids))
  }

  fn reference(&mut self, kid: u32) -> u32 {
    self.kind(REF, &entries(&[kid]))
  }

  fn structure(&mut self, kids: &[u32]) -> u32 {
    self.kind(STRUCT, &entries(kids))
  }

  fn error(&mut self) -> u32 {
    core!(self, faroalder_direct_error)
  }

  fn merge(&mut self, a: u32, b: u32) {
    assert_eq!(self.direct_unify(a, b), 0);
  }

  fn unify(&mut self, a: u32, b: u32) -> u64 {
    if PUBLIC { public!(self, faroalder_unify, a, b) } else { self.direct_unify(a, b) as u64 }
  }

  fn makes(&mut self, maker: Maker, calls: usize) {
    if PUBLIC { self.makes_public(maker, calls) } else { self.makes_core(maker, calls) }
  }
}

// The core functions that ask, of n nodes.

pub fn find(s: &Core, n: u32, t: u32) -> u32 {
  unsafe { faroalder_direct_find(s.ws.as_ptr(), s.ws.len(), n, t) }
}

pub fn find_mut(s: &mut Core, n: u32, t: u32) -> u32 {
  unsafe { faroalder_direct_find_mut(s.ws.as_mut_ptr(), s.ws.len(), n, t) }
}

pub fn is_nil(s: &Core, n: u32, t: u32) -> u32 {
  unsafe { faroalder_direct_is_nil(s.ws.as_ptr(), s.ws.len(), n, t) }
}

pub fn self_inverse(s: &Core, n: u32, t: u32) -> u32 {
  unsafe { faroalder_direct_self_inverse(s.ws.as_ptr(), s.ws.len(), s.ks.as_ptr(), s.ks.len(), n, t) }
}

pub fn get_mod(s: &Core, n: u32, t: u32) -> u32 {
  let (ws, ks) = (&s.ws, &s.ks);
  unsafe { faroalder_direct_get_mod(ws.as_ptr(), ws.len(), ks.as_ptr(), ks.len(), n, CHART.as_ptr(), CHART.len(), t) }
}

/// Its marks are cleared first.
pub fn find_related(s: &Core, n: u32, t: u32, marks: &mut [u8]) {
  let (ws, ks) = (&s.ws, &s.ks);
  marks.fill(0);
  unsafe {
    faroalder_direct_find_related(ws.as_ptr(), ws.len(), ks.as_ptr(), ks.len(), n, marks.as_mut_ptr(), marks.len(), t)
  }
}
