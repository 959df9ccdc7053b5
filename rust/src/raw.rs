//! The boundary to the library, and all the `unsafe` of this crate.
//!
//! The library has two families of calls with the same arguments. The first tests everything, so any numbers at all may
//! be lent to it: [`Lent`] has it. The second, which [`Store`] has, tests its arguments alone and asks for a chart and a
//! store that passed the tests and that only the library's calls have written since. `Store` keeps that promise by
//! keeping its words to itself: they come from an opening or passed the test, and nothing outside this module reaches
//! them. The same goes for its names buffer, which is opened here for the store's capacities. Some calls of the second
//! family have a lean form, which is lent no more of the store than it looks at.
//!
//! What is asked of every pointer, in both families: it is aligned, points to as many numbers as its length says, and
//! nothing that is written overlaps anything else that is lent. Each pointer here is a slice's, and what is written is
//! behind a `&mut`, so all of that holds.

use std::{mem::MaybeUninit, sync::Arc};

use crate::ty::Type;

/// The codes of the kinds.
#[rustfmt::skip]
pub mod code {
  pub const PARAM: u32 = 0;
  pub const TUPLE: u32 = 1;
  pub const OBJECT: u32 = 2;
  pub const OPAQUE: u32 = 3;
  pub const STRUCT: u32 = 4;
  pub const ENUM: u32 = 5;
  pub const UNION: u32 = 6;
  pub const FN: u32 = 7;
  pub const CLOSURE: u32 = 8;
  pub const REF: u32 = 9;
  pub const KEY: u32 = 10;
  pub const IF_CONST: u32 = 11;
  pub const NEVER: u32 = 12;
  pub const DEFAULT: u32 = 13;
  pub const ERROR: u32 = 14;
}

/// An answer from here on is a refusal: this and its number.
pub const REFUSED: u64 = 1 << 32;

/// The refusal of a name that isn't held.
const UNHELD: u64 = 12;

/// No fn trait, no remembered type, an impl type that is an error.
pub const NONE: u32 = u32::MAX;

/// How many words a record takes.
pub const RECORD_WORDS: usize = 10;

/// How many words a node, a kind or the figures take where a call writes them out.
pub const OUT: usize = 12;

/// Where a store's header has the nodes and children that are made, and the room for them.
const COUNTS: std::ops::Range<usize> = 0..2;
const ROOM: std::ops::Range<usize> = 2..4;

/// A child's words: its type, then its name.
pub type Child = [u32; 4];

/// A names buffer: two capacities, then eight places, each a name's length, a word for each byte, and a state's words.
const NAMES_HEAD: usize = 2;
const PLACES: usize = 8;
const NAME_WORDS: usize = 256;

/// A chart's record in plain numbers, any at all; a name is a text, a start and a length.
#[derive(Debug, Clone, Copy, PartialEq, Eq)]
#[repr(C)]
pub struct Record {
  /// What it defines, 0 to 7.
  pub sort: u32,
  /// Its name.
  pub name: [u32; 3],
  /// Its path.
  pub path: [u32; 3],
  /// Its module's number.
  pub def: u32,
  /// 1 if it is self-dual.
  pub dual: u32,
  /// A trait fn's trait.
  pub trait_: u32,
}

type P = *const u32;
type M = *mut u32;
type N = usize;

unsafe extern "C" {
  safe fn faroalder_header_words() -> N;
  safe fn faroalder_node_words(nodes: u32) -> N;
  safe fn faroalder_child_words(children: u32) -> N;
  safe fn faroalder_names_words(nodes: u32, children: u32) -> N;
  fn faroalder_load(records: *const Record, len: N, words: M, words_len: N) -> u32;
  fn faroalder_open(h: M, _: N, ws: M, _: N, ks: M, _: N, nodes: u32, children: u32) -> u64;
  fn faroalder_open_names(bs: M, _: N, nodes: u32, children: u32) -> u64;
}

/// Declares a family. Every call takes the rules, the store and then what stands here.
macro_rules! family {
  ($prefix:literal, $answer:ty; $($name:ident($($arg:ident: $ty:ty),*);)*) => {
    unsafe extern "C" {$(
      #[link_name = concat!($prefix, stringify!($name))]
      pub fn $name(
        chart: P, chart_len: N, fn_trait: u32, sigils: P,
        rule: *const u8, rule_len: N, text: *const u8, text_len: N,
        h: M, h_len: N, ws: M, ws_len: N, ks: M, ks_len: N $(, $arg: $ty)*
      ) -> $answer;
    )*}
  };
}

macro_rules! calls {
  ($prefix:literal) => {
    use super::{M, N, P};
    family! { $prefix, u64;
      new_vars(span: u32, count: u32, out: M, out_len: N);
      new(code: u32, number: u32, flex: u32, text: u32, start: u32, len: u32, es: P, es_len: N);
      node(t: u32, out: M);
      figures(out: M);
      is_nil(t: u32);
      self_inverse_param(t: u32, param: u32);
      get_mod(t: u32, out: M);
      find_related(marks: *mut u8, marks_len: N, t: u32);
      force_kind(t: u32, out: M);
      finish_inference();
      finish_inference_where(bytes: *const u8, bytes_len: N);
      name_state(bs: M, bs_len: N, name: *const u8, name_len: N);
      return_to(bs: P, bs_len: N, name: *const u8, name_len: N);
      drop_name(bs: M, bs_len: N, name: *const u8, name_len: N);
      reset(bs: M, bs_len: N);
      approx_eq(a: u32, x: P, x_len: N, b: u32, y: P, y_len: N);
      show(t: u32, buf: *mut u8, buf_len: N);
      show_impl_type(a: u32, x: P, x_len: N, buf: *mut u8, buf_len: N);
      import(sh: P, sh_len: N, sw: P, sw_len: N, sk: P, sk_len: N, ts: P, ts_len: N, listed: u32,
        ps: P, ps_len: N, out: M, out_len: N);
      export(h: M, h_len: N, ws: M, ws_len: N, ks: M, ks_len: N, nodes: u32, children: u32,
        ts: P, ts_len: N, out: M, out_len: N);
    }
  };
}

mod first {
  calls! { "faroalder_" }
  family! { "faroalder_", u32; refusal(); names_refusal(bs: P, bs_len: N); }
  family! { "faroalder_", u64;
    new_var(span: u32);
    new_struct(number: u32, ts: P, ts_len: N);
    new_union(number: u32, ts: P, ts_len: N);
    error();
    nil();
    find(t: u32);
    find_mut(t: u32);
    child(t: u32, j: u32, out: M);
    child_name(t: u32, j: u32, out: M);
    unify(a: u32, b: u32);
    unify_types(a: P, a_len: N, b: P, b_len: N, inv: u32);
    unify_objects(a: P, a_len: N, b: P, b_len: N, inv: u32);
    unify_fn_sig(a: P, a_len: N, a_ret: u32, b: P, b_len: N, b_ret: u32);
    unify_impl_type(a: u32, x: P, x_len: N, b: u32, y: P, y_len: N);
    unify_recalling(a: u32, b: u32, m: M, m_len: N);
  }
}

mod second {
  calls! { "faroalder_tested_" }
  family! { "faroalder_tested_", u64;
    unify_recalling(a: u32, b: u32, m: M, m_len: N);
    unify_types_recalling(a: P, a_len: N, b: P, b_len: N, inv: u32, m: M, m_len: N);
    unify_objects_recalling(a: P, a_len: N, b: P, b_len: N, inv: u32, m: M, m_len: N);
    unify_fn_sig_recalling(a: P, a_len: N, a_ret: u32, b: P, b_len: N, b_ret: u32, m: M, m_len: N);
    unify_impl_type_recalling(a: u32, x: P, x_len: N, b: u32, y: P, y_len: N, m: M, m_len: N);
  }
}

/// The lean forms: header and nodes, and of the rules and the children no more than stands here.
mod lean {
  use super::{M, N, P};
  macro_rules! lean {
    ($($name:ident($($arg:ident: $ty:ty),*);)*) => {
      unsafe extern "C" {$(
        #[link_name = concat!("faroalder_lean_", stringify!($name))]
        pub fn $name($($arg: $ty),*) -> u64;
      )*}
    };
  }
  lean! {
    new_var(h: M, h_len: N, ws: M, ws_len: N, span: u32);
    error(h: M, h_len: N, ws: M, ws_len: N);
    nil(h: M, h_len: N, ws: M, ws_len: N);
    find(h: P, h_len: N, ws: P, ws_len: N, t: u32);
    find_mut(h: P, h_len: N, ws: M, ws_len: N, t: u32);
    new_over(chart: P, chart_len: N, h: M, h_len: N, ws: M, ws_len: N, ks: M, ks_len: N, code: u32, number: u32,
      ts: P, ts_len: N);
  }
}

/// A chart in words, what stands beside it, and the two texts: any at all, tested or not.
#[derive(Debug, Clone, PartialEq, Eq)]
pub struct Rules {
  /// Ten words for each record.
  pub chart: Vec<u32>,
  /// The place of the builtin fn trait, or 4,294,967,295.
  pub fn_trait: u32,
  /// Three words for each sigil: text, start, length.
  pub sigils: [u32; 12],
  /// The rule text.
  pub rule: Vec<u8>,
  /// The chart text.
  pub text: Vec<u8>,
}

/// Rules that passed the test. Nothing changes them any more.
#[derive(Debug, Clone)]
pub struct Tested(Arc<Rules>);

/// Words that are lent as a store, any at all, with rules of any sort: for the calls that test everything.
#[derive(Debug)]
pub struct Lent<'a> {
  /// The rules.
  pub rules: &'a Rules,
  /// The header's words.
  pub h: &'a mut [u32],
  /// The nodes' words.
  pub ws: &'a mut [u32],
  /// The children's words.
  pub ks: &'a mut [u32],
}

/// A store's words, when it is taken apart or put together.
#[derive(Debug, Clone, Default, PartialEq, Eq)]
pub struct Words {
  /// The header's words.
  pub h: Vec<u32>,
  /// The nodes' words.
  pub ws: Vec<u32>,
  /// The children's words.
  pub ks: Vec<u32>,
}

/// A store that only the library's calls have written since it was opened or tested, with the rules that it was tested
/// by.
#[derive(Debug)]
pub struct Store {
  rules: Tested,
  h: Vec<u32>,
  ws: Vec<u32>,
  ks: Vec<u32>,
  /// Empty, or a names buffer for this store's room.
  names: Vec<u32>,
}

impl Clone for Store {
  fn clone(&self) -> Store {
    let Store { rules, h, ws, ks, .. } = self;
    let [nodes, children] = self.room();
    let names = self.names_with_room(nodes, children);
    Store { rules: rules.clone(), h: h.clone(), ws: ws.clone(), ks: ks.clone(), names }
  }
}

/// A call that may write the store.
macro_rules! change {
  ($s:expr, $call:path $(, $arg:expr)*) => {{
    let r: &Rules = $s.rules();
    // SAFETY: the pointers and lengths are those of slices that are borrowed until the call is over. `$s` is borrowed
    // alone, so its three slices overlap nothing else that is lent, and the other slices that are written are behind
    // a `&mut` of the caller's. The first family asks no more; that a `Store` is one for the second is its invariant.
    unsafe {
      $call(
        r.chart.as_ptr(), r.chart.len(), r.fn_trait, r.sigils.as_ptr(),
        r.rule.as_ptr(), r.rule.len(), r.text.as_ptr(), r.text.len(),
        $s.h.as_mut_ptr(), $s.h.len(), $s.ws.as_mut_ptr(), $s.ws.len(), $s.ks.as_mut_ptr(), $s.ks.len()
        $(, $arg)*
      )
    }
  }};
}

/// A call that only reads the store.
macro_rules! read {
  ($s:expr, $call:path $(, $arg:expr)*) => {{
    let r: &Rules = $s.rules();
    // SAFETY: as above; the library takes these three slices as ones that it only reads, so a shared borrow is enough.
    unsafe {
      $call(
        r.chart.as_ptr(), r.chart.len(), r.fn_trait, r.sigils.as_ptr(),
        r.rule.as_ptr(), r.rule.len(), r.text.as_ptr(), r.text.len(),
        $s.h.as_ptr().cast_mut(), $s.h.len(), $s.ws.as_ptr().cast_mut(), $s.ws.len(),
        $s.ks.as_ptr().cast_mut(), $s.ks.len()
        $(, $arg)*
      )
    }
  }};
}

/// The calls of a family, the same for both.
macro_rules! methods {
  ($family:ident) => {
    pub fn new_vars(&mut self, span: u32, count: u32, out: &mut [u32]) -> u64 {
      change!(self, $family::new_vars, span, count, out.as_mut_ptr(), out.len())
    }

    /// The kind's code, number, flex and own name, then the words of its children.
    pub fn new_kind(&mut self, head: [u32; 6], entries: &[u32]) -> u64 {
      let [code, number, flex, text, start, len] = head;
      let (es, n) = (entries.as_ptr(), entries.len());
      change!(self, $family::new, code, number, flex, text, start, len, es, n)
    }

    pub fn node(&self, t: u32, out: &mut [u32; OUT]) -> u64 {
      read!(self, $family::node, t, out.as_mut_ptr())
    }

    pub fn figures(&self, out: &mut [u32; OUT]) -> u64 {
      read!(self, $family::figures, out.as_mut_ptr())
    }

    pub fn is_nil(&self, t: u32) -> u64 {
      read!(self, $family::is_nil, t)
    }

    pub fn self_inverse_param(&self, t: u32, param: bool) -> u64 {
      read!(self, $family::self_inverse_param, t, param.into())
    }

    pub fn get_mod(&self, t: u32, out: &mut [u32; 1]) -> u64 {
      read!(self, $family::get_mod, t, out.as_mut_ptr())
    }

    pub fn find_related(&self, marks: &mut [u8], t: u32) -> u64 {
      read!(self, $family::find_related, marks.as_mut_ptr(), marks.len(), t)
    }

    pub fn force_kind(&mut self, t: u32, out: &mut [u32; OUT]) -> u64 {
      change!(self, $family::force_kind, t, out.as_mut_ptr())
    }

    pub fn finish_inference(&mut self) -> u64 {
      change!(self, $family::finish_inference)
    }

    pub fn finish_inference_where(&mut self, bytes: &[u8]) -> u64 {
      change!(self, $family::finish_inference_where, bytes.as_ptr(), bytes.len())
    }

    fn name_state_in(&self, bs: &mut [u32], name: &[u8]) -> u64 {
      let (words, n) = (bs.as_mut_ptr(), bs.len());
      read!(self, $family::name_state, words, n, name.as_ptr(), name.len())
    }

    fn return_to_in(&mut self, bs: &[u32], name: &[u8]) -> u64 {
      let (words, n) = (bs.as_ptr(), bs.len());
      change!(self, $family::return_to, words, n, name.as_ptr(), name.len())
    }

    fn drop_name_in(&self, bs: &mut [u32], name: &[u8]) -> u64 {
      let (words, n) = (bs.as_mut_ptr(), bs.len());
      read!(self, $family::drop_name, words, n, name.as_ptr(), name.len())
    }

    fn reset_in(&mut self, bs: &mut [u32]) -> u64 {
      change!(self, $family::reset, bs.as_mut_ptr(), bs.len())
    }

    pub fn approx_eq(&self, (a, x): (u32, &[u32]), (b, y): (u32, &[u32])) -> u64 {
      let (xs, ys) = (x.as_ptr(), y.as_ptr());
      read!(self, $family::approx_eq, a, xs, x.len(), b, ys, y.len())
    }

    pub fn show(&self, t: u32, buf: &mut [u8]) -> u64 {
      read!(self, $family::show, t, buf.as_mut_ptr(), buf.len())
    }

    pub fn show_impl_type(&self, (a, x): (u32, &[u32]), buf: &mut [u8]) -> u64 {
      let (out, n) = (buf.as_mut_ptr(), buf.len());
      read!(self, $family::show_impl_type, a, x.as_ptr(), x.len(), out, n)
    }

    fn import_from(
      &mut self,
      source: [&[u32]; 3],
      types: &[u32],
      params: Option<&[u32]>,
      out: &mut [u32],
    ) -> u64 {
      let [sh, sw, sk] = source;
      let (listed, ps) = (params.is_some().into(), params.unwrap_or(&[]));
      change!(
        self,
        $family::import,
        sh.as_ptr(),
        sh.len(),
        sw.as_ptr(),
        sw.len(),
        sk.as_ptr(),
        sk.len(),
        types.as_ptr(),
        types.len(),
        listed,
        ps.as_ptr(),
        ps.len(),
        out.as_mut_ptr(),
        out.len()
      )
    }

    fn export_into(
      &self,
      into: [Place; 3],
      [nodes, children]: [u32; 2],
      types: &[u32],
      out: &mut [u32],
    ) -> u64 {
      let [(h, h_len), (ws, ws_len), (ks, ks_len)] = into.map(lent);
      let (ts, n) = (types.as_ptr(), types.len());
      let (to, m) = (out.as_mut_ptr(), out.len());
      read!(self, $family::export, h, h_len, ws, ws_len, ks, ks_len, nodes, children, ts, n, to, m)
    }
  };
}

#[allow(missing_docs)]
impl Lent<'_> {
  methods! { first }

  pub fn new_var(&mut self, span: u32) -> u64 {
    change!(self, first::new_var, span)
  }

  pub fn new_struct(&mut self, number: u32, types: &[u32]) -> u64 {
    change!(self, first::new_struct, number, types.as_ptr(), types.len())
  }

  pub fn new_union(&mut self, number: u32, types: &[u32]) -> u64 {
    change!(self, first::new_union, number, types.as_ptr(), types.len())
  }

  pub fn error(&mut self) -> u64 {
    change!(self, first::error)
  }

  pub fn nil(&mut self) -> u64 {
    change!(self, first::nil)
  }

  pub fn find(&self, t: u32) -> u64 {
    read!(self, first::find, t)
  }

  pub fn find_mut(&mut self, t: u32) -> u64 {
    change!(self, first::find_mut, t)
  }

  pub fn child(&self, t: u32, j: u32, out: &mut [u32; 1]) -> u64 {
    read!(self, first::child, t, j, out.as_mut_ptr())
  }

  pub fn child_name(&self, t: u32, j: u32, out: &mut [u32; 3]) -> u64 {
    read!(self, first::child_name, t, j, out.as_mut_ptr())
  }

  pub fn unify(&mut self, a: u32, b: u32) -> u64 {
    change!(self, first::unify, a, b)
  }

  /// The same with a memory, of any length and whatever it holds: what is remembered changes no answer.
  pub fn unify_recalling(&mut self, a: u32, b: u32, m: &mut [u32]) -> u64 {
    change!(self, first::unify_recalling, a, b, m.as_mut_ptr(), m.len())
  }

  pub fn unify_types(&mut self, a: &[u32], b: &[u32], inv: bool) -> u64 {
    let inv = inv.into();
    change!(self, first::unify_types, a.as_ptr(), a.len(), b.as_ptr(), b.len(), inv)
  }

  pub fn unify_objects(&mut self, a: &[u32], b: &[u32], inv: bool) -> u64 {
    let inv = inv.into();
    change!(self, first::unify_objects, a.as_ptr(), a.len(), b.as_ptr(), b.len(), inv)
  }

  pub fn unify_fn_sig(&mut self, a: &[u32], a_ret: u32, b: &[u32], b_ret: u32) -> u64 {
    let (x, y) = (a.as_ptr(), b.as_ptr());
    change!(self, first::unify_fn_sig, x, a.len(), a_ret, y, b.len(), b_ret)
  }

  pub fn unify_impl_type(&mut self, (a, x): (u32, &[u32]), (b, y): (u32, &[u32])) -> u64 {
    let (xs, ys) = (x.as_ptr(), y.as_ptr());
    change!(self, first::unify_impl_type, a, xs, x.len(), b, ys, y.len())
  }

  fn rules(&self) -> &Rules {
    self.rules
  }

  /// The test alone: 0, 2 or 8.
  pub fn refusal(&self) -> u32 {
    read!(self, first::refusal)
  }

  /// The test alone, with that of a names buffer: 0, 2 or 8.
  pub fn names_refusal(&self, bs: &[u32]) -> u32 {
    read!(self, first::names_refusal, bs.as_ptr(), bs.len())
  }

  pub fn name_state(&self, bs: &mut [u32], name: &[u8]) -> u64 {
    self.name_state_in(bs, name)
  }

  pub fn return_to(&mut self, bs: &[u32], name: &[u8]) -> u64 {
    self.return_to_in(bs, name)
  }

  pub fn drop_name(&self, bs: &mut [u32], name: &[u8]) -> u64 {
    self.drop_name_in(bs, name)
  }

  pub fn reset(&mut self, bs: &mut [u32]) -> u64 {
    self.reset_in(bs)
  }

  pub fn open(&mut self, nodes: u32, children: u32) -> u64 {
    open([place(self.h), place(self.ws), place(self.ks)], nodes, children)
  }

  pub fn import(
    &mut self,
    source: [&[u32]; 3],
    types: &[u32],
    params: Option<&[u32]>,
    out: &mut [u32],
  ) -> u64 {
    self.import_from(source, types, params, out)
  }

  pub fn export(
    &self,
    into: [&mut [u32]; 3],
    room: [u32; 2],
    types: &[u32],
    out: &mut [u32],
  ) -> u64 {
    self.export_into(into.map(place), room, types, out)
  }
}

/// Words that a call is to write, whatever they held, if they held any numbers at all.
type Place<'a> = &'a mut [MaybeUninit<u32>];

/// A slice's words as such a place.
fn place(words: &mut [u32]) -> Place<'_> {
  // SAFETY: the same words. Only the library writes them, and it writes numbers.
  unsafe { std::slice::from_raw_parts_mut(words.as_mut_ptr().cast(), words.len()) }
}

/// A place as it is lent.
fn lent(words: Place) -> (M, N) {
  (words.as_mut_ptr().cast(), words.len())
}

/// Opens a store in these words.
fn open(words: [Place; 3], nodes: u32, children: u32) -> u64 {
  let [(h, h_len), (ws, ws_len), (ks, ks_len)] = words.map(lent);
  // SAFETY: pointers and lengths of three slices, each borrowed alone. The call tests what is left.
  unsafe { faroalder_open(h, h_len, ws, ws_len, ks, ks_len, nodes, children) }
}

/// How many words a names buffer takes beside a store of this room.
pub fn names_words(nodes: u32, children: u32) -> usize {
  faroalder_names_words(nodes, children)
}

/// Makes any words a names buffer without a name, for a store of this room.
pub fn open_names(bs: &mut [u32], nodes: u32, children: u32) -> u64 {
  // SAFETY: the pointer and length of a slice that is borrowed alone. The call tests what is left.
  unsafe { faroalder_open_names(bs.as_mut_ptr(), bs.len(), nodes, children) }
}

/// A names buffer without a name, for a room within the limits. Its words are 0 as the system gives them, so that memory
/// is taken up only where a state is held.
fn fresh_names(nodes: u32, children: u32) -> Vec<u32> {
  let mut names = vec![0; names_words(nodes, children)];
  let answer = open_names(&mut names, nodes, children);
  assert!(answer == 0, "a room within the limits");
  names
}

/// The held places of a names buffer, one after another; none where there is no buffer.
fn held(bs: &[u32]) -> impl Iterator<Item = Held<'_>> {
  let size = bs.len().saturating_sub(NAMES_HEAD) / PLACES;
  let places = bs.get(NAMES_HEAD..).unwrap_or(&[]).chunks_exact(size.max(1)).take(PLACES);
  places.filter(|place| place[0] != 0).map(|place| {
    let (name, state) = place.split_at(NAME_WORDS);
    let (h, rest) = state.split_at(faroalder_header_words());
    Held { name, h, rest }
  })
}

/// A held place: a name's length and bytes, a state's header, and its nodes and children.
struct Held<'a> {
  name: &'a [u32],
  h: &'a [u32],
  rest: &'a [u32],
}

impl Held<'_> {
  fn bytes(&self) -> Vec<u8> {
    self.name[1..].iter().take(self.name[0] as usize).map(|byte| *byte as u8).collect()
  }

  /// The state's nodes' and children's words, as many as are in use; the place is one of a buffer for so many nodes.
  fn used(&self, nodes: u32) -> [&[u32]; 2] {
    let (ws, ks) = self.rest.split_at(faroalder_node_words(nodes));
    let [n, c] = [self.h[COUNTS.start], self.h[COUNTS.start + 1]];
    [&ws[..faroalder_node_words(n)], &ks[..faroalder_child_words(c)]]
  }
}

/// Writes the words of a chart with these records to the front of `words`: 0, or 7 where there is too little room.
pub fn load(records: &[Record], words: &mut [u32]) -> u32 {
  // SAFETY: pointers and lengths of two slices, the second borrowed alone; a `Record` is laid out as the header's.
  unsafe { faroalder_load(records.as_ptr(), records.len(), words.as_mut_ptr(), words.len()) }
}

/// Types as the words that they are.
pub fn words(types: &[Type]) -> &[u32] {
  // SAFETY: a `Type` is a `u32` and nothing else, by `repr(transparent)`.
  unsafe { std::slice::from_raw_parts(types.as_ptr().cast(), types.len()) }
}

/// Types as the words that they are, to be written; any word is a type.
pub fn words_mut(types: &mut [Type]) -> &mut [u32] {
  // SAFETY: a `Type` is a `u32` and nothing else, by `repr(transparent)`.
  unsafe { std::slice::from_raw_parts_mut(types.as_mut_ptr().cast(), types.len()) }
}

/// Words of a store of this room that a call opens, or the number that it refuses with. A room above the limits gets no
/// more than these: the call refuses it.
fn opened(nodes: u32, children: u32, open: impl FnOnce([Place; 3]) -> u64) -> Result<Words, u32> {
  let lengths = [
    faroalder_header_words(),
    faroalder_node_words(nodes.min(crate::MAX_NODES)),
    faroalder_child_words(children.min(crate::MAX_CHILDREN)),
  ];
  let [h_len, ws_len, ks_len] = lengths;
  let [mut h, mut ws, mut ks] = lengths.map(Vec::with_capacity);
  let places = [(&mut h, h_len), (&mut ws, ws_len), (&mut ks, ks_len)];
  refused(open(places.map(|(words, len)| &mut words.spare_capacity_mut()[..len])))?;
  for (words, len) in [(&mut h, h_len), (&mut ws, ws_len), (&mut ks, ks_len)] {
    // SAFETY: an opening that is not refused leaves a store of this room, whose header, nodes and children take exactly
    // these words; it has written each of them.
    unsafe { words.set_len(len) };
  }
  Ok(Words { h, ws, ks })
}

/// The number that an answer refuses with.
fn refused(answer: u64) -> Result<(), u32> {
  if answer < REFUSED { Ok(()) } else { Err((answer - REFUSED) as u32) }
}

impl Words {
  fn parts(&mut self) -> [&mut [u32]; 3] {
    [&mut self.h, &mut self.ws, &mut self.ks]
  }

  /// The test of these words and the rules: 2 or 8 where they break it.
  fn test(&mut self, rules: &Rules) -> Result<(), u32> {
    let [h, ws, ks] = self.parts();
    match (Lent { rules, h, ws, ks }).refusal() {
      0 => Ok(()),
      number => Err(number),
    }
  }

  fn opened(nodes: u32, children: u32) -> Result<Words, u32> {
    opened(nodes, children, |places| open(places, nodes, children))
  }
}

impl Rules {
  /// Tests the rules, by the test of a store without a node: 2 where they break it.
  pub fn tested(self) -> Result<Tested, u32> {
    Words::opened(0, 0)?.test(&self)?;
    Ok(Tested(Arc::new(self)))
  }
}

impl Tested {
  /// The rules.
  pub fn rules(&self) -> &Rules {
    &self.0
  }
}

/// A lean call that may write the store's header and nodes.
macro_rules! change_nodes {
  ($s:expr, $call:path $(, $arg:expr)*) => {
    // SAFETY: the pointers and lengths are those of two slices of a `Store`, which is borrowed alone until the call is
    // over. That they are those of a tested store is its invariant.
    unsafe { $call($s.h.as_mut_ptr(), $s.h.len(), $s.ws.as_mut_ptr(), $s.ws.len() $(, $arg)*) }
  };
}

impl Store {
  methods! { second }

  #[inline]
  pub fn new_var(&mut self, span: u32) -> u64 {
    change_nodes!(self, lean::new_var, span)
  }

  #[inline]
  pub fn error(&mut self) -> u64 {
    change_nodes!(self, lean::error)
  }

  #[inline]
  pub fn nil(&mut self) -> u64 {
    change_nodes!(self, lean::nil)
  }

  #[inline]
  pub fn find(&self, t: u32) -> u64 {
    // SAFETY: as above; the call only reads, so a shared borrow is enough.
    unsafe { lean::find(self.h.as_ptr(), self.h.len(), self.ws.as_ptr(), self.ws.len(), t) }
  }

  #[inline]
  pub fn find_mut(&mut self, t: u32) -> u64 {
    change_nodes!(self, lean::find_mut, t)
  }

  /// The children of a node, which lie where its words say: each a type and a name.
  #[inline]
  pub fn children(&self, first: u32, count: u32) -> &[Child] {
    &self.ks.as_chunks().0[first as usize..][..count as usize]
  }

  /// A kind without names over listed types.
  #[inline]
  pub fn new_over(&mut self, code: u32, number: u32, types: &[u32]) -> u64 {
    let Store { rules, h, ws, ks, .. } = self;
    let chart = &rules.0.chart;
    // SAFETY: pointers and lengths of slices; the store's three are borrowed alone until the call is over, and the
    // others are only read. That chart and store are tested is the invariant of a `Store`.
    unsafe {
      lean::new_over(
        chart.as_ptr(),
        chart.len(),
        h.as_mut_ptr(),
        h.len(),
        ws.as_mut_ptr(),
        ws.len(),
        ks.as_mut_ptr(),
        ks.len(),
        code,
        number,
        types.as_ptr(),
        types.len(),
      )
    }
  }

  /// Unifying with a memory, of any length and whatever it holds: what is remembered changes no answer.
  pub fn unify(&mut self, a: u32, b: u32, m: &mut [u32]) -> u64 {
    change!(self, second::unify_recalling, a, b, m.as_mut_ptr(), m.len())
  }

  pub fn unify_types(&mut self, a: &[u32], b: &[u32], inv: bool, m: &mut [u32]) -> u64 {
    let (x, y, inv) = (a.as_ptr(), b.as_ptr(), inv.into());
    change!(
      self,
      second::unify_types_recalling,
      x,
      a.len(),
      y,
      b.len(),
      inv,
      m.as_mut_ptr(),
      m.len()
    )
  }

  pub fn unify_objects(&mut self, a: &[u32], b: &[u32], inv: bool, m: &mut [u32]) -> u64 {
    let (x, y, inv) = (a.as_ptr(), b.as_ptr(), inv.into());
    change!(
      self,
      second::unify_objects_recalling,
      x,
      a.len(),
      y,
      b.len(),
      inv,
      m.as_mut_ptr(),
      m.len()
    )
  }

  pub fn unify_fn_sig(
    &mut self,
    (a, r): (&[u32], u32),
    (b, q): (&[u32], u32),
    m: &mut [u32],
  ) -> u64 {
    let (x, y) = (a.as_ptr(), b.as_ptr());
    change!(
      self,
      second::unify_fn_sig_recalling,
      x,
      a.len(),
      r,
      y,
      b.len(),
      q,
      m.as_mut_ptr(),
      m.len()
    )
  }

  pub fn unify_impl_type(
    &mut self,
    (a, x): (u32, &[u32]),
    (b, y): (u32, &[u32]),
    m: &mut [u32],
  ) -> u64 {
    let (xs, ys) = (x.as_ptr(), y.as_ptr());
    change!(
      self,
      second::unify_impl_type_recalling,
      a,
      xs,
      x.len(),
      b,
      ys,
      y.len(),
      m.as_mut_ptr(),
      m.len()
    )
  }

  fn rules(&self) -> &Rules {
    &self.rules.0
  }

  pub fn tested(&self) -> &Tested {
    &self.rules
  }

  fn of(rules: &Tested, Words { h, ws, ks }: Words) -> Store {
    Store { rules: rules.clone(), h, ws, ks, names: Vec::new() }
  }

  fn room(&self) -> [u32; 2] {
    [self.h[ROOM.start], self.h[ROOM.start + 1]]
  }

  /// A call on the names buffer, which is made where there is none yet.
  fn with_names<T>(&mut self, call: impl FnOnce(&mut Store, &mut Vec<u32>) -> T) -> T {
    let mut names = std::mem::take(&mut self.names);
    if names.is_empty() {
      let [nodes, children] = self.room();
      names = fresh_names(nodes, children);
    }
    let answer = call(self, &mut names);
    self.names = names;
    answer
  }

  pub fn name_state(&mut self, name: &[u8]) -> u64 {
    self.with_names(|store, names| store.name_state_in(names, name))
  }

  pub fn return_to(&mut self, name: &[u8]) -> u64 {
    if self.names.is_empty() {
      return REFUSED + UNHELD;
    }
    self.with_names(|store, names| store.return_to_in(names, name))
  }

  pub fn drop_name(&mut self, name: &[u8]) -> u64 {
    if self.names.is_empty() {
      return REFUSED + UNHELD;
    }
    self.with_names(|store, names| store.drop_name_in(names, name))
  }

  pub fn reset(&mut self) -> u64 {
    self.with_names(|store, names| store.reset_in(names))
  }

  /// The held names, by place.
  pub fn names(&self) -> Vec<Vec<u8>> {
    held(&self.names).map(|place| place.bytes()).collect()
  }

  /// A names buffer for a room that is enough for every state that is held, with these; none where no name is held.
  fn names_with_room(&self, nodes: u32, children: u32) -> Vec<u32> {
    let mut names = Vec::new();
    let [old, _] = self.room();
    for (i, place) in held(&self.names).enumerate() {
      if names.is_empty() {
        names = fresh_names(nodes, children);
      }
      let size = (names.len() - NAMES_HEAD) / PLACES;
      let new = &mut names[NAMES_HEAD + i * size..][..size];
      let (name, state) = new.split_at_mut(NAME_WORDS);
      let (h, rest) = state.split_at_mut(place.h.len());
      let (ws, ks) = rest.split_at_mut(faroalder_node_words(nodes));
      let [used_ws, used_ks] = place.used(old);
      for (to, from) in [(name, place.name), (h, place.h), (ws, used_ws), (ks, used_ks)] {
        to[..from.len()].copy_from_slice(from);
      }
    }
    names
  }

  /// A store without a node: opened by the library, hence sound.
  pub fn open(rules: &Tested, nodes: u32, children: u32) -> Result<Store, u32> {
    Ok(Store::of(rules, Words::opened(nodes, children)?))
  }

  /// Words from elsewhere, tested here.
  pub fn adopt(rules: &Tested, mut words: Words) -> Result<Store, u32> {
    words.test(rules.rules())?;
    Ok(Store::of(rules, words))
  }

  pub fn into_words(self) -> Words {
    Words { h: self.h, ws: self.ws, ks: self.ks }
  }

  /// The same nodes and children with another room, and the same states held; 10 or 11 where it is too small for one of
  /// them. The new words are tested.
  pub fn set_room(&mut self, nodes: u32, children: u32) -> Result<(), u32> {
    let mut words = Words::opened(nodes, children)?;
    let states = || held(&self.names).map(|place| place.h).chain([&self.h[..]]);
    for (count, room, number) in [(COUNTS.start, nodes, 10), (COUNTS.start + 1, children, 11)] {
      if states().any(|h| h[count] > room) {
        return Err(number);
      }
    }
    let room = [words.h[ROOM.start], words.h[ROOM.start + 1]];
    words.h.copy_from_slice(&self.h);
    words.h[ROOM].copy_from_slice(&room);
    let [nodes, children] = [self.h[COUNTS.start], self.h[COUNTS.start + 1]];
    let (n, c) = (faroalder_node_words(nodes), faroalder_child_words(children));
    words.ws[..n].copy_from_slice(&self.ws[..n]);
    words.ks[..c].copy_from_slice(&self.ks[..c]);
    words.test(self.rules())?;
    let names = self.names_with_room(room[0], room[1]);
    let [h, ws, ks] = words.parts();
    if !names.is_empty() {
      match (Lent { rules: self.rules(), h, ws, ks }).names_refusal(&names) {
        0 => {}
        number => return Err(number),
      }
    }
    *self = Store { names, ..Store::of(&self.rules, words) };
    Ok(())
  }

  /// An import out of another store. The second family asks for a source that passed the test by the same rules; one
  /// with other rules goes to the first family, which tests it by these.
  pub fn import(
    &mut self,
    source: &Store,
    types: &[u32],
    params: Option<&[u32]>,
    out: &mut [u32],
  ) -> u64 {
    let from: [&[u32]; 3] = [&source.h, &source.ws, &source.ks];
    if Arc::ptr_eq(&self.rules.0, &source.rules.0) || self.rules() == source.rules() {
      return self.import_from(from, types, params, out);
    }
    let Store { rules, h, ws, ks, .. } = self;
    Lent { rules: &rules.0, h, ws, ks }.import(from, types, params, out)
  }

  /// An export into a fresh store of this room.
  pub fn export(
    &self,
    nodes: u32,
    children: u32,
    types: &[u32],
    out: &mut [u32],
  ) -> Result<Store, u32> {
    let room = [nodes, children];
    let words = opened(nodes, children, |places| self.export_into(places, room, types, out))?;
    Ok(Store::of(&self.rules, words))
  }
}
