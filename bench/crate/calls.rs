//! Every public call on the makers' stores of 64, 512 and 4,096 nodes: by the first family of C names, which tests the
//! whole store each time, by the crate or the second family, which test their arguments alone, and by the Rust's own
//! function. README.md says how.

use std::{array::from_fn, cell::RefCell, collections::HashSet, hint::black_box, sync::LazyLock};

use faroalder::{
  Chart, ImplType, Inverted, Name, Refusal, Span, StructId, TraitId, TypeKind, Types, UnionId, Words,
  lent::{Lent, OUT, REFUSED, names_words, open_names},
};

use crate::{
  least_turn, once,
  ours::{self, Ours, ty},
  shapes::{self, KIDS, MAKES, Side, VARS, name},
  structures::{
    ast, chart,
    diag::{Diags, ErrorGuaranteed},
    signatures::FnSig,
    types as rust,
  },
  vine::{self, Vine},
};

const SIZES: [usize; 3] = [64, 512, 4096];

/// How many calls a copy takes where a call changes nothing that the next one meets.
const MANY: u32 = 4096;

/// How many calls a turn has at the least.
const TURN: u32 = 32;

/// How many calls of the first family a copy takes at the most.
const PUBLIC: u32 = 8;

/// The words of a memory of 2,047 entries.
const MEMORY: usize = 131 + 4 * 2047;

const STATE: &[u8] = b"state";

/// How many pairs are unified: in every store the variables 1, 9, .. and 7, 15, .. stand alone.
const PAIRS: usize = 8;

fn pair(at: u32) -> [u32; 2] {
  [8 * at + 1, 8 * at + 7]
}

/// The clock's own time, which is taken off.
static CLOCK: LazyLock<f64> =
  LazyLock::new(|| least_turn(|| (0..TURN).map(|_| once(|| (), |()| ())).sum()) / TURN as f64);

/// The least time of a call over many turns. A copy, made outside the timing, takes so many calls, and a turn has as many
/// copies as it needs. A call is told its number, that of a node.
fn time<S, T>(fresh: impl Fn() -> S, nodes: usize, calls: u32, call: impl Fn(&mut S, u32) -> T) -> f64 {
  let copies = TURN.div_ceil(calls);
  let work = |side: &mut S| (0..calls).for_each(|i| _ = black_box(call(side, i & (nodes as u32 - 1))));
  let turn = || (0..copies).map(|_| once(&fresh, work)).sum();
  (least_turn(turn) / copies as f64 - *CLOCK) / calls as f64
}

/// A call that is not inlined, as the crate's end in one.
#[inline(never)]
fn called<S, T>(side: &mut S, at: u32, call: &impl Fn(&mut S, u32) -> T) -> T {
  call(side, at)
}

/// A store's words and a names buffer, lent by the caller.
#[derive(Clone)]
struct Public {
  chart: Chart,
  words: Words,
  names: Vec<u32>,
}

impl Public {
  fn with_names(&mut self) -> (Lent<'_>, &mut [u32]) {
    let Words { h, ws, ks } = &mut self.words;
    (Lent { rules: self.chart.rules(), h, ws, ks }, &mut self.names)
  }

  fn lent(&mut self) -> Lent<'_> {
    self.with_names().0
  }

  fn room(&self) -> [u32; 2] {
    [self.words.h[2], self.words.h[3]]
  }
}

/// Calls by C names that neither `Lent` nor `Types` has.
macro_rules! by_name {
  ($($name:ident: $method:ident($($arg:ident: $ty:ty),*);)*) => {
    unsafe extern "C" {$(
      fn $name(
        chart: *const u32, chart_len: usize, fn_trait: u32, sigils: *const u32, rule: *const u8, rule_len: usize,
        text: *const u8, text_len: usize, h: *mut u32, h_len: usize, ws: *mut u32, ws_len: usize, ks: *mut u32,
        ks_len: usize $(, $arg: $ty)*
      ) -> u64;
    )*}

    impl Public {$(
      fn $method(&mut self $(, $arg: $ty)*) -> u64 {
        let Lent { rules: r, h, ws, ks } = self.lent();
        // SAFETY: pointers and lengths of what is borrowed until the call is over; the words are a store's, made by
        // the crate.
        unsafe {
          $name(
            r.chart.as_ptr(), r.chart.len(), r.fn_trait, r.sigils.as_ptr(), r.rule.as_ptr(), r.rule.len(),
            r.text.as_ptr(), r.text.len(), h.as_mut_ptr(), h.len(), ws.as_mut_ptr(), ws.len(), ks.as_mut_ptr(),
            ks.len() $(, $arg)*
          )
        }
      }
    )*}
  };
}

by_name! {
  faroalder_self_inverse: self_inverse(t: u32);
  faroalder_unify_recalling: unify_recalling(a: u32, b: u32, memory: &mut [u32; MEMORY], len: usize);
  faroalder_tested_child: tested_child(t: u32, j: u32, out: &mut [u32; 1]);
  faroalder_tested_child_name: tested_child_name(t: u32, j: u32, out: &mut [u32; 3]);
  faroalder_tested_unify: tested_unify(a: u32, b: u32);
}

/// One store on every side.
struct Stores {
  nodes: usize,
  public: Public,
  ours: Types,
  vine: Vine,
}

impl Stores {
  fn new(nodes: usize, ours: Ours, vine: Vine) -> Stores {
    let Ours { types: ours } = ours;
    let public = Public { chart: ours.chart(), words: ours.clone().into_words(), names: Vec::new() };
    Stores { nodes, public, ours, vine }
  }

  /// Room for so many nodes, all but a few of which are made.
  fn filled(nodes: usize, left: usize) -> Stores {
    fn side<S: Side>(nodes: usize, left: usize) -> S {
      let mut side = S::opened(nodes);
      shapes::fill(&mut side, nodes - left);
      side
    }
    Stores::new(nodes, side(nodes, left), side(nodes, left))
  }

  /// A chain of so many nodes.
  fn chain(nodes: usize) -> Stores {
    fn side<S: Side>(nodes: usize) -> S {
      let mut side = S::opened(nodes);
      shapes::chain(&mut side, nodes);
      side
    }
    Stores::new(nodes, side(nodes), side(nodes))
  }

  /// With its state under a name.
  fn held(mut self) -> Stores {
    let [nodes, children] = self.public.room();
    self.public.names = vec![0; names_words(nodes, children)];
    assert_eq!(open_names(&mut self.public.names, nodes, children), 0);
    let (lent, names) = self.public.with_names();
    assert_eq!(lent.name_state(names, STATE), 0);
    self.ours.name(STATE).unwrap();
    self
  }

  fn call(&self, what: &'static str, calls: u32) -> Row<'_> {
    Row { stores: self, what, calls, times: [None; 3] }
  }
}

/// A call, its times so far and how often a copy takes it.
struct Row<'s> {
  stores: &'s Stores,
  what: &'static str,
  calls: u32,
  times: [Option<f64>; 3],
}

impl Row<'_> {
  fn lent(&self, calls: u32, call: impl Fn(&mut Public, u32) -> u64) -> Option<f64> {
    let answered = |side: &mut Public, at| assert!(call(side, at) < REFUSED, "{}", self.what);
    Some(time(|| self.stores.public.clone(), self.stores.nodes, calls, answered))
  }

  /// By the first family.
  fn public(mut self, call: impl Fn(&mut Public, u32) -> u64) -> Self {
    self.times[0] = self.lent(self.calls.min(PUBLIC), call);
    self
  }

  /// By the crate.
  fn tested<T>(mut self, call: impl Fn(&mut Types, u32) -> Result<T, Refusal>) -> Self {
    let answered = |types: &mut Types, at| call(types, at).unwrap();
    self.times[1] = Some(time(|| self.stores.ours.clone(), self.stores.nodes, self.calls, answered));
    self
  }

  /// By the second family, where the crate goes another way.
  fn second(mut self, call: impl Fn(&mut Public, u32) -> u64) -> Self {
    self.times[1] = self.lent(self.calls, call);
    self
  }

  /// By the Rust, whose vector has room as ours has.
  fn rust<T>(mut self, call: impl Fn(&mut rust::Types, u32) -> T) -> Self {
    let fresh = || {
      let mut types = self.stores.vine.types.clone();
      rust::view::reserve(&mut types, MAKES);
      types
    };
    let call = |types: &mut rust::Types, at| called(types, at, &call);
    self.times[2] = Some(time(fresh, self.stores.nodes, self.calls, call));
    self
  }
}

/// The stores of one size: all nodes made, 32 left to make, a state held; all nodes in one chain.
struct Size {
  full: Stores,
  left: Stores,
  held: Stores,
  chain: Stores,
}

impl Size {
  fn new(nodes: usize) -> Size {
    let held = Stores::filled(nodes, 0).held();
    Size { full: Stores::filled(nodes, 0), left: Stores::filled(nodes, MAKES), held, chain: Stores::chain(nodes) }
  }

  /// The last tuple of four.
  fn last(&self) -> u32 {
    self.full.nodes as u32 - 2
  }

  fn rows(&self) -> Vec<Row<'_>> {
    let parts =
      [self.opening(), self.making(), self.reading(), self.unifying(), self.finishing(), self.copying(), self.naming()];
    parts.into_iter().flatten().collect()
  }

  fn opening(&self) -> Vec<Row<'_>> {
    let chart = &self.full.public.chart;
    let [nodes, children] = self.full.public.room();
    let call = |what, calls| self.full.call(what, calls);
    vec![
      call("refusal, the test alone", 8).public(|s, _| passed(s.lent().refusal())),
      call("open", 8).public(|s, _| s.lent().open(nodes, children)).tested(|_, _| Types::open(chart, nodes, children)),
    ]
  }

  fn making(&self) -> Vec<Row<'_>> {
    let chart = &self.left.vine.chart;
    let (span, other) = (Span(7), ast::Span(7));
    let kids = KIDS.map(ty);
    let entries = KIDS.map(|kid| [kid, 0, 0, 0]);
    let calls = MAKES as u32;
    let call = |what, calls| self.left.call(what, calls);
    vec![
      call("new_var", calls)
        .public(|s, _| s.lent().new_var(7))
        .tested(|s, _| s.new_var(span))
        .rust(|s, _| s.new_var(other)),
      call("new_vars of 8", calls / VARS as u32)
        .public(|s, _| s.lent().new_vars(7, VARS as u32, &mut [0; VARS]))
        .tested(|s, _| s.new_vars(span, VARS))
        .rust(|s, _| s.new_vars(other, VARS)),
      call("new of a 3-tuple", calls)
        .public(|s, _| s.lent().new_kind([1, 0, 0, 0, 0, 0], entries.as_flattened()))
        .tested(|s, _| s.new(TypeKind::Tuple(&kids)))
        .rust(|s, _| s.new(rust::TypeKind::Tuple(vine::tys(&KIDS)))),
      call("new_struct over 3", calls)
        .public(|s, _| s.lent().new_struct(0, &KIDS))
        .tested(|s, _| s.new_struct(StructId::at(0), &kids))
        .rust(|s, _| s.new_struct(chart, chart::StructId(0), vine::tys(&KIDS))),
      call("new_union over 3", calls)
        .public(|s, _| s.lent().new_union(1, &KIDS))
        .tested(|s, _| s.new_union(UnionId::at(1), &kids))
        .rust(|s, _| s.new_union(chart, chart::UnionId(0), vine::tys(&KIDS))),
      call("error", MANY)
        .public(|s, _| s.lent().error())
        .tested(|s, _| ours::called::error(s))
        .rust(|s, _| s.error(ErrorGuaranteed::new_unchecked())),
      call("nil", MANY).public(|s, _| s.lent().nil()).tested(|s, _| ours::called::nil(s)).rust(|s, _| s.nil()),
    ]
  }

  fn reading(&self) -> Vec<Row<'_>> {
    let chart = &self.full.vine.chart;
    let nodes = self.full.nodes;
    let (last, top) = (self.last(), nodes as u32 - 1);
    let triple = |at: u32| at & !7 | 2;
    let object = |at: u32| at & !7 | 3;
    let lent = |s: &mut Public, t| s.lent().find_related(&mut vec![0; nodes], t);
    let set = |s: &Types, t| {
      let mut set = HashSet::new();
      s.find_related(ty(t), &mut set).map(|()| set)
    };
    let marks = |s: &Types, t| {
      let mut marks = vec![0; nodes];
      s.mark_related(ty(t), &mut marks).map(|()| marks)
    };
    let call = |what, calls| self.full.call(what, calls);
    vec![
      call("find", MANY)
        .public(|s, at| s.lent().find(at))
        .tested(|s, at| s.find(ty(at)))
        .rust(|s, at| rust::view::find(s, vine::ty(at))),
      call("find_mut", MANY)
        .public(|s, at| s.lent().find_mut(at))
        .tested(|s, at| s.find_mut(ty(at)))
        .rust(|s, at| rust::view::find_mut(s, vine::ty(at))),
      call("node", MANY)
        .public(|s, at| s.lent().node(at, &mut [0; OUT]))
        .tested(|s, at| s.node(ty(at).idx()).map(|node| _ = black_box(node))),
      call("child", MANY)
        .public(|s, at| s.lent().child(triple(at), 1, &mut [0]))
        .second(|s, at| s.tested_child(triple(at), 1, &mut [0])),
      call("child_name", MANY)
        .public(|s, at| s.lent().child_name(object(at), 1, &mut [0; 3]))
        .second(|s, at| s.tested_child_name(object(at), 1, &mut [0; 3])),
      call("figures", MANY).public(|s, _| s.lent().figures(&mut [0; OUT])).tested(|s, _| Ok(s.figures())),
      call("is_nil", MANY)
        .public(|s, at| s.lent().is_nil(at))
        .tested(|s, at| s.is_nil(ty(at)))
        .rust(|s, at| s.is_nil(vine::ty(at))),
      call("self_inverse", MANY)
        .public(|s, at| s.self_inverse(triple(at)))
        .tested(|s, at| s.self_inverse(ty(triple(at))))
        .rust(|s, at| s.self_inverse(vine::ty(triple(at)))),
      call("self_inverse_param", MANY)
        .public(|s, at| s.lent().self_inverse_param(triple(at), true))
        .tested(|s, at| s.self_inverse_param(ty(triple(at)), true))
        .rust(|s, at| s._self_inverse(vine::ty(triple(at)), true)),
      call("get_mod", MANY)
        .public(|s, at| s.lent().get_mod(at, &mut [0]))
        .tested(|s, at| s.get_mod(ty(at)))
        .rust(|s, at| s.get_mod(chart, vine::ty(at))),
      call("find_related of a 3-tuple", 64)
        .public(|s, _| lent(s, 2))
        .tested(|s, _| set(s, 2))
        .rust(|s, _| related(s, 2)),
      call("find_related of the last tuple", 1)
        .public(|s, _| lent(s, last))
        .tested(|s, _| set(s, last))
        .rust(|s, _| related(s, last)),
      call("the same by mark_related", 1)
        .public(|s, _| lent(s, last))
        .tested(|s, _| marks(s, last))
        .rust(|s, _| related(s, last)),
      (self.chain.call("find_related of a chain of all nodes", 1))
        .public(|s, _| lent(s, top))
        .tested(|s, _| set(s, top))
        .rust(|s, _| related(s, top)),
      (self.chain.call("the same by mark_related", 1))
        .public(|s, _| lent(s, top))
        .tested(|s, _| marks(s, top))
        .rust(|s, _| related(s, top)),
      call("show of a 3-tuple", 64)
        .public(|s, _| s.lent().show(2, &mut [0; 64]))
        .tested(|s, _| s.show(ty(2)))
        .rust(|s, _| s.show(chart, vine::ty(2))),
    ]
  }

  /// Two variables, and lists of eight variables with eight.
  fn unifying(&self) -> Vec<Row<'_>> {
    let chart = &self.full.vine.chart;
    let memory = RefCell::new([0; MEMORY]);
    let lists: [[u32; PAIRS]; 2] = [0, 1].map(|side| from_fn(|at| pair(at as u32)[side]));
    let [a, b] = &lists;
    let [x, y] = &lists.map(|list| list.map(ty));
    let [p, q] = &lists.map(|list| list.map(vine::ty));
    let [a_fields, b_fields] = &lists.map(|list| from_fn::<_, PAIRS, _>(|i| [list[i], 0, 3 * i as u32, 3]));
    let [x_fields, y_fields] =
      &[x, y].map(|list| from_fn::<_, PAIRS, _>(|i| (Name::in_rule(3 * i as u32, 3), list[i])));
    let [p_fields, q_fields] = &[p, q].map(|list| (0..).map(name).map(ast::Ident).zip(*list).collect());
    let [p_sig, q_sig] = &[p, q].map(|list| signature(list));
    let [x_impl, y_impl] = &[x, y].map(|list| ImplType::Trait(TraitId::at(2), list.to_vec()));
    let [p_impl, q_impl] = &[p, q].map(|list| rust::ImplType::Trait(chart::TraitId(0), list.to_vec()));
    let call = |what, calls| self.full.call(what, calls);
    let pairs = PAIRS as u32;
    vec![
      call("unify of two variables", pairs)
        .public(|s, at| s.lent().unify(pair(at)[0], pair(at)[1]))
        .second(|s, at| s.tested_unify(pair(at)[0], pair(at)[1]))
        .rust(|s, at| s.unify(vine::ty(pair(at)[0]), vine::ty(pair(at)[1]))),
      call("unify_recalling of two variables", pairs)
        .public(|s, at| s.unify_recalling(pair(at)[0], pair(at)[1], &mut memory.borrow_mut(), MEMORY))
        .tested(|s, at| s.unify(ty(pair(at)[0]), ty(pair(at)[1])))
        .rust(|s, at| s.unify(vine::ty(pair(at)[0]), vine::ty(pair(at)[1]))),
      call("unify_types, 8 with 8", 1)
        .public(|s, _| s.lent().unify_types(a, b, false))
        .tested(|s, _| s.unify_types(x, y, Inverted(false)))
        .rust(|s, _| s.unify_types(p, q, rust::Inverted(false))),
      call("unify_objects of 8 names", 1)
        .public(|s, _| s.lent().unify_objects(a_fields.as_flattened(), b_fields.as_flattened(), false))
        .tested(|s, _| s.unify_objects(x_fields, y_fields, Inverted(false)))
        .rust(|s, _| s.unify_objects(p_fields, q_fields, rust::Inverted(false))),
      call("unify_fn_sig, 7 and a return", 1)
        .public(|s, _| s.lent().unify_fn_sig(&a[1..], a[0], &b[1..], b[0]))
        .tested(|s, _| s.unify_fn_sig((&x[1..], x[0]), (&y[1..], y[0])))
        .rust(|s, _| s.unify_fn_sig(p_sig, q_sig)),
      call("unify_impl_type over 8", 1)
        .public(|s, _| s.lent().unify_impl_type((2, a), (2, b)))
        .tested(|s, _| s.unify_impl_type(x_impl, y_impl))
        .rust(|s, _| s.unify_impl_type(p_impl, q_impl)),
      call("approx_eq over 8", MANY)
        .public(|s, _| s.lent().approx_eq((2, a), (2, b)))
        .tested(|s, _| s.approx_eq(x_impl, y_impl))
        .rust(|_, _| black_box(p_impl).approx_eq(q_impl)),
      call("show_impl_type over 8", 64)
        .public(|s, _| s.lent().show_impl_type((2, a), &mut [0; 64]))
        .tested(|s, _| s.show_impl_type(x_impl))
        .rust(|s, _| s.show_impl_type(chart, p_impl)),
    ]
  }

  fn finishing(&self) -> Vec<Row<'_>> {
    let diags = RefCell::new(Diags::default());
    let odd: &Vec<u8> = &(0..self.full.nodes).map(|node| (node % 2) as u8).collect();
    let call = |what, calls| self.full.call(what, calls);
    vec![
      call("force_kind of 64 nodes", 64)
        .public(|s, at| s.lent().force_kind(at, &mut [0; OUT]))
        .tested(|s, at| s.force_kind(ty(at)).map(|kind| _ = black_box(kind)))
        .rust(|s, at| {
          let diags = &mut *diags.borrow_mut();
          diags.errors.clear();
          _ = black_box(s.force_kind(diags, vine::ty(at)));
        }),
      call("finish_inference", 1)
        .public(|s, _| s.lent().finish_inference())
        .tested(|s, _| Ok(s.finish_inference()))
        .rust(|s, _| s.finish_inference()),
      call("finish_inference_where, every other node", 1)
        .public(|s, _| s.lent().finish_inference_where(odd))
        .tested(|s, _| Ok(s.finish_inference_where(|node| node.get() % 2 == 1)))
        .rust(|s, _| s.finish_inference_where(|node| node.0 % 2 == 1)),
    ]
  }

  /// A tuple of three, into a store that has room and out of one.
  fn copying(&self) -> Vec<Row<'_>> {
    let Stores { public, ours, vine, .. } = &self.left;
    let Words { h, ws, ks } = &public.words;
    let source = rust::TypeCtx { types: vine.types.clone(), inner: vine::ty(2) };
    let to = RefCell::new(self.full.public.words.clone());
    let export = |s: &mut Public, room| {
      let Words { h, ws, ks } = &mut *to.borrow_mut();
      s.lent().export([h, ws, ks], room, &[2], &mut [0])
    };
    vec![
      self
        .left
        .call("import of a 3-tuple", 8)
        .public(|s, _| s.lent().import([h, ws, ks], &[2], None, &mut [0]))
        .tested(|s, _| s.import_types(ours, &[ty(2)], None))
        .rust(|s, _| s.import(&source, None)),
      self
        .full
        .call("export of a 3-tuple", 8)
        .public(|s, _| export(s, s.room()))
        .tested(|s, _| s.export(&ty(2)))
        .rust(|s, _| s.export(|t| t.transfer(&vine::ty(2)))),
      self
        .full
        .call("the same into room for 8 nodes", 8)
        .public(|s, _| export(s, [8, 32]))
        .tested(|s, _| s.export_with_room(&ty(2), 8, 32))
        .rust(|s, _| s.export(|t| t.transfer(&vine::ty(2)))),
    ]
  }

  fn naming(&self) -> Vec<Row<'_>> {
    let named = |s: &mut Public, call: fn(Lent, &mut [u32]) -> u64| {
      let (lent, names) = s.with_names();
      call(lent, names)
    };
    let call = |what, calls| self.held.call(what, calls);
    vec![
      call("names_refusal, the test alone", 8).public(|s, _| named(s, |lent, names| passed(lent.names_refusal(names)))),
      call("open_names", 8).public(|s, _| {
        let [nodes, children] = s.room();
        open_names(&mut s.names, nodes, children)
      }),
      call("name_state", 8)
        .public(|s, _| named(s, |lent, names| lent.name_state(names, STATE)))
        .tested(|s, _| s.name(STATE)),
      call("return_to", 8)
        .public(|s, _| named(s, |mut lent, names| lent.return_to(names, STATE)))
        .tested(|s, _| s.return_to(STATE)),
      call("drop_name", 1)
        .public(|s, _| named(s, |lent, names| lent.drop_name(names, STATE)))
        .tested(|s, _| s.drop_name(STATE)),
      call("reset", 1)
        .public(|s, _| named(s, |mut lent, names| lent.reset(names)))
        .tested(|s, _| Ok(s.reset()))
        .rust(|s, _| s.reset()),
    ]
  }
}

/// The answer of a test that is passed.
fn passed(refusal: u32) -> u64 {
  assert_eq!(refusal, 0);
  0
}

/// What a type leads to.
fn related(types: &rust::Types, t: u32) -> HashSet<rust::TypeIdx> {
  let mut set = HashSet::new();
  types.find_related(vine::ty(t), &mut set);
  set
}

/// The first is the return.
fn signature(list: &[rust::Type]) -> FnSig {
  FnSig { names: vec![None; list.len() - 1], param_tys: list[1..].to_vec(), ret_ty: list[0] }
}

fn figure(time: Option<f64>) -> String {
  time.map_or("-".into(), |time| format!("{time:.*}", usize::from(time < 100.0)))
}

fn ratio(over: Option<f64>, under: Option<f64>) -> String {
  over.zip(under).map_or("-".into(), |(over, under)| format!("{:.2}", over / under))
}

pub fn report() {
  shapes::warm();
  let sizes = SIZES.map(Size::new);
  let rows = sizes.each_ref().map(Size::rows);
  println!(
    "| nanoseconds | nodes | public | tested | the Rust | tested to the Rust | growth, tested | growth, public |"
  );
  println!("|---|---|---|---|---|---|---|---|");
  for (call, Row { what, times: small, .. }) in rows[0].iter().enumerate() {
    let large = rows[2][call].times;
    for (nodes, rows) in SIZES.iter().zip(&rows) {
      let times = rows[call].times;
      let grown = |k: usize| if *nodes == SIZES[2] { ratio(large[k], small[k]) } else { String::new() };
      let mut cells = vec![what.to_string(), nodes.to_string()];
      cells.extend(times.map(figure));
      cells.extend([ratio(times[1], times[2]), grown(1), grown(0)]);
      println!("| {} |", cells.join(" | "));
    }
  }
  let leads = sizes.each_ref().map(|size| related(&size.full.vine.types, size.last()).len());
  println!("the last tuple leads to {leads:?} roots");
}
