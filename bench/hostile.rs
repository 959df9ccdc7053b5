//! The worst sound stores of 4,096 nodes that we know, built as words, and every public call on them by the library's C
//! names: no call may take over 100 ms. README.md says what each store is.

mod stores;

use std::{
  cell::RefCell,
  env,
  hint::black_box,
  thread,
  time::{Duration, Instant},
};

use faroalder::lent::{Lent, OUT, REFUSED, names_words, open_names};
use stores::{CHILDREN, NODES, Store, WIDTH};

/// The most that a call may take.
const ALLOWED: Duration = Duration::from_millis(100);

/// What a unify may remember: as much as the crate lends it.
const MEMORY: usize = 131 + 4 * 16_381;

/// The stack of a program's main thread, which must do.
const STACK: usize = 8 << 20;

/// The least time of a call over a few turns, each on a fresh copy of the store.
fn least(store: &Store, call: &dyn Fn(&mut Lent)) -> Duration {
  let begun = Instant::now();
  let mut least = Duration::MAX;
  let mut turns = 0;
  while turns == 0 || turns < 200 && begun.elapsed() < ALLOWED {
    let mut words = store.words.clone();
    let start = Instant::now();
    call(&mut words.lent(&store.rules));
    least = least.min(start.elapsed());
    black_box(&words);
    turns += 1;
  }
  least
}

/// The worst of a call so far: where, how long, and what of it the store's own test takes.
struct Worst {
  call: &'static str,
  store: String,
  time: Duration,
  test: Duration,
}

#[derive(Default)]
struct Report {
  worst: Vec<Worst>,
  over: usize,
}

impl Report {
  fn take(&mut self, call: &'static str, store: &Store, what: &str, test: Duration, work: &dyn Fn(&mut Lent)) {
    let time = least(store, work);
    let name = format!("{}{what}", store.name);
    if time > ALLOWED {
      println!("OVER: {call}: {name}: {:.1}, {:.1}", ms(time), ms(test));
      self.over += 1;
    }
    let own = time.saturating_sub(test);
    match self.worst.iter_mut().find(|worst| worst.call == call) {
      None => self.worst.push(Worst { call, store: name, time, test }),
      Some(worst) if own > worst.time.saturating_sub(worst.test) => *worst = Worst { call, store: name, time, test },
      Some(_) => {}
    }
  }
}

fn ms(time: Duration) -> f64 {
  time.as_secs_f64() * 1e3
}

fn answered(answer: u64) {
  assert!(answer < REFUSED, "refused with {}", answer - REFUSED);
}

/// An answer, or one of these refusals.
fn answered_or(refusals: &[u64], answer: u64) {
  assert!(answer < REFUSED || refusals.contains(&(answer - REFUSED)), "refused with {}", answer - REFUSED);
}

/// Calls that make a node: the store has none left, which is found out after its test.
const FULL: &[u64] = &[10, 11];

/// Calls on a store as a whole.
fn whole(report: &mut Report, store: &Store, test: Duration) {
  let mut take = |call, work: &dyn Fn(&mut Lent)| report.take(call, store, "", test, work);
  let h = store.words.parts()[0];
  let mut names = vec![0; names_words(h[2], h[3])];
  assert_eq!(open_names(&mut names, h[2], h[3]), 0);
  let names = RefCell::new(names);
  let types = [0; WIDTH];
  let entries = types.map(|t| [t, 0, 0, 0]);
  take("new_var", &|s| answered_or(FULL, s.new_var(7)));
  take("new_vars", &|s| answered_or(FULL, s.new_vars(7, 1, &mut [0])));
  take("new", &|s| answered_or(FULL, s.new_kind([1, 0, 0, 0, 0, 0], entries.as_flattened())));
  take("new_struct", &|s| answered_or(FULL, s.new_struct(0, &types)));
  take("new_union", &|s| answered_or(FULL, s.new_union(1, &types)));
  take("error", &|s| answered_or(FULL, s.error()));
  take("nil", &|s| answered_or(FULL, s.nil()));
  take("figures", &|s| answered(s.figures(&mut [0; OUT])));
  take("finish_inference", &|s| answered(s.finish_inference()));
  take("finish_inference_where", &|s| answered(s.finish_inference_where(&[1; NODES])));
  take("reset", &|s| answered(s.reset(&mut names.borrow_mut())));
  take("approx_eq", &|s| answered(s.approx_eq((2, &types), (2, &types))));
  take("open", &|s| answered(s.open(NODES as u32, CHILDREN as u32)));
}

/// Calls on one type.
fn asked(report: &mut Report, store: &Store, test: Duration, t: u32) {
  let mut take = |call, work: &dyn Fn(&mut Lent)| report.take(call, store, &format!(", {t}"), test, work);
  take("find", &|s| answered(s.find(t)));
  take("find_mut", &|s| answered(s.find_mut(t)));
  take("node", &|s| answered(s.node(t, &mut [0; OUT])));
  take("child", &|s| answered(s.child(t, WIDTH as u32 - 1, &mut [0])));
  take("child_name", &|s| answered(s.child_name(t, WIDTH as u32 - 1, &mut [0; 3])));
  take("is_nil", &|s| answered(s.is_nil(t)));
  take("self_inverse", &|s| answered(s.self_inverse_param(t, false)));
  take("self_inverse_param", &|s| answered(s.self_inverse_param(t, true)));
  take("get_mod", &|s| answered(s.get_mod(t, &mut [0])));
  take("find_related", &|s| answered(s.find_related(&mut [0; NODES], t)));
  take("force_kind", &|s| answered(s.force_kind(t, &mut [0; OUT])));
  take("show, 4,096 bytes", &|s| answered_or(&[7], s.show(t, &mut [0; 4096])));
  take("show, 65,535 bytes", &|s| answered_or(&[7], s.show(t, &mut [0; 65535])));
  take("show_impl_type, 65,535 bytes", &|s| answered_or(&[7], s.show_impl_type((2, &[t; WIDTH]), &mut [0; 65535])));
}

/// Copies out of the store, of one type 255 times, and into it.
fn copied(report: &mut Report, store: &Store, test: Duration, t: u32) {
  let mut take = |call, work: &dyn Fn(&mut Lent)| report.take(call, store, &format!(", {t}"), test, work);
  let list = [t; WIDTH];
  let room = [NODES as u32, CHILDREN as u32];
  let refusals = &[6, 10, 11];
  take("export", &|s| {
    let mut to = stores::blank();
    answered_or(refusals, s.export(to.parts_mut(), room, &list, &mut [0; WIDTH]));
  });
  take("import out of it", &|s| {
    let mut to = stores::blank();
    to.lent(s.rules).open(room[0], room[1]);
    answered_or(refusals, to.lent(s.rules).import([s.h, s.ws, s.ks], &list, None, &mut [0; WIDTH]));
  });
  take("import out of it, a parameter list", &|s| {
    let mut to = stores::blank();
    to.lent(s.rules).open(room[0], room[1]);
    let param = to.lent(s.rules).new_var(7) as u32;
    answered_or(refusals, to.lent(s.rules).import([s.h, s.ws, s.ks], &list, Some(&[param; WIDTH]), &mut [0; WIDTH]));
  });
  let small = stores::small();
  take("import into it", &|s| {
    answered_or(refusals, s.import(small.parts(), &[0; WIDTH], None, &mut [0; WIDTH]));
  });
}

/// Two types unified, alone and in lists of both 255 times.
fn unified(report: &mut Report, store: &Store, test: Duration, (a, b): (u32, u32)) {
  let mut take = |call, work: &dyn Fn(&mut Lent)| report.take(call, store, &format!(", {a} and {b}"), test, work);
  let [x, y] = [a, b].map(|t| [t; WIDTH]);
  let [p, q] = [x, y].map(|list| stores::entries(store, &list));
  take("unify", &|s| answered(s.unify(a, b)));
  take("unify_types", &|s| answered(s.unify_types(&x, &y, false)));
  take("unify_objects", &|s| answered(s.unify_objects(&p, &q, false)));
  take("unify_fn_sig", &|s| answered(s.unify_fn_sig(&x, a, &y, b)));
  take("unify_impl_type", &|s| answered(s.unify_impl_type((2, &x), (2, &y))));
}

/// Two types unified with a memory.
fn recalled(report: &mut Report, store: &Store, test: Duration, (a, b): (u32, u32)) {
  let memory = RefCell::new(vec![0; MEMORY]);
  report.take("unify_recalling", store, &format!(", {a} and {b}"), test, &|s| {
    answered(s.unify_recalling(a, b, &mut memory.borrow_mut()));
  });
}

/// Two lists of types that differ.
fn listed(report: &mut Report, store: &Store, test: Duration, a: &[u32], b: &[u32]) {
  report.take("unify_types", store, ", its lists", test, &|s| answered(s.unify_types(a, b, false)));
}

/// Of the stores whose names have this part.
fn report(part: &str) {
  let mut report = Report::default();
  for store in stores::all().iter().filter(|store| store.name.contains(part)) {
    let test = least(store, &|s| assert_eq!(s.refusal(), 0, "{}", store.name));
    report.take("refusal", store, "", Duration::ZERO, &|s| assert_eq!(s.refusal(), 0));
    whole(&mut report, store, test);
    for &t in &store.asked {
      asked(&mut report, store, test, t);
      copied(&mut report, store, test, t);
    }
    for &pair in &store.pairs {
      unified(&mut report, store, test, pair);
      recalled(&mut report, store, test, pair);
    }
    for &pair in &store.failing {
      recalled(&mut report, store, test, pair);
    }
    for (a, b) in &store.lists {
      listed(&mut report, store, test, a, b);
    }
  }
  println!("call, the store and type where it takes longest beside the store's own test, ms, ms of that test");
  for Worst { call, store, time, test } in &report.worst {
    println!("{call}: {store}: {:.2}, {:.2}", ms(*time), ms(*test));
  }
  println!("{} over {} ms", report.over, ALLOWED.as_millis());
}

fn main() {
  let part = env::args().nth(1).unwrap_or_default();
  thread::Builder::new().stack_size(STACK).spawn(move || report(&part)).unwrap().join().unwrap();
}
