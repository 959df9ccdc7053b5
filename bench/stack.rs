//! The stack that each recursive call takes at its deepest, 4,095 levels down: the core unify of each node of a chain
//! with the next one, the core import, the printer and the marking walk on such a chain, and the soundness test of it
//! and of a parent chain. A program that runs out of stack dies, so each try is a process of its own.

use std::{
  env,
  process::{Command, Stdio},
  thread,
};

use crate::{
  ours::{self, CLOSURE, Core, REF},
  shapes::{self, Side},
};

const LEVELS: usize = 4095;

/// Each with its name, what it is, and the whole of it in a thread with so many bytes of stack.
const DEEP: [(&str, &str, fn(usize)); 7] = [
  ("refs", "unify of a chain of Refs", |bytes| unify(bytes, |side, kid| side.kind(REF, &[kid, 0, 0, 0]))),
  ("objects", "unify of a chain of objects", |bytes| unify(bytes, |side, kid| side.object(&[kid]))),
  // No parameters: the one child is its return.
  ("closures", "unify of a chain of closures", |bytes| unify(bytes, |side, kid| side.kind(CLOSURE, &[kid, 0, 0, 0]))),
  ("import", "import of a chain of Refs", import),
  ("show", "show of a chain of Refs", show),
  ("walk", "find_related of a chain of Refs", walk),
  ("sound", "the soundness test of a chain of Refs", sound),
];

fn within(bytes: usize, work: impl FnOnce() + Send + 'static) {
  thread::Builder::new().stack_size(bytes).spawn(work).unwrap().join().unwrap();
}

/// At the end a variable meets what it occurs in: Failure.
fn unify(bytes: usize, link: fn(&mut Core, u32) -> u32) {
  let mut side = Core::opened(LEVELS + 1);
  let end = side.var();
  let top = (0..LEVELS).fold(end, |kid, _| link(&mut side, kid));
  within(bytes, move || assert_eq!(side.unify(top, top - 1), 1));
}

fn refs() -> (Core, u32) {
  let mut side = Core::opened(LEVELS + 1);
  let top = shapes::chain(&mut side, LEVELS + 1);
  (side, top)
}

/// A whole chain into another store.
fn import(bytes: usize) {
  let (from, top) = refs();
  let mut to = Core::opened(LEVELS + 1);
  within(bytes, move || {
    to.import(&from, &[top], &mut [0]);
    assert_eq!(to.count(), LEVELS + 1);
  });
}

/// A `&` for each Ref, and the variable's text.
fn show(bytes: usize) {
  let (mut side, top) = refs();
  let mut text = vec![0; 2 * LEVELS];
  within(bytes, move || assert_eq!(side.show(top, &mut text), Some(LEVELS + "?0".len())));
}

fn walk(bytes: usize) {
  let (side, top) = refs();
  let mut marks = vec![0; LEVELS + 1];
  within(bytes, move || {
    ours::find_related(&side, LEVELS as u32 + 1, top, &mut marks);
    assert!(marks.iter().all(|mark| *mark == 1));
  });
}

fn sound(bytes: usize) {
  let (mut side, _) = refs();
  within(bytes, move || assert_eq!(side.refusal(), 0));
}

pub fn descend(name: &str, bytes: usize) {
  let (_, _, work) = DEEP.into_iter().find(|deep| deep.0 == name).expect("no such call");
  work(bytes);
}

fn passes(name: &str, bytes: usize) -> bool {
  let mut child = Command::new(env::current_exe().unwrap());
  child.args([name, &bytes.to_string()]).stderr(Stdio::null());
  child.status().unwrap().success()
}

/// The smallest stack that is enough, to 4 KB.
fn enough(name: &str) -> usize {
  let (mut short, mut enough) = (16 << 10, 64 << 20);
  assert!(!passes(name, short) && passes(name, enough));
  while enough - short > 4096 {
    let half = (short + enough) / 2 & !4095;
    if passes(name, half) { enough = half } else { short = half }
  }
  enough
}

pub fn report() {
  println!("stack, levels, bytes, bytes a level");
  for (name, what, _) in DEEP {
    let bytes = enough(name);
    println!("{what}, {LEVELS}, {bytes}, {:.0}", bytes as f64 / LEVELS as f64);
    let within = |megabytes: usize| if bytes <= megabytes << 20 { "enough" } else { "NOT enough" };
    println!("  2 MB are {}, 8 MB are {}", within(2), within(8));
  }
}
