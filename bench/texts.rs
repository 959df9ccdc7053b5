//! The printers: an object of 64 names of 255 bytes, beside the Rust and beside a plain copy of the same bytes; and 120
//! doublings, whose text is too long for any buffer.

use std::hint::black_box;

use crate::{
  least, line,
  ours::{OBJECT, Ours},
  shapes::{self, NAMES, Side},
  vine::Vine,
};

const LONG: usize = 255;
const CALLS: usize = 20;

/// Strictly ascending, 255 bytes each.
fn names() -> Vec<String> {
  (0..NAMES).map(|i| format!("{i:03}").repeat(LONG / 3)).collect()
}

fn object<const PUBLIC: bool>() -> (Ours<PUBLIC>, u32) {
  let mut side = Ours::with_rule(names().concat().into_bytes(), NAMES);
  let kid = side.var();
  let entries: Vec<u32> = (0..NAMES).flat_map(|i| [kid, 0, (i * LONG) as u32, LONG as u32]).collect();
  let top = side.kind(OBJECT, &entries);
  (side, top)
}

/// The time of a call that writes `text`.
fn writing<const PUBLIC: bool>(text: &[u8]) -> f64 {
  let (mut side, top) = object::<PUBLIC>();
  let mut buf = vec![0; text.len()];
  assert_eq!(side.show(top, &mut buf), Some(text.len()));
  assert_eq!(buf, text);
  least(|| (), |()| (0..CALLS).for_each(|_| _ = black_box(side.show(top, &mut buf)))) / CALLS as f64
}

fn doubling<const PUBLIC: bool>() -> f64 {
  let mut side = Ours::<PUBLIC>::opened(122);
  let (_, top) = shapes::doublings(&mut side)[0];
  let mut buf = [0; 4096];
  assert_eq!(side.show(top, &mut buf), None);
  least(|| (), |()| (0..CALLS).for_each(|_| _ = black_box(side.show(top, &mut buf)))) / CALLS as f64
}

pub fn report() {
  let mut vine = Vine::opened(0);
  let kid = vine.var();
  let top = vine.named(&names(), kid);
  let text = vine.show(top).into_bytes();
  let bytes = text.len() as f64;
  let rust = least(|| (), |()| (0..CALLS).for_each(|_| _ = black_box(vine.show(top)))) / CALLS as f64;
  let mut buf = vec![0; text.len()];
  let copy =
    least(|| (), |()| (0..CALLS).for_each(|_| black_box(&mut buf).copy_from_slice(black_box(&text)))) / CALLS as f64;
  for (who, time) in
    [("core", writing::<false>(&text)), ("public", writing::<true>(&text)), ("Rust", rust), ("plain copy", copy)]
  {
    println!("show of {bytes} bytes {who}, {time:.1} a call, {:.4} a byte, {:.2} to the Rust, {:.2} to the copy", time / bytes, time / rust, time / copy);
  }
  line("show 120 doublings into 4,096 bytes core", 122, doubling::<false>(), None);
  line("show 120 doublings into 4,096 bytes public", 122, doubling::<true>(), None);
}
