//! `import` by the core beside the Rust's, into an empty store with room for 4,096 nodes: nanoseconds a node of the source.

use std::hint::black_box;

use crate::{
  deep, least, line,
  ours::Core,
  shapes::{self, Side},
  structures::types::{Types, view},
  vine::Vine,
};

const NODES: usize = 4096;

/// The chains whose times a node are compared.
const CHAINS: [usize; 3] = [64, 512, 4095];

/// A shape made alike on both sides, and its time a node by the core. What both give is compared.
macro_rules! import {
  ($what:expr, $shape:expr) => {{
    let (mut ours, mut rust) = (Core::opened(NODES), Vine::opened(NODES));
    let (types, others) = ($shape(&mut ours), $shape(&mut rust));
    assert_eq!(types, others);
    let (nodes, source) = (ours.count(), rust.lent(&types));
    let mut out = vec![0; types.len()];
    let core = least(|| Core::opened(NODES), |side| side.import(&ours, &types, &mut out)) / nodes as f64;
    let mut given = Vec::new();
    let rust = least(Types::default, |types| given = black_box(types.import(&source, None))) / nodes as f64;
    assert!(given.iter().map(|&t| view::node(t) as u32).eq(out));
    line(&format!("import of {} core", $what), nodes, core, Some(core / rust));
    line(&format!("import of {} Rust", $what), nodes, rust, Some(1.0));
    core
  }};
}

fn shapes() {
  import!("a chain of Refs", |side: &mut _| vec![shapes::chain(side, shapes::CHAIN)]);
  import!("wide tuples over the same variables", shapes::alike);
  import!("a tree shared at every level", |side: &mut _| vec![shapes::doubled(side)]);
  let times =
    CHAINS.map(|nodes| import!(format!("{nodes} nodes in a chain"), |side: &mut _| vec![shapes::chain(side, nodes)]));
  println!("  {:.1} and {:.1} times the time a node of the shortest", times[1] / times[0], times[2] / times[0]);
}

pub fn report() {
  deep(shapes);
}
