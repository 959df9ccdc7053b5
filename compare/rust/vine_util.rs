//! The helper crate of Vine: its index vectors and iterator macro, unchanged.

pub mod idx {
  include!(concat!(env!("VINE_SRC"), "/util/src/idx.rs"));
}

pub mod multi_iter {
  include!(concat!(env!("VINE_SRC"), "/util/src/multi_iter.rs"));
}
