//! Stand-in for the crate that `idx.rs` names: the hasher is of no account here, since nothing
//! that is compared depends on a map's order.

use std::collections::{HashMap, HashSet};

pub trait IsEnabled {}
impl IsEnabled for usize {}

pub type IntMap<K, V> = HashMap<K, V>;
pub type IntSet<K> = HashSet<K>;
