//! Stand-in for the crate that `idx.rs` names for `IdxSlab`. `types.rs` uses no slab, so this has
//! the shape that `idx.rs` needs and every body stops the program.

use std::{
  marker::PhantomData,
  ops::{Index, IndexMut},
};

fn unused() -> ! {
  unreachable!("the type store uses no slab")
}

#[derive(Clone)]
pub struct Slab<T>(PhantomData<T>);

impl<T> Slab<T> {
  pub const fn new() -> Self {
    Slab(PhantomData)
  }
  pub fn len(&self) -> usize {
    unused()
  }
  pub fn is_empty(&self) -> bool {
    unused()
  }
  pub fn insert(&mut self, _: T) -> usize {
    unused()
  }
  pub fn remove(&mut self, _: usize) -> T {
    unused()
  }
  pub fn get(&self, _: usize) -> Option<&T> {
    unused()
  }
  pub fn get_mut(&mut self, _: usize) -> Option<&mut T> {
    unused()
  }
  pub fn iter(&self) -> Iter<'_, T> {
    unused()
  }
  pub fn iter_mut(&mut self) -> IterMut<'_, T> {
    unused()
  }
  pub fn clear(&mut self) {
    unused()
  }
}

impl<T> Default for Slab<T> {
  fn default() -> Self {
    unused()
  }
}

impl<T> Index<usize> for Slab<T> {
  type Output = T;
  fn index(&self, _: usize) -> &T {
    unused()
  }
}

impl<T> IndexMut<usize> for Slab<T> {
  fn index_mut(&mut self, _: usize) -> &mut T {
    unused()
  }
}

impl<T> IntoIterator for Slab<T> {
  type Item = (usize, T);
  type IntoIter = IntoIter<T>;
  fn into_iter(self) -> IntoIter<T> {
    unused()
  }
}

pub struct IntoIter<T>(PhantomData<T>);
pub struct Iter<'a, T>(PhantomData<&'a T>);
pub struct IterMut<'a, T>(PhantomData<&'a mut T>);

impl<T> Iterator for IntoIter<T> {
  type Item = (usize, T);
  fn next(&mut self) -> Option<Self::Item> {
    unused()
  }
}

impl<'a, T> Iterator for Iter<'a, T> {
  type Item = (usize, &'a T);
  fn next(&mut self) -> Option<Self::Item> {
    unused()
  }
}

impl<'a, T> Iterator for IterMut<'a, T> {
  type Item = (usize, &'a mut T);
  fn next(&mut self) -> Option<Self::Item> {
    unused()
  }
}
