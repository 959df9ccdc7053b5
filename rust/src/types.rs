//! The type store.

use std::{cell::RefCell, collections::HashSet, fmt};

use crate::{
  answers::{Figures, Forced, Mod, Node, UnifyResult},
  chart::{Chart, DefId, Name, StructId, UnionId, refused},
  kind::{self, Children, Given, Head, ImplType, Kind, Parts, TypeKind},
  raw::{self, OUT, REFUSED, Store, Words},
  refusal::Refusal,
  transfer::{TransferTypes, TypeCtx},
  ty::{Inverted, Span, Type, TypeIdx},
};

/// A text longer than this isn't made by [`Types::show`]: shared types have texts that never end.
pub const MAX_SHOWN: usize = 1 << 24;

/// A text up to this length is written to the thread's own buffer first. Where a buffer is full a call still goes through
/// all of the type, so the first is long.
const SHORT_TEXT: usize = 1 << 15;

/// What a unify may remember: room for 16,381 pairs.
const MEMORY_WORDS: usize = 131 + 4 * 16_381;

/// The answers of `node` for one that is its parent's child, and for a root whose kind is known.
const CHILD: u32 = 0;
const KNOWN: u32 = 3;

/// How many fields of nodes follow one another where the library writes them out.
const PARENT_OR_SPAN: usize = 0;
const SIZE: usize = 1;
const INVERTED: usize = 2;

/// Vine's type store. Its words are its own, so a call tests its arguments and not the whole store.
///
/// Room for nodes and children is chosen when it is opened and can be chosen anew by [`set_room`](Types::set_room); a
/// call that needs more is refused with [`Refusal::NodesFull`] or [`Refusal::ChildrenFull`]. A call that is refused has
/// changed nothing.
///
/// States can be held under names and returned to: [`name`](Types::name), [`return_to`](Types::return_to),
/// [`drop_name`](Types::drop_name). A clone holds the same states under the same names, as its own.
///
/// Some calls walk down a type and take stack as they go: up to 740 bytes a level, so 3 MB at the very worst, a chain
/// of 4,096 nodes. A thread with less should keep its stores smaller. Where the stack ends the program ends, as
/// elsewhere in Rust: the library's code touches every page of what it takes.
///
/// ```
/// use faroalder::{Chart, Refusal, Span, TypeKind, Types, UnifyResult};
///
/// let chart = Chart::empty("")?;
/// let mut types = Types::open(&chart, 256, 1024)?;
/// let a = types.new_var(Span(10))?;
/// let b = types.new_var(Span(20))?;
/// let x = types.new(TypeKind::Tuple(&[a, !b]))?;
/// let y = types.new(TypeKind::Tuple(&[!b, a]))?;
/// assert_eq!(types.unify(x, y)?, UnifyResult::Success);
/// assert_eq!(types.show(!x)?, "(?1, ?1)");
/// # Ok::<(), Refusal>(())
/// ```
#[derive(Clone)]
pub struct Types {
  store: Store,
  /// Where the children of a kind that is made are laid out; what it holds between calls is of no account.
  entries: Vec<u32>,
  /// What the library answered to `error` and `nil`, which it answers until the store's words become others.
  remembered: Remembered,
}

/// The error and nil types, each since it was first asked for.
#[derive(Clone, Copy, Default)]
struct Remembered {
  error: Option<Type>,
  nil: Option<Type>,
}

thread_local! {
  /// Where a unify remembers pairs that did not succeed, so that types shared at every level take no longer than others.
  /// Nothing of it outlives the call, so a thread's stores share one; it is made at the thread's first unify.
  static MEMORY: RefCell<Vec<u32>> = const { RefCell::new(Vec::new()) };

  /// Where a text is written before its length is known; made at the thread's first text.
  static TEXT: RefCell<Vec<u8>> = const { RefCell::new(Vec::new()) };
}

/// A unify with the thread's memory; without one where the thread is being torn down.
fn remembering(mut unify: impl FnMut(&mut [u32]) -> u64) -> Result<UnifyResult, Refusal> {
  let with = |memory: &RefCell<Vec<u32>>| {
    let mut memory = memory.borrow_mut();
    if memory.is_empty() {
      *memory = vec![0; MEMORY_WORDS];
    }
    unify(&mut memory)
  };
  let answer = MEMORY.try_with(with);
  unified(answer.unwrap_or_else(|_| unify(&mut [])))
}

/// The value of an answer.
#[inline]
fn value(answer: u64) -> Result<u32, Refusal> {
  if answer < REFUSED { Ok(answer as u32) } else { Err(refused((answer - REFUSED) as u32)) }
}

#[inline]
fn ty(answer: u64) -> Result<Type, Refusal> {
  value(answer).map(Type::from_word)
}

#[inline]
fn flag(answer: u64) -> Result<bool, Refusal> {
  value(answer).map(|word| word != 0)
}

fn unified(answer: u64) -> Result<UnifyResult, Refusal> {
  value(answer).map(|word| match word {
    0 => UnifyResult::Success,
    1 => UnifyResult::Failure,
    _ => UnifyResult::Indeterminate,
  })
}

/// Of a call that no store of this crate is refused.
fn done(answer: u64) {
  assert!(answer < REFUSED, "a sound store is never turned back here");
}

#[inline]
fn impl_words(a: &ImplType) -> (u32, &[u32]) {
  let (number, types) = a.parts();
  (number, raw::words(types))
}

/// A text by a call that writes it into a buffer, into larger ones until one is long enough.
fn shown(show: impl Fn(&mut [u8]) -> u64) -> Result<Vec<u8>, Refusal> {
  let short = |buf: &RefCell<Vec<u8>>| {
    let mut buf = buf.borrow_mut();
    buf.resize(SHORT_TEXT, 0);
    value(show(&mut buf)).map(|len| buf[..len as usize].to_vec())
  };
  let mut size = SHORT_TEXT;
  let mut text = TEXT.try_with(short).unwrap_or(Err(Refusal::Short));
  while text == Err(Refusal::Short) && size < MAX_SHOWN {
    size = (4 * size).min(MAX_SHOWN);
    let mut buf = vec![0; size];
    text = value(show(&mut buf)).map(|len| {
      buf.truncate(len as usize);
      buf.shrink_to_fit();
      buf
    });
  }
  text
}

/// Names need not be UTF-8; what isn't is replaced.
fn string(bytes: Vec<u8>) -> String {
  String::from_utf8(bytes).unwrap_or_else(|error| String::from_utf8_lossy(error.as_bytes()).into())
}

/// Opening, rooms, words.
impl Types {
  /// A store without a node, with room for so many nodes, at most 4,096, and so many children over all nodes ever made,
  /// at most 16,384. Else [`Refusal::Unopenable`].
  pub fn open(chart: &Chart, nodes: u32, children: u32) -> Result<Types, Refusal> {
    Store::open(&chart.0, nodes, children).map(Types::of).map_err(refused)
  }

  /// A store with all the room there can be.
  pub fn open_largest(chart: &Chart) -> Types {
    Types::open(chart, crate::MAX_NODES, crate::MAX_CHILDREN)
      .expect("the limits are within the limits")
  }

  /// Words from elsewhere as a store: they are tested, once, and [`Refusal::Unsound`] if they aren't sound.
  ///
  /// ```
  /// use faroalder::{Chart, Refusal, Span, Types};
  ///
  /// let chart = Chart::empty("")?;
  /// let mut types = Types::open(&chart, 8, 8)?;
  /// types.new_var(Span(1))?;
  /// let mut words = types.into_words();
  /// assert!(Types::adopt(&chart, words.clone()).is_ok());
  /// words.h[0] += 1;
  /// assert_eq!(Types::adopt(&chart, words).unwrap_err(), Refusal::Unsound);
  /// # Ok::<(), Refusal>(())
  /// ```
  pub fn adopt(chart: &Chart, words: Words) -> Result<Types, Refusal> {
    Store::adopt(&chart.0, words).map(Types::of).map_err(refused)
  }

  /// The store's words, for [`adopt`](Types::adopt) or for a program in another language. States that are held under
  /// names do not go along.
  pub fn into_words(self) -> Words {
    self.store.into_words()
  }

  fn of(store: Store) -> Types {
    Types { store, entries: Vec::new(), remembered: Remembered::default() }
  }

  /// Room for more, or for less, with every node as it is: every type stays what it was, and every name holds the state
  /// that it held. [`Refusal::Unopenable`] above the limits; [`Refusal::NodesFull`] or [`Refusal::ChildrenFull`] if what
  /// is made, now or in a state that is held, needs more.
  ///
  /// ```
  /// use faroalder::{Chart, Refusal, Span, TypeKind, Types};
  ///
  /// let mut types = Types::open(&Chart::empty("")?, 1, 0)?;
  /// let a = types.new_var(Span(1))?;
  /// assert_eq!(types.new(TypeKind::Ref(a)), Err(Refusal::NodesFull));
  /// types.set_room(2, 1)?;
  /// let b = types.new(TypeKind::Ref(a))?;
  /// assert_eq!(types.show(b)?, "&?0");
  /// # Ok::<(), Refusal>(())
  /// ```
  pub fn set_room(&mut self, nodes: u32, children: u32) -> Result<(), Refusal> {
    self.remembered = Remembered::default();
    self.store.set_room(nodes, children).map_err(refused)
  }

  /// The chart that the store was opened with.
  pub fn chart(&self) -> Chart {
    Chart(self.store.tested().clone())
  }

  /// Counts, room, the remembered types and the report count.
  #[inline]
  pub fn figures(&self) -> Figures {
    let mut out = [0; OUT];
    done(self.store.figures(&mut out));
    let [nodes, children, node_room, child_room, has_error, error, has_nil, nil, low, high, _, _] =
      out;
    let remembered = |has: u32, word| (has != 0).then_some(Type::from_word(word));
    Figures {
      nodes,
      children,
      node_room,
      child_room,
      error: remembered(has_error, error),
      nil: remembered(has_nil, nil),
      reports: u64::from(low) | u64::from(high) << 32,
    }
  }

  /// How many nodes are made.
  #[inline]
  pub fn len(&self) -> usize {
    self.figures().nodes as usize
  }

  /// Whether no node is made.
  pub fn is_empty(&self) -> bool {
    self.len() == 0
  }

  /// Forgets every node and child, and drops every name. The report count stays.
  pub fn reset(&mut self) {
    self.remembered = Remembered::default();
    done(self.store.reset());
  }
}

/// Named states to come back to. A store holds up to eight of its states, each under a name of 1 to 255 bytes. A state
/// is held by copying what is in use of the store, so a small one is cheap; a store that names nothing pays nothing.
impl Types {
  /// Holds the present state under a name. Under a name that is held already the present state takes the place of the old
  /// one. [`Refusal::Unheld`] if the name is empty or over 255 bytes long; [`Refusal::NoPlace`] if eight others are held.
  ///
  /// ```
  /// use faroalder::{Chart, Refusal, Span, TypeKind, Types, UnifyResult};
  ///
  /// let mut types = Types::open(&Chart::empty("")?, 16, 16)?;
  /// let a = types.new_var(Span(1))?;
  /// let never = types.new(TypeKind::Never)?;
  /// let nil = types.nil()?;
  /// let x = types.new(TypeKind::Tuple(&[a, never]))?;
  /// let y = types.new(TypeKind::Tuple(&[nil, nil]))?;
  /// types.name("before")?;
  /// assert_eq!(types.unify(x, y)?, UnifyResult::Failure);
  /// assert_eq!(types.show(x)?, "((), !)");
  /// types.return_to("before")?;
  /// assert_eq!(types.show(x)?, "(?0, !)");
  /// # Ok::<(), Refusal>(())
  /// ```
  pub fn name(&mut self, name: impl AsRef<[u8]>) -> Result<(), Refusal> {
    value(self.store.name_state(name.as_ref())).map(drop)
  }

  /// Returns to the state that is held under a name: every node is what it was, and so are the remembered error and nil
  /// types and how many nodes and children are made. A type made since is no longer in the store, and its number goes to
  /// the next that is made. The report count does not go back. The name stays held. [`Refusal::Unheld`] if it isn't.
  pub fn return_to(&mut self, name: impl AsRef<[u8]>) -> Result<(), Refusal> {
    self.remembered = Remembered::default();
    value(self.store.return_to(name.as_ref())).map(drop)
  }

  /// Drops a name and the state held under it. [`Refusal::Unheld`] if it isn't held.
  pub fn drop_name(&mut self, name: impl AsRef<[u8]>) -> Result<(), Refusal> {
    value(self.store.drop_name(name.as_ref())).map(drop)
  }

  /// The names that are held, in no order of meaning.
  pub fn names(&self) -> Vec<Vec<u8>> {
    self.store.names()
  }
}

/// The makers.
impl Types {
  /// A new node of this kind.
  ///
  /// ```
  /// use faroalder::{Chart, Refusal, TypeKind, Types};
  ///
  /// let chart = Chart::empty("ab")?;
  /// let (a, b) = (chart.name("a").unwrap(), chart.name("b").unwrap());
  /// let mut types = Types::open(&chart, 8, 8)?;
  /// let never = types.new(TypeKind::Never)?;
  /// let object = types.new(TypeKind::Object(&[(a, never), (b, !never)]))?;
  /// assert_eq!(types.show(object)?, "{ a: !, b: ~! }");
  /// assert_eq!(types.new(TypeKind::Object(&[(b, never), (a, never)])), Err(Refusal::Unmakeable));
  /// # Ok::<(), Refusal>(())
  /// ```
  #[allow(clippy::new_ret_no_self)]
  #[inline]
  pub fn new(&mut self, kind: TypeKind<'_>) -> Result<Type, Refusal> {
    match kind.given(&mut self.entries) {
      Given::Over(code, number, types) => ty(self.store.new_over(code, number, raw::words(types))),
      Given::Laid(Head { code, number, flex, name: [text, start, len] }) => {
        ty(self.store.new_kind([code, number, flex, text, start, len], &self.entries))
      }
    }
  }

  /// A new type variable; an inference error would be reported at the span.
  #[inline]
  pub fn new_var(&mut self, span: Span) -> Result<Type, Refusal> {
    ty(self.store.new_var(span.0))
  }

  /// So many new type variables.
  pub fn new_vars(&mut self, span: Span, len: usize) -> Result<Vec<Type>, Refusal> {
    // More than there can ever be room for are refused like the first that is too many.
    let count = len.min(crate::MAX_NODES as usize + 1);
    // Every one is written over; zeros would be asked of the allocator, which takes longer for a few.
    let mut out = vec![Type::from_word(u32::MAX); count];
    value(self.store.new_vars(span.0, count as u32, raw::words_mut(&mut out)))?;
    Ok(out)
  }

  /// A new struct type over parameters; it is self-dual as the chart says.
  #[inline]
  pub fn new_struct(&mut self, id: StructId, type_params: &[Type]) -> Result<Type, Refusal> {
    self.new(TypeKind::Struct(id, type_params))
  }

  /// A new union type over parameters; it is self-dual as the chart says.
  #[inline]
  pub fn new_union(&mut self, id: UnionId, type_params: &[Type]) -> Result<Type, Refusal> {
    self.new(TypeKind::Union(id, type_params))
  }

  /// The error type: made by the first call, returned by every later one until [`reset`](Types::reset).
  #[inline]
  pub fn error(&mut self) -> Result<Type, Refusal> {
    match self.remembered.error {
      Some(error) => Ok(error),
      None => ty(self.store.error()).inspect(|&error| self.remembered.error = Some(error)),
    }
  }

  /// The empty tuple: made by the first call, returned by every later one until [`reset`](Types::reset).
  #[inline]
  pub fn nil(&mut self) -> Result<Type, Refusal> {
    match self.remembered.nil {
      Some(nil) => Ok(nil),
      None => ty(self.store.nil()).inspect(|&nil| self.remembered.nil = Some(nil)),
    }
  }
}

/// Unifying.
impl Types {
  /// Makes two types one, as far as that goes. What was bound before a Failure stays bound.
  ///
  /// ```
  /// use faroalder::{Chart, Refusal, Span, TypeKind, Types, UnifyResult};
  ///
  /// let mut types = Types::open(&Chart::empty("")?, 8, 8)?;
  /// let a = types.new_var(Span(1))?;
  /// let inside = types.new(TypeKind::Tuple(&[a]))?;
  /// assert_eq!(types.unify(a, inside)?, UnifyResult::Failure);
  /// assert_eq!(types.unify(a, !a)?, UnifyResult::Failure);
  /// let never = types.new(TypeKind::Never)?;
  /// assert_eq!(types.unify(a, never)?, UnifyResult::Success);
  /// # Ok::<(), Refusal>(())
  /// ```
  pub fn unify(&mut self, a: Type, b: Type) -> Result<UnifyResult, Refusal> {
    remembering(|memory| self.store.unify(a.word(), b.word(), memory))
  }

  /// Unifies pair by pair, the second of each inverted if `inv` says so. Lists of different lengths: Failure, and
  /// nothing is unified.
  pub fn unify_types(
    &mut self,
    a: &[Type],
    b: &[Type],
    inv: Inverted,
  ) -> Result<UnifyResult, Refusal> {
    remembering(|memory| self.store.unify_types(raw::words(a), raw::words(b), inv.0, memory))
  }

  /// Unifies field by field. Fields whose name is on one side alone: Failure, and the others are unified. Both lists are
  /// ascending by their names' bytes.
  pub fn unify_objects(
    &mut self,
    a: &[(Name, Type)],
    b: &[(Name, Type)],
    inv: Inverted,
  ) -> Result<UnifyResult, Refusal> {
    self.entries.clear();
    kind::fields(&mut self.entries, a);
    let first = self.entries.len();
    kind::fields(&mut self.entries, b);
    let (x, y) = self.entries.split_at(first);
    remembering(|memory| self.store.unify_objects(x, y, inv.0, memory))
  }

  /// Unifies two signatures, each its parameters and its return.
  pub fn unify_fn_sig(
    &mut self,
    (a, a_ret): (&[Type], Type),
    (b, b_ret): (&[Type], Type),
  ) -> Result<UnifyResult, Refusal> {
    let (a, b) = ((raw::words(a), a_ret.word()), (raw::words(b), b_ret.word()));
    remembering(|memory| self.store.unify_fn_sig(a, b, memory))
  }

  /// Unifies two impl types: those of one trait type by type.
  pub fn unify_impl_type(&mut self, a: &ImplType, b: &ImplType) -> Result<UnifyResult, Refusal> {
    remembering(|memory| self.store.unify_impl_type(impl_words(a), impl_words(b), memory))
  }
}

/// Inference: forcing and finishing.
impl Types {
  /// The type's kind. Where there is none, that is reported once: the span is in the answer and the report count rises.
  ///
  /// ```
  /// use faroalder::{Chart, Forced, Kind, Refusal, Span, Types};
  ///
  /// let mut types = Types::open(&Chart::empty("")?, 8, 8)?;
  /// let a = types.new_var(Span(7))?;
  /// assert!(matches!(types.force_kind(a)?, Forced::Reported(Span(7))));
  /// assert!(matches!(types.force_kind(a)?, Forced::Failed));
  /// assert!(matches!(types.force_kind(a)?.kind(), (_, Kind::Error)));
  /// assert_eq!(types.figures().reports, 1);
  /// # Ok::<(), Refusal>(())
  /// ```
  pub fn force_kind(&mut self, t: Type) -> Result<Forced<'_>, Refusal> {
    let mut out = [0; OUT];
    Ok(match value(self.store.force_kind(t.word(), &mut out))? {
      1 => Forced::Reported(Span(out[PARENT_OR_SPAN])),
      2 => Forced::Failed,
      _ => Forced::Known(Inverted(out[INVERTED] != 0), self.kind_in(&out)),
    })
  }

  /// Every root without a kind becomes Default, uninverted.
  pub fn finish_inference(&mut self) {
    done(self.store.finish_inference());
  }

  /// Every root without a kind that the filter chooses becomes Default, uninverted.
  ///
  /// ```
  /// use faroalder::{Chart, Refusal, Span, Types};
  ///
  /// let mut types = Types::open(&Chart::empty("")?, 8, 8)?;
  /// let (a, b) = (types.new_var(Span(1))?, types.new_var(Span(2))?);
  /// types.finish_inference_where(|node| node == b.idx());
  /// assert_eq!((types.show(a)?, types.show(b)?), ("?0".into(), "_".into()));
  /// # Ok::<(), Refusal>(())
  /// ```
  pub fn finish_inference_where(&mut self, filter: impl Fn(TypeIdx) -> bool) {
    let chosen: Vec<u8> =
      (0..self.len()).map(|node| filter(TypeIdx::new(node as u16)).into()).collect();
    done(self.store.finish_inference_where(&chosen));
  }
}

/// Reading.
impl Types {
  /// The root of a type, with the inversions on the way.
  #[inline]
  pub fn find(&self, t: Type) -> Result<Type, Refusal> {
    ty(self.store.find(t.word()))
  }

  /// The same; and every node on the way is pointed straight at the root.
  #[inline]
  pub fn find_mut(&mut self, t: Type) -> Result<Type, Refusal> {
    ty(self.store.find_mut(t.word()))
  }

  /// The kind of a type, if it is known, and whether the type is the kind's inverse.
  ///
  /// ```
  /// use faroalder::{Chart, Inverted, Kind, Refusal, Span, TypeKind, Types};
  ///
  /// let mut types = Types::open(&Chart::empty("")?, 8, 8)?;
  /// let a = types.new_var(Span(1))?;
  /// let pair = types.new(TypeKind::Tuple(&[a, !a]))?;
  /// assert!(types.kind(a)?.is_none());
  /// let Some((Inverted(true), Kind::Tuple(children))) = types.kind(!pair)? else { panic!() };
  /// assert_eq!(children.collect::<Vec<_>>(), [a, !a]);
  /// # Ok::<(), Refusal>(())
  /// ```
  #[inline]
  pub fn kind(&self, t: Type) -> Result<Option<(Inverted, Kind<'_>)>, Refusal> {
    let Some((inv, out)) = self.known(t)? else { return Ok(None) };
    Ok(Some((Inverted(out[INVERTED] != 0) ^ inv, self.kind_in(&out))))
  }

  /// The children of a type's kind, as the kind has them; none where there is no kind.
  #[inline]
  pub fn children(&self, t: Type) -> Result<impl ExactSizeIterator<Item = Type> + '_, Refusal> {
    Ok(self.known(t)?.map_or(Children::of(&[]), |(_, out)| self.children_in(&out)))
  }

  /// The words of a type's root, if its kind is known, and the inversions on the way.
  #[inline]
  fn known(&self, t: Type) -> Result<Option<(Inverted, [u32; OUT])>, Refusal> {
    let mut out = [0; OUT];
    let mut root = t;
    let mut tag = value(self.store.node(t.word(), &mut out))?;
    // Most types that are asked for are roots.
    if tag == CHILD {
      root = self.find(t)?;
      tag = value(self.store.node(root.word(), &mut out))?;
    }
    Ok((tag == KNOWN).then_some((root.inv(), out)))
  }

  /// A node as it stands.
  #[inline]
  pub fn node(&self, node: TypeIdx) -> Result<Node<'_>, Refusal> {
    let mut out = [0; OUT];
    let tag = value(self.store.node(Type::from(node).word(), &mut out))?;
    let size = out[SIZE];
    Ok(match tag {
      CHILD => Node::Child(Type::from_word(out[PARENT_OR_SPAN])),
      1 => Node::Unknown { span: Span(out[PARENT_OR_SPAN]), size },
      2 => Node::InferenceFailed { size },
      _ => {
        let inverted = Inverted(out[INVERTED] != 0);
        Node::Known { inverted, kind: self.kind_in(&out), size }
      }
    })
  }

  /// Every node as it stands, in order.
  pub fn nodes(&self) -> impl ExactSizeIterator<Item = Node<'_>> {
    (0..self.len() as u16).map(|node| self.node(TypeIdx::new(node)).expect("the node is made"))
  }

  /// The kind in a node's or force_kind's words.
  #[inline]
  fn kind_in(&self, out: &[u32; OUT]) -> Kind<'_> {
    let [_, _, _, code, number, dual, flex, text, start, len, ..] = *out;
    let parts = Parts { code, number, dual: dual != 0, flex, name: [text, start, len] };
    Kind::of(parts, self.children_in(out))
  }

  /// The children in them.
  #[inline]
  fn children_in(&self, out: &[u32; OUT]) -> Children<'_> {
    let [.., first, count] = *out;
    Children::of(self.store.children(first, count))
  }

  /// Whether a type equals its inverse.
  pub fn self_inverse(&self, t: Type) -> Result<bool, Refusal> {
    self.self_inverse_param(t, false)
  }

  /// The same, where `param` says whether type parameters count as equal to their inverses.
  pub fn self_inverse_param(&self, t: Type, param: bool) -> Result<bool, Refusal> {
    flag(self.store.self_inverse_param(t.word(), param))
  }

  /// Whether a type is the empty tuple.
  #[inline]
  pub fn is_nil(&self, t: Type) -> Result<bool, Refusal> {
    flag(self.store.is_nil(t.word()))
  }

  /// The module of a type's definition, through references.
  pub fn get_mod(&self, t: Type) -> Result<Mod, Refusal> {
    let mut out = [0];
    Ok(match value(self.store.get_mod(t.word(), &mut out))? {
      0 => Mod::None,
      1 => Mod::Def(DefId(out[0])),
      _ => Mod::Error,
    })
  }

  /// Whether two impl types are of one trait; never with an error.
  pub fn approx_eq(&self, a: &ImplType, b: &ImplType) -> Result<bool, Refusal> {
    flag(self.store.approx_eq(impl_words(a), impl_words(b)))
  }

  /// Adds the roots that a type leads to, and stops at each that the set has already.
  pub fn find_related(&self, t: Type, set: &mut HashSet<TypeIdx>) -> Result<(), Refusal> {
    let mut marks = vec![0; self.len()];
    for node in set.iter() {
      if let Some(mark) = marks.get_mut(node.get()) {
        *mark = 1;
      }
    }
    self.mark_related(t, &mut marks)?;
    let marked = |&node: &usize| marks[node] != 0;
    set.extend((0..marks.len()).filter(marked).map(|node| TypeIdx::new(node as u16)));
    Ok(())
  }

  /// The same with a byte for each node: nonzero means already in the set, 1 is written for each root added. Too few:
  /// [`Refusal::Short`].
  pub fn mark_related(&self, t: Type, marks: &mut [u8]) -> Result<(), Refusal> {
    value(self.store.find_related(marks, t.word())).map(|_| ())
  }
}

/// Printing.
impl Types {
  /// A type's text; [`Refusal::Short`] above [`MAX_SHOWN`] bytes. Bytes of names that aren't UTF-8 are replaced.
  pub fn show(&self, t: Type) -> Result<String, Refusal> {
    shown(|buf| self.store.show(t.word(), buf)).map(string)
  }

  /// Writes a type's text to the front of a buffer and answers that part. Where the text is longer: [`Refusal::Short`],
  /// and the buffer has its first bytes.
  ///
  /// ```
  /// use faroalder::{Chart, Refusal, TypeKind, Types};
  ///
  /// let mut types = Types::open(&Chart::empty("")?, 8, 8)?;
  /// let nil = types.nil()?;
  /// let pair = types.new(TypeKind::Tuple(&[nil, nil]))?;
  /// let mut buf = [b'.'; 10];
  /// assert_eq!(types.show_into(pair, &mut buf)?, b"((), ())");
  /// assert_eq!(&buf, b"((), ())..");
  /// assert_eq!(types.show_into(pair, &mut buf[..5]), Err(Refusal::Short));
  /// # Ok::<(), Refusal>(())
  /// ```
  pub fn show_into<'b>(&self, t: Type, buf: &'b mut [u8]) -> Result<&'b mut [u8], Refusal> {
    let len = value(self.store.show(t.word(), buf))?;
    Ok(&mut buf[..len as usize])
  }

  /// An impl type's text, as [`show`](Types::show).
  pub fn show_impl_type(&self, a: &ImplType) -> Result<String, Refusal> {
    shown(|buf| self.store.show_impl_type(impl_words(a), buf)).map(string)
  }

  /// An impl type's text, as [`show_into`](Types::show_into).
  pub fn show_impl_type_into<'b>(
    &self,
    a: &ImplType,
    buf: &'b mut [u8],
  ) -> Result<&'b mut [u8], Refusal> {
    let len = value(self.store.show_impl_type(impl_words(a), buf))?;
    Ok(&mut buf[..len as usize])
  }
}

/// From store to store.
impl Types {
  /// A value of another store in terms of this one: at most 255 types, copied with all that they lead to, whatever they
  /// share copied once. With a parameter list, a `Param` becomes its entry.
  ///
  /// ```
  /// use faroalder::{Chart, Refusal, Span, TypeKind, Types};
  ///
  /// let chart = Chart::empty("T")?;
  /// let mut one = Types::open(&chart, 8, 8)?;
  /// let param = one.new(TypeKind::Param(0, chart.name("T").unwrap()))?;
  /// let both = one.new(TypeKind::Tuple(&[param, !param]))?;
  /// let kept = one.export(&both)?;
  ///
  /// let mut two = Types::open(&chart, 8, 8)?;
  /// let a = two.new_var(Span(1))?;
  /// let made = two.import(&kept, Some(&[a]))?;
  /// assert_eq!(two.show(made)?, "(?0, ~?0)");
  /// assert_eq!(two.import(&kept, Some(&[])), Err(Refusal::NoEntry));
  /// # Ok::<(), Refusal>(())
  /// ```
  pub fn import<T: TransferTypes>(
    &mut self,
    source: &TypeCtx<T>,
    params: Option<&[Type]>,
  ) -> Result<T, Refusal> {
    let mut types = Vec::new();
    source.inner.list(&mut types);
    let made = self.import_types(&source.types, &types, params)?;
    Ok(source.inner.with(&mut made.into_iter()))
  }

  /// The same for a list of types of a store that is only lent.
  pub fn import_types(
    &mut self,
    source: &Types,
    types: &[Type],
    params: Option<&[Type]>,
  ) -> Result<Vec<Type>, Refusal> {
    let mut out = vec![Type::from_word(0); types.len()];
    let params = params.map(raw::words);
    value(self.store.import(&source.store, raw::words(types), params, raw::words_mut(&mut out)))?;
    Ok(out)
  }

  /// A value with a fresh store of its own, of the same room: the remembered error and nil types, then all that the
  /// value's types lead to.
  pub fn export<T: TransferTypes>(&self, value: &T) -> Result<TypeCtx<T>, Refusal> {
    let Figures { node_room, child_room, .. } = self.figures();
    self.export_with_room(value, node_room, child_room)
  }

  /// The same into a fresh store with room for so many nodes and children.
  pub fn export_with_room<T: TransferTypes>(
    &self,
    value: &T,
    nodes: u32,
    children: u32,
  ) -> Result<TypeCtx<T>, Refusal> {
    let mut types = Vec::new();
    value.list(&mut types);
    let mut out = vec![Type::from_word(0); types.len()];
    let fresh = self
      .store
      .export(nodes, children, raw::words(&types), raw::words_mut(&mut out))
      .map_err(refused)?;
    Ok(TypeCtx { types: Types::of(fresh), inner: value.with(&mut out.into_iter()) })
  }
}

impl fmt::Debug for Types {
  fn fmt(&self, f: &mut fmt::Formatter<'_>) -> fmt::Result {
    self.figures().fmt(f)
  }
}
