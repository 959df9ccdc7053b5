//! A call, the same for both sides. Its types are `Arg`s while a list is kept and shrunk, and nodes when it runs.

use std::fmt;

/// A type in a list of calls: it names a node of the store as it will be, so that a list stays a list of calls when
/// calls are left out of it.
#[derive(Clone, Copy, Debug)]
pub enum Arg {
  /// A node, counted from the first, or back from the last.
  First(u32, bool),
  Last(u32, bool),
  /// A node so far past the last.
  Past(u32, bool),
}

/// A node and an inversion.
#[derive(Clone, Copy, PartialEq, Eq)]
pub struct Ty {
  pub node: u32,
  pub inv: bool,
}

impl fmt::Debug for Ty {
  fn fmt(&self, f: &mut fmt::Formatter<'_>) -> fmt::Result {
    write!(f, "{}{}", if self.inv { "~" } else { "" }, self.node)
  }
}

impl Arg {
  /// The type among n nodes; none where there is no node.
  pub fn among(self, n: u32) -> Option<Ty> {
    let last = n.checked_sub(1);
    let (node, inv) = match self {
      Arg::First(i, inv) => (i.checked_rem(n)?, inv),
      Arg::Last(i, inv) => (last? - i % n, inv),
      Arg::Past(i, inv) => (n + i, inv),
    };
    Some(Ty { node, inv })
  }
}

/// A name, by its place in the chart's pool.
pub type Name = usize;

/// A kind's numbers, names and children. A closure's return is its last child.
#[derive(Clone, Debug)]
pub struct Kind<T> {
  pub code: u32,
  pub number: u32,
  pub flex: u32,
  /// A Param's or Key's own; an Object's, one for each child; a Closure's, one or none for each parameter.
  pub names: Vec<Option<Name>>,
  pub kids: Vec<T>,
}

/// A trait over types, or an error.
#[derive(Clone, Debug)]
pub enum Impl<T> {
  Trait(u32, Vec<T>),
  Error,
}

#[derive(Clone, Debug)]
pub enum Call<T> {
  New(Kind<T>),
  NewVar(u32),
  NewVars(u32, usize),
  NewStruct(u32, Vec<T>),
  NewUnion(u32, Vec<T>),
  Error,
  Nil,
  Unify(T, T),
  UnifyTypes(Vec<T>, Vec<T>, bool),
  UnifyObjects(Vec<(Name, T)>, Vec<(Name, T)>, bool),
  UnifyImplType(Impl<T>, Impl<T>),
  UnifyFnSig(Vec<T>, T, Vec<T>, T),
  ForceKind(T),
  FinishInference,
  FinishInferenceWhere(Vec<u8>),
  Reset,
  Find(T),
  FindMut(T),
  GetKind(T),
  SelfInverse(T, bool),
  IsNil(T),
  GetMod(T),
  ApproxEq(Impl<T>, Impl<T>),
  /// The nodes in the set before, and how many marks are lent too few.
  FindRelated(T, Vec<u32>, usize),
  Show(T),
  ShowImplType(Impl<T>),
  /// Out of another store: the types there, and the parameter list here.
  Import(usize, Vec<T>, Option<Vec<T>>),
  /// Into another store, which then has this much room.
  Export(usize, Vec<T>, [u32; 2]),
  /// The same nodes with other room.
  SetRoom([u32; 2]),
  /// Its words, taken out and adopted again.
  Adopt,
  /// The present state, held under a name; the state that is held under one, put back; a name, dropped.
  NameState(Vec<u8>),
  ReturnTo(Vec<u8>),
  DropName(Vec<u8>),
}

/// A call on one of the stores.
#[derive(Clone, Debug)]
pub struct Op<T> {
  pub store: usize,
  pub call: Call<T>,
}

fn all<T: Copy, U>(ts: &[T], f: &impl Fn(T) -> Option<U>) -> Option<Vec<U>> {
  ts.iter().map(|&t| f(t)).collect()
}

fn fields<T: Copy, U>(es: &[(Name, T)], f: &impl Fn(T) -> Option<U>) -> Option<Vec<(Name, U)>> {
  es.iter().map(|&(name, t)| Some((name, f(t)?))).collect()
}

impl<T: Copy> Impl<T> {
  fn map<U>(&self, f: &impl Fn(T) -> Option<U>) -> Option<Impl<U>> {
    Some(match self {
      Impl::Trait(n, ts) => Impl::Trait(*n, all(ts, f)?),
      Impl::Error => Impl::Error,
    })
  }

  pub fn types(&self) -> &[T] {
    match self {
      Impl::Trait(_, ts) => ts,
      Impl::Error => &[],
    }
  }
}

impl<T: Copy> Op<T> {
  /// With other types: `f` is given the store that a type belongs to.
  pub fn map<U>(&self, g: impl Fn(usize, T) -> Option<U>) -> Option<Op<U>> {
    let store = self.store;
    let f = |t| g(store, t);
    let call = match &self.call {
      Call::New(k) => {
        let Kind { code, number, flex, ref names, ref kids } = *k;
        Call::New(Kind { code, number, flex, names: names.clone(), kids: all(kids, &f)? })
      }
      Call::NewVar(span) => Call::NewVar(*span),
      Call::NewVars(span, n) => Call::NewVars(*span, *n),
      Call::NewStruct(n, ts) => Call::NewStruct(*n, all(ts, &f)?),
      Call::NewUnion(n, ts) => Call::NewUnion(*n, all(ts, &f)?),
      Call::Error => Call::Error,
      Call::Nil => Call::Nil,
      Call::Unify(a, b) => Call::Unify(f(*a)?, f(*b)?),
      Call::UnifyTypes(a, b, inv) => Call::UnifyTypes(all(a, &f)?, all(b, &f)?, *inv),
      Call::UnifyObjects(a, b, inv) => Call::UnifyObjects(fields(a, &f)?, fields(b, &f)?, *inv),
      Call::UnifyImplType(a, b) => Call::UnifyImplType(a.map(&f)?, b.map(&f)?),
      Call::UnifyFnSig(a, r, b, q) => Call::UnifyFnSig(all(a, &f)?, f(*r)?, all(b, &f)?, f(*q)?),
      Call::ForceKind(t) => Call::ForceKind(f(*t)?),
      Call::FinishInference => Call::FinishInference,
      Call::FinishInferenceWhere(bytes) => Call::FinishInferenceWhere(bytes.clone()),
      Call::Reset => Call::Reset,
      Call::Find(t) => Call::Find(f(*t)?),
      Call::FindMut(t) => Call::FindMut(f(*t)?),
      Call::GetKind(t) => Call::GetKind(f(*t)?),
      Call::SelfInverse(t, param) => Call::SelfInverse(f(*t)?, *param),
      Call::IsNil(t) => Call::IsNil(f(*t)?),
      Call::GetMod(t) => Call::GetMod(f(*t)?),
      Call::ApproxEq(a, b) => Call::ApproxEq(a.map(&f)?, b.map(&f)?),
      Call::FindRelated(t, marks, less) => Call::FindRelated(f(*t)?, marks.clone(), *less),
      Call::Show(t) => Call::Show(f(*t)?),
      Call::ShowImplType(a) => Call::ShowImplType(a.map(&f)?),
      Call::Import(from, ts, params) => {
        let params = match params {
          None => None,
          Some(ps) => Some(all(ps, &f)?),
        };
        Call::Import(*from, all(ts, &|t| g(*from, t))?, params)
      }
      Call::Export(to, ts, room) => Call::Export(*to, all(ts, &f)?, *room),
      Call::SetRoom(room) => Call::SetRoom(*room),
      Call::Adopt => Call::Adopt,
      Call::NameState(name) => Call::NameState(name.clone()),
      Call::ReturnTo(name) => Call::ReturnTo(name.clone()),
      Call::DropName(name) => Call::DropName(name.clone()),
    };
    Some(Op { store, call })
  }

  /// The call's name, as the Rust has it.
  pub fn name(&self) -> &'static str {
    match self.call {
      Call::New(_) => "new",
      Call::NewVar(_) => "new_var",
      Call::NewVars(..) => "new_vars",
      Call::NewStruct(..) => "new_struct",
      Call::NewUnion(..) => "new_union",
      Call::Error => "error",
      Call::Nil => "nil",
      Call::Unify(..) => "unify",
      Call::UnifyTypes(..) => "unify_types",
      Call::UnifyObjects(..) => "unify_objects",
      Call::UnifyImplType(..) => "unify_impl_type",
      Call::UnifyFnSig(..) => "unify_fn_sig",
      Call::ForceKind(_) => "force_kind",
      Call::FinishInference => "finish_inference",
      Call::FinishInferenceWhere(_) => "finish_inference_where",
      Call::Reset => "reset",
      Call::Find(_) => "find",
      Call::FindMut(_) => "find_mut",
      Call::GetKind(_) => "kind",
      Call::SelfInverse(..) => "self_inverse",
      Call::IsNil(_) => "is_nil",
      Call::GetMod(_) => "get_mod",
      Call::ApproxEq(..) => "approx_eq",
      Call::FindRelated(..) => "find_related",
      Call::Show(_) => "show",
      Call::ShowImplType(_) => "show_impl_type",
      Call::Import(..) => "import",
      Call::Export(..) => "export",
      Call::SetRoom(_) => "set_room",
      Call::Adopt => "adopt",
      Call::NameState(_) => "name",
      Call::ReturnTo(_) => "return_to",
      Call::DropName(_) => "drop_name",
    }
  }
}
