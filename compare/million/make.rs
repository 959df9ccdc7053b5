//! Lists of calls, at random.

use faroalder::Sort;

use crate::{
  call::{Arg, Call, Impl, Kind, Op},
  random::Random,
  world::World,
};

/// How many stores a list works on.
pub const STORES: usize = 3;

pub struct List {
  /// Nodes and children of each store, as opened.
  pub rooms: [[u32; 2]; STORES],
  pub ops: Vec<Op<Arg>>,
}

#[derive(Clone, Copy, PartialEq)]
enum Size {
  Small,
  Medium,
  Large,
}

struct Maker<'a> {
  random: &'a mut Random,
  world: &'a World,
  size: Size,
  /// Naming, returning and dropping among all calls: one in so many.
  naming: usize,
}

/// A list; with `small` a short one, on small stores.
pub fn list(random: &mut Random, world: &World, small: bool) -> List {
  let size = match random.below(60) {
    _ if small => Size::Small,
    0 => Size::Large,
    1..6 => Size::Medium,
    _ => Size::Small,
  };
  let naming = if random.once_in(6) { 4 } else { 40 };
  let mut maker = Maker { random, world, size, naming };
  let rooms = [(); STORES].map(|()| maker.room());
  let count = match size {
    Size::Small => maker.random.between(20, 160),
    Size::Medium => maker.random.between(200, 900),
    Size::Large => maker.random.between(2000, 6000),
  };
  let mut ops = Vec::new();
  if size == Size::Large {
    let n = maker.random.between(500, 3500);
    ops.push(Op { store: 0, call: Call::NewVars(5, n) });
  }
  while ops.len() < count {
    let op = maker.op();
    let twin = maker.twin(&op);
    ops.push(op);
    ops.extend(twin);
  }
  List { rooms, ops }
}

/// A call of a short list.
pub fn one(random: &mut Random, world: &World) -> Op<Arg> {
  Maker { random, world, size: Size::Small, naming: usize::MAX }.op()
}

impl Maker<'_> {
  fn room(&mut self) -> [u32; 2] {
    let r = &mut *self.random;
    let [nodes, children] = match self.size {
      Size::Small => [r.between(1, 48), r.between(0, 120)],
      Size::Medium => [r.between(64, 700), r.between(100, 2500)],
      Size::Large => [r.between(2000, 4096), r.between(4000, 16384)],
    };
    if self.size == Size::Large && r.once_in(2) { [4096, 16384] } else { [nodes as u32, children as u32] }
  }

  fn op(&mut self) -> Op<Arg> {
    // Most calls go to one store, so that it fills.
    let store = if self.random.once_in(3) { self.random.below(STORES) } else { 0 };
    Op { store, call: self.call() }
  }

  /// Behind a kind, sometimes: the same kind over other types, and the two unified.
  fn twin(&mut self, op: &Op<Arg>) -> Vec<Op<Arg>> {
    let Call::New(kind) = &op.call else { return Vec::new() };
    if !self.random.once_in(4) {
      return Vec::new();
    }
    let kids = self.args(kind.kids.len());
    let inv = self.random.once_in(4);
    let calls = [Call::New(Kind { kids, ..kind.clone() }), Call::Unify(Arg::Last(0, inv), Arg::Last(1, false))];
    calls.into_iter().map(|call| Op { store: op.store, call }).collect()
  }

  fn arg(&mut self) -> Arg {
    let r = &mut *self.random;
    let inv = r.once_in(3);
    if r.once_in(400) {
      let far = r.pick(&[0, 1, 60_000]);
      return Arg::Past(far, inv);
    }
    if r.once_in(2) { Arg::Last(r.below(6) as u32, inv) } else { Arg::First(r.number(), inv) }
  }

  fn args(&mut self, n: usize) -> Vec<Arg> {
    (0..n).map(|_| self.arg()).collect()
  }

  /// A number of children: few, sometimes more, seldom at the limit.
  fn width(&mut self) -> usize {
    match self.random.below(300) {
      0 => 255,
      1 => 256,
      2..12 => self.random.between(5, 40),
      _ => self.random.below(4),
    }
  }

  fn some_args(&mut self) -> Vec<Arg> {
    let n = self.width();
    self.args(n)
  }

  fn span(&mut self) -> u32 {
    if self.random.once_in(10) { u32::MAX } else { self.random.below(1000) as u32 }
  }

  /// A record of one of these sorts, if there is one; seldom any number.
  fn record(&mut self, sorts: &[Sort]) -> Option<u32> {
    let r = &mut *self.random;
    if r.once_in(80) {
      let any = [0, 1, self.world.sorts.len() as u32, r.number(), u32::MAX];
      return Some(r.pick(&any));
    }
    let fit: Vec<u32> =
      (0..self.world.sorts.len() as u32).filter(|&i| sorts.contains(&self.world.sorts[i as usize])).collect();
    (!fit.is_empty()).then(|| r.pick(&fit))
  }

  fn name(&mut self) -> usize {
    let good = self.world.pool.iter().filter(|pooled| pooled.ok).count();
    if self.random.once_in(150) { self.random.below(self.world.pool.len()) } else { self.random.below(good) }
  }

  /// Names for an object, ascending, and their types.
  fn fields(&mut self) -> Vec<(usize, Arg)> {
    let all = self.world.ascending(self.random);
    let chance = self.random.between(2, 12);
    let mut names: Vec<usize> = all.into_iter().filter(|_| self.random.once_in(chance)).collect();
    if names.len() > 1 && self.random.once_in(60) {
      let i = self.random.below(names.len() - 1);
      if self.random.once_in(2) { names.swap(i, i + 1) } else { names[i] = names[i + 1] }
    }
    if !names.is_empty() && self.random.once_in(100) {
      let i = self.random.below(names.len());
      names[i] = self.name();
    }
    names.into_iter().map(|name| (name, self.arg())).collect()
  }

  fn any_number(&mut self) -> u32 {
    let any = self.random.number();
    if self.random.once_in(8) { any } else { self.random.below(4) as u32 }
  }

  fn kind(&mut self) -> Kind<Arg> {
    let code = self.random.below(15) as u32;
    let mut kind = Kind { code, number: 0, flex: 0, names: Vec::new(), kids: Vec::new() };
    let sorts: &[Sort] = match code {
      3 => &[Sort::Opaque],
      4 => &[Sort::Struct],
      5 => &[Sort::Enum],
      6 => &[Sort::Union],
      7 => &[Sort::ConcreteFn, Sort::TraitFn],
      11 => &[Sort::Const],
      _ => &[],
    };
    if !sorts.is_empty() {
      match self.record(sorts) {
        Some(number) => kind.number = number,
        None => {
          kind.code = 1;
          kind.kids = self.some_args();
          return kind;
        }
      }
    }
    match code {
      0 => {
        kind.number = self.any_number();
        kind.names = vec![Some(self.name())];
      }
      2 => {
        let fields = self.fields();
        kind.names = fields.iter().map(|(name, _)| Some(*name)).collect();
        kind.kids = fields.into_iter().map(|(_, t)| t).collect();
      }
      1 | 3..=6 => kind.kids = self.some_args(),
      8 => {
        kind.number = self.any_number();
        kind.flex = self.random.below(4) as u32;
        let n = self.width();
        kind.names = (0..n).map(|_| if self.random.once_in(3) { None } else { Some(self.name()) }).collect();
        kind.kids = self.args(n + 1);
      }
      9 => kind.kids = self.args(1),
      10 => kind.names = vec![Some(self.name())],
      11 => kind.kids = self.args(2),
      _ => {}
    }
    kind
  }

  fn impl_type(&mut self) -> Impl<Arg> {
    match self.record(&[Sort::Trait]) {
      Some(number) if !self.random.once_in(8) => {
        let kids = if self.random.once_in(2) { self.args(3) } else { self.some_args() };
        Impl::Trait(number, kids)
      }
      _ => Impl::Error,
    }
  }

  fn makes(&mut self) -> Call<Arg> {
    match self.random.below(40) {
      0 => Call::Error,
      1 => Call::Nil,
      2..4 => match self.record(&[Sort::Struct]) {
        Some(number) => Call::NewStruct(number, self.some_args()),
        None => Call::Nil,
      },
      4..6 => match self.record(&[Sort::Union]) {
        Some(number) => Call::NewUnion(number, self.some_args()),
        None => Call::Error,
      },
      6 => {
        let many = if self.size == Size::Large { 60 } else { 3 };
        let n =
          if self.random.once_in(40) { self.random.pick(&[4096, 4097, usize::MAX]) } else { self.random.below(many) };
        Call::NewVars(self.span(), n)
      }
      7..20 => Call::NewVar(self.span()),
      _ => Call::New(self.kind()),
    }
  }

  fn unifies(&mut self) -> Call<Arg> {
    let inv = self.random.once_in(2);
    match self.random.below(16) {
      0 | 1 => {
        let n = self.width();
        let m = if self.random.once_in(6) { self.width() } else { n };
        Call::UnifyTypes(self.args(n), self.args(m), inv)
      }
      2 | 3 => {
        let a = self.fields();
        let mut b = self.fields();
        if self.random.once_in(2) {
          b = a.iter().map(|(name, _)| (*name, self.arg())).collect();
        }
        Call::UnifyObjects(a, b, inv)
      }
      4 => Call::UnifyImplType(self.impl_type(), self.impl_type()),
      5 => {
        let n = self.width();
        let m = if self.random.once_in(6) { self.width() } else { n };
        Call::UnifyFnSig(self.args(n), self.arg(), self.args(m), self.arg())
      }
      _ => Call::Unify(self.arg(), self.arg()),
    }
  }

  fn asks(&mut self) -> Call<Arg> {
    let t = self.arg();
    match self.random.below(14) {
      0 => Call::Find(t),
      1 => Call::FindMut(t),
      2 => Call::SelfInverse(t, self.random.once_in(2)),
      3 => Call::IsNil(t),
      4 => Call::GetMod(t),
      5 => Call::ApproxEq(self.impl_type(), self.impl_type()),
      6 => {
        let n = self.random.below(4);
        let marks = self.random.list(n, |r| r.below(50) as u32);
        Call::FindRelated(t, marks, if self.random.once_in(20) { 1 } else { 0 })
      }
      7..10 => Call::Show(t),
      10 => Call::ShowImplType(self.impl_type()),
      _ => Call::GetKind(t),
    }
  }

  fn transfers(&mut self) -> Call<Arg> {
    // A large store isn't lost to an export.
    let other = if self.size == Size::Large { self.random.between(1, STORES - 1) } else { self.random.below(STORES) };
    let n = match self.random.below(120) {
      0 => 255,
      1 => 256,
      _ => self.random.below(4),
    };
    let types = self.args(n);
    if self.random.once_in(3) {
      let mut room = self.room();
      if self.random.once_in(30) {
        room[self.random.below(2)] = self.random.pick(&[4097, 16385, u32::MAX]);
      }
      return Call::Export(other, types, room);
    }
    let params = self.random.once_in(2).then(|| {
      let n = match self.random.below(100) {
        0 => 255,
        1 => 256,
        _ => self.random.below(6),
      };
      self.args(n)
    });
    Call::Import(other, types, params)
  }

  /// One of ten names: short ones, two of the longest length, some that begin alike. Seldom one of a wrong length.
  fn state(&mut self) -> Vec<u8> {
    if self.random.once_in(40) {
      return vec![7; self.random.pick(&[0, 256, 300])];
    }
    match self.random.below(10) {
      0 => vec![7; 255],
      1 => [vec![7; 254], vec![8]].concat(),
      2 => vec![7; 254],
      i => b"aaaabcde"[..i - 2].iter().rev().copied().collect(),
    }
  }

  fn names(&mut self) -> Call<Arg> {
    let name = self.state();
    match self.random.below(10) {
      0..5 => Call::NameState(name),
      5..9 => Call::ReturnTo(name),
      _ => Call::DropName(name),
    }
  }

  fn call(&mut self) -> Call<Arg> {
    if self.random.once_in(self.naming) {
      return self.names();
    }
    match self.random.below(1000) {
      0..440 => self.makes(),
      440..700 => self.unifies(),
      700..930 => self.asks(),
      930..975 => self.transfers(),
      975..985 => Call::ForceKind(self.arg()),
      985..987 => Call::FinishInference,
      987..991 => {
        let n = self.random.below(60);
        Call::FinishInferenceWhere(self.random.list(n, |r| r.pick(&[0, 0, 1, 255])))
      }
      991..993 if self.size == Size::Small => Call::Reset,
      993..997 => {
        let mut room = self.room();
        if self.random.once_in(10) {
          room = self.random.pick(&[[4097, 4], [4, 16385], [4096, 16384]]);
        }
        Call::SetRoom(room)
      }
      _ => Call::Adopt,
    }
  }
}
