//! Vine's side: its own `types.rs`.

use std::{
  collections::{BTreeMap, HashSet},
  mem::take,
};

use crate::{
  answer::{Answer, Node, Seen, Whole},
  call::{Call, Impl, Kind, Name, Op, Ty},
  structures::{
    ast::{Flex, Ident, Span},
    diag::{Diag, Diags, ErrorGuaranteed},
    signatures::FnSig,
    tir::ClosureId,
    types::{ImplType, Inverted, Type, TypeCtx, TypeIdx, TypeKind, TypeTransfer, Types, UnifyResult, view},
  },
  world::{Id, World},
};

#[derive(Default)]
pub struct Store {
  pub types: Types,
  pub diags: Diags,
  /// States by their names: clones, put back by cloning. The Rust has nothing for it.
  pub held: BTreeMap<Vec<u8>, Types>,
}

pub struct Vine<'w> {
  pub world: &'w World,
  pub stores: Vec<Store>,
}

pub fn ty(t: Ty) -> Type {
  view::make(t.node as usize, t.inv)
}

pub fn seen(t: Type) -> Ty {
  Ty { node: view::node(t) as u32, inv: view::inv(t) }
}

fn tys(ts: &[Ty]) -> Vec<Type> {
  ts.iter().map(|&t| ty(t)).collect()
}

fn listed(types: &[Type]) -> Answer {
  Answer::Types(types.iter().copied().map(seen).collect())
}

fn unified(result: UnifyResult) -> Answer {
  Answer::Unify(match result {
    UnifyResult::Success => 0,
    UnifyResult::Failure => 1,
    UnifyResult::Indeterminate(_) => 2,
  })
}

const ERR: ErrorGuaranteed = ErrorGuaranteed::new_unchecked();

impl Vine<'_> {
  /// A call that isn't to be refused.
  pub fn run(&mut self, Op { store, call }: &Op<Ty>) -> Answer {
    let world = self.world;
    let at = *store;
    match call {
      Call::Import(from, ts, params) => {
        let params = params.as_deref().map(tys);
        let types = if *from == at { self.stores[at].types.clone() } else { take(&mut self.stores[*from].types) };
        let source = TypeCtx { types, inner: tys(ts) };
        let made = self.stores[at].types.import(&source, params.as_deref());
        if *from != at {
          self.stores[*from].types = source.types;
        }
        return listed(&made);
      }
      Call::Export(to, ts, _) => {
        let ts = tys(ts);
        let made = self.stores[at].types.export(|t: &mut TypeTransfer<'_>| t.transfer(&ts));
        self.stores[*to] = Store { types: made.types, ..Store::default() };
        return listed(&made.inner);
      }
      _ => {}
    }
    let Store { types, diags, held } = &mut self.stores[at];
    match call {
      Call::New(kind) => Answer::Type(seen(types.new(type_kind(world, kind)))),
      Call::NewVar(span) => Answer::Type(seen(types.new_var(Span(*span)))),
      Call::NewVars(span, n) => listed(&types.new_vars(Span(*span), *n)),
      Call::NewStruct(n, ts) => {
        let Id::Struct(id) = world.ids[*n as usize] else { unreachable!() };
        Answer::Type(seen(types.new_struct(&world.vine, id, tys(ts))))
      }
      Call::NewUnion(n, ts) => {
        let Id::Union(id) = world.ids[*n as usize] else { unreachable!() };
        Answer::Type(seen(types.new_union(&world.vine, id, tys(ts))))
      }
      Call::Error => Answer::Type(seen(types.error(ERR))),
      Call::Nil => Answer::Type(seen(types.nil())),
      Call::Unify(a, b) => unified(types.unify(ty(*a), ty(*b))),
      Call::UnifyTypes(a, b, inv) => unified(types.unify_types(&tys(a), &tys(b), Inverted(*inv))),
      Call::UnifyObjects(a, b, inv) => {
        unified(types.unify_objects(&object(world, a), &object(world, b), Inverted(*inv)))
      }
      Call::UnifyImplType(a, b) => unified(types.unify_impl_type(&impl_type(world, a), &impl_type(world, b))),
      Call::UnifyFnSig(a, r, b, q) => unified(types.unify_fn_sig(&fn_sig(a, *r), &fn_sig(b, *q))),
      Call::ForceKind(t) => {
        let before = diags.errors.len();
        let (inv, kind) = types.force_kind(diags, ty(*t));
        let (inv, kind) = (inv.0, seen_kind(world, kind));
        let report = diags.errors.get(before).map(|Diag::CannotInfer { span }| span.0);
        Answer::Forced { inv, kind, report }
      }
      Call::FinishInference => {
        types.finish_inference();
        Answer::Done
      }
      Call::FinishInferenceWhere(bytes) => {
        types.finish_inference_where(|node| bytes.get(node.0).is_some_and(|&byte| byte != 0));
        Answer::Done
      }
      Call::Reset => {
        types.reset();
        held.clear();
        Answer::Done
      }
      Call::Find(t) => Answer::Type(seen(view::find(types, ty(*t)))),
      Call::FindMut(t) => Answer::Type(seen(view::find_mut(types, ty(*t)))),
      Call::GetKind(t) => Answer::Kind(types.kind(ty(*t)).map(|(inv, kind)| (inv.0, seen_kind(world, kind)))),
      Call::SelfInverse(t, param) => Answer::Bool(types._self_inverse(ty(*t), *param)),
      Call::IsNil(t) => Answer::Bool(types.is_nil(ty(*t))),
      Call::GetMod(t) => Answer::Mod(match types.get_mod(&world.vine, ty(*t)) {
        Ok(def) => def.map(|def| Ok(def.0 as u32)),
        Err(_) => Some(Err(())),
      }),
      Call::ApproxEq(a, b) => Answer::Bool(impl_type(world, a).approx_eq(&impl_type(world, b))),
      Call::FindRelated(t, marks, _) => {
        let nodes = view::nodes(types).count() as u32;
        let inside = marks.iter().filter(|&&node| node < nodes);
        let mut set: HashSet<TypeIdx> = inside.map(|&node| TypeIdx(node as usize)).collect();
        types.find_related(ty(*t), &mut set);
        let mut nodes: Vec<u32> = set.into_iter().map(|node| node.0 as u32).collect();
        nodes.sort();
        Answer::Nodes(nodes)
      }
      Call::Show(t) => Answer::Text(types.show(&world.vine, ty(*t)).into_bytes()),
      Call::ShowImplType(a) => Answer::Text(types.show_impl_type(&world.vine, &impl_type(world, a)).into_bytes()),
      // The Rust has no room and no words: nothing happens, but that words go without names.
      Call::SetRoom(_) => Answer::Done,
      Call::Adopt => {
        held.clear();
        Answer::Done
      }
      Call::NameState(name) => {
        held.insert(name.clone(), types.clone());
        Answer::Done
      }
      Call::ReturnTo(name) => {
        *types = held[name].clone();
        Answer::Done
      }
      Call::DropName(name) => {
        held.remove(name);
        Answer::Done
      }
      Call::Import(..) | Call::Export(..) => unreachable!(),
    }
  }

  pub fn nodes(&self, at: usize) -> u32 {
    view::count(&self.stores[at].types) as u32
  }

  pub fn whole(&self, at: usize) -> Whole {
    let Store { types, diags, .. } = &self.stores[at];
    let (error, nil) = view::remembered(types);
    let nodes = view::nodes(types).map(|node| match node {
      view::Seen::Child(parent) => Node::Child(seen(parent)),
      view::Seen::Unknown(size, span) => Node::Unknown { span: span.0, size: size as u32 },
      view::Seen::Failed(size) => Node::Failed { size: size as u32 },
      view::Seen::Known(size, inv, kind) => {
        Node::Known { inv: inv.0, kind: seen_kind(self.world, kind), size: size as u32 }
      }
    });
    Whole { nodes: nodes.collect(), error: error.map(seen), nil: nil.map(seen), reports: diags.errors.len() as u64 }
  }
}

fn ident(world: &World, name: Name) -> Ident {
  Ident(world.pool[name].text.clone())
}

fn object(world: &World, fields: &[(Name, Ty)]) -> BTreeMap<Ident, Type> {
  fields.iter().map(|&(name, t)| (ident(world, name), ty(t))).collect()
}

fn fn_sig(params: &[Ty], ret: Ty) -> FnSig {
  FnSig { names: vec![None; params.len()], param_tys: tys(params), ret_ty: ty(ret) }
}

fn impl_type(world: &World, a: &Impl<Ty>) -> ImplType {
  match a {
    Impl::Trait(n, ts) => {
      let Id::Trait(id) = world.ids[*n as usize] else { unreachable!() };
      ImplType::Trait(id, tys(ts))
    }
    Impl::Error => ImplType::Error(ERR),
  }
}

fn type_kind(world: &World, k: &Kind<Ty>) -> TypeKind {
  let kids = tys(&k.kids);
  let own = || ident(world, k.names[0].unwrap());
  let id = || world.ids[k.number as usize];
  match k.code {
    0 => TypeKind::Param(k.number as usize, own()),
    1 => TypeKind::Tuple(kids),
    2 => TypeKind::Object(k.names.iter().map(|name| ident(world, name.unwrap())).zip(kids).collect()),
    8 => {
      let names = k.names.iter().map(|name| name.map(|name| ident(world, name))).collect();
      let mut param_tys = kids;
      let ret_ty = param_tys.pop().unwrap();
      let flex = [Flex::None, Flex::Fork, Flex::Drop, Flex::Full][k.flex as usize];
      TypeKind::Closure(ClosureId(k.number as usize), flex, FnSig { names, param_tys, ret_ty })
    }
    9 => TypeKind::Ref(kids[0]),
    10 => TypeKind::Key(own()),
    12 => TypeKind::Never,
    13 => TypeKind::Default,
    14 => TypeKind::Error(ERR),
    _ => match id() {
      Id::Opaque(id) => TypeKind::Opaque(id, kids),
      Id::Struct(id) => TypeKind::Struct(id, world.vine.structs[id].self_dual, kids),
      Id::Enum(id) => TypeKind::Enum(id, kids),
      Id::Union(id) => TypeKind::Union(id, world.vine.unions[id].self_dual, kids),
      Id::Fn(id) => TypeKind::Fn(id),
      Id::Const(id) => TypeKind::IfConst(id, kids[0], kids[1]),
      Id::Trait(_) => unreachable!(),
    },
  }
}

pub fn seen_kind(world: &World, kind: &TypeKind) -> Seen {
  let bytes = |name: &Ident| Some(name.0.clone().into_bytes());
  let of = |code, number, kids: &[Type]| Seen {
    code,
    number,
    dual: false,
    flex: 0,
    names: Vec::new(),
    kids: kids.iter().copied().map(seen).collect(),
  };
  match kind {
    TypeKind::Param(n, name) => Seen { names: vec![bytes(name)], ..of(0, *n as u32, &[]) },
    TypeKind::Tuple(kids) => of(1, 0, kids),
    TypeKind::Object(fields) => {
      let kids: Vec<Type> = fields.values().copied().collect();
      Seen { names: fields.keys().map(bytes).collect(), ..of(2, 0, &kids) }
    }
    TypeKind::Opaque(id, kids) => of(3, world.place(Id::Opaque(*id)), kids),
    TypeKind::Struct(id, dual, kids) => Seen { dual: *dual, ..of(4, world.place(Id::Struct(*id)), kids) },
    TypeKind::Enum(id, kids) => of(5, world.place(Id::Enum(*id)), kids),
    TypeKind::Union(id, dual, kids) => Seen { dual: *dual, ..of(6, world.place(Id::Union(*id)), kids) },
    TypeKind::Fn(id) => of(7, world.place(Id::Fn(*id)), &[]),
    TypeKind::Closure(id, flex, sig) => {
      let kids: Vec<Type> = sig.param_tys.iter().copied().chain([sig.ret_ty]).collect();
      let names = sig.names.iter().map(|name| name.as_ref().and_then(bytes)).collect();
      Seen { flex: *flex as u32, names, ..of(8, id.0 as u32, &kids) }
    }
    TypeKind::Ref(kid) => of(9, 0, &[*kid]),
    TypeKind::Key(name) => Seen { names: vec![bytes(name)], ..of(10, 0, &[]) },
    TypeKind::IfConst(id, then, else_) => of(11, world.place(Id::Const(*id)), &[*then, *else_]),
    TypeKind::Never => of(12, 0, &[]),
    TypeKind::Default => of(13, 0, &[]),
    TypeKind::Error(_) => of(14, 0, &[]),
  }
}
