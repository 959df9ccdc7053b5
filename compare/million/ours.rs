//! The crate's side.

use std::collections::HashSet;

use faroalder::{
  ClosureId, ConcreteConstId, EnumId, Flex, FnId, FnSig, Forced, ImplType, Inverted, Kind, Mod, Node, OpaqueTypeId,
  Refusal, Span, StructId, TraitId, Type, TypeCtx, TypeIdx, TypeKind, Types, UnifyResult, UnionId,
};

use crate::{
  answer::{self as ans, Answer, Seen, Whole},
  call::{self, Call, Impl, Name, Op, Ty},
  world::World,
};

pub struct Ours<'w> {
  pub world: &'w World,
  pub stores: Vec<Types>,
}

fn ty(t: Ty) -> Type {
  Type::new(Inverted(t.inv), TypeIdx::new(t.node as u16))
}

pub fn seen(t: Type) -> Ty {
  Ty { node: t.idx().get() as u32, inv: t.inv().0 }
}

fn tys(ts: &[Ty]) -> Vec<Type> {
  ts.iter().map(|&t| ty(t)).collect()
}

fn unified(result: Result<UnifyResult, Refusal>) -> Result<Answer, Refusal> {
  Ok(Answer::Unify(match result? {
    UnifyResult::Success => 0,
    UnifyResult::Failure => 1,
    UnifyResult::Indeterminate => 2,
  }))
}

fn typed(result: Result<Type, Refusal>) -> Result<Answer, Refusal> {
  result.map(|t| Answer::Type(seen(t)))
}

fn listed(types: &[Type]) -> Answer {
  Answer::Types(types.iter().copied().map(seen).collect())
}

impl Ours<'_> {
  pub fn run(&mut self, op: &Op<Ty>) -> Answer {
    self.answer(op).unwrap_or_else(|refusal| Answer::Refused(refusal.number()))
  }

  fn answer(&mut self, Op { store, call }: &Op<Ty>) -> Result<Answer, Refusal> {
    let world = self.world;
    let at = *store;
    match call {
      Call::Import(from, ts, params) => {
        let params = params.as_deref().map(tys);
        let (from, ts) = (*from, tys(ts));
        if from == at {
          let source = self.stores[at].clone();
          let made = self.stores[at].import(&TypeCtx { types: source, inner: ts }, params.as_deref())?;
          return Ok(listed(&made));
        }
        let [into, source] = self.stores.get_disjoint_mut([at, from]).unwrap();
        return into.import_types(source, &ts, params.as_deref()).map(|made| listed(&made));
      }
      Call::Export(to, ts, room) => {
        let made = self.stores[at].export_with_room(&tys(ts), room[0], room[1])?;
        self.stores[*to] = made.types;
        return Ok(listed(&made.inner));
      }
      Call::Adopt => {
        let words = self.stores[at].clone().into_words();
        self.stores[at] = Types::adopt(&world.ours, words)?;
        return Ok(Answer::Done);
      }
      _ => {}
    }
    let types = &mut self.stores[at];
    match call {
      Call::New(kind) => typed(made(world, types, kind)),
      Call::NewVar(span) => typed(types.new_var(Span(*span))),
      Call::NewVars(span, n) => types.new_vars(Span(*span), *n).map(|made| listed(&made)),
      Call::NewStruct(n, ts) => typed(types.new_struct(StructId::at(*n), &tys(ts))),
      Call::NewUnion(n, ts) => typed(types.new_union(UnionId::at(*n), &tys(ts))),
      Call::Error => typed(types.error()),
      Call::Nil => typed(types.nil()),
      Call::Unify(a, b) => unified(types.unify(ty(*a), ty(*b))),
      Call::UnifyTypes(a, b, inv) => unified(types.unify_types(&tys(a), &tys(b), Inverted(*inv))),
      Call::UnifyObjects(a, b, inv) => {
        unified(types.unify_objects(&fields(world, a), &fields(world, b), Inverted(*inv)))
      }
      Call::UnifyImplType(a, b) => unified(types.unify_impl_type(&impl_type(a), &impl_type(b))),
      Call::UnifyFnSig(a, r, b, q) => unified(types.unify_fn_sig((&tys(a), ty(*r)), (&tys(b), ty(*q)))),
      Call::ForceKind(t) => {
        let forced = types.force_kind(ty(*t))?;
        let report = if let Forced::Reported(span) = forced { Some(span.0) } else { None };
        let (inv, kind) = forced.kind();
        Ok(Answer::Forced { inv: inv.0, kind: seen_kind(world, kind), report })
      }
      Call::FinishInference => {
        types.finish_inference();
        Ok(Answer::Done)
      }
      Call::FinishInferenceWhere(bytes) => {
        types.finish_inference_where(|node| bytes.get(node.get()).is_some_and(|&byte| byte != 0));
        Ok(Answer::Done)
      }
      Call::Reset => {
        types.reset();
        Ok(Answer::Done)
      }
      Call::Find(t) => typed(types.find(ty(*t))),
      Call::FindMut(t) => typed(types.find_mut(ty(*t))),
      Call::GetKind(t) => {
        let kind = types.kind(ty(*t))?.map(|(inv, kind)| (inv.0, seen_kind(world, kind)));
        let kids: Vec<Ty> = types.children(ty(*t))?.map(seen).collect();
        assert_eq!(kids, kind.as_ref().map_or(Vec::new(), |(_, kind)| kind.kids.clone()));
        Ok(Answer::Kind(kind))
      }
      Call::SelfInverse(t, false) => types.self_inverse(ty(*t)).map(Answer::Bool),
      Call::SelfInverse(t, true) => types.self_inverse_param(ty(*t), true).map(Answer::Bool),
      Call::IsNil(t) => types.is_nil(ty(*t)).map(Answer::Bool),
      Call::GetMod(t) => Ok(Answer::Mod(match types.get_mod(ty(*t))? {
        Mod::None => None,
        Mod::Def(def) => Some(Ok(def.0)),
        Mod::Error => Some(Err(())),
      })),
      Call::ApproxEq(a, b) => types.approx_eq(&impl_type(a), &impl_type(b)).map(Answer::Bool),
      Call::FindRelated(t, marks, 0) => {
        let nodes = types.len() as u32;
        let mut set: HashSet<TypeIdx> =
          marks.iter().filter(|&&node| node < nodes).map(|&node| TypeIdx::new(node as u16)).collect();
        types.find_related(ty(*t), &mut set)?;
        let mut nodes: Vec<u32> = set.into_iter().map(|node| node.get() as u32).collect();
        nodes.sort();
        Ok(Answer::Nodes(nodes))
      }
      Call::FindRelated(t, _, less) => {
        let mut marks = vec![7; types.len().saturating_sub(*less)];
        let answer = types.mark_related(ty(*t), &mut marks).map(|()| Answer::Done);
        assert!(marks.iter().all(|&mark| mark == 7), "marks changed");
        answer
      }
      Call::Show(t) => {
        let text = types.show(ty(*t))?.into_bytes();
        both_forms(&text, |buf| types.show_into(ty(*t), buf).map(|part| part.len()));
        Ok(Answer::Text(text))
      }
      Call::ShowImplType(a) => {
        let a = impl_type(a);
        let text = types.show_impl_type(&a)?.into_bytes();
        both_forms(&text, |buf| types.show_impl_type_into(&a, buf).map(|part| part.len()));
        Ok(Answer::Text(text))
      }
      Call::NameState(name) => types.name(name).map(|()| Answer::Done),
      Call::ReturnTo(name) => types.return_to(name).map(|()| Answer::Done),
      Call::DropName(name) => types.drop_name(name).map(|()| Answer::Done),
      Call::SetRoom([nodes, children]) => types.set_room(*nodes, *children).map(|()| Answer::Done),
      Call::Import(..) | Call::Export(..) | Call::Adopt => unreachable!(),
    }
  }

  /// Everything of a store.
  pub fn whole(&self, at: usize) -> Whole {
    let types = &self.stores[at];
    let figures = types.figures();
    let nodes = types.nodes().map(|node| match node {
      Node::Child(parent) => ans::Node::Child(seen(parent)),
      Node::Unknown { span, size } => ans::Node::Unknown { span: span.0, size },
      Node::InferenceFailed { size } => ans::Node::Failed { size },
      Node::Known { inverted, kind, size } => {
        ans::Node::Known { inv: inverted.0, kind: seen_kind(self.world, kind), size }
      }
    });
    Whole {
      nodes: nodes.collect(),
      error: figures.error.map(seen),
      nil: figures.nil.map(seen),
      reports: figures.reports,
    }
  }
}

/// A text in a buffer that is longer, and in one that is a byte too short.
fn both_forms(text: &[u8], show: impl Fn(&mut [u8]) -> Result<usize, Refusal>) {
  let mut buf = vec![b'.'; text.len() + 3];
  assert_eq!(show(&mut buf), Ok(text.len()));
  assert!(&buf[..text.len()] == text && &buf[text.len()..] == b"...", "a longer buffer: {buf:?}");
  let mut buf = vec![b'.'; text.len() - 1];
  assert_eq!(show(&mut buf), Err(Refusal::Short));
  assert!(buf == text[..text.len() - 1], "a shorter buffer: {buf:?}");
}

fn fields(world: &World, fields: &[(Name, Ty)]) -> Vec<(faroalder::Name, Type)> {
  fields.iter().map(|&(name, t)| (world.pool[name].name, ty(t))).collect()
}

fn impl_type(a: &Impl<Ty>) -> ImplType {
  match a {
    Impl::Trait(n, ts) => ImplType::Trait(TraitId::at(*n), tys(ts)),
    Impl::Error => ImplType::Error,
  }
}

/// `new` of a kind; one whose number of children its shape can't have isn't said in the crate's terms.
fn made(world: &World, types: &mut Types, k: &call::Kind<Ty>) -> Result<Type, Refusal> {
  let names: Vec<Option<faroalder::Name>> = k.names.iter().map(|name| name.map(|name| world.pool[name].name)).collect();
  let kids = tys(&k.kids);
  let own = || names[0].unwrap();
  let entries: Vec<(faroalder::Name, Type)>;
  let kind = match k.code {
    0 => TypeKind::Param(k.number, own()),
    1 => TypeKind::Tuple(&kids),
    2 => {
      entries = names.iter().map(|name| name.unwrap()).zip(kids.iter().copied()).collect();
      TypeKind::Object(&entries)
    }
    3 => TypeKind::Opaque(OpaqueTypeId::at(k.number), &kids),
    4 => TypeKind::Struct(StructId::at(k.number), &kids),
    5 => TypeKind::Enum(EnumId::at(k.number), &kids),
    6 => TypeKind::Union(UnionId::at(k.number), &kids),
    7 => TypeKind::Fn(FnId::at(k.number)),
    8 => {
      let (ret_ty, param_tys) = kids.split_last().unwrap();
      let sig = FnSig { names: &names, param_tys, ret_ty: *ret_ty };
      TypeKind::Closure(ClosureId(k.number), Flex::ALL[k.flex as usize], sig)
    }
    9 => TypeKind::Ref(kids[0]),
    10 => TypeKind::Key(own()),
    11 => TypeKind::IfConst(ConcreteConstId::at(k.number), kids[0], kids[1]),
    12 => TypeKind::Never,
    13 => TypeKind::Default,
    _ => TypeKind::Error,
  };
  types.new(kind)
}

fn seen_kind(world: &World, kind: Kind<'_>) -> Seen {
  let bytes = |name| world.ours.bytes(name).to_vec();
  let kids: Vec<Ty> = kind.children().map(seen).collect();
  let mut seen = Seen { code: 0, number: 0, dual: false, flex: 0, names: Vec::new(), kids };
  let mut numbers = |code, number| (seen.code, seen.number) = (code, number);
  match kind {
    Kind::Param(n, name) => {
      numbers(0, n);
      seen.names = vec![Some(bytes(name))];
    }
    Kind::Tuple(_) => numbers(1, 0),
    Kind::Object(fields) => {
      numbers(2, 0);
      seen.names = fields.map(|(name, _)| Some(bytes(name))).collect();
    }
    Kind::Opaque(id, _) => numbers(3, id.place()),
    Kind::Struct(id, dual, _) => {
      numbers(4, id.place());
      seen.dual = dual;
    }
    Kind::Enum(id, _) => numbers(5, id.place()),
    Kind::Union(id, dual, _) => {
      numbers(6, id.place());
      seen.dual = dual;
    }
    Kind::Fn(id) => numbers(7, id.place()),
    Kind::Closure(id, flex, sig) => {
      numbers(8, id.0);
      seen.flex = flex as u32;
      seen.names = sig.names().map(|name| name.map(bytes)).collect();
    }
    Kind::Ref(_) => numbers(9, 0),
    Kind::Key(name) => {
      numbers(10, 0);
      seen.names = vec![Some(bytes(name))];
    }
    Kind::IfConst(id, ..) => numbers(11, id.place()),
    Kind::Never => numbers(12, 0),
    Kind::Default => numbers(13, 0),
    Kind::Error => numbers(14, 0),
  }
  seen
}
