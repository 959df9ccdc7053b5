//! The crate's calls, one after another: what document 01 says by example, and what the crate adds.

use std::collections::HashSet;

use faroalder::{
  Chart, ClosureId, DefId, Flex, FnSig, Forced, ImplType, Inverted, Kind, Mod, Node, Refusal, Sort,
  Span, TransferTypes, Type, TypeCtx, TypeIdx, TypeKind, Types,
  UnifyResult::{Failure, Indeterminate, Success},
  Words,
};

fn opened() -> Types {
  Types::open(&Chart::empty("a b ab").unwrap(), 64, 256).unwrap()
}

fn vars(types: &mut Types, n: usize) -> Vec<Type> {
  types.new_vars(Span(1), n).unwrap()
}

fn tuple(types: &mut Types, kids: &[Type]) -> Type {
  types.new(TypeKind::Tuple(kids)).unwrap()
}

/// A node as one line.
fn said(types: &Types, node: usize) -> String {
  match types.node(TypeIdx::new(node as u16)).unwrap() {
    Node::Child(parent) => format!("child of {parent:?}"),
    Node::Unknown { span, size } => format!("unknown at {} of {size}", span.0),
    Node::InferenceFailed { size } => format!("failed of {size}"),
    Node::Known { size, .. } => format!("known of {size}"),
  }
}

#[test]
fn a_variable_and_its_inverse() {
  let mut types = opened();
  let a = types.new_var(Span(1)).unwrap();
  assert_eq!(types.unify(a, !a), Ok(Failure));
  let mut types = opened();
  let nil = types.nil().unwrap();
  assert_eq!(types.unify(nil, !nil), Ok(Success));
  assert_eq!(types.nil(), Ok(nil));
  assert!(types.is_nil(nil).unwrap());
}

#[test]
fn defaults_and_errors() {
  let mut types = opened();
  let [a, b] = [(); 2].map(|()| types.new(TypeKind::Default).unwrap());
  assert_eq!(types.unify(a, !b), Ok(Failure));
  assert_eq!(types.unify(a, !a), Ok(Success));
  let mut types = opened();
  let error = types.error().unwrap();
  let never = types.new(TypeKind::Never).unwrap();
  let var = types.new_var(Span(1)).unwrap();
  assert_eq!(types.unify(error, never), Ok(Indeterminate));
  assert_eq!(said(&types, 1), "known of 1");
  assert_eq!(types.unify(var, error), Ok(Success));
}

#[test]
fn sizes_decide_who_stays() {
  let mut types = opened();
  let v = vars(&mut types, 3);
  assert_eq!(types.unify(v[0], v[1]), Ok(Success));
  assert_eq!(types.unify(v[1], v[2]), Ok(Success));
  assert_eq!(
    [0, 1, 2].map(|node| said(&types, node)),
    ["child of t1", "unknown at 1 of 3", "child of t1"]
  );
}

#[test]
fn failure_keeps_bindings() {
  let mut types = opened();
  let a = types.new_var(Span(1)).unwrap();
  let never = types.new(TypeKind::Never).unwrap();
  let nil = types.nil().unwrap();
  let (x, y) = (tuple(&mut types, &[never, a]), tuple(&mut types, &[nil, never]));
  assert_eq!(types.unify(x, y), Ok(Failure));
  assert_eq!(said(&types, 0), "child of t1");
}

#[test]
fn objects_unify_what_they_share() {
  let mut types = opened();
  let chart = types.chart();
  let (a, b) = (chart.name("a").unwrap(), chart.name("b").unwrap());
  let v = vars(&mut types, 2);
  assert_eq!(
    types.unify_objects(&[(a, v[0])], &[(a, v[1]), (b, v[1])], Inverted(false)),
    Ok(Failure)
  );
  assert_eq!(said(&types, 0), "child of t1");
  let one = types.new(TypeKind::Object(&[(a, v[0])])).unwrap();
  let Some((_, Kind::Object(fields))) = types.kind(one).unwrap() else { panic!() };
  assert_eq!(
    fields.map(|(name, t)| (chart.bytes(name), t)).collect::<Vec<_>>(),
    [(&b"a"[..], v[0])]
  );
}

#[test]
fn forced_then_unified() {
  let mut types = opened();
  let a = types.new_var(Span(5)).unwrap();
  let b = types.new_var(Span(6)).unwrap();
  assert!(matches!(types.force_kind(a), Ok(Forced::Reported(Span(5)))));
  assert_eq!(said(&types, 0), "failed of 1");
  assert_eq!(types.unify(a, b), Ok(Success));
  assert_eq!(said(&types, 1), "unknown at 6 of 2");
  assert_eq!(types.figures().reports, 1);
  types.reset();
  assert_eq!((types.figures().reports, types.len()), (1, 0));
}

#[test]
fn texts() {
  let mut types = opened();
  let a = types.new_var(Span(1)).unwrap();
  let one = tuple(&mut types, &[a]);
  assert_eq!(types.show(one).unwrap(), "(?0,)");
  assert_eq!(types.show(!one).unwrap(), "(~?0,)");
  // Longer than what is tried first.
  let wide = tuple(&mut types, &[one; 250]);
  let text = format!("({})", vec!["(?0,)"; 250].join(", "));
  assert_eq!(types.show(wide).unwrap(), text);
  let deep = tuple(&mut types, &[wide; 5]);
  assert_eq!(types.show(deep).unwrap(), format!("({})", [text.as_str(); 5].join(", ")));
  let mut buf = [0; 4];
  assert_eq!(types.show_into(wide, &mut buf), Err(Refusal::Short));
  assert_eq!(&buf, b"((?0");
}

#[test]
fn a_text_that_never_ends_is_refused() {
  let mut types = opened();
  let mut t = types.nil().unwrap();
  for _ in 0..60 {
    t = tuple(&mut types, &[t, t]);
  }
  assert_eq!(types.show(t), Err(Refusal::Short));
}

#[test]
fn every_kind_comes_back() {
  let mut builder = Chart::builder();
  let opaque = builder.opaque("O", "m::O", DefId(10));
  let structure = builder.structure("S", "m::S", DefId(11), true);
  let enumeration = builder.enumeration("E", "m::E", DefId(12));
  let union = builder.union("U", "m::U", DefId(13), false);
  let concrete = builder.concrete_fn("f", "m::f", DefId(14));
  let constant = builder.concrete_const("k", "m::k", DefId(15));
  let of = builder.trait_("Fn", "m::Fn", DefId(16));
  let abstract_ = builder.trait_fn(of, "g", "m::g", DefId(17));
  let chart = builder.fn_trait(of).rule("x y").build().unwrap();
  let (x, y) = (chart.name("x").unwrap(), chart.name("y").unwrap());
  let mut types = Types::open(&chart, 64, 64).unwrap();
  let a = types.new_var(Span(1)).unwrap();
  let nil = types.nil().unwrap();
  let sig = FnSig { names: &[Some(x), None], param_tys: &[a, !a], ret_ty: nil };
  let all = [
    (TypeKind::Param(7, x), "x", "~x"),
    (TypeKind::Tuple(&[a, !a]), "(?0, ~?0)", "(~?0, ?0)"),
    (TypeKind::Object(&[(x, a), (y, !a)]), "{ x: ?0, y: ~?0 }", "{ x: ~?0, y: ?0 }"),
    (TypeKind::Opaque(opaque, &[a]), "O[?0]", "~O[?0]"),
    (TypeKind::Struct(structure, &[a]), "S[?0]", "S[~?0]"),
    (TypeKind::Enum(enumeration, &[]), "E", "~E"),
    (TypeKind::Union(union, &[!a]), "U[~?0]", "~U[~?0]"),
    (TypeKind::Fn(concrete), "fn m::f", "~fn m::f"),
    (TypeKind::Fn(abstract_), "fn m::Fn::g", "~fn m::Fn::g"),
    (
      TypeKind::Closure(ClosureId(3), Flex::Drop, sig),
      "fn? <3>(x: ?0, ...: ~?0)",
      "~fn? <3>(x: ?0, ...: ~?0)",
    ),
    (TypeKind::Ref(!a), "&~?0", "~&~?0"),
    (TypeKind::Key(y), ".y", "~.y"),
    (TypeKind::IfConst(constant, a, nil), "if const m::k { ?0 }", "if const m::k { ~?0 }"),
    (TypeKind::Never, "!", "~!"),
    (TypeKind::Default, "_", "_"),
    (TypeKind::Error, "??", "??"),
  ];
  for (kind, text, inverse) in all {
    let t = types.new(kind).unwrap();
    assert_eq!(
      (types.show(t).unwrap().as_str(), types.show(!t).unwrap().as_str()),
      (text, inverse)
    );
    let (Inverted(inv), back) = types.kind(!t).unwrap().unwrap();
    assert!(inv);
    let children: Vec<Type> = back.children().collect();
    assert_eq!(children.len(), back.children().len());
    assert_eq!(types.children(t).unwrap().collect::<Vec<_>>(), children);
    let again = match (kind, back) {
      (TypeKind::Param(n, name), Kind::Param(m, other)) => n == m && name == other,
      (TypeKind::Tuple(kids), Kind::Tuple(_)) => kids == children,
      (TypeKind::Object(fields), Kind::Object(others)) => others.eq(fields.iter().copied()),
      (TypeKind::Opaque(id, kids), Kind::Opaque(other, _)) => id == other && kids == children,
      (TypeKind::Struct(id, kids), Kind::Struct(other, true, _)) => id == other && kids == children,
      (TypeKind::Enum(id, kids), Kind::Enum(other, _)) => id == other && kids == children,
      (TypeKind::Union(id, kids), Kind::Union(other, false, _)) => id == other && kids == children,
      (TypeKind::Fn(id), Kind::Fn(other)) => id == other,
      (TypeKind::Closure(id, flex, sig), Kind::Closure(other, flexed, seen)) => {
        id == other
          && flex == flexed
          && seen.names().eq(sig.names.iter().copied())
          && seen.param_tys().eq(sig.param_tys.iter().copied())
          && seen.ret_ty() == sig.ret_ty
      }
      (TypeKind::Ref(kid), Kind::Ref(other)) => kid == other,
      (TypeKind::Key(name), Kind::Key(other)) => name == other,
      (TypeKind::IfConst(id, t, e), Kind::IfConst(other, u, f)) => (id, t, e) == (other, u, f),
      (TypeKind::Never, Kind::Never)
      | (TypeKind::Default, Kind::Default)
      | (TypeKind::Error, Kind::Error) => true,
      _ => false,
    };
    assert!(again, "{kind:?} came back as {back:?}");
  }
  let refs = types.new(TypeKind::Struct(structure, &[])).unwrap();
  let refs = types.new(TypeKind::Ref(refs)).unwrap();
  assert_eq!(types.get_mod(refs), Ok(Mod::Def(DefId(11))));
  assert_eq!(types.get_mod(a), Ok(Mod::None));
  let error = types.error().unwrap();
  assert_eq!(types.get_mod(error), Ok(Mod::Error));
  let args = tuple(&mut types, &[a]);
  let is_fn = ImplType::Trait(of, vec![a, args, nil]);
  assert_eq!(types.show_impl_type(&is_fn).unwrap(), "fn ?0(?0)");
  assert_eq!(types.unify_impl_type(&is_fn, &ImplType::Error), Ok(Indeterminate));
  assert_eq!(types.approx_eq(&is_fn, &ImplType::Trait(of, vec![])), Ok(true));
  assert_eq!(types.approx_eq(&is_fn, &ImplType::Error), Ok(false));
  assert_eq!(types.unify_fn_sig((&[a], nil), (&[], nil)), Ok(Failure));
  assert_eq!(chart.record(structure.place()).unwrap().sort, Sort::Struct);
  assert_eq!(chart.record(abstract_.place()).unwrap().trait_, Some(of));
  assert_eq!(chart.record(8), None);
}

#[test]
fn bad_arguments_change_nothing() {
  let mut types = opened();
  let chart = types.chart();
  let (a, b) = (chart.name("a").unwrap(), chart.name("b").unwrap());
  let v = types.new_var(Span(1)).unwrap();
  let outside = Type::from(TypeIdx::new(1));
  let before = types.clone().into_words();
  let nothing = faroalder::Name::in_rule(0, 0);
  assert_eq!(types.unify(v, outside), Err(Refusal::Outside));
  assert_eq!(types.show(!outside), Err(Refusal::Outside));
  assert_eq!(types.new(TypeKind::Ref(outside)), Err(Refusal::Outside));
  assert_eq!(types.new(TypeKind::Object(&[(b, v), (a, v)])), Err(Refusal::Unmakeable));
  assert_eq!(types.new(TypeKind::Key(nothing)), Err(Refusal::Unmakeable));
  assert_eq!(types.new(TypeKind::Tuple(&[v; 256])), Err(Refusal::Unmakeable));
  assert_eq!(types.new_struct(faroalder::StructId::at(0), &[]), Err(Refusal::Undefined));
  for (names, params) in
    [(&[][..], &[v][..]), (&[None, None], &[v]), (&[Some(nothing)], &[v]), (&[None], &[])]
  {
    let sig = FnSig { names, param_tys: params, ret_ty: v };
    assert_eq!(
      types.new(TypeKind::Closure(ClosureId(0), Flex::None, sig)),
      Err(Refusal::Unmakeable)
    );
    let sig = FnSig { names, param_tys: params, ret_ty: outside };
    assert_eq!(types.new(TypeKind::Closure(ClosureId(0), Flex::None, sig)), Err(Refusal::Outside));
  }
  let no_trait = ImplType::Trait(faroalder::TraitId::at(u32::MAX), vec![]);
  assert_eq!(types.unify_impl_type(&no_trait, &ImplType::Error), Err(Refusal::Undefined));
  assert_eq!(types.unify_types(&[v; 256], &[], Inverted(false)), Err(Refusal::Unmakeable));
  assert_eq!(types.mark_related(v, &mut []), Err(Refusal::Short));
  assert_eq!(types.into_words(), before);
}

#[test]
fn related() {
  let mut types = opened();
  let v = vars(&mut types, 3);
  let pair = tuple(&mut types, &[v[0], v[1]]);
  let mut set = HashSet::from([v[0].idx()]);
  types.find_related(pair, &mut set).unwrap();
  assert_eq!(set, HashSet::from([v[0].idx(), v[1].idx(), pair.idx()]));
}

#[test]
fn finishing() {
  let mut types = opened();
  let v = vars(&mut types, 3);
  types.finish_inference_where(|node| node.get() == 1);
  assert_eq!([0, 1, 2].map(|i| types.show(v[i]).unwrap()), ["?0", "_", "?2"]);
  types.finish_inference();
  assert_eq!([0, 1, 2].map(|i| types.show(v[i]).unwrap()), ["_", "_", "_"]);
}

#[test]
fn the_last_node_and_the_next() {
  let mut types = Types::open_largest(&Chart::empty("").unwrap());
  assert_eq!(types.new_vars(Span(1), 4095).unwrap().len(), 4095);
  assert_eq!(types.new_var(Span(1)).unwrap().idx().get(), 4095);
  assert_eq!(types.new_var(Span(1)), Err(Refusal::NodesFull));
  assert_eq!(types.new_vars(Span(1), 0).unwrap(), []);
}

#[test]
fn params_on_import() {
  let chart = Chart::empty("T").unwrap();
  let mut source = Types::open(&chart, 8, 8).unwrap();
  let param = source.new(TypeKind::Param(2, chart.name("T").unwrap())).unwrap();
  let mut types = Types::open(&chart, 8, 8).unwrap();
  let v = vars(&mut types, 3);
  assert_eq!(types.import_types(&source, &[param], Some(&v[..2])), Err(Refusal::NoEntry));
  assert_eq!(types.import_types(&source, &[param, !param], Some(&v)), Ok(vec![v[2], !v[2]]));
  assert_eq!(types.len(), 3);
}

#[test]
fn export_and_import_values() {
  let chart = Chart::empty("").unwrap();
  let mut types = Types::open(&chart, 16, 16).unwrap();
  let (error, nil) = (types.error().unwrap(), types.nil().unwrap());
  let v = types.new_var(Span(9)).unwrap();
  let pair = tuple(&mut types, &[v, !v]);
  let value = (vec![pair, !v], Some(nil));
  let kept: TypeCtx<(Vec<Type>, Option<Type>)> = types.export(&value).unwrap();
  assert_eq!((kept.types.figures().error, kept.types.figures().nil), (Some(error), Some(nil)));
  assert_eq!(kept.types.len(), 4);
  assert_eq!(kept.types.show(kept.inner.0[0]).unwrap(), "(?3, ~?3)");
  let small = types.export_with_room(&pair, 4, 2).unwrap();
  assert_eq!(small.types.figures().node_room, 4);
  assert_eq!(types.export_with_room(&pair, 3, 2).unwrap_err(), Refusal::NodesFull);
  assert_eq!(types.export_with_room(&pair, 4, 1).unwrap_err(), Refusal::ChildrenFull);
  let mut other = Types::open(&chart, 16, 16).unwrap();
  let (list, one) = other.import(&kept, None).unwrap();
  assert_eq!((other.show(list[0]).unwrap().as_str(), one.is_some()), ("(?1, ~?1)", true));
  let mut count = Vec::new();
  (list, one).list(&mut count);
  assert_eq!(count.len(), 3);
}

#[test]
fn a_source_with_another_chart() {
  let mut builder = Chart::builder();
  let s = builder.structure("S", "S", DefId(0), true);
  let chart = builder.build().unwrap();
  // The same records once more, and a chart that lacks them.
  let same = builder.build().unwrap();
  let empty = Chart::empty("").unwrap();
  let mut source = Types::open(&chart, 4, 4).unwrap();
  let t = source.new_struct(s, &[]).unwrap();
  let mut one = Types::open(&same, 4, 4).unwrap();
  assert_eq!(one.import_types(&source, &[t], None).unwrap().len(), 1);
  let mut two = Types::open(&empty, 4, 4).unwrap();
  assert_eq!(two.import_types(&source, &[t], None), Err(Refusal::SourceUnsound));
  assert!(two.is_empty());
}

#[test]
fn words_go_out_and_come_back() {
  let mut types = opened();
  let v = vars(&mut types, 2);
  let pair = tuple(&mut types, &v);
  let text = types.show(pair).unwrap();
  let chart = types.chart();
  let words = types.into_words();
  let mut types = Types::adopt(&chart, words.clone()).unwrap();
  assert_eq!(types.show(pair).unwrap(), text);
  assert_eq!(types.unify(v[0], v[1]), Ok(Success));
  for i in 0..words.ws.len().min(36) {
    let mut words = words.clone();
    words.ws[i] ^= 1 << 30;
    let spans = [1, 13];
    assert_eq!(Types::adopt(&chart, words).is_ok(), spans.contains(&i), "word {i}");
  }
  assert_eq!(Types::adopt(&chart, Words::default()).unwrap_err(), Refusal::Unsound);
}

#[test]
fn room_is_chosen_anew() {
  let mut types = opened();
  let v = vars(&mut types, 4);
  let pair = tuple(&mut types, &v);
  let nil = types.nil().unwrap();
  assert_eq!(types.set_room(5, 4), Err(Refusal::NodesFull));
  assert_eq!(types.set_room(6, 3), Err(Refusal::ChildrenFull));
  assert_eq!(types.set_room(6, 16_385), Err(Refusal::Unopenable));
  types.set_room(6, 4).unwrap();
  assert_eq!(types.new_var(Span(1)), Err(Refusal::NodesFull));
  types.set_room(4096, 16_384).unwrap();
  assert_eq!(types.nil(), Ok(nil));
  assert_eq!(types.show(pair).unwrap(), "(?0, ?1, ?2, ?3)");
  types.new_var(Span(1)).unwrap();
}

/// Error and nil are made once, in each store, until it is reset.
#[test]
fn remembered_types_go_with_the_store() {
  let mut types = opened();
  let [nil, error] = [types.nil().unwrap(), types.error().unwrap()];
  let mut other = types.clone();
  types.reset();
  assert_eq!(types.len(), 0);
  assert_eq!([types.error(), types.nil()], [Ok(nil), Ok(error)]);
  assert_eq!((types.figures().error, types.figures().nil), (Some(nil), Some(error)));
  assert_eq!([other.nil(), other.error()], [Ok(nil), Ok(error)]);
  assert_eq!(other.len(), 2);
  let chart = types.chart();
  let mut adopted = Types::adopt(&chart, types.into_words()).unwrap();
  assert_eq!([adopted.error(), adopted.nil()], [Ok(nil), Ok(error)]);
}

#[test]
fn charts_are_tested() {
  assert_eq!(Chart::empty(vec![b' '; 65_536]).unwrap_err(), Refusal::BadChart);
  assert!(Chart::empty(vec![b' '; 65_535]).is_ok());
  let mut builder = Chart::builder();
  builder.opaque("", "p", DefId(0));
  assert_eq!(builder.build().unwrap_err(), Refusal::BadChart);
  let mut builder = Chart::builder();
  builder.trait_fn(faroalder::TraitId::at(0), "f", "f", DefId(0));
  assert_eq!(builder.build().unwrap_err(), Refusal::BadChart);
  let mut builder = Chart::builder();
  for i in 0..1025 {
    builder.opaque("a", "p", DefId(i));
  }
  assert_eq!(builder.build().unwrap_err(), Refusal::BadChart);
  let chart = Chart::empty("one").unwrap();
  let other = chart.with_rule("two").unwrap();
  assert_eq!((chart.rule_text(), other.rule_text()), (&b"one"[..], &b"two"[..]));
  assert_eq!(other.with_rule(vec![0; 70_000]).unwrap_err(), Refusal::BadChart);
}

#[test]
fn a_deep_chain() {
  // The test's own thread has too little stack for the worst case.
  let deep = || {
    let mut types = Types::open_largest(&Chart::empty("").unwrap());
    let mut ends = [(); 2].map(|()| types.new_var(Span(1)).unwrap());
    for _ in 0..2047 {
      ends = ends.map(|end| types.new(TypeKind::Ref(end)).unwrap());
    }
    assert_eq!(types.unify(ends[0], ends[1]), Ok(Success));
    assert_eq!(types.find(ends[0]), types.find(ends[1]));
    let kept = types.export(&ends[0]).unwrap();
    assert_eq!(kept.types.len(), 2048);
  };
  std::thread::Builder::new().stack_size(8 << 20).spawn(deep).unwrap().join().unwrap();
}

#[test]
fn stores_go_to_other_threads() {
  let mut types = opened();
  let v = types.new_var(Span(1)).unwrap();
  let shared = &types;
  std::thread::scope(|scope| {
    let texts = [(); 2].map(|()| scope.spawn(|| shared.show(v).unwrap()));
    texts.into_iter().for_each(|text| assert_eq!(text.join().unwrap(), "?0"));
  });
}
