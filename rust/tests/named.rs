//! Named states: what document 02 says of them, and what the crate adds.

use faroalder::{
  Chart, MAX_STATES, Refusal, Span, Type, TypeIdx, TypeKind, Types,
  UnifyResult::{Failure, Success},
};

fn opened() -> Types {
  Types::open(&Chart::empty("a b").unwrap(), 32, 64).unwrap()
}

/// Everything that can be seen of a store but its report count.
fn seen(types: &Types) -> String {
  let mut figures = types.figures();
  figures.reports = 0;
  let nodes: Vec<_> = (0..types.len())
    .map(|i| format!("{:?}", types.node(TypeIdx::new(i as u16)).unwrap()))
    .collect();
  format!("{figures:?} {nodes:?}")
}

/// (?0, !) and ((), ()): they do not unify, and ?0 is bound then.
fn clash(types: &mut Types) -> [Type; 2] {
  let a = types.new_var(Span(1)).unwrap();
  let never = types.new(TypeKind::Never).unwrap();
  let nil = types.nil().unwrap();
  let x = types.new(TypeKind::Tuple(&[a, never])).unwrap();
  [x, types.new(TypeKind::Tuple(&[nil, nil])).unwrap()]
}

#[test]
fn a_failure_is_undone() {
  let mut types = opened();
  let [x, y] = clash(&mut types);
  let before = seen(&types);
  types.name("before").unwrap();
  assert_eq!(seen(&types), before);
  for _ in 0..3 {
    assert_eq!(types.unify(x, y), Ok(Failure));
    assert_eq!(types.show(x).unwrap(), "((), !)");
    let made = types.error().unwrap();
    assert_ne!(seen(&types), before);
    types.return_to("before").unwrap();
    assert_eq!(seen(&types), before);
    assert_eq!(types.find(made), Err(Refusal::Outside));
  }
  assert_eq!(types.names(), [b"before"]);
}

#[test]
fn reports_do_not_go_back() {
  let mut types = opened();
  let a = types.new_var(Span(1)).unwrap();
  types.name("before").unwrap();
  types.force_kind(a).unwrap();
  types.return_to("before").unwrap();
  assert_eq!(types.figures().reports, 1);
  types.force_kind(a).unwrap();
  assert_eq!(types.figures().reports, 2);
  types.return_to("before").unwrap();
  assert_eq!((types.figures().reports, types.show(a).unwrap().as_str()), (2, "?0"));
}

#[test]
fn remembered_types_come_back() {
  let mut types = opened();
  types.name("none").unwrap();
  let nil = types.nil().unwrap();
  types.name("nil").unwrap();
  let error = types.error().unwrap();
  types.return_to("nil").unwrap();
  assert_eq!((types.figures().nil, types.figures().error), (Some(nil), None));
  assert_eq!(types.nil(), Ok(nil));
  assert_eq!(types.error(), Ok(error));
  types.return_to("none").unwrap();
  assert_eq!((types.figures().nil, types.figures().error, types.len()), (None, None, 0));
}

/// Asked for in the other order, error and nil have each other's place.
#[test]
fn remembered_types_are_made_anew() {
  let mut types = opened();
  types.name("none").unwrap();
  let [nil, error] = [types.nil().unwrap(), types.error().unwrap()];
  assert_eq!([types.nil(), types.error()], [Ok(nil), Ok(error)]);
  types.return_to("none").unwrap();
  assert_eq!([types.error(), types.nil()], [Ok(nil), Ok(error)]);
  assert_eq!((types.figures().error, types.figures().nil), (Some(nil), Some(error)));
  assert_eq!(types.is_nil(error), Ok(true));
}

#[test]
fn eight_names_and_a_ninth() {
  let mut types = opened();
  for i in 0..MAX_STATES as u32 {
    types.name([i as u8]).unwrap();
    types.new_var(Span(i)).unwrap();
  }
  assert_eq!(types.name("ninth"), Err(Refusal::NoPlace));
  assert_eq!(types.names().len(), MAX_STATES);
  // One that is held takes the present state, with eight held too.
  types.name([3]).unwrap();
  types.return_to([2]).unwrap();
  assert_eq!(types.len(), 2);
  types.return_to([3]).unwrap();
  assert_eq!(types.len(), 8);
  types.drop_name([5]).unwrap();
  assert_eq!(types.return_to([5]), Err(Refusal::Unheld));
  assert_eq!(types.drop_name([5]), Err(Refusal::Unheld));
  types.name("ninth").unwrap();
  assert_eq!(types.name([5]), Err(Refusal::NoPlace));
  types.reset();
  assert_eq!((types.names().len(), types.len()), (0, 0));
  assert_eq!(types.return_to("ninth"), Err(Refusal::Unheld));
  types.name([5]).unwrap();
}

#[test]
fn names_that_are_none() {
  let mut types = opened();
  for name in [&[][..], &[7; 256]] {
    assert_eq!(types.return_to(name), Err(Refusal::Unheld));
    assert_eq!(types.drop_name(name), Err(Refusal::Unheld));
    assert_eq!(types.name(name), Err(Refusal::Unheld));
    assert_eq!(types.return_to(name), Err(Refusal::Unheld));
    assert_eq!(types.drop_name(name), Err(Refusal::Unheld));
  }
  for name in [&[0][..], &[7; 255], &[7; 254], b"a", b"ab", b"b", &[255, 254]] {
    assert_eq!(types.return_to(name), Err(Refusal::Unheld));
    types.name(name).unwrap();
    assert_eq!(types.return_to(name), Ok(()));
  }
  assert_eq!(types.names().len(), 7);
  assert!(types.names().contains(&vec![7; 254]));
}

#[test]
fn a_clone_has_its_own_states() {
  let mut types = opened();
  let a = types.new_var(Span(1)).unwrap();
  types.name("a").unwrap();
  let mut other = types.clone();
  let nil = types.nil().unwrap();
  assert_eq!(types.unify(a, nil), Ok(Success));
  types.name("a").unwrap();
  other.return_to("a").unwrap();
  assert_eq!((other.len(), other.show(a).unwrap().as_str()), (1, "?0"));
  other.drop_name("a").unwrap();
  types.return_to("a").unwrap();
  assert_eq!(types.show(a).unwrap(), "()");
}

#[test]
fn room_is_changed_and_names_stay() {
  let mut types = opened();
  let [x, y] = clash(&mut types);
  let small = seen(&types);
  types.name("small").unwrap();
  let mut last = x;
  for _ in 0..20 {
    last = types.new(TypeKind::Tuple(&[last, x])).unwrap();
  }
  types.name("large").unwrap();
  let large = seen(&types);
  types.return_to("small").unwrap();
  assert_eq!(types.unify(x, y), Ok(Failure));
  let bound = seen(&types);
  // Too little for "large", though enough for the present state.
  assert_eq!(types.set_room(10, 64), Err(Refusal::NodesFull));
  assert_eq!(types.set_room(32, 10), Err(Refusal::ChildrenFull));
  assert_eq!(seen(&types), bound);
  types.set_room(4096, 16_384).unwrap();
  let room = |text: String| {
    text.replace("node_room: 32, child_room: 64", "node_room: 4096, child_room: 16384")
  };
  assert_eq!(seen(&types), room(bound));
  types.return_to("large").unwrap();
  assert_eq!(seen(&types), room(large));
  types.return_to("small").unwrap();
  assert_eq!(seen(&types), room(small.clone()));
  types.drop_name("large").unwrap();
  types.set_room(5, 4).unwrap();
  types.return_to("small").unwrap();
  let tight = small.replace("node_room: 32, child_room: 64", "node_room: 5, child_room: 4");
  assert_eq!(seen(&types), tight);
}

#[test]
fn words_go_without_names() {
  let mut types = opened();
  types.name("a").unwrap();
  let chart = types.chart();
  let mut types = Types::adopt(&chart, types.into_words()).unwrap();
  assert_eq!(types.return_to("a"), Err(Refusal::Unheld));
  assert!(types.names().is_empty());
}

#[test]
fn a_full_store_is_held() {
  let mut types = Types::open_largest(&Chart::empty("").unwrap());
  let mut last = types.new_var(Span(0)).unwrap();
  for _ in 1..4096 {
    last = types.new(TypeKind::Tuple(&[last, last, last, !last])).unwrap();
  }
  let before = seen(&types);
  types.name("full").unwrap();
  types.reset();
  assert_eq!(types.return_to("full"), Err(Refusal::Unheld));
  let mut types = Types::open_largest(&Chart::empty("").unwrap());
  let mut last = types.new_var(Span(0)).unwrap();
  for _ in 1..4096 {
    last = types.new(TypeKind::Tuple(&[last, last, last, !last])).unwrap();
  }
  types.name("full").unwrap();
  types.finish_inference();
  types.return_to("full").unwrap();
  assert_eq!(seen(&types), before);
}
