//! The example program on its sample.

#[path = "../examples/blend.rs"]
#[allow(unused)]
mod blend;

#[test]
fn the_sample() {
  let report = blend::check(include_str!("../examples/blend.txt")).unwrap();
  assert_eq!(report.text, include_str!("../examples/blend.out"));
  assert_eq!(report.clashes, 4);
}

#[test]
fn what_is_no_sheet() {
  for (sheet, says) in [
    ("tank A", "line 1: neither a definition nor a rule"),
    ("enum A\nstruct A", "line 2: a name is defined twice"),
    ("rule a: A = !", "line 1: a name isn't defined"),
    ("rule a: (! = !", "line 1: a list isn't closed"),
    ("rule a: ! = ! !", "line 1: something stands behind the rule"),
    (
      "rule a: { x: !, x: ! } = !",
      "line 1: refused 4: a kind can't be made, or over 255 types are listed",
    ),
  ] {
    assert_eq!(blend::check(sheet).err().map(|problem| problem.to_string()).as_deref(), Some(says));
  }
}
