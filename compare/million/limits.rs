//! Arguments one step inside each limit and one step outside, through the calls that test everything: 01's number for
//! each, and no word written.

use faroalder::{
  Chart, DefId, Refusal, Types,
  lent::{Lent, RECORD_WORDS, REFUSED, Record, Rules, load},
};

const NONE: u32 = u32::MAX;
const INVERSE: u32 = 1 << 31;
const A: [u32; 3] = [0, 0, 1];
const AB: [u32; 3] = [0, 2, 2];
const B: [u32; 3] = [0, 5, 1];

/// One record of each sort, in the order of their numbers, the trait fn's trait being the trait: places 0 to 7. The rule
/// text is `a ab b` and then 255 bytes and one.
fn chart() -> Chart {
  let mut builder = Chart::builder();
  builder.opaque("O", "m::O", DefId(0));
  builder.structure("S", "m::S", DefId(1), true);
  builder.enumeration("E", "m::E", DefId(2));
  builder.union("U", "m::U", DefId(3), false);
  builder.concrete_fn("f", "m::f", DefId(4));
  builder.concrete_const("k", "m::k", DefId(5));
  let of = builder.trait_("T", "m::T", DefId(6));
  builder.trait_fn(of, "g", "m::g", DefId(7));
  builder.fn_trait(of).rule(format!("a ab b{}", "n".repeat(256))).build().unwrap()
}

struct Store {
  rules: Rules,
  h: Vec<u32>,
  ws: Vec<u32>,
  ks: Vec<u32>,
  count: u32,
}

fn number(answer: u64) -> u32 {
  answer.checked_sub(REFUSED).map_or(0, |number| number as u32)
}

impl Store {
  fn opened(rules: Rules, nodes: u32, children: u32) -> Store {
    let (ws, ks) = (vec![0; 12 * nodes as usize], vec![0; 4 * children as usize]);
    let mut store = Store { rules, h: vec![0; 8], ws, ks, count: 0 };
    store.does("open", |lent| lent.open(nodes, children));
    store
  }

  fn words(&self) -> [Vec<u32>; 3] {
    [self.h.clone(), self.ws.clone(), self.ks.clone()]
  }

  /// A call that is answered.
  fn does(&mut self, what: &str, call: impl FnOnce(&mut Lent<'_>) -> u64) -> u32 {
    let Store { rules, h, ws, ks, count } = self;
    let answer = call(&mut Lent { rules, h, ws, ks });
    assert!(answer < REFUSED, "{what}: refused {}", number(answer));
    *count += 1;
    answer as u32
  }

  /// A call that is refused, and writes nothing.
  fn refuses(&mut self, refusal: Refusal, what: &str, call: impl FnOnce(&mut Lent<'_>) -> u64) {
    let before = self.words();
    let Store { rules, h, ws, ks, count } = self;
    let answer = call(&mut Lent { rules, h, ws, ks });
    *count += 1;
    assert_eq!(number(answer), refusal.number(), "{what}");
    assert!(before == self.words(), "{what}: refused, and a word changed");
  }
}

/// A kind's numbers.
fn head(code: u32, number: u32, flex: u32, [text, start, len]: [u32; 3]) -> [u32; 6] {
  [code, number, flex, text, start, len]
}

fn plain(code: u32) -> [u32; 6] {
  head(code, 0, 0, [0; 3])
}

fn named(t: u32, [text, start, len]: [u32; 3]) -> [u32; 4] {
  [t, text, start, len]
}

fn entries(kids: &[[u32; 4]]) -> Vec<u32> {
  kids.as_flattened().to_vec()
}

fn kids(n: usize) -> Vec<u32> {
  entries(&vec![[0; 4]; n])
}

fn opening(rules: &Rules) -> u32 {
  use Refusal::Unopenable;
  let mut s = Store { rules: rules.clone(), h: vec![3; 8], ws: vec![3; 49_152], ks: vec![3; 65_536], count: 0 };
  s.refuses(Unopenable, "4,097 nodes", |l| l.open(4097, 0));
  s.refuses(Unopenable, "16,385 children", |l| l.open(0, 16_385));
  s.does("the largest", |l| l.open(4096, 16_384));
  s.does("4,096 nodes", |l| l.new_vars(7, 4096, &mut [0; 4096]));
  s.refuses(Refusal::NodesFull, "the 4,097th node", |l| l.new_var(7));
  s.does("no more", |l| l.new_vars(7, 0, &mut []));
  s.h.pop();
  s.refuses(Unopenable, "7 words of header", |l| l.open(0, 0));
  s.h.push(0);
  s.ws.pop();
  s.refuses(Unopenable, "a node's word too few", |l| l.open(4096, 16_384));
  s.does("a node fewer", |l| l.open(4095, 16_384));
  s.ks.pop();
  s.refuses(Unopenable, "a child's word too few", |l| l.open(4095, 16_384));
  s.does("a child fewer", |l| l.open(4095, 16_383));
  s.count
}

fn making(rules: &Rules) -> u32 {
  use Refusal::{ChildrenFull, NodesFull, Outside, Short, Undefined, Unmakeable};
  let mut s = Store::opened(rules.clone(), 40, 1100);
  s.does("a variable", |l| l.new_var(NONE));
  for (what, head, es) in [
    ("code 15", plain(15), kids(0)),
    ("a number too many", head(1, 1, 0, [0; 3]), kids(0)),
    ("a flex too many", head(1, 0, 1, [0; 3]), kids(0)),
    ("a name too many", head(1, 0, 0, A), kids(0)),
    ("a child's name too many", plain(1), entries(&[named(0, A)])),
    ("three words", plain(1), vec![0; 3]),
    ("five words", plain(1), vec![0; 5]),
    ("256 children", plain(1), kids(256)),
    ("a Param with a child", head(0, 0, 0, A), kids(1)),
    ("a Param without a name", plain(0), kids(0)),
    ("a name of no bytes", head(0, 0, 0, [0, 1, 0]), kids(0)),
    ("a name of 256 bytes", head(0, 0, 0, [0, 6, 256]), kids(0)),
    ("a name past the text", head(0, 0, 0, [0, 8, 255]), kids(0)),
    ("a name of a third text", head(0, 0, 0, [2, 0, 1]), kids(0)),
    ("a name that wraps round", head(0, 0, 0, [0, NONE, 2]), kids(0)),
    ("an object's child without a name", plain(2), kids(1)),
    ("names that fall", plain(2), entries(&[named(0, B), named(0, A)])),
    ("a name twice", plain(2), entries(&[named(0, A), named(0, A)])),
    ("a fn with a child", head(7, 4, 0, [0; 3]), kids(1)),
    ("a closure without a return", plain(8), kids(0)),
    ("flex 4", head(8, 0, 4, [0; 3]), kids(1)),
    ("a return with a name", plain(8), entries(&[named(0, A)])),
    ("a closure with a name", head(8, 0, 0, A), kids(1)),
    ("a Ref of none", plain(9), kids(0)),
    ("a Ref of two", plain(9), kids(2)),
    ("a Key with a child", head(10, 0, 0, A), kids(1)),
    ("a const of one", head(11, 5, 0, [0; 3]), kids(1)),
    ("a const of three", head(11, 5, 0, [0; 3]), kids(3)),
    ("Never with a child", plain(12), kids(1)),
    ("Default with a child", plain(13), kids(1)),
    ("Error with a child", plain(14), kids(1)),
  ] {
    s.refuses(Unmakeable, what, |l| l.new_kind(head, &es));
    // A type outside comes first.
    let outside = [&es[..], &[1, 0, 0, 0]].concat();
    if es.len() % 4 == 0 {
      s.refuses(Outside, what, |l| l.new_kind(head, &outside));
    }
  }
  for (code, good, n) in [(3, 0, 1), (4, 1, 1), (5, 2, 1), (6, 3, 1), (7, 4, 0), (7, 7, 0), (11, 5, 2)] {
    for place in (0..9).chain([NONE]) {
      let fits = place == good || code == 7 && [4, 7].contains(&place);
      if !fits {
        s.refuses(Undefined, "another sort", |l| l.new_kind(head(code, place, 0, [0; 3]), &kids(n)));
      }
    }
    s.does("its sort", |l| l.new_kind(head(code, good, 0, [0; 3]), &kids(n)));
  }
  for place in [0, 2, 3, 8, NONE] {
    s.refuses(Undefined, "new_struct of another sort", |l| l.new_struct(place, &[0]));
  }
  for place in [0, 1, 2, 8, NONE] {
    s.refuses(Undefined, "new_union of another sort", |l| l.new_union(place, &[0]));
  }
  s.refuses(Unmakeable, "256 parameters and no record", |l| l.new_struct(NONE, &[0; 256]));
  s.refuses(Outside, "a parameter outside", |l| l.new_union(3, &[99]));
  s.does("a name of 255 bytes", |l| l.new_kind(head(0, NONE, 0, [0, 7, 255]), &[]));
  s.does("255 children", |l| l.new_kind(plain(1), &kids(255)));
  s.does("254 parameters and a return", |l| l.new_kind(head(8, NONE, 3, [0; 3]), &kids(255)));
  s.does("255 parameters", |l| l.new_struct(1, &[INVERSE; 255]));
  s.does("names that rise", |l| l.new_kind(plain(2), &entries(&[named(0, A), named(0, AB), named(0, B)])));
  let [nodes, children] = [s.h[0], s.h[1]];
  s.refuses(NodesFull, "a variable too many", |l| l.new_vars(1, 40 - nodes + 1, &mut [0; 40]));
  s.refuses(NodesFull, "more variables than there are numbers", |l| l.new_vars(1, NONE, &mut [0; 40]));
  s.refuses(Short, "a place too few", |l| l.new_vars(1, 3, &mut [0; 2]));
  let left = (1100 - children) as usize;
  s.does("most of the children", |l| l.new_kind(plain(1), &kids(left - 2 - 200)));
  s.does("but two", |l| l.new_kind(plain(1), &kids(200)));
  s.refuses(ChildrenFull, "a child too many", |l| l.new_kind(plain(1), &kids(3)));
  s.does("the last children", |l| l.new_kind(plain(1), &kids(2)));
  s.refuses(ChildrenFull, "one child more", |l| l.new_union(3, &[0]));
  let left = 40 - s.h[0];
  s.does("the last nodes", |l| l.new_vars(1, left, &mut [0; 40]));
  for (what, answer) in [("nil", 0), ("error", 1), ("a variable", 2), ("a tuple", 3)] {
    s.refuses(NodesFull, what, |l| match answer {
      0 => l.nil(),
      1 => l.error(),
      2 => l.new_var(0),
      _ => l.new_kind(plain(1), &kids(3)),
    });
  }
  s.count
}

fn asking(rules: &Rules) -> u32 {
  use Refusal::{Outside, Short, Undefined, Unmakeable};
  let mut s = Store::opened(rules.clone(), 4, 4);
  s.does("two variables", |l| l.new_vars(5, 2, &mut [0; 2]));
  s.does("a pair", |l| l.new_kind(plain(1), &entries(&[[0; 4], [INVERSE + 1, 0, 0, 0]])));
  for t in [3, INVERSE + 3, NONE, INVERSE - 1] {
    s.refuses(Outside, "find", |l| l.find(t));
    s.refuses(Outside, "find_mut", |l| l.find_mut(t));
    s.refuses(Outside, "node", |l| l.node(t, &mut [0; 12]));
    s.refuses(Outside, "child", |l| l.child(t, 0, &mut [0; 1]));
    s.refuses(Outside, "child_name", |l| l.child_name(t, 0, &mut [0; 3]));
    s.refuses(Outside, "is_nil", |l| l.is_nil(t));
    s.refuses(Outside, "self_inverse", |l| l.self_inverse_param(t, false));
    s.refuses(Outside, "get_mod", |l| l.get_mod(t, &mut [0; 1]));
    s.refuses(Outside, "find_related", |l| l.find_related(&mut [], t));
    s.refuses(Outside, "force_kind", |l| l.force_kind(t, &mut [0; 12]));
    s.refuses(Outside, "unify, first", |l| l.unify(t, 0));
    s.refuses(Outside, "unify, second", |l| l.unify(0, t));
    s.refuses(Outside, "unify_types", |l| l.unify_types(&[0; 256], &[t], false));
    s.refuses(Outside, "unify_objects", |l| l.unify_objects(&[0, 0, 0, 0], &[t, 0, 0, 0], true));
    s.refuses(Outside, "unify_fn_sig, return", |l| l.unify_fn_sig(&[0; 256], t, &[], 0));
    s.refuses(Outside, "unify_fn_sig, parameter", |l| l.unify_fn_sig(&[], 0, &[t], 0));
    s.refuses(Outside, "unify_impl_type", |l| l.unify_impl_type((NONE, &[]), (0, &[t])));
    s.refuses(Outside, "approx_eq", |l| l.approx_eq((0, &[t]), (NONE, &[])));
    s.refuses(Outside, "show", |l| l.show(t, &mut [0; 4]));
    s.refuses(Outside, "show_impl_type", |l| l.show_impl_type((0, &[t]), &mut [0; 4]));
  }
  let many = [0; 256];
  s.refuses(Unmakeable, "256 types", |l| l.unify_types(&many, &[], false));
  s.refuses(Unmakeable, "256 types, second", |l| l.unify_types(&[], &many, false));
  s.refuses(Unmakeable, "256 parameters", |l| l.unify_fn_sig(&[], 0, &many, 0));
  s.refuses(Unmakeable, "fields that fall", |l| l.unify_objects(&entries(&[named(0, B), named(0, A)]), &[], false));
  s.refuses(Unmakeable, "a field without a name", |l| l.unify_objects(&[], &[0; 4], false));
  s.refuses(Unmakeable, "three words", |l| l.unify_objects(&[0, 0, 0], &[], false));
  s.refuses(Unmakeable, "256 of an impl type", |l| l.unify_impl_type((9, &many), (6, &[])));
  s.refuses(Unmakeable, "256 to print", |l| l.show_impl_type((9, &many), &mut [0; 4]));
  for place in [5, 7, 8, NONE - 1] {
    s.refuses(Undefined, "no trait", |l| l.unify_impl_type((6, &[]), (place, &[0])));
    s.refuses(Undefined, "no trait to compare", |l| l.approx_eq((place, &[]), (NONE, &[])));
    s.refuses(Undefined, "no trait to print", |l| l.show_impl_type((place, &[]), &mut [0; 4]));
  }
  assert_eq!(s.does("255 types", |l| l.unify_types(&many[1..], &many[1..], false)), 0);
  assert_eq!(s.does("a trait", |l| l.unify_impl_type((6, &[0]), (6, &[0]))), 0);
  assert_eq!(s.does("an error", |l| l.unify_impl_type((NONE, &[]), (6, &[0]))), 2);
  let mut marks = [9; 2];
  s.refuses(Short, "a mark too few", |l| l.find_related(&mut marks, 2));
  assert_eq!(marks, [9; 2]);
  let mut marks = [0, 0, 0, 4];
  s.does("marks enough", |l| l.find_related(&mut marks, 2));
  assert_eq!(marks, [1, 1, 1, 4]);
  let mut buf = [b'.'; 10];
  assert_eq!(s.does("its text", |l| l.show(2, &mut buf)), 9);
  assert_eq!(&buf, b"(?0, ~?1).");
  let mut buf = [b'.'; 8];
  s.refuses(Short, "a byte too few", |l| l.show(2, &mut buf));
  assert_eq!(&buf, b"(?0, ~?1");
  assert_eq!(s.does("no third child", |l| l.child(2, 2, &mut [0; 1])), 0);
  assert_eq!(s.does("a second child", |l| l.child(2, 1, &mut [0; 1])), 1);
  s.count
}

fn moving(rules: &Rules) -> u32 {
  use Refusal::{ChildrenFull, NoEntry, NodesFull, Outside, Short, SourceUnsound, Unmakeable, Unopenable, Unsound};
  let mut source = Store::opened(rules.clone(), 4, 3);
  source.does("a variable", |l| l.new_var(5));
  source.does("Param 2", |l| l.new_kind(head(0, 2, 0, A), &[]));
  source.does("a tuple", |l| l.new_kind(plain(1), &entries(&[[0; 4], [1, 0, 0, 0], [INVERSE, 0, 0, 0]])));
  let words = source.words();
  let from = || [&words[0][..], &words[1], &words[2]];
  let mut s = Store::opened(rules.clone(), 4, 4);
  s.does("two variables", |l| l.new_vars(1, 2, &mut [0; 2]));
  let mut out = [9; 256];
  let (three, many) = ([0, 1, INVERSE + 1], [0; 256]);
  let import = |s: &mut Store, what, refusal, types: &[u32], params: Option<&[u32]>, out: &mut [u32]| {
    s.refuses(refusal, what, |l| l.import(from(), types, params, out));
    assert!(out.iter().all(|&word| word == 9), "{what}: refused, and wrote its answer");
  };
  import(&mut s, "a type outside the source", Outside, &[3], None, &mut out);
  import(&mut s, "an entry outside", Outside, &[2], Some(&[2]), &mut out);
  import(&mut s, "256 types", Unmakeable, &many, None, &mut out);
  import(&mut s, "256 entries", Unmakeable, &[2], Some(&many), &mut out);
  import(&mut s, "no entry", NoEntry, &[2], Some(&three[..2]), &mut out);
  import(&mut s, "an empty list", NoEntry, &[2], Some(&[]), &mut out);
  import(&mut s, "a node too many", NodesFull, &[2], None, &mut out);
  import(&mut s, "a place too few", Short, &[2], Some(&three), &mut []);
  s.does("another variable", |l| l.new_var(1));
  import(&mut s, "a node too many with a list", NodesFull, &[2], Some(&three), &mut out);
  let mut t = Store::opened(rules.clone(), 4, 2);
  t.does("two variables", |l| l.new_vars(1, 2, &mut [0; 2]));
  import(&mut t, "a child too many", ChildrenFull, &[2], Some(&three), &mut out);
  let mut unsound = words.clone();
  unsound[0][0] += 1;
  t.refuses(SourceUnsound, "an unsound source", |l| {
    l.import([&unsound[0], &unsound[1], &unsound[2]], &[9], Some(&many), &mut [])
  });
  t.h[0] += 1;
  t.refuses(Unsound, "an unsound destination", |l| {
    l.import([&unsound[0], &unsound[1], &unsound[2]], &[9], Some(&many), &mut [])
  });
  let mut t = Store::opened(rules.clone(), 4, 3);
  t.does("two variables", |l| l.new_vars(1, 2, &mut [0; 2]));
  t.does("exactly enough", |l| l.import(from(), &[2], Some(&three), &mut out[..1]));
  assert_eq!(out[0], 3 - 1);

  // Room for the tuple, its variable and its Param: three nodes, three children.
  for (room, types, places, wants) in [
    ([4097, 3], &[2][..], 1, Some(Unopenable)),
    ([3, 16_385], &[2], 1, Some(Unopenable)),
    ([4, 3], &[2], 1, Some(Unopenable)),
    ([3, 4], &[2], 1, Some(Unopenable)),
    ([3, 3], &[3], 1, Some(Outside)),
    ([3, 3], &many, 256, Some(Unmakeable)),
    ([2, 2], &[2], 1, Some(NodesFull)),
    ([3, 2], &[2], 1, Some(ChildrenFull)),
    ([3, 3], &[2], 0, Some(Short)),
    ([3, 3], &[2], 1, None),
  ] {
    let (mut h, mut ws, mut ks, mut out) = ([7; 8], [7; 36], [7; 12], [9; 256]);
    let call = |l: &mut Lent<'_>| l.export([&mut h, &mut ws, &mut ks], room, types, &mut out[..places]);
    match wants {
      None => _ = source.does("an export", call),
      Some(refusal) => {
        source.refuses(refusal, "an export", call);
        assert!((h, ws, ks, out) == ([7; 8], [7; 36], [7; 12], [9; 256]), "an export that is refused wrote");
      }
    }
  }
  s.count + t.count + source.count
}

fn charts() -> u32 {
  let good = chart();
  let mut count = 0;
  let mut says = |what: &str, wants: u32, rules: &Rules| {
    count += 1;
    let (mut h, mut ws, mut ks) = ([0; 8], [0; 12], [0; 4]);
    let mut lent = Lent { rules, h: &mut h, ws: &mut ws, ks: &mut ks };
    assert_eq!(lent.open(1, 1), 0);
    assert_eq!(lent.refusal(), wants, "{what}");
    assert_eq!(number(lent.new_var(0)), wants, "{what}");
  };
  says("as it is", 0, good.rules());
  let with = |change: &dyn Fn(&mut Rules)| {
    let mut rules = good.rules().clone();
    change(&mut rules);
    rules
  };
  let record = good.rules().chart[..RECORD_WORDS].to_vec();
  says("1,024 records", 0, &with(&|r| r.chart.extend(record.repeat(1016))));
  says("1,025 records", 2, &with(&|r| r.chart.extend(record.repeat(1017))));
  says("65,535 bytes", 0, &with(&|r| r.rule.resize(65_535, 0)));
  says("65,536 bytes", 2, &with(&|r| r.rule.resize(65_536, 0)));
  says("65,536 bytes of chart", 2, &with(&|r| r.text.resize(65_536, 0)));
  says("sort 8", 2, &with(&|r| r.chart[0] = 8));
  says("a name of 255 bytes", 0, &with(&|r| r.chart[1..4].copy_from_slice(&[0, 7, 255])));
  says("a name of 256 bytes", 2, &with(&|r| r.chart[1..4].copy_from_slice(&[0, 6, 256])));
  says("a name of no bytes", 2, &with(&|r| r.chart[3] = 0));
  says("a path of no bytes", 2, &with(&|r| r.chart[6] = 0));
  says("a name past the text", 2, &with(&|r| r.chart[1..4].copy_from_slice(&[0, 8, 255])));
  says("a third text", 2, &with(&|r| r.chart[1] = 2));
  says("a flag that its sort lacks", 2, &with(&|r| r.chart[8] = 1));
  says("flag 2", 2, &with(&|r| r.chart[18] = 2));
  says("a trait that its sort lacks", 2, &with(&|r| r.chart[9] = 6));
  says("a trait fn of no trait", 2, &with(&|r| r.chart[79] = 5));
  says("a trait fn of no record", 2, &with(&|r| r.chart[79] = 8));
  says("no fn trait", 0, &with(&|r| r.fn_trait = NONE));
  says("a fn trait that is none", 2, &with(&|r| r.fn_trait = 7));
  says("a fn trait without a record", 2, &with(&|r| r.fn_trait = 8));
  says("an empty sigil at the end", 0, &with(&|r| r.sigils[..3].copy_from_slice(&[0, r.rule.len() as u32, 0])));
  says("a sigil past the end", 2, &with(&|r| r.sigils[..3].copy_from_slice(&[0, r.rule.len() as u32 + 1, 0])));
  says("a sigil of 255 bytes", 0, &with(&|r| r.sigils[9..].copy_from_slice(&[0, 6, 255])));
  says("a sigil of 256 bytes", 2, &with(&|r| r.sigils[9..].copy_from_slice(&[0, 6, 256])));
  says("a word of a record too few", 2, &with(&|r| _ = r.chart.pop()));

  let record = Record { sort: 1, name: [2, 3, 4], path: [5, 6, 7], def: 8, dual: 9, trait_: 10 };
  let mut words = [0; 21];
  assert_eq!(load(&[record; 2], &mut words[..19]), 7);
  assert_eq!(words, [0; 21]);
  assert_eq!(load(&[record; 2], &mut words), 0);
  assert_eq!(words[..20], [[1, 2, 3, 4, 5, 6, 7, 8, 9, 10]; 2].concat());
  assert_eq!(words[20], 0);
  count + 2
}

/// The crate's own: what `Types` refuses before or beside the library.
fn crates() -> u32 {
  let chart = chart();
  assert_eq!(Types::open(&chart, 4097, 0).unwrap_err(), Refusal::Unopenable);
  assert_eq!(Types::open(&chart, 0, 16_385).unwrap_err(), Refusal::Unopenable);
  assert_eq!(Types::open(&chart, u32::MAX, u32::MAX).unwrap_err(), Refusal::Unopenable);
  let mut types = Types::open(&chart, 2, 2).unwrap();
  assert_eq!(types.new_vars(faroalder::Span(0), usize::MAX), Err(Refusal::NodesFull));
  assert_eq!(types.set_room(4097, 0), Err(Refusal::Unopenable));
  5
}

pub fn run() {
  let chart = chart();
  let rules = chart.rules();
  let count = opening(rules) + making(rules) + asking(rules) + moving(rules) + charts() + crates();
  println!("{count} calls at the limits and one step outside: as 01 says");
}
