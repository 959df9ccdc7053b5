//! Document 01's refusals 2 and 8, read out of its text once more: what a chart and a store's words must be. It looks at
//! numbers alone and shares nothing with the library.

use std::collections::HashSet;

use faroalder::lent::Rules;

const NODE: usize = 12;
const CHILD: usize = 4;
const NONE: u32 = u32::MAX;
const INVERSION: u32 = 1 << 31;

/// A part of a text.
#[derive(Clone, Copy)]
struct Part([u32; 3]);

impl Part {
  fn of(words: &[u32]) -> Part {
    Part([words[0], words[1], words[2]])
  }

  fn is_zero(self) -> bool {
    self.0 == [0; 3]
  }

  /// Its bytes, if it lies in one of the two texts.
  fn bytes(self, rules: &Rules) -> Option<&[u8]> {
    let [text, start, len] = self.0.map(|word| word as usize);
    let all = [&rules.rule, &rules.text].get(text).copied()?;
    all.get(start..start + len)
  }

  /// "names and paths 1 to 255 bytes"
  fn is_name(self, rules: &Rules) -> bool {
    self.bytes(rules).is_some_and(|bytes| (1..=255).contains(&bytes.len()))
  }
}

fn record(rules: &Rules, place: u32) -> Option<&[u32]> {
  rules.chart.chunks_exact(10).nth(place as usize)
}

fn sort(rules: &Rules, place: u32) -> Option<u32> {
  record(rules, place).map(|record| record[0])
}

const STRUCT: u32 = 1;
const UNION: u32 = 3;
const TRAIT: u32 = 6;
const TRAIT_FN: u32 = 7;

/// "chart or texts break a limit, sort, flag or range" where this is false.
pub fn good_chart(rules: &Rules) -> bool {
  let records = rules.chart.chunks_exact(10);
  if !records.remainder().is_empty() || records.len() > 1024 {
    return false;
  }
  if rules.rule.len() > 65_535 || rules.text.len() > 65_535 {
    return false;
  }
  for record in records {
    let [sort, .., flag, of] = *record else { unreachable!() };
    let names = Part::of(&record[1..]).is_name(rules) && Part::of(&record[4..]).is_name(rules);
    // "a flag or trait that its sort lacks is 0"
    let flagged = flag == 0 || flag == 1 && [STRUCT, UNION].contains(&sort);
    let belongs = if sort == TRAIT_FN { self::sort(rules, of) == Some(TRAIT) } else { of == 0 };
    if sort > 7 || !names || !flagged || !belongs {
      return false;
    }
  }
  // "4,294,967,295: none; any other must be a trait's record"
  if rules.fn_trait != NONE && sort(rules, rules.fn_trait) != Some(TRAIT) {
    return false;
  }
  // "which alone may be empty"
  rules.sigils.chunks_exact(3).all(|sigil| Part::of(sigil).bytes(rules).is_some_and(|bytes| bytes.len() <= 255))
}

/// What a kind's numbers may be.
struct Row {
  /// Fewest and most children.
  children: (u32, u32),
  /// The sorts that its number's record has; none where the number isn't a record's.
  sorts: &'static [u32],
  /// Whether it has a number that isn't a record's.
  numbered: bool,
  names: Names,
}

#[derive(PartialEq)]
enum Names {
  None,
  Own,
  Children,
  Parameters,
}

/// In `TypeKind`'s order.
fn row(code: u32) -> Option<Row> {
  let row = |children, sorts, names| Some(Row { children, sorts, numbered: false, names });
  let run = (0, 255);
  match code {
    0 => Some(Row { children: (0, 0), sorts: &[], numbered: true, names: Names::Own }),
    1 => row(run, &[], Names::None),
    2 => row(run, &[], Names::Children),
    3 => row(run, &[0], Names::None),
    4 => row(run, &[STRUCT], Names::None),
    5 => row(run, &[2], Names::None),
    6 => row(run, &[UNION], Names::None),
    7 => row((0, 0), &[4, TRAIT_FN], Names::None),
    8 => Some(Row { children: (1, 255), sorts: &[], numbered: true, names: Names::Parameters }),
    9 => row((1, 1), &[], Names::None),
    10 => row((0, 0), &[], Names::Own),
    11 => row((2, 2), &[5], Names::None),
    12..=14 => row((0, 0), &[], Names::None),
    _ => None,
  }
}

/// A node as its words say.
enum Node<'a> {
  Child(u32),
  Root { size: u32, kids: Vec<&'a [u32]> },
}

struct Store<'a> {
  rules: &'a Rules,
  nodes: u32,
  children: u32,
  ws: &'a [u32],
  ks: &'a [u32],
}

/// Whether a kind "that 4 or 5 would turn back", with another flag than the chart's, with a number outside its values or
/// an unused one that isn't zero stands in a node's words.
fn good_kind(rules: &Rules, words: &[u32], kids: &[&[u32]]) -> bool {
  let [_, _, _, inv, code, number, flag, flex, ..] = *words else { unreachable!() };
  let own = Part::of(&words[8..]);
  let Some(row) = row(code) else { return false };
  let count = kids.len() as u32;
  if inv > 1 || count < row.children.0 || count > row.children.1 {
    return false;
  }
  if row.sorts.is_empty() {
    if !row.numbered && number != 0 {
      return false;
    }
  } else if !sort(rules, number).is_some_and(|sort| row.sorts.contains(&sort)) {
    return false;
  }
  let chart_flag = if [4, 6].contains(&code) { record(rules, number).unwrap()[8] } else { 0 };
  if flag != chart_flag || flex > if code == 8 { 3 } else { 0 } {
    return false;
  }
  let name = |kid: &&[u32]| Part::of(&kid[1..]);
  let (named, unnamed) = match row.names {
    Names::Children => (kids, &kids[..0]),
    Names::Parameters => kids.split_at(kids.len() - 1),
    Names::None | Names::Own => kids.split_at(0),
  };
  let own = if row.names == Names::Own { own.is_name(rules) } else { own.is_zero() };
  if !own || !unnamed.iter().all(|kid| name(kid).is_zero()) {
    return false;
  }
  match row.names {
    Names::Children => {
      named.iter().all(|kid| name(kid).is_name(rules))
        && named.windows(2).all(|pair| name(&pair[0]).bytes(rules) < name(&pair[1]).bytes(rules))
    }
    _ => named.iter().all(|kid| name(kid).is_zero() || name(kid).is_name(rules)),
  }
}

impl<'a> Store<'a> {
  fn there(&self, ty: u32) -> bool {
    ty % INVERSION < self.nodes
  }

  /// The node, unless a field is outside its values or an unused number isn't zero.
  fn node(&self, i: u32) -> Option<Node<'a>> {
    let words = &self.ws[i as usize * NODE..][..NODE];
    let [tag, link, size, ..] = *words else { unreachable!() };
    let bare = words[3..].iter().all(|&word| word == 0);
    match tag {
      0 => (size == 0 && bare && self.there(link)).then_some(Node::Child(link % INVERSION)),
      1 => bare.then_some(Node::Root { size, kids: Vec::new() }),
      2 => (bare && link == 0).then_some(Node::Root { size, kids: Vec::new() }),
      3 => {
        let (first, count) = (u64::from(link), u64::from(words[NODE - 1]));
        if first + count > u64::from(self.children) {
          return None;
        }
        let kids: Vec<&[u32]> =
          self.ks[first as usize * CHILD..(first + count) as usize * CHILD].chunks_exact(CHILD).collect();
        let there = kids.iter().all(|kid| self.there(kid[0]));
        (there && good_kind(self.rules, words, &kids)).then_some(Node::Root { size, kids })
      }
      _ => None,
    }
  }
}

/// The root that each node leads to, unless parents go round.
fn roots(nodes: &[Node<'_>]) -> Option<Vec<usize>> {
  let mut roots = Vec::with_capacity(nodes.len());
  for start in 0..nodes.len() {
    let (mut at, mut steps) = (start, 0);
    while let Node::Child(parent) = nodes[at] {
      at = parent as usize;
      steps += 1;
      if steps > nodes.len() {
        return None;
      }
    }
    roots.push(at);
  }
  Some(roots)
}

/// Whether steps from a root to its children's roots never lead back.
fn no_circle(nodes: &[Node<'_>], roots: &[usize]) -> bool {
  // A root may go once all that its children lead to have gone; what is left goes round.
  let below = |i: usize| match &nodes[i] {
    Node::Root { kids, .. } => kids.iter().map(|kid| roots[(kid[0] % INVERSION) as usize]).collect(),
    Node::Child(_) => Vec::new(),
  };
  let mut waits: Vec<usize> = vec![0; nodes.len()];
  let mut above: Vec<Vec<usize>> = vec![Vec::new(); nodes.len()];
  for i in 0..nodes.len() {
    for root in below(i) {
      waits[i] += 1;
      above[root].push(i);
    }
  }
  let mut free: Vec<usize> = (0..nodes.len()).filter(|&i| waits[i] == 0).collect();
  let mut gone = 0;
  while let Some(i) = free.pop() {
    gone += 1;
    for &j in &above[i] {
      waits[j] -= 1;
      if waits[j] == 0 {
        free.push(j);
      }
    }
  }
  gone == nodes.len()
}

/// "store unsound" where this is false.
pub fn good_store(rules: &Rules, h: &[u32], ws: &[u32], ks: &[u32]) -> bool {
  let [nodes, children, node_room, child_room, error, nil, _, _] = *h.first_chunk::<8>().unwrap_or(&[NONE; 8]);
  if node_room > 4096 || child_room > 16_384 || nodes > node_room || children > child_room {
    return false;
  }
  let (node_end, child_end) = (node_room as usize * NODE, child_room as usize * CHILD);
  if ws.len() < node_end || ks.len() < child_end {
    return false;
  }
  // "unused numbers not zero"
  let unused = ws[nodes as usize * NODE..node_end].iter().chain(&ks[children as usize * CHILD..child_end]);
  if unused.into_iter().any(|&word| word != 0) {
    return false;
  }
  let store = Store { rules, nodes, children, ws, ks };
  if ![error, nil].iter().all(|&ty| ty == NONE || store.there(ty)) {
    return false;
  }
  let Some(nodes) = (0..nodes).map(|i| store.node(i)).collect::<Option<Vec<Node<'_>>>>() else { return false };
  let Some(roots) = roots(&nodes) else { return false };
  let mut sizes = vec![0; nodes.len()];
  roots.iter().for_each(|&root| sizes[root] += 1);
  let counted = nodes.iter().zip(sizes).all(|(node, size)| match node {
    Node::Root { size: said, .. } => *said == size,
    Node::Child(_) => true,
  });
  counted && no_circle(&nodes, &roots)
}

/// 2, 8 or 0.
/// Words of a names buffer: two capacities, eight places, each a name's length, 255 bytes, a state's header and words.
const NAME: usize = 256;
const HEADER: usize = 8;

/// A held place: a name of 1 to 255 bytes, "unused name words" zero, and a sound state, whose capacities are its counts.
fn good_place(rules: &Rules, place: &[u32], nodes: usize) -> bool {
  let (name, state) = place.split_at(NAME);
  let (h, words) = state.split_at(HEADER);
  let (ws, ks) = words.split_at(NODE * nodes);
  let len = name[0] as usize;
  len < NAME
    && name[1..=len].iter().all(|&byte| byte < 256)
    && name[len + 1..].iter().all(|&word| word == 0)
    && [h[0], h[1]] == [h[2], h[3]]
    && good_store(rules, h, ws, ks)
}

/// "unsound, too short or made for other capacities" where this is false, of a sound store with this header.
fn good_names(rules: &Rules, h: &[u32], bs: &[u32]) -> bool {
  if bs.len() < 2 || bs[..2] != h[2..4] {
    return false;
  }
  let [nodes, children] = [bs[0] as usize, bs[1] as usize];
  let size = NAME + HEADER + NODE * nodes + CHILD * children;
  if bs.len() < 2 + 8 * size {
    return false;
  }
  // "All held places are tested": a free one's other words are no part of it.
  let held: Vec<&[u32]> = bs[2..].chunks_exact(size).take(8).filter(|place| place[0] != 0).collect();
  let names: HashSet<&[u32]> = held.iter().map(|place| &place[..NAME]).collect();
  names.len() == held.len() && held.iter().all(|place| good_place(rules, place, nodes))
}

/// 2, then 8 of the store or of its names buffer.
pub fn names_refusal(rules: &Rules, h: &[u32], ws: &[u32], ks: &[u32], bs: &[u32]) -> u32 {
  match refusal(rules, h, ws, ks) {
    0 if !good_names(rules, h, bs) => 8,
    number => number,
  }
}

pub fn refusal(rules: &Rules, h: &[u32], ws: &[u32], ks: &[u32]) -> u32 {
  if !good_chart(rules) {
    2
  } else if !good_store(rules, h, ws, ks) {
    8
  } else {
    0
  }
}
