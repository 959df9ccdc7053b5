//! A small checker of blend rules.
//!
//! ```text
//! cargo run --example blend [FILE]
//! ```
//!
//! It reads a sheet from a file, or from standard input, reports each rule that clashes and prints what it found out.
//! `blend.txt` beside this file is a sample. A sheet has a line for each definition and each rule:
//!
//! ```text
//! # what follows is a remark
//! struct Tank dual              a struct, an enum, an opaque type or a union; `dual` makes a struct or union self-dual
//! rule fill: Tank[?a] = ?t      the two sides of a rule must be one type
//! ```
//!
//! A type is `?a` (a variable, the same one throughout the sheet), `Tank[T, ..]` or `Tank`, `(T, ..)`,
//! `{ name: T, .. }`, `&T`, `.key`, `!` (no value) or `~T` (the inverse of T). A rule that clashes binds nothing.

use std::{collections::BTreeMap, env, fmt::Write, fs, io, process::ExitCode};

use faroalder::{
  Chart, DefId, EnumId, Name, OpaqueTypeId, Refusal, Sort, Span, StructId, Type, TypeKind, Types,
  UnifyResult, UnionId,
};

/// What a sheet comes to.
pub struct Report {
  /// A line for each rule, then one for each variable.
  pub text: String,
  /// How many rules clash.
  pub clashes: usize,
}

/// A line that is no line of a sheet, or a sheet that doesn't fit.
#[derive(Debug)]
pub enum Problem {
  /// The line's number, and what is wrong with it.
  Line(usize, &'static str),
  /// The line's number, and what the store or the chart says.
  Refused(usize, Refusal),
}

impl std::fmt::Display for Problem {
  fn fmt(&self, f: &mut std::fmt::Formatter<'_>) -> std::fmt::Result {
    match self {
      Problem::Line(line, what) => write!(f, "line {line}: {what}"),
      Problem::Refused(line, refusal) => write!(f, "line {line}: {refusal}"),
    }
  }
}

type Defined<'s> = BTreeMap<&'s str, (Sort, u32)>;

/// The first pass: the chart. The sheet itself is the rule text, so that every name in it is a part of it.
fn define(sheet: &str) -> Result<(Chart, Defined<'_>), Problem> {
  let mut builder = Chart::builder();
  let mut defined = Defined::new();
  for (at, line) in lines(sheet) {
    let words: Vec<&str> = line.split_whitespace().collect();
    let (sort, name, dual) = match words[..] {
      ["rule", ..] => continue,
      [sort, name] => (sort, name, false),
      [sort, name, "dual"] => (sort, name, true),
      _ => return Err(Problem::Line(at, "neither a definition nor a rule")),
    };
    let def = DefId(at as u32);
    let place = match sort {
      "opaque" => (Sort::Opaque, builder.opaque(name, name, def).place()),
      "struct" => (Sort::Struct, builder.structure(name, name, def, dual).place()),
      "enum" => (Sort::Enum, builder.enumeration(name, name, def).place()),
      "union" => (Sort::Union, builder.union(name, name, def, dual).place()),
      _ => return Err(Problem::Line(at, "neither a definition nor a rule")),
    };
    if defined.insert(name, place).is_some() {
      return Err(Problem::Line(at, "a name is defined twice"));
    }
  }
  let chart = builder.rule(sheet).build().map_err(|refusal| Problem::Refused(1, refusal))?;
  Ok((chart, defined))
}

/// The lines that say something, with their numbers from 1.
fn lines(sheet: &str) -> impl Iterator<Item = (usize, &str)> {
  let bare = sheet.lines().map(|line| line.split('#').next().unwrap_or("").trim());
  bare.enumerate().map(|(i, line)| (i + 1, line)).filter(|(_, line)| !line.is_empty())
}

/// The second pass: the rules, in order.
pub fn check(sheet: &str) -> Result<Report, Problem> {
  let (chart, defined) = define(sheet)?;
  let mut types = Types::open_largest(&chart);
  let mut vars = BTreeMap::new();
  let mut report = Report { text: String::new(), clashes: 0 };
  for (at, line) in lines(sheet) {
    let Some(rule) = line.strip_prefix("rule ") else { continue };
    let mut side = Reader {
      sheet,
      rest: rule,
      at,
      chart: &chart,
      defined: &defined,
      types: &mut types,
      vars: &mut vars,
    };
    let (name, left, right) = side.rule()?;
    let refused = |refusal| Problem::Refused(at, refusal);
    let before = types.clone();
    if types.unify(left, right).map_err(refused)? == UnifyResult::Success {
      _ = writeln!(report.text, "line {at}: {name}: {}", types.show(left).map_err(refused)?);
    } else {
      types = before;
      let (left, right) = (types.show(left).map_err(refused)?, types.show(right).map_err(refused)?);
      _ = writeln!(report.text, "line {at}: {name} CLASHES: {left} is not {right}");
      report.clashes += 1;
    }
  }
  for (var, t) in vars {
    let known = types.kind(t).map_err(|refusal| Problem::Refused(0, refusal))?.is_some();
    let text = types.show(t).map_err(|refusal| Problem::Refused(0, refusal))?;
    _ = writeln!(report.text, "?{var} {} {text}", if known { "is" } else { "is open:" });
  }
  Ok(report)
}

/// Reads a rule's types and makes them as it goes.
struct Reader<'s, 't> {
  sheet: &'s str,
  rest: &'s str,
  at: usize,
  chart: &'t Chart,
  defined: &'t Defined<'s>,
  types: &'t mut Types,
  vars: &'t mut BTreeMap<&'s str, Type>,
}

impl<'s> Reader<'s, '_> {
  fn wrong<T>(&self, what: &'static str) -> Result<T, Problem> {
    Err(Problem::Line(self.at, what))
  }

  fn take(&mut self, sign: char) -> bool {
    let rest = self.rest.trim_start();
    let taken = rest.strip_prefix(sign);
    self.rest = taken.unwrap_or(rest);
    taken.is_some()
  }

  fn expect(&mut self, sign: char, what: &'static str) -> Result<(), Problem> {
    if self.take(sign) { Ok(()) } else { self.wrong(what) }
  }

  /// Letters, digits, underscores.
  fn word(&mut self) -> Result<&'s str, Problem> {
    let rest = self.rest.trim_start();
    let end = rest.find(|c: char| !c.is_alphanumeric() && c != '_').unwrap_or(rest.len());
    if end == 0 {
      return self.wrong("a name is missing");
    }
    self.rest = &rest[end..];
    Ok(&rest[..end])
  }

  /// The same as a name: where it stands in the sheet, which is the rule text.
  fn name(&mut self) -> Result<Name, Problem> {
    let word = self.word()?;
    let start = word.as_ptr() as usize - self.sheet.as_ptr() as usize;
    Ok(Name::in_rule(start as u32, word.len() as u32))
  }

  fn make(&mut self, kind: TypeKind<'_>) -> Result<Type, Problem> {
    self.types.new(kind).map_err(|refusal| Problem::Refused(self.at, refusal))
  }

  fn rule(&mut self) -> Result<(&'s str, Type, Type), Problem> {
    let name = self.word()?;
    self.expect(':', "`:` is missing after the rule's name")?;
    let left = self.ty()?;
    self.expect('=', "`=` is missing between the two sides")?;
    let right = self.ty()?;
    if !self.rest.trim().is_empty() {
      return self.wrong("something stands behind the rule");
    }
    Ok((name, left, right))
  }

  fn list(&mut self, close: char) -> Result<Vec<Type>, Problem> {
    let mut list = Vec::new();
    while !self.take(close) {
      list.push(self.ty()?);
      if !self.take(',') {
        self.expect(close, "a list isn't closed")?;
        break;
      }
    }
    Ok(list)
  }

  fn fields(&mut self) -> Result<Vec<(Name, Type)>, Problem> {
    let mut fields = Vec::new();
    while !self.take('}') {
      let name = self.name()?;
      self.expect(':', "`:` is missing after a field's name")?;
      fields.push((name, self.ty()?));
      if !self.take(',') {
        self.expect('}', "an object isn't closed")?;
        break;
      }
    }
    self.chart.sort_fields(&mut fields);
    Ok(fields)
  }

  fn ty(&mut self) -> Result<Type, Problem> {
    if self.take('~') {
      return Ok(!self.ty()?);
    }
    if self.take('?') {
      let var = self.word()?;
      if let Some(&t) = self.vars.get(var) {
        return Ok(t);
      }
      let t = self
        .types
        .new_var(Span(self.at as u32))
        .map_err(|refusal| Problem::Refused(self.at, refusal))?;
      self.vars.insert(var, t);
      return Ok(t);
    }
    if self.take('!') {
      return self.make(TypeKind::Never);
    }
    if self.take('&') {
      let of = self.ty()?;
      return self.make(TypeKind::Ref(of));
    }
    if self.take('.') {
      let name = self.name()?;
      return self.make(TypeKind::Key(name));
    }
    if self.take('(') {
      let list = self.list(')')?;
      return self.make(TypeKind::Tuple(&list));
    }
    if self.take('{') {
      let fields = self.fields()?;
      return self.make(TypeKind::Object(&fields));
    }
    let word = self.word()?;
    let Some(&(sort, place)) = self.defined.get(word) else {
      return self.wrong("a name isn't defined");
    };
    let list = if self.take('[') { self.list(']')? } else { Vec::new() };
    self.make(match sort {
      Sort::Opaque => TypeKind::Opaque(OpaqueTypeId::at(place), &list),
      Sort::Struct => TypeKind::Struct(StructId::at(place), &list),
      Sort::Enum => TypeKind::Enum(EnumId::at(place), &list),
      _ => TypeKind::Union(UnionId::at(place), &list),
    })
  }
}

#[allow(dead_code)]
fn main() -> ExitCode {
  let sheet = match env::args().nth(1) {
    Some(file) => fs::read_to_string(file),
    None => io::read_to_string(io::stdin()),
  };
  let sheet = match sheet {
    Ok(sheet) => sheet,
    Err(error) => {
      eprintln!("{error}");
      return ExitCode::from(2);
    }
  };
  match check(&sheet) {
    Ok(report) => {
      print!("{}", report.text);
      ExitCode::from(u8::from(report.clashes > 0))
    }
    Err(problem) => {
      eprintln!("{problem}");
      ExitCode::from(2)
    }
  }
}
