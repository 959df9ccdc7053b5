//! A scheduler: it gives each order a rule that fits what is planned so far. A rule is tried on the plan itself; where it
//! fails it has bound some tanks already, so the scheduler returns to the state before it and tries the next rule. Where
//! an order has no rule left, the order before it gets another one.
//!
//! ```sh
//! cargo run --example schedule
//! ```

use std::fmt::Write;

use faroalder::{Chart, DefId, EnumId, Refusal, Span, Type, TypeKind, Types, UnifyResult};

/// What is to be made, and the rules for it, the best first.
pub struct Order {
  /// Its name.
  pub name: &'static str,
  /// Its rules.
  pub rules: &'static [Rule],
}

/// Tanks, by number, and what each has to hold.
pub struct Rule {
  /// The tanks.
  pub tanks: &'static [usize],
  /// What they hold, tank by tank.
  pub hold: &'static [&'static str],
}

/// The sample's tanks.
pub const TANKS: usize = 4;

/// The sample's orders.
pub const ORDERS: &[Order] = &[
  Order {
    name: "lemonade",
    rules: &[
      Rule { tanks: &[0, 1], hold: &["Sugar", "Water"] },
      Rule { tanks: &[2, 1], hold: &["Sugar", "Water"] },
    ],
  },
  Order {
    name: "dough",
    rules: &[
      Rule { tanks: &[3, 0], hold: &["Flour", "Water"] },
      Rule { tanks: &[3, 1], hold: &["Flour", "Water"] },
    ],
  },
  Order { name: "brine", rules: &[Rule { tanks: &[1, 0], hold: &["Water", "Salt"] }] },
  Order {
    name: "flour",
    rules: &[Rule { tanks: &[2], hold: &["Flour"] }, Rule { tanks: &[3], hold: &["Flour"] }],
  },
];

/// A plan, and what is said of it on the way.
pub struct Scheduler {
  types: Types,
  goods: Vec<(&'static str, EnumId)>,
  tanks: Vec<Type>,
  /// A line for each try and each return.
  pub said: String,
}

impl Scheduler {
  /// Empty tanks, each a variable.
  pub fn new(tanks: usize) -> Result<Scheduler, Refusal> {
    let mut chart = Chart::builder();
    let goods = ["Sugar", "Water", "Flour", "Salt"].into_iter().zip(1..);
    let goods: Vec<_> =
      goods.map(|(name, def)| (name, chart.enumeration(name, name, DefId(def)))).collect();
    let mut types = Types::open(&chart.build()?, 256, 256)?;
    let tanks = types.new_vars(Span(0), tanks)?;
    Ok(Scheduler { types, goods, tanks, said: String::new() })
  }

  /// What the tanks hold.
  pub fn plan(&self) -> Result<String, Refusal> {
    let shown: Result<Vec<_>, _> = self.tanks.iter().map(|tank| self.types.show(*tank)).collect();
    Ok(shown?.join(", "))
  }

  fn say(&mut self, line: String) {
    writeln!(self.said, "{line}").expect("a String takes any text");
  }

  /// The rule's tanks and goods as two types of one shape, unified.
  fn fits(&mut self, rule: &Rule) -> Result<bool, Refusal> {
    let tanks: Vec<_> = rule.tanks.iter().map(|tank| self.tanks[*tank]).collect();
    let mut hold = Vec::new();
    for name in rule.hold {
      let (_, id) = *self.goods.iter().find(|(good, _)| good == name).ok_or(Refusal::Undefined)?;
      hold.push(self.types.new(TypeKind::Enum(id, &[]))?);
    }
    let tanks = self.types.new(TypeKind::Tuple(&tanks))?;
    let hold = self.types.new(TypeKind::Tuple(&hold))?;
    Ok(self.types.unify(tanks, hold)? == UnifyResult::Success)
  }

  /// A rule for each of the orders; whether there is one for all. The state before an order is held under its name.
  pub fn schedule(&mut self, orders: &[Order]) -> Result<bool, Refusal> {
    let Some((order, others)) = orders.split_first() else { return Ok(true) };
    self.types.name(order.name)?;
    let mut placed = false;
    for (i, rule) in order.rules.iter().enumerate() {
      let fits = self.fits(rule)?;
      let verdict = if fits { "fits" } else { "fails" };
      let plan = self.plan()?;
      self.say(format!("{}, rule {}: {verdict}: {plan}", order.name, i + 1));
      placed = fits && self.schedule(others)?;
      if placed {
        break;
      }
      self.types.return_to(order.name)?;
      let plan = self.plan()?;
      self.say(format!("back before {}: {plan}", order.name));
    }
    self.types.drop_name(order.name)?;
    Ok(placed)
  }

  /// How many states are held.
  pub fn held(&self) -> usize {
    self.types.names().len()
  }
}

/// The sample's schedule as text.
pub fn sample() -> Result<String, Refusal> {
  let mut scheduler = Scheduler::new(TANKS)?;
  let placed = scheduler.schedule(ORDERS)?;
  let plan = scheduler.plan()?;
  scheduler.say(format!("{}: {plan}", if placed { "planned" } else { "no plan" }));
  Ok(scheduler.said)
}

fn main() -> Result<(), Refusal> {
  print!("{}", sample()?);
  Ok(())
}
