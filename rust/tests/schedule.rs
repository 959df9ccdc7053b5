//! The scheduler of the examples on its sample.

#[path = "../examples/schedule.rs"]
#[allow(unused)]
mod schedule;

use schedule::{ORDERS, Order, Rule, Scheduler, TANKS};

#[test]
fn the_sample() {
  assert_eq!(schedule::sample().unwrap(), include_str!("../examples/schedule.out"));
}

#[test]
fn a_schedule_leaves_no_name_held() {
  let mut scheduler = Scheduler::new(TANKS).unwrap();
  assert!(scheduler.schedule(ORDERS).unwrap());
  assert_eq!(scheduler.held(), 0);
}

#[test]
fn orders_that_cannot_be_planned_leave_the_tanks_as_they_were() {
  let mut scheduler = Scheduler::new(2).unwrap();
  let orders = [
    Order { name: "sweet", rules: &[Rule { tanks: &[0, 1], hold: &["Sugar", "Water"] }] },
    Order {
      name: "salty",
      rules: &[
        Rule { tanks: &[1, 0], hold: &["Water", "Salt"] },
        Rule { tanks: &[0], hold: &["Salt"] },
      ],
    },
  ];
  assert!(!scheduler.schedule(&orders).unwrap());
  assert_eq!((scheduler.plan().unwrap().as_str(), scheduler.held()), ("?0, ?1", 0));
}
