//! Runs lists of calls on Vine's type store. Reads a line, writes a line: the answer as JSON.
//! The lines are listed in README.md.

mod fixed;
mod json;
mod run;
mod structures;
mod words;

use std::io::{self, BufRead, Write};

use fixed::{Fixed, Record};
use run::{Run, Store};
use words::Words;

#[derive(Default)]
struct Oracle {
  fixed: Fixed,
  records: Vec<Record>,
  source: Store,
  store: Store,
}

impl Oracle {
  fn line(&mut self, line: &str) -> String {
    let words: Vec<&str> = line.split_whitespace().collect();
    match words[0] {
      "text" => self.fixed.add_text(words[1]),
      "record" => self.records.push(self.fixed.record(&words[1..])),
      "chart" => {
        self.fixed.chart(&self.records);
        self.fixed.builtins(&words[1..]);
      }
      // A new case: two empty stores, the first of them in hand.
      "case" => (self.source, self.store) = Default::default(),
      // The store in hand is finished and becomes the source.
      "main" => self.source = std::mem::take(&mut self.store),
      "dump" => return self.store.dump(&self.fixed),
      _ => return self.call(line),
    }
    "{}".into()
  }

  fn call(&mut self, line: &str) -> String {
    let mut words = Words::new(line, &self.fixed);
    let name = words.word();
    Run { fixed: &self.fixed, source: &self.source.types, store: &mut self.store }
      .call(name, &mut words)
  }
}

fn main() -> io::Result<()> {
  let mut oracle = Oracle::default();
  let mut out = io::stdout().lock();
  for line in io::stdin().lock().lines() {
    writeln!(out, "{}", oracle.line(&line?))?;
    out.flush()?;
  }
  Ok(())
}
