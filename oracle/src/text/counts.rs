//! What many cases show of the text.

use std::collections::BTreeMap;

use super::Line;
use super::Node;
use super::last_byte;
use super::module;
use super::outside;
use super::text;
use super::tokens;
use crate::generate::TextCase;
use crate::grammar::Grammar;
use crate::grammar::check;

/// The marks with named flags, each with all of them.
pub const FLAGGED: [(&str, u8); 15] = [
  ("Fd", 1),
  ("Cd", 1),
  ("Vd", 3),
  ("En", 1),
  ("Ns", 1),
  ("Fu", 3),
  ("Me", 7),
  ("Cp", 3),
  ("Ix", 1),
  ("Pb", 1),
  ("Po", 1),
  ("Bl", 1),
  ("Id", 1),
  ("Qu", 1),
  ("Ps", 7),
];

/// What has to be shown beside the marks, their Ops, flags and escapes.
pub const SHOWN: [&str; 37] = [
  "a number: -0",
  "a number: 2^53 - 1",
  "a number: 1e15 or more",
  "a number: a spelling of no tokens",
  "a number: a spelling of several tokens",
  "a number: outside, with a spelling",
  "a number: outside, not written",
  "an array: a hole first",
  "an array: a hole between",
  "an array: a hole last",
  "an array: a last element without tokens",
  "a chain: over Mb with Ki",
  "a chain: over Mb with Op",
  "a chain: over Op",
  "a list: a part without tokens",
  "a member: ends in ;",
  "a member: ends in ; and has an empty token behind it",
  "a member: without tokens",
  "a member: a Dm",
  "a namespace: a name in double quotes",
  "a namespace: a name in single quotes",
  "a namespace: quotes within a name, or in its children",
  "a namespace: in another",
  "a namespace: two dots",
  "a namespace: without a body",
  "a template: as many quasis as expressions, and one",
  "a template: more quasis than turns",
  "a template: more expressions than quasis",
  "a template: an expression without tokens",
  "a template: in a template",
  "a template: directly in a template",
  "an item: without tokens",
  "an Op: a line feed in it",
  "the module's own Ops: a line",
  "the module's own Ops: no line",
  "refused 11: two numbers",
  "refused 11: a later number written first",
];

#[derive(Default)]
pub struct Texts {
  pub cases: u64,
  pub done: u64,
  /// By the refusal's number.
  pub refused: BTreeMap<u8, u64>,
  /// Of calls that were done: bytes and lines of the texts.
  pub bytes: u64,
  pub lines: u64,
  /// Of calls that were done: records that stand where the table writes them,
  /// or where it leaves them out by their own row; by mark.
  pub marks: BTreeMap<String, u64>,
  /// Those with a trailing `Op` that has a nonempty token.
  pub with_ops: BTreeMap<String, u64>,
  /// Those with each of the values of the named flags.
  pub flags: BTreeMap<(String, u8), u64>,
  /// The bytes of `Ss` and of `Qu`.
  pub values: BTreeMap<(String, u8), u64>,
  pub shown: BTreeMap<&'static str, u64>,
}

impl Texts {
  pub fn add(&mut self, case: &TextCase) {
    self.cases += 1;
    let answer = text(&case.tree, case.room);
    if let Err(no) = answer {
      *self.refused.entry(no.number).or_default() += 1;
    }
    if check(&case.tree, &[]).is_err() {
      return;
    }
    let (root, _) = Node::read(&case.tree, 0);
    let lines = module(&root);
    let Ok(text) = answer else {
      self.outside(&lines);
      return;
    };
    self.done += 1;
    self.bytes += text.len() as u64;
    self.lines += lines.len() as u64;
    if !root.ops.is_empty() {
      let line = root.ops.iter().any(|op| !is_empty(op));
      self.if_so(line, "the module's own Ops: a line");
      self.if_so(!line, "the module's own Ops: no line");
    }
    self.record(&root, &[]);
  }

  /// Notes the name, one of `SHOWN`, if it is so.
  fn if_so(&mut self, so: bool, name: &'static str) {
    assert!(SHOWN.contains(&name), "{name}");
    if so {
      *self.shown.entry(name).or_default() += 1;
    }
  }

  fn outside(&mut self, lines: &[Line]) {
    let places = outside(lines);
    self.if_so(places.len() > 1, "refused 11: two numbers");
    self.if_so(
      places.first() != places.iter().min(),
      "refused 11: a later number written first",
    );
  }

  /// A record that is written, and the marks of those around it.
  fn record(&mut self, r: &Node, around: &[&str]) {
    let mark = std::str::from_utf8(&r.mark).expect("a mark");
    let count = |of: &mut BTreeMap<String, u64>| {
      *of.entry(mark.to_string()).or_default() += 1;
    };
    count(&mut self.marks);
    if r.ops.iter().any(|op| !is_empty(op)) {
      count(&mut self.with_ops);
    }
    if let Some((_, named)) = FLAGGED.iter().find(|row| row.0 == mark) {
      let key = (mark.to_string(), r.flags & named);
      *self.flags.entry(key).or_default() += 1;
    }
    if matches!(mark, "Ss" | "Qu") {
      for b in r.text {
        *self.values.entry((mark.to_string(), *b)).or_default() += 1;
      }
    }
    self.rules(r, mark, around);
    let mut inner = around.to_vec();
    inner.push(mark);
    for (slot, part) in r.parts.iter().enumerate() {
      match (mark, slot) {
        ("Vr", 1) | ("Cp", 2) => self.left_out(part),
        ("Fu", 2) | ("Co", 0) => {}
        _ => self.record(part, &inner),
      }
    }
    // Those of a `Qu` and of a literal are left out.
    if !matches!(mark, "Qu" | "Ss" | "Nu" | "Bi" | "Bl" | "Nl" | "Jt") {
      for op in &r.ops {
        self.record(op, &inner);
      }
    }
  }

  /// An initial value.
  fn left_out(&mut self, r: &Node) {
    let number = r.is("Nu") && r.ops.is_empty();
    self.if_so(
      number && super::decimal(r.text).is_none(),
      "a number: outside, not written",
    );
    for part in &r.parts {
      self.left_out(part);
    }
  }

  fn rules(&mut self, r: &Node, mark: &str, around: &[&str]) {
    match mark {
      "Nu" => self.number(r),
      "Ar" => {
        let hole = |x: &Node| x.is("No");
        if let [first, .., last] = &r.parts[..] {
          let between = &r.parts[1..r.parts.len() - 1];
          self.if_so(hole(first), "an array: a hole first");
          self.if_so(between.iter().any(hole), "an array: a hole between");
          self.if_so(hole(last), "an array: a hole last");
        }
        let last = r.parts.last().filter(|x| !hole(x));
        self.if_so(
          last.is_some_and(is_empty),
          "an array: a last element without tokens",
        );
      }
      "Oc" => {
        let over = &r.parts[0];
        let name = over.parts.get(1);
        let named = |mark: &str| name.is_some_and(|x| x.is(mark));
        self.if_so(named("Ki"), "a chain: over Mb with Ki");
        self.if_so(over.is("Mb") && named("Op"), "a chain: over Mb with Op");
        self.if_so(over.is("Op"), "a chain: over Op");
      }
      "Vd" | "Ob" | "Tu" => self.if_so(
        r.parts.len() > 1 && r.parts.iter().any(is_empty),
        "a list: a part without tokens",
      ),
      "Co" | "Me" | "Cp" | "Ix" | "Ps" | "Om" => {
        let tokens = tokens(r);
        let ended = last_byte(&tokens) == Some(b';');
        let behind = tokens.last().is_some_and(|t| t.bytes().is_empty());
        self.if_so(ended, "a member: ends in ;");
        self.if_so(
          ended && behind,
          "a member: ends in ; and has an empty token behind it",
        );
        self.if_so(is_empty(r), "a member: without tokens");
      }
      "Dm" => self.if_so(true, "a member: a Dm"),
      "Ns" => self.namespace(r, around),
      "Te" => self.template(r, around),
      "Op" => self.if_so(r.text.contains(&b'\n'), "an Op: a line feed in it"),
      _ => {}
    }
    let item = matches!(around.last(), Some(&"Mo" | &"Nb")) && mark != "St";
    self.if_so(
      item && mark != "Op" && is_empty(r),
      "an item: without tokens",
    );
  }

  fn number(&mut self, r: &Node) {
    let decimal = super::decimal(r.text);
    let Some(spelling) = r.ops.first() else {
      let decimal = decimal.expect("the call was done");
      self.if_so(decimal == "-0", "a number: -0");
      let last = decimal.trim_start_matches('-') == "9007199254740991";
      self.if_so(last, "a number: 2^53 - 1");
      self.if_so(decimal.len() >= 16, "a number: 1e15 or more");
      return;
    };
    let tokens = tokens(spelling);
    let count = tokens.iter().filter(|t| !t.bytes().is_empty()).count();
    self.if_so(count == 0, "a number: a spelling of no tokens");
    self.if_so(count > 1, "a number: a spelling of several tokens");
    self.if_so(decimal.is_none(), "a number: outside, with a spelling");
  }

  fn namespace(&mut self, r: &Node, around: &[&str]) {
    let (name, body) = (&r.parts[0], &r.parts[1]);
    let first = name.text.first();
    let quote = |b: &u8| matches!(b, b'"' | b'\'');
    self.if_so(first == Some(&b'"'), "a namespace: a name in double quotes");
    self.if_so(
      first == Some(&b'\''),
      "a namespace: a name in single quotes",
    );
    let within = name.text.iter().any(quote)
      || name.ops.iter().any(|op| op.text.first().is_some_and(quote));
    self.if_so(
      within && !first.is_some_and(quote),
      "a namespace: quotes within a name, or in its children",
    );
    self.if_so(around.contains(&"Ns"), "a namespace: in another");
    self.if_so(
      body.is("Nd") && body.parts[1].is("Nd"),
      "a namespace: two dots",
    );
    self.if_so(body.is("No"), "a namespace: without a body");
  }

  fn template(&mut self, r: &Node, around: &[&str]) {
    let count = r.parts.iter().filter(|x| x.is("Qu")).count();
    let (quasis, expressions) = r.parts.split_at(count);
    let (quasis, turns) = (quasis.len(), expressions.len());
    self.if_so(
      turns > 0 && quasis == turns + 1,
      "a template: as many quasis as expressions, and one",
    );
    self.if_so(
      turns > 0 && quasis > turns + 1,
      "a template: more quasis than turns",
    );
    self.if_so(
      quasis > 0 && quasis < turns,
      "a template: more expressions than quasis",
    );
    self.if_so(
      expressions.iter().any(is_empty),
      "a template: an expression without tokens",
    );
    self.if_so(around.contains(&"Te"), "a template: in a template");
    self.if_so(
      around.last() == Some(&"Te"),
      "a template: directly in a template",
    );
  }

  /// What no case has shown: marks, Ops of each, values of flags, bytes in
  /// strings and cooked texts, and rules.
  pub fn missing(&self) -> Vec<String> {
    let mut missing = vec![];
    for mark in Grammar::marks() {
      if !self.marks.contains_key(mark) {
        missing.push(format!("the mark {mark}"));
      }
      if mark != "No" && !self.with_ops.contains_key(mark) {
        missing.push(format!("Ops of {mark}"));
      }
    }
    for (mark, named) in FLAGGED {
      for flags in 0..=named {
        if !self.flags.contains_key(&(mark.to_string(), flags)) {
          missing.push(format!("{mark} with flags {flags}"));
        }
      }
    }
    for mark in ["Ss", "Qu"] {
      for b in 0..=255 {
        if !self.values.contains_key(&(mark.to_string(), b)) {
          missing.push(format!("{mark} with byte {b}"));
        }
      }
    }
    for name in SHOWN {
      if !self.shown.contains_key(name) {
        missing.push(name.to_string());
      }
    }
    missing
  }

  pub fn print(&self) {
    println!("cases {}", self.cases);
    println!("done {}", self.done);
    for (number, count) in &self.refused {
      println!("refused {number}: {count}");
    }
    println!("lines of texts {}, bytes {}", self.lines, self.bytes);
    println!("written records, and those with Ops that are not empty:");
    for mark in Grammar::marks() {
      let of =
        |counts: &BTreeMap<String, u64>| counts.get(mark).copied().unwrap_or(0);
      print!("{mark} {} {}  ", of(&self.marks), of(&self.with_ops));
    }
    println!();
    for name in SHOWN {
      println!("{name}: {}", self.shown.get(name).unwrap_or(&0));
    }
    println!("not shown: {}", self.missing().join(", "));
  }
}

/// A record without tokens.
fn is_empty(r: &Node) -> bool {
  tokens(r).iter().all(|token| token.bytes().is_empty())
}
