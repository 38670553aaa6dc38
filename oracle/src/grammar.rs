//! Document 01's grammar and its refusals 1 to 8, read independently of the
//! port: a table in the paper's words, and one walk over the bytes.

use std::cell::Cell;
use std::collections::HashMap;
use std::sync::OnceLock;

use crate::record::HEAD;
use crate::record::Head;
use crate::record::Mark;

pub const MAX_TREE: usize = 524_288;
pub const MAX_LIST: usize = 40_960;
pub const MAX_DEPTH: usize = 64;

/// A refusal's number and place.
#[derive(Clone, Copy, Debug, PartialEq, Eq)]
pub struct Refused {
  pub number: u8,
  pub place: usize,
}

fn refused(number: u8, place: usize) -> Result<(), Refused> {
  Err(Refused { number, place })
}

/// Words of the paper that stand for several marks.
pub const WORDS: &[(&str, &str)] = &[
  ("item", "Im|St|Ed|Xd|Xe|declaration"),
  ("declaration", "Fd|Cd|Vd|Us|En|Ns|In|Ty"),
  ("member", "Co|Me|Cp|Ix|Dm"),
  ("key", "Ki|Ss|Nu|Bi|Kc"),
  ("pattern", "Bd|Pb|Po|Rs|Ag|Pe|Pi"),
  ("literal", "Ss|Nu|Bi|Bl|Nl|Re|Jt"),
  (
    "expression",
    "literal|Id|Ar|Ob|Fx|Aw|Te|Mi|Ca|Ne|Mb|Bn|Oc|Tc|Nn|Pr|As|Ts|Ta|Cx|Oe",
  ),
  ("type", "Kw|Tl|Rf|Tf|Li|Ay|Tu|Rt|Ro|Ft|Ct|Ot"),
];

/// Mark, form of the text, children. A record may have `Op`s after these.
/// `Ag'` is the `Ag` of a `Pp`: a record `Ag` whose left side is no `Pb` or `Po`.
pub const GRAMMAR: &[(&str, &str, &str)] = &[
  ("No", "", "nothing"),
  ("Op", "any", ""),
  // Items
  ("Mo", "", "item*"),
  ("Im", "", ""),
  ("St", "", ""),
  ("Ed", "", "declaration"),
  ("Xd", "", "Cx|Fx|In"),
  ("Xe", "", "expression"),
  ("Fd", "", "Id Fu"),
  ("Cd", "", "Id Cl"),
  ("Vd", "", "Vr*"),
  ("Us", "", ""),
  ("En", "", "Id Em*"),
  ("Ns", "", "Op Nb|Nd?"),
  ("In", "", ""),
  ("Ty", "", ""),
  ("Vr", "", "pattern expression?"),
  ("Em", "", "Op expression?"),
  ("Nb", "", "item*"),
  ("Nd", "", "Op Nb|Nd"),
  // Functions and classes
  ("Fu", "", "Op? type? Op? Pa*"),
  ("Pa", "", "pattern"),
  ("Cl", "", "Op? member*"),
  ("Co", "", "Op? Pa|Pp*"),
  ("Me", "", "key Fu"),
  ("Cp", "", "key type? expression?"),
  ("Ix", "", ""),
  ("Dm", "", ""),
  ("Pp", "", "Bd|Ag'"),
  ("Ag'", "", "Bd|Rs|Ag|Pe|Pi expression"),
  ("Ki", "any", ""),
  ("Kc", "", "expression"),
  ("Bd", "", "Id type?"),
  ("Pb", "", "type?"),
  ("Po", "", "type?"),
  ("Rs", "", ""),
  ("Ag", "", "pattern expression"),
  ("Pe", "", "expression"),
  ("Pi", "", ""),
  // Expressions
  ("Ss", "any", ""),
  ("Nu", "f64", ""),
  ("Bi", "integer", ""),
  ("Bl", "", ""),
  ("Nl", "", ""),
  ("Re", "", ""),
  ("Jt", "", ""),
  ("Id", "context", ""),
  ("Ar", "", "expression|Sp|No*"),
  ("Sp", "", "expression"),
  ("Ob", "", "Kv|Sh|Pq|Sp*"),
  ("Kv", "", "key expression"),
  ("Sh", "", "Id"),
  ("Pq", "", ""),
  ("Fx", "", "Id? Fu"),
  ("Aw", "", "Op? type? pattern*"),
  ("Te", "", "Qu* expression*"),
  ("Qu", "cooked", ""),
  ("Mi", "", "expression"),
  ("Ca", "", "expression expression|Sp*"),
  ("Ne", "", "expression Op?"),
  ("Mb", "", "expression Ki|Op"),
  ("Bn", "", "expression expression"),
  ("Oc", "", "Mb|Op"),
  ("Tc", "", "expression"),
  ("Nn", "", "expression"),
  ("Pr", "", "expression"),
  ("As", "", "expression type"),
  ("Ts", "", "expression type"),
  ("Ta", "", "expression type"),
  ("Cx", "", "Id? Cl"),
  ("Oe", "", ""),
  // Types
  ("Kw", "any", ""),
  ("Tl", "", "Ss|Nu|Bi|Bl|Op"),
  ("Rf", "", "Id|Op Op?"),
  ("Tf", "", "Id|Op"),
  ("Li", "", "Ps|Ix|Om*"),
  ("Ps", "", "expression type?"),
  ("Ay", "", ""),
  ("Tu", "", "Tm*"),
  ("Tm", "", "Op? type"),
  ("Rt", "", "type"),
  ("Ro", "", "type"),
  ("Ft", "", "Op? type pattern*"),
  ("Ct", "", ""),
  ("Ot", "", ""),
  ("Om", "", ""),
];

/// A place for children: rows of the grammar that fit it, and whether it takes
/// one child or any number.
#[derive(Clone, Debug)]
pub struct Slot {
  pub rows: Vec<usize>,
  pub many: bool,
}

pub struct Row {
  pub name: &'static str,
  pub form: &'static str,
  pub slots: Vec<Slot>,
  /// `No` has no children at all, not even `Op`s.
  pub childless: bool,
}

pub struct Grammar {
  pub rows: Vec<Row>,
  by_name: HashMap<&'static str, usize>,
  /// The row of a record's mark.
  by_mark: HashMap<Mark, usize>,
  op: usize,
}

impl Grammar {
  pub fn get() -> &'static Grammar {
    static GET: OnceLock<Grammar> = OnceLock::new();
    GET.get_or_init(Grammar::new)
  }

  fn new() -> Grammar {
    let by_name: HashMap<&str, usize> = GRAMMAR
      .iter()
      .enumerate()
      .map(|(number, row)| (row.0, number))
      .collect();
    let by_mark = by_name
      .iter()
      .filter_map(|(name, number)| {
        Some((name.as_bytes().try_into().ok()?, *number))
      })
      .collect();
    let rows = GRAMMAR
      .iter()
      .map(|(name, form, children)| Row {
        name,
        form,
        childless: *children == "nothing",
        slots: match *children {
          "nothing" => vec![],
          words => words
            .split_whitespace()
            .map(|word| slot(&by_name, word))
            .collect(),
        },
      })
      .collect();
    let op = by_name["Op"];
    Grammar {
      rows,
      by_name,
      by_mark,
      op,
    }
  }

  pub fn row(&self, name: &str) -> &Row {
    &self.rows[self.by_name[name]]
  }

  pub fn marks() -> impl Iterator<Item = &'static str> {
    GRAMMAR
      .iter()
      .map(|row| row.0)
      .filter(|name| name.len() == 2)
  }
}

fn slot(by_name: &HashMap<&str, usize>, word: &str) -> Slot {
  let (names, absent, many) = match word.as_bytes()[word.len() - 1] {
    b'?' => (&word[..word.len() - 1], true, false),
    b'*' => (&word[..word.len() - 1], false, true),
    _ => (word, false, false),
  };
  let mut rows = vec![];
  add_rows(by_name, names, &mut rows);
  if absent {
    rows.push(by_name["No"]);
  }
  Slot { rows, many }
}

fn add_rows(
  by_name: &HashMap<&str, usize>,
  names: &str,
  rows: &mut Vec<usize>,
) {
  for name in names.split('|') {
    match WORDS.iter().find(|word| word.0 == name) {
      Some(word) => add_rows(by_name, word.1, rows),
      None => rows.push(by_name[name]),
    }
  }
}

/// Refusals 1 to 8, in document 01's order.
pub fn check(tree: &[u8], list: &[u8]) -> Result<(), Refused> {
  if tree.len() > MAX_TREE {
    return refused(1, 0);
  }
  if !list_is_good(list) {
    return refused(2, 0);
  }
  let root = [Grammar::get().by_name["Mo"]];
  let end = check_record(tree, 0, 1, &|row| root.contains(&row))?;
  if end < tree.len() {
    return refused(8, end);
  }
  Ok(())
}

fn list_is_good(list: &[u8]) -> bool {
  list.len() <= MAX_LIST
    && list.len() % 10 == 0
    && list.chunks(10).all(|entry| {
      let (start, end) = entry_range(entry);
      entry[..2] == *b"ov" && start <= end
    })
}

pub fn entry_range(entry: &[u8]) -> (u32, u32) {
  let number =
    |at: usize| u32::from_le_bytes(entry[at..at + 4].try_into().unwrap());
  (number(2), number(6))
}

/// The record at `at`, on level `depth`, in a place that takes the rows that
/// `fits` says. Gives the offset after it.
fn check_record(
  tree: &[u8],
  at: usize,
  depth: usize,
  fits: &dyn Fn(usize) -> bool,
) -> Result<usize, Refused> {
  let grammar = Grammar::get();
  let no = |number: u8| Refused { number, place: at };
  if depth > MAX_DEPTH {
    return Err(no(7));
  }
  let head = Head::read(tree, at).ok_or(no(3))?;
  let mut row = *grammar.by_mark.get(&head.mark).ok_or(no(4))?;
  if !fits(row) {
    // The one mark with two rows.
    let narrow = grammar.by_name["Ag'"];
    if row != grammar.by_name["Ag"] || !fits(narrow) {
      return Err(no(5));
    }
    row = narrow;
  }
  if head.start > head.end {
    return Err(no(6));
  }
  let body = at + HEAD + head.text_length;
  let text = tree.get(at + HEAD..body).ok_or(no(3))?;
  let row = &grammar.rows[row];
  let least = row.slots.iter().filter(|slot| !slot.many).count();
  if !text_is_good(row.form, head.flags, text) || head.count < least {
    return Err(no(5));
  }
  let mut next = body;
  // The slot that the next child may fill; past the last one only `Op`s.
  let now = Cell::new(0);
  for _ in 0..head.count {
    next = check_record(tree, next, depth + 1, &|kid| {
      let mut place = now.get();
      loop {
        match row.slots.get(place) {
          None => {
            now.set(place);
            return kid == grammar.op && !row.childless;
          }
          Some(slot) if slot.rows.contains(&kid) => {
            now.set(if slot.many { place } else { place + 1 });
            return true;
          }
          Some(slot) if slot.many => place += 1,
          Some(_) => return false,
        }
      }
    })?;
  }
  Ok(next)
}

fn text_is_good(form: &str, flags: u8, text: &[u8]) -> bool {
  match form {
    "" => text.is_empty(),
    "any" => true,
    "f64" => text.len() == 8,
    "integer" => match text {
      [0, b'0'] => true,
      [0 | 1, first, rest @ ..] => {
        (b'1'..=b'9').contains(first) && rest.iter().all(u8::is_ascii_digit)
      }
      _ => false,
    },
    "context" => text.len() >= 4,
    "cooked" => flags & 1 == 1 || text.is_empty(),
    _ => unreachable!("no such form"),
  }
}
