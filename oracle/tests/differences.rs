//! The trees of docs/DIFFERENCES.md on the unchanged Rust: each becomes what
//! stands there, and in the tables has the diagnostics that stand there.

use oracle::call::Answer;
use oracle::call::call;
use oracle::grammar::entry_range;
use oracle::notation::parse;
use oracle::notation::show;
use oracle::record::Rec;

/// The tree that is written, and the diagnostics as the tables have them: a
/// range only where it is not 0 to 0.
fn gives(tree: &str) -> (String, String) {
  let mut out = vec![0; 65_536];
  let mut room = vec![0; 21_840];
  let bytes = parse(tree).unwrap().encode().unwrap();
  let Answer::Done(length, count) = call(&bytes, &[], 1, &mut out, &mut room)
  else {
    panic!("{tree} is refused")
  };
  let told: Vec<String> = room
    .chunks(10)
    .take(count)
    .map(|d| match entry_range(d) {
      (0, 0) => format!("d{}", d[1] as char),
      (start, end) => format!("d{} {start} {end}", d[1] as char),
    })
    .collect();
  let told = if told.is_empty() {
    "none".into()
  } else {
    told.join(", ")
  };
  (show(&Rec::read(&out[..length], 0).unwrap().0), told)
}

/// The tree in backquotes in a cell of a table.
fn tree(cell: &str) -> Option<&str> {
  let start = cell.find("`Mo")? + 1;
  cell[start..].split('`').next()
}

#[test]
fn entries() {
  let text = include_str!("../../docs/DIFFERENCES.md");
  let words = text.split_whitespace().collect::<Vec<_>>().join(" ");
  let parts: Vec<&str> = words.split("` becomes `").collect();
  let mut count = 0;
  for pair in parts.windows(2) {
    let before = pair[0].rsplit('`').next().unwrap();
    let after = pair[1].split('`').next().unwrap();
    if before.starts_with("Mo") {
      assert_eq!(gives(before).0, after, "{before}");
      count += 1;
    }
  }
  assert!(count >= 38, "{count}");
}

#[test]
fn tables() {
  let mut count = 0;
  for line in include_str!("../../docs/DIFFERENCES.md").lines() {
    let cells: Vec<&str> = line.trim_matches('|').split(" | ").collect();
    if cells.len() == 6
      && let (Some(before), Some(after)) = (tree(cells[2]), tree(cells[3]))
    {
      assert_eq!(gives(before), (after.into(), cells[4].into()), "{before}");
      count += 1;
    }
  }
  assert!(count >= 44, "{count}");
}
