//! What holds of every random case: decoding and encoding give the tree back,
//! the notation and the lines read back, demand 3; and how often each mark
//! comes up.

use oracle::call::Answer;
use oracle::generate::limits;
use oracle::grammar::Grammar;
use oracle::lines;
use oracle::measure::Counts;
use oracle::measure::numbered;
use oracle::measure::twice;
use oracle::notation;
use oracle::record::Rec;

#[test]
fn decoding_and_encoding_is_the_identity() {
  let mut counts = Counts::default();
  for number in 0..20_000 {
    counts.add(&numbered(11, number, false));
  }
  assert_eq!(counts.changed, 0);
  assert_eq!(counts.too_many, 0);
  assert!(counts.accepted > 10_000);
  for mark in Grammar::marks() {
    assert!(counts.marks.get(mark).is_some_and(|n| *n > 100), "{mark}");
  }
  for number in 2..=10 {
    assert!(
      counts.refused.get(&number).is_some_and(|n| *n > 100),
      "{number}"
    );
  }
}

#[test]
fn the_grammar_has_85_marks() {
  assert_eq!(Grammar::marks().count(), 85);
}

#[test]
fn notation_reads_back() {
  for number in 0..5_000 {
    let case = numbered(12, number, true);
    if let Some((tree, _)) = Rec::read(&case.tree, 0) {
      let text = notation::show(&tree);
      assert_eq!(notation::parse(&text), Ok(tree), "{text}");
    }
  }
}

#[test]
fn lines_read_back() {
  for number in 0..2_000 {
    let case = numbered(13, number, false);
    let outcome = lines::outcome(&case);
    let line = lines::write(&case, &outcome);
    let (case_again, outcome_again) = lines::read(&line).unwrap();
    assert_eq!(outcome_again, outcome);
    assert_eq!(lines::write(&case_again, &outcome_again), line);
  }
}

#[test]
fn demand_3() {
  let twice = twice((0..5_000).map(|number| numbered(14, number, true)));
  assert!(twice.failed.is_empty());
  assert!(twice.met > 3_000);
}

#[test]
fn limits_are_reached() {
  let answers: Vec<Answer> = limits()
    .iter()
    .map(|case| lines::outcome(case).answer)
    .collect();
  let refused = |number: u8| {
    answers.iter().any(
      |answer| matches!(answer, Answer::Refused(no) if no.number == number),
    )
  };
  assert!(refused(1) && refused(2) && refused(7) && refused(9));
}
