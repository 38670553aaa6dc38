//! The recorded cases get the recorded answers.

use oracle::lines;

#[test]
fn recorded_cases() {
  let text = include_str!("../cases/shown.txt");
  assert!(text.lines().count() >= 300);
  for line in text.lines() {
    let (case, outcome) = lines::read(line).expect("a case");
    assert_eq!(lines::outcome(&case), outcome, "{line}");
  }
}
