//! What stands in the programs' folders is what the oracle makes.

use std::path::Path;

fn same(program: &str, stdin: &[u8], stdout: &str) {
  let folder = Path::new(env!("CARGO_MANIFEST_DIR"))
    .join("../crates")
    .join(program);
  // No assert_eq: the files are long.
  assert!(std::fs::read(folder.join("stdin")).unwrap() == stdin);
  assert!(std::fs::read(folder.join("stdout")).unwrap() == stdout.as_bytes());
}

#[test]
fn leaves() {
  let trees = oracle::leaves::trees();
  let stdin = oracle::leaves::stdin(&trees);
  same("test_leaves", &stdin, &oracle::leaves::stdout(&trees));
}

#[test]
fn types() {
  let trees = oracle::types::trees();
  let stdin = oracle::leaves::stdin(&trees);
  same("test_types", &stdin, &oracle::types::stdout(&trees));
}
