//! Copies the two originals, byte for byte, to the build's own folder. They
//! come from the folder in DENO_GRAPH_SRC, the crate's root or the one with the
//! two files, or else from ../../shared/docs/src beside the repository.

use std::path::PathBuf;

fn main() {
  println!("cargo::rerun-if-env-changed=DENO_GRAPH_SRC");
  let here = PathBuf::from(std::env::var("CARGO_MANIFEST_DIR").unwrap());
  let from = match std::env::var("DENO_GRAPH_SRC") {
    Ok(folder) => here.join(folder),
    Err(_) => here.join("../../shared/docs/src"),
  };
  let to = PathBuf::from(std::env::var("OUT_DIR").unwrap());
  for name in ["swc_helpers", "transform_dts"] {
    let source = names(name).map(|file| from.join(file));
    for file in &source {
      println!("cargo::rerun-if-changed={}", file.display());
    }
    let Some(bytes) = source.iter().find_map(|file| std::fs::read(file).ok())
    else {
      println!(
        "cargo::error=no {} in {}. Set DENO_GRAPH_SRC to the folder of deno_graph 0.111.1's crate.",
        names(name).join(" or "),
        from.display()
      );
      std::process::exit(1);
    };
    std::fs::write(to.join(format!("{name}.rs")), bytes).unwrap();
  }
}

/// The places of an original: in the crate itself, or in its own folder, or by
/// the name that document 01's papers have.
fn names(name: &str) -> [String; 3] {
  [
    format!("src/fast_check/{name}.rs"),
    format!("{name}.rs"),
    format!("src--src--fast_check--{name}.rs.txt"),
  ]
}
