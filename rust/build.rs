//! Links libdts.a, from the folder in DTS_LIB_DIR or from ../crates/dts/out, where `rt lib` writes it.
use std::path::PathBuf;

fn main() {
    println!("cargo::rerun-if-env-changed=DTS_LIB_DIR");
    let here = PathBuf::from(std::env::var_os("CARGO_MANIFEST_DIR").expect("cargo sets it"));
    let folder = match std::env::var_os("DTS_LIB_DIR") {
        Some(folder) => here.join(folder),
        None => here.join("../crates/dts/out"),
    };
    let library = folder.join("libdts.a");
    println!("cargo::rerun-if-changed={}", library.display());
    if !library.is_file() {
        println!(
            "cargo::error=there is no {}: run `rt lib` in crates/dts, or set DTS_LIB_DIR to the folder that has libdts.a",
            library.display()
        );
        return;
    }
    println!("cargo::rustc-link-search=native={}", folder.display());
    println!("cargo::rustc-link-lib=static=dts");
}
