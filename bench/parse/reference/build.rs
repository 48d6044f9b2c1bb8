//! Puts the Rust as given, unchanged, into OUT_DIR, with access.rs inside its parser module.

#[allow(dead_code)]
#[path = "../../../tests/oracle/src/assemble.rs"]
mod assemble;

use std::path::{Path, PathBuf};

fn main() {
    println!("cargo:rerun-if-env-changed=SILLBROOK_RUST_SRC");
    println!("cargo:rerun-if-changed=build.rs");
    let from = std::env::var("SILLBROOK_RUST_SRC").expect("set by the benchmark");
    for (name, _) in assemble::FILES {
        println!("cargo:rerun-if-changed={}", Path::new(&from).join(name).display());
    }
    let given = assemble::Given::read(Path::new(&from)).expect("the Rust as given");
    let here = PathBuf::from(std::env::var("CARGO_MANIFEST_DIR").expect("set by cargo"));
    let out = PathBuf::from(std::env::var("OUT_DIR").expect("set by cargo"));
    std::fs::write(out.join("given.rs"), given.modules("crate::", &here.join("src/access.rs"))).expect("a file in OUT_DIR");
}
