//! Puts the Rust as given into OUT_DIR, unchanged and edited to be the standard's reader, and tells where the port's library is.

// Half of it serves the oracle.
#[allow(dead_code)]
#[path = "../oracle/src/assemble.rs"]
mod assemble;

use std::path::{Path, PathBuf};

fn main() {
    println!("cargo:rerun-if-env-changed=SILLBROOK_RUST_SRC");
    println!("cargo:rerun-if-env-changed=SILLBROOK_STATICLIB");
    println!("cargo:rerun-if-changed=build.rs");
    println!("cargo:rerun-if-changed=../oracle/src");
    let from = std::env::var("SILLBROOK_RUST_SRC").expect("set by tests/host/run");
    for (name, _) in assemble::FILES {
        println!("cargo:rerun-if-changed={}", Path::new(&from).join(name).display());
    }
    let given = assemble::Given::read(Path::new(&from)).expect("the Rust as given");
    let out = PathBuf::from(std::env::var("OUT_DIR").expect("set by cargo"));
    let here = PathBuf::from(std::env::var("CARGO_MANIFEST_DIR").expect("set by cargo"));
    let access = here.join("../oracle/src/access.rs");
    std::fs::write(out.join("plain.rs"), given.modules("crate::", &access)).expect("a file in OUT_DIR");
    std::fs::write(out.join("standard.rs"), given.standard(&[]).modules("crate::standard::", &access)).expect("a file in OUT_DIR");

    let folder = std::env::var("SILLBROOK_STATICLIB").expect("set by tests/host/run");
    println!("cargo:rerun-if-changed={folder}/libvp8_state.a");
    println!("cargo:rustc-link-search=native={folder}");
}
