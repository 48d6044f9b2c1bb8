//! Puts the Rust as given into OUT_DIR: unchanged, and edited to be the standard's reader; each also with two lines that count.

// Half of it serves the slips.
#[allow(dead_code)]
#[path = "src/assemble.rs"]
mod assemble;

use std::path::{Path, PathBuf};

fn main() {
    println!("cargo:rerun-if-env-changed=SILLBROOK_RUST_SRC");
    println!("cargo:rerun-if-changed=build.rs");
    println!("cargo:rerun-if-changed=src/assemble.rs");
    let here = PathBuf::from(std::env::var("CARGO_MANIFEST_DIR").expect("set by cargo"));
    let out = PathBuf::from(std::env::var("OUT_DIR").expect("set by cargo"));
    let from = std::env::var("SILLBROOK_RUST_SRC")
        .unwrap_or_else(|_| stop("SILLBROOK_RUST_SRC is not set; call tests/oracle/run"));
    for (name, _) in assemble::FILES {
        println!("cargo:rerun-if-changed={}", Path::new(&from).join(name).display());
    }
    let given = assemble::Given::read(Path::new(&from)).unwrap_or_else(|why| stop(&why)).telling(&here.join("src/beyond.rs"));
    let access = here.join("src/access.rs");
    let standard = given.standard(&[]);
    write(&out.join("plain.rs"), &given.modules("crate::", &access));
    write(&out.join("counted.rs"), &given.counted().modules("crate::counted::", &access));
    write(&out.join("standard.rs"), &standard.modules("crate::standard::", &access));
    write(&out.join("standard_counted.rs"), &standard.counted().modules("crate::standard_counted::", &access));
}

fn write(path: &Path, text: &str) {
    std::fs::write(path, text).unwrap_or_else(|why| stop(&format!("{}: {why}", path.display())));
}

fn stop(why: &str) -> ! {
    eprintln!("{why}");
    std::process::exit(1)
}
