//! Puts the bit reader, the decoder and the tables of the Rust as given, unchanged, into OUT_DIR.

#[allow(dead_code)]
#[path = "../../../tests/oracle/src/assemble.rs"]
mod assemble;

use std::path::{Path, PathBuf};

fn main() {
    println!("cargo:rerun-if-env-changed=SILLBROOK_RUST_SRC");
    println!("cargo:rerun-if-changed=build.rs");
    let from = std::env::var("SILLBROOK_RUST_SRC").expect("set by bench/decoder/run");
    for (name, _) in assemble::FILES {
        println!("cargo:rerun-if-changed={}", Path::new(&from).join(name).display());
    }
    let given = assemble::Given::read(Path::new(&from)).expect("the Rust as given");
    let text = format!(
        "#[allow(dead_code, unused)]\npub mod bitstream_utils {{\n{}}}\n#[allow(dead_code, unused)]\npub mod codec {{ pub mod vp8 {{\npub mod bool_decoder {{\n{}}}\npub mod probs {{\n{}}}\n}} }}\n",
        given.reader, given.decoder, given.probs
    );
    let out = PathBuf::from(std::env::var("OUT_DIR").expect("set by cargo"));
    std::fs::write(out.join("given.rs"), text).expect("a file in OUT_DIR");
}
