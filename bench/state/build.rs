//! Where the port's static library is, and that the host is linked anew when it changes.

fn main() {
    println!("cargo:rerun-if-env-changed=SILLBROOK_STATICLIB");
    let folder = std::env::var("SILLBROOK_STATICLIB").expect("set by bench/state/run");
    println!("cargo:rerun-if-changed={folder}/libvp8_state.a");
    println!("cargo:rustc-link-search=native={folder}");
}
