# How a Rust host is linked with the port's static libraries, which are for x86-64; sourced by bench/common.sh and tests/host/run, which
# set `machine`, `tools` (where bench/fetch puts a compiler), `made` (a folder of theirs) and `stop`. On x86-64 it is the machine's own
# compiler and linker; elsewhere, or with SILLBROOK_CROSS=yes, the host is built for x86-64 with the kit's linker and C library. It sets
# `rustc`, `words` (for cargo), `profile` (where cargo puts the program) and `runs` (for an emulator).
words=() rustc=rustc profile=release runs=(-U LD_LIBRARY_PATH)
if [ "$machine" != x86_64 ] || [ "${SILLBROOK_CROSS:-}" = yes ]; then
    triple=x86_64-unknown-linux-gnu
    kit=$(dirname "$(rt doc)")/toolchain
    [ ! -x "$tools/bin/rustc" ] || rustc=$tools/bin/rustc
    [ -d "$("$rustc" --print target-libdir --target $triple)" ] || stop "$rustc has no library for $triple: call bench/fetch"
    mkdir -p "$made/lib" "$made/system/lib64"
    for lib in c.so.6 m.so.6 gcc_s.so.1; do ln -sfn "$kit/lib/lib$lib" "$made/lib/lib${lib%%.*}.so"; done
    ln -sfn "$kit/lib/libc_nonshared.a" "$made/lib/libc_nonshared.a"
    # Their contents are in the C library, and rustc names them all the same.
    for lib in dl rt util pthread; do "$kit/bin/llvm-ar" crs "$made/lib/lib$lib.a"; done
    ln -sfn "$kit/lib/ld-linux-x86-64.so.2" "$made/system/lib64/ld-linux-x86-64.so.2"
    links=(-pie -dynamic-linker /lib64/ld-linux-x86-64.so.2 "$kit/lib/Scrt1.o" "$kit/lib/crti.o" "$kit/lib/crtbeginS.o"
        -L "$made/lib" -lc_nonshared "$kit/lib/crtendS.o" "$kit/lib/crtn.o")
    flags=(-C "linker=$kit/bin/ld.lld" -C linker-flavor=ld.lld)
    for link in "${links[@]}"; do flags+=(-C "link-arg=$link"); done
    CARGO_ENCODED_RUSTFLAGS=$(printf '%s\x1f' "${flags[@]}")
    export CARGO_ENCODED_RUSTFLAGS=${CARGO_ENCODED_RUSTFLAGS%?}
    export RUSTC=$rustc
    words=(--target $triple)
    profile=$triple/release
    runs=(-L "$made/system" -E "LD_LIBRARY_PATH=$kit/lib")
fi
