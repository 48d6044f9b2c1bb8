# What the benchmarks share; sourced by bench/decoder/run, bench/parse/run and bench/state/run, which set `name` (theirs), `crate` and
# `given` (a file of the Rust's that they need). It checks what is at hand, builds the port's library and the host, counts, times, and looks into the archive.
#   SILLBROOK_RUST_SRC   the folder that holds the Rust's src/ (else ../shared/docs/src beside the repository)
#   SILLBROOK_STREAMS    the folder of recordings (else ../shared/streams beside the repository)
#   SILLBROOK_COUNTER    callgrind or emulator; where not set, callgrind on x86-64 with valgrind, else the emulator
#   SILLBROOK_TOOLS      the folder of bin/qemu-x86_64 and bin/rustc (else bench/target/tools, where bench/fetch puts them)
#   SILLBROOK_CROSS=yes  builds the host with the kit's linker and C library also on x86-64, as it is done elsewhere
bench=$(cd "$(dirname "${BASH_SOURCE[0]}")" && pwd)
top=$(cd "$bench/.." && pwd)
made=$bench/target/$crate
machine=$(uname -m)

stop() {
    echo "$name: $1" >&2
    exit 2
}

for tool in rt cargo size; do
    command -v "$tool" > /dev/null || stop "no $tool on the path"
done
source=${SILLBROOK_RUST_SRC:-$top/../shared/docs/src}
[ -f "$source/$given" ] || stop "no Rust source in $source; set SILLBROOK_RUST_SRC"
streams=${1:-${SILLBROOK_STREAMS:-$top/../shared/streams}}
[ -d "$streams" ] || stop "no recordings in $streams"
streams=$(cd "$streams" && pwd)
tools=${SILLBROOK_TOOLS:-$bench/target/tools}
counter=${SILLBROOK_COUNTER:-}
[ -n "$counter" ] || { [ "$machine" = x86_64 ] && command -v valgrind > /dev/null && counter=callgrind || counter=emulator; }
case $counter in
callgrind)
    [ "$machine" = x86_64 ] || stop "callgrind counts the instructions of its own machine: on $machine the counter is the emulator"
    command -v valgrind > /dev/null || stop "no valgrind on the path"
    ;;
emulator)
    [ -x "$tools/bin/qemu-x86_64" ] || stop "no emulator in $tools: call bench/fetch"
    command -v cc > /dev/null || stop "no cc on the path, which compiles the emulator's counter"
    ;;
*) stop "SILLBROOK_COUNTER is callgrind or emulator" ;;
esac

# The library is proved as it is built.
mkdir -p "$made"
(cd "$top" && tools/staticlib "$crate") > "$made/log" 2>&1 || {
    cat "$made/log" >&2
    exit 1
}
SILLBROOK_RUST_SRC=$(cd "$source" && pwd)
SILLBROOK_STATICLIB=$top/target/staticlib
export SILLBROOK_RUST_SRC SILLBROOK_STATICLIB

# The Rust is a crate of its own, optimised, as one unit (Cargo.toml: codegen-units = 1), and the host is linked with both. Elsewhere than
# on x86-64 it is built for x86-64, with the kit's linker and C library.
. "$bench/link.sh"
cargo build --release --offline --quiet "${words[@]}" --manifest-path "$here/Cargo.toml" --target-dir "$made/cargo" || exit 1
host=$made/cargo/$profile/host
emulated() { "$tools/bin/qemu-x86_64" -cpu max "${runs[@]}" "$@"; }
run() { if [ "$machine" = x86_64 ]; then "$host" "$streams" "$@"; else emulated "$host" "$streams" "$@"; fi; }

if [ "$counter" = emulator ]; then
    cc -O2 -shared -fPIC -o "$made/libcount.so" "$bench/count.c" || stop "the emulator's counter could not be built"
    told=$("$tools/bin/qemu-x86_64" --version | sed -n '1s/ (.*//p')
else
    told=$(valgrind --version)
fi
built="$("$rustc" --version | cut -d' ' -f1,2), -C opt-level=3 -C codegen-units=1"

# Prints the instructions within a function and what it calls, over a run of the host; which symbols have them is left in $made/shares.
count() { # FUNCTION CALLER WORDS..
    local function=$1 caller=$2
    shift 2
    if [ "$counter" = emulator ]; then
        emulated -plugin "$made/libcount.so,function=$function,caller=$caller,out=$made/counts" "$host" "$streams" "$@" > /dev/null || return
        sed -n 's/^total //p' "$made/counts"
        sed -n 's/^\([0-9][0-9]*\) /\1\t/p' "$made/counts" > "$made/shares"
    else
        valgrind --tool=callgrind --callgrind-out-file="$made/counts" --toggle-collect="$function" "$host" "$streams" "$@" 2>&1 |
            sed -n 's/.*Collected : //p'
        callgrind_annotate --threshold=100 "$made/counts" | awk '
            $1 ~ /^[0-9,]+$/ && $2 ~ /^\(/ && !/PROGRAM TOTALS/ {
                cost = $1; gsub(/,/, "", cost)
                symbol = $0; sub(/^[^)]*\) +[^:]*:/, "", symbol); sub(/ \[.*$/, "", symbol)
                print cost "\t" symbol
            }' > "$made/shares"
    fi
}

# What is said of both counts, and of both times where they are of this machine.
ratio() { # WHAT OF UNIT OURS RUST
    echo "counter: $counter ($told)"
    awk -v what="$1" -v n="$2" -v unit="$3" -v a="$4" -v b="$5" -v built="$built" 'BEGIN {
        printf "%s: %.*f instructions a %s, the Rust %.*f (%s), ratio %.3f\n", what, unit == "flag" ? 2 : 1, a / n, unit, unit == "flag" ? 2 : 1, b / n, built, a / b }'
    if [ "$machine" != x86_64 ]; then
        echo "time: not measured, since the program runs in an emulator here"
        return
    fi
    run time | awk '{ printf "time on this machine: %.0f ns a frame, the Rust %.0f, ratio %.3f (of each frame the best of %d rounds, turn about)\n", $1, $2, $1 / $2, $3 }'
}

# What each function takes by itself, without what it calls.
shares() { # FRAMES ALL
    echo "where they go, a frame:"
    awk -F '\t' -v f="$1" -v all="$2" 'NR <= 6 { printf "%10.1f  %5.2f%%  %s\n", $1 / f, 100 * $1 / all, $2 }' "$made/shares"
}

# What the port's archive holds: code, constant data, and the code that stands for constant data since it builds a table where it runs.
archive() {
    local file=$SILLBROOK_STATICLIB/lib$crate.a tables
    size -A "$file" | awk '
        /^\.text/ { code += $2 } /^\.rodata/ { data += $2 }
        END { printf "the archive: %d bytes of code, %d of constant data\n", code, data }'
    if command -v python3 > /dev/null && tables=$(objdump -d --no-show-raw-insn "$file" 2> /dev/null | "$bench/tables"); then
        echo "code that builds constant tables: $tables bytes"
    else
        echo "code that builds constant tables: not counted, since that needs python3 and an objdump that knows x86-64"
    fi
}
