//! Parses every frame of the recordings by both parsers, each frame with a fresh one.
//! Call: host FOLDER both|rattle|standard|rust|time|stack|grown SIZE
//! `both` compares the two numbers of each frame and prints how many frames there were and a checksum; `rattle` and `rust` run one side
//! alone, `standard` the port in the standard's mode; `time` prints the nanoseconds a frame of each, and the number of rounds. `stack`
//! prints the deepest stack of one of the port's calls; `grown SIZE` parses, by the port alone, each frame that is not longer than 2,048
//! bytes, made SIZE bytes long at its end, which is in the last partition, and prints how many there were.

#[path = "../../../shared.rs"]
mod shared;

#[link(name = "bench_parse", kind = "static")]
extern "C" {
    fn bench_parse_frame(bytes: *const u8, length: usize, mode: u32) -> u64;
}

/// The shortest of the lengths that `grown` is asked for.
const SHORTEST: usize = 2048;

// The emulator's count ends at the next instruction of these, so that each must come back to itself.
#[no_mangle]
#[inline(never)]
pub extern "C" fn call_rattle(bytes: *const u8, length: usize, mode: u32) -> u64 {
    // SAFETY: the function asks nothing of a slice but that it is one.
    std::hint::black_box(unsafe { bench_parse_frame(bytes, length, mode) })
}

#[no_mangle]
#[inline(never)]
pub extern "C" fn call_rust(bytes: *const u8, length: usize) -> u64 {
    std::hint::black_box(reference::reference_parse_frame(bytes, length))
}

fn rattle(frame: &[u8]) -> u64 {
    call_rattle(frame.as_ptr(), frame.len(), 0)
}

fn standard(frame: &[u8]) -> u64 {
    call_rattle(frame.as_ptr(), frame.len(), 1)
}

fn rust(frame: &[u8]) -> u64 {
    call_rust(frame.as_ptr(), frame.len())
}

// A function of its own, so that the stack is counted from its frame.
#[inline(never)]
fn depth(frame: &[u8]) -> usize {
    // SAFETY: as in `call_rattle`; called from here, so that nothing else stands between.
    shared::depth(&mut || unsafe { bench_parse_frame(frame.as_ptr(), frame.len(), 0) })
}

fn main() {
    let arguments: Vec<String> = std::env::args().skip(1).collect();
    let (folder, side) = match &arguments[..] {
        [folder, side, ..] => (folder, side.as_str()),
        _ => panic!("call: host FOLDER both|rattle|standard|rust|time|stack|grown SIZE"),
    };
    let size: usize = arguments.get(2).map_or(0, |n| n.parse().expect("a size"));
    let frames = shared::frames(folder);
    if side == "time" {
        return shared::times(&frames.iter().map(|(_, frame)| &frame[..]).collect::<Vec<_>>(), rattle, rust);
    }
    let (mut count, mut check, mut deepest) = (0u64, 0u64, 0);
    for (name, mut frame) in frames {
        let number = match side {
            "rattle" => rattle(&frame),
            "standard" => standard(&frame),
            "rust" => rust(&frame),
            "stack" => {
                deepest = deepest.max(depth(&frame));
                0
            }
            "grown" => {
                if SHORTEST < frame.len() {
                    continue;
                }
                frame.resize(size, 0x5a);
                rattle(&frame)
            }
            _ => {
                let (a, b) = (rattle(&frame), rust(&frame));
                if a != b {
                    println!("{name}: frame {count} of all: another number, {a:016x}, the Rust {b:016x}");
                    std::process::exit(1);
                }
                a
            }
        };
        check = check.rotate_left(7) ^ number;
        count += 1;
    }
    match side {
        "stack" => println!("{deepest}"),
        _ => println!("{count} {check:016x}"),
    }
}
