//! Parses every frame of the recordings by both parsers, each recording over one record: the port's in a block, the Rust's in its parser.
//! Call: host FOLDER both|rattle|standard|rust|time|stack
//! `both` compares the answers and prints how many frames there were and a checksum of the last block of each recording; `rattle`,
//! `standard` and `rust` run one side alone; `time` prints the nanoseconds a frame of each, and the number of rounds, each frame over the
//! fresh record; `stack` prints the deepest stack of one of the port's calls.

#[path = "../../shared.rs"]
mod shared;

use reference::Parser;

#[link(name = "vp8_state", kind = "static")]
extern "C" {
    fn vp8_state_parse(mode: u32, block: *mut u8, length: usize, frame: *const u8, size: usize) -> u32;
    fn vp8_state_write(bytes: *const u8, size: usize, block: *mut u8, length: usize) -> u32;
}

const BLOCK: usize = 1148;

// The emulator's count ends at the next instruction of these, so that each must come back to itself.
#[no_mangle]
#[inline(never)]
pub extern "C" fn call_rattle(mode: u32, block: *mut u8, frame: *const u8, size: usize) -> u32 {
    // SAFETY: both are slices, and the host's block overlaps no frame.
    std::hint::black_box(unsafe { vp8_state_parse(mode, block, BLOCK, frame, size) })
}

#[no_mangle]
#[inline(never)]
pub extern "C" fn call_rust(parser: *mut Parser, frame: *const u8, size: usize) -> u64 {
    std::hint::black_box(reference::reference_state_frame(parser, frame, size))
}

fn rattle(mode: u32, block: &mut [u8; BLOCK], frame: &[u8]) -> u64 {
    call_rattle(mode, block.as_mut_ptr(), frame.as_ptr(), frame.len()) as u64
}

fn rust(parser: &mut Parser, frame: &[u8]) -> u64 {
    call_rust(parser, frame.as_ptr(), frame.len())
}

/// A block to start from. A record of zeros has no fault; a recording's first key frame resets it.
fn fresh() -> [u8; BLOCK] {
    let mut block = [0; BLOCK];
    // SAFETY: two slices that do not overlap.
    assert!(unsafe { vp8_state_write([0u8; 1126].as_ptr(), 1126, block.as_mut_ptr(), BLOCK) } == 0);
    block
}

// A function of its own, so that the stack is counted from its frame.
#[inline(never)]
fn depth(block: &mut [u8; BLOCK], frame: &[u8]) -> usize {
    // SAFETY: as in `call_rattle`; called from here, so that nothing else stands between.
    shared::depth(&mut || unsafe { vp8_state_parse(0, block.as_mut_ptr(), BLOCK, frame.as_ptr(), frame.len()) })
}

fn timed_rattle(frame: &[u8]) -> u64 {
    rattle(0, &mut fresh(), frame)
}

fn timed_rust(frame: &[u8]) -> u64 {
    rust(&mut Parser::default(), frame)
}

fn main() {
    let arguments: Vec<String> = std::env::args().skip(1).collect();
    let [folder, side] = &arguments[..] else { panic!("call: host FOLDER both|rattle|standard|rust|time|stack") };
    let frames = shared::frames(folder);
    if side == "time" {
        return shared::times(&frames.iter().map(|(_, frame)| &frame[..]).collect::<Vec<_>>(), timed_rattle, timed_rust);
    }
    let (mut block, mut parser, mut of) = (fresh(), Parser::default(), String::new());
    let (mut count, mut check, mut deepest) = (0u64, 0u64, 0);
    for (name, frame) in frames {
        if name != of {
            check = block.iter().fold(check, |sum, b| sum.rotate_left(7) ^ *b as u64);
            (block, parser, of) = (fresh(), Parser::default(), name);
        }
        match side.as_str() {
            "rattle" => _ = rattle(0, &mut block, &frame),
            "standard" => _ = rattle(1, &mut block, &frame),
            "rust" => _ = rust(&mut parser, &frame),
            "stack" => deepest = deepest.max(depth(&mut block, &frame)),
            _ => {
                let (a, b) = (rattle(0, &mut block, &frame), rust(&mut parser, &frame));
                if a != b {
                    println!("{of}: frame {count} of all: answered {a}, the Rust {b}");
                    std::process::exit(1);
                }
            }
        }
        count += 1;
    }
    match side.as_str() {
        "stack" => println!("{deepest}"),
        _ => println!("{count} {check:016x}"),
    }
}
