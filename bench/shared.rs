//! What the hosts share: the frames of the recordings, and the time that each side takes for all of them.

#[path = "../tests/oracle/src/ivf.rs"]
mod ivf;

use std::hint::black_box;
use std::path::Path;
use std::time::Instant;

/// How often each side goes over all frames; of each frame the best time counts, so that other work on the machine has little say.
const ROUNDS: usize = 40;

/// Every frame of every recording of a folder, with the name of its recording.
pub fn frames(folder: &str) -> Vec<(String, Vec<u8>)> {
    let all = ivf::folder(Path::new(folder)).unwrap_or_else(|why| {
        eprintln!("{why}");
        std::process::exit(2)
    });
    all.into_iter().flat_map(|r| r.frames.into_iter().map(move |f| (r.path.display().to_string(), f))).collect()
}

/// Prints the nanoseconds that each side takes for one of the inputs, on average over their best times; the sides take turns.
pub fn times(inputs: &[&[u8]], port: fn(&[u8]) -> u64, rust: fn(&[u8]) -> u64) {
    let mut best = [vec![u128::MAX; inputs.len()], vec![u128::MAX; inputs.len()]];
    for _ in 0..ROUNDS {
        for (side, call) in [port, rust].into_iter().enumerate() {
            for (input, best) in inputs.iter().zip(&mut best[side]) {
                let begun = Instant::now();
                black_box(call(black_box(input)));
                *best = begun.elapsed().as_nanos().min(*best);
            }
        }
    }
    let each = |side: usize| best[side].iter().sum::<u128>() as f64 / inputs.len() as f64;
    println!("{:.1} {:.1} {ROUNDS}", each(0), each(1));
}

/// How far below its caller's frame a call writes: the stack there is painted first, and looked at afterwards.
// One host has no use for it.
#[allow(dead_code)]
#[inline(always)]
pub fn depth<A>(call: &mut impl FnMut() -> A) -> usize {
    const PAINTED: usize = 1 << 18;
    const PAINT: u8 = 0xa5;
    let mark = 0u8;
    let top = black_box(&mark) as *const u8 as usize;
    // A gap for the frames of this function and of what it calls before and after.
    let low = (top - 1024 - PAINTED) as *mut u8;
    for i in 0..PAINTED {
        // SAFETY: the stack of this thread is far larger, and nothing live stands below this function's own frame.
        unsafe { low.add(i).write_volatile(PAINT) };
    }
    black_box(call());
    // SAFETY: as above.
    let untouched = (0..PAINTED).take_while(|i| unsafe { low.add(*i).read_volatile() } == PAINT).count();
    top - (low as usize + untouched)
}
