//! The part of the fixed list that is read in the standard's mode, or in one mode after the other.

use crate::answer::{Mode, MODES};
use crate::engine::Engine;
use crate::gen::{self, Frame};
use crate::list::{case11, case12, case9, inter, written, Fixed, Item, Numbered};
use crate::rng::Rng;
use crate::spec::Spec;

/// Frames that are all read in one mode.
pub fn all(mode: Mode, frames: &[(u8, Frame)]) -> Vec<Item> {
    frames.iter().map(|(case, f)| (*case, mode, f.clone())).collect()
}

/// The same of frames that are no worked case.
fn plain(mode: Mode, frames: Vec<Frame>) -> Vec<Item> {
    frames.into_iter().map(|f| (0, mode, f)).collect()
}

/// Adds the sequences of the standard's mode and of both to those of the Rust's.
pub fn add(out: &mut Fixed, of_the_rust: &[Numbered]) {
    let rng = &mut Rng::new(0x5111_b202);
    let mut part = |name: &'static str, more: Vec<Vec<Item>>| {
        out.parts.push((out.sequences.len() + 1, name));
        out.sequences.extend(more);
    };
    part("in the standard's mode: the sequences above", of_the_rust.iter().map(|s| all(Mode::Standard, s)).collect());
    part("in the standard's mode: the map flag, with and without feature data", maps(rng));
    part("in the standard's mode: first partitions that end at each byte of the header", ends(rng));
    part("in the standard's mode: empty first partitions, and those of 1 to 3 bytes, before other bytes", shorts(rng));
    part("in the standard's mode: drawn frames at which the modes part", drawn(rng, 32, |_| Mode::Standard));
    part("both modes: cases 11, 12 and 9", crossed(rng));
    part("both modes: every refusal", refusals(rng));
    part("both modes: drawn frames at which the modes part", drawn(rng, 52, |rng| rng.pick(&MODES)));
    part("the Rust's mode: the same kind of frames", drawn(rng, 12, |_| Mode::Rust));
    part("each mode: headers that end before, at and far past the end of their bytes", reaches(rng));
}

/// Every set of flagged probabilities, over others that are kept; coded as the standard reads them, and as the Rust does.
fn maps(rng: &mut Rng) -> Vec<Vec<Item>> {
    let kinds = [(false, false, true), (false, true, true), (false, false, false), (true, false, true), (true, false, false)];
    let one = |rng: &mut Rng, flags: u8| {
        let mut frames = vec![gen::touch(rng)];
        for (key, data, by_map) in kinds {
            let mut s = Spec { log2: 0, ..gen::mapped(rng, key, data, by_map) };
            s.seg_p = std::array::from_fn(|i| Some(rng.byte()).filter(|_| flags >> i & 1 == 1));
            let mode = if by_map { Mode::Standard } else { Mode::Rust };
            let frame = gen::whole(rng, &s);
            frames.push(written(mode, &s, frame));
        }
        plain(Mode::Standard, frames)
    };
    (0..8).map(|flags| one(rng, flags)).collect()
}

/// Headers whose first partition ends after each number of bytes, with the code going on after it, or the table of sizes.
fn ends(rng: &mut Rng) -> Vec<Vec<Item>> {
    let mut frames = Vec::new();
    for (key, log2, by_map) in [(true, 0, true), (false, 0, true), (false, 1, false), (true, 3, false)] {
        let s = Spec { log2, ..gen::mapped(rng, key, !by_map, by_map) };
        for first in 0..=s.header().0.len() + 1 {
            frames.push(gen::ended(rng, &s, first, log2 == 0));
        }
    }
    frames.chunks(7).map(|some| plain(Mode::Standard, [&[gen::touch(rng)], some].concat())).collect()
}

/// Areas that are not empty behind a first partition of 0 to 3 bytes.
fn shorts(rng: &mut Rng) -> Vec<Vec<Item>> {
    let mut out = Vec::new();
    for first in 0..4usize {
        for key in [true, false] {
            for turn in 0..3 {
                let mut frames = vec![gen::touch(rng)];
                for more in [1, 2, 7, 20] {
                    let mut f = gen::drawn(rng, key, 0).chunk(first as u32);
                    let mut area = rng.bytes(first + more);
                    // A first byte of 0 leaves most flags clear, so that the frame is accepted.
                    if turn == 0 && first > 0 {
                        area[0] = 0;
                    }
                    f.extend(area);
                    frames.push(f);
                    frames.extend((key && more == 1).then(|| gen::touch(rng)));
                }
                frames.push(inter(rng));
                out.push(plain(Mode::Standard, frames));
            }
        }
    }
    out
}

/// Drawn sequences, each frame in the mode that is picked for it.
fn drawn(rng: &mut Rng, sequences: usize, pick: impl Fn(&mut Rng) -> Mode) -> Vec<Vec<Item>> {
    (0..sequences).map(|_| gen::partings(rng).into_iter().map(|f| (0, pick(rng), f)).collect()).collect()
}

/// Case 11 in one mode and the frames of cases 12 and 9 in the other, and the same frames in a row.
fn crossed(rng: &mut Rng) -> Vec<Vec<Item>> {
    let mut out = Vec::new();
    for mode in MODES {
        for then in [case12(), case9()] {
            out.push(vec![(11, mode, case11()), (0, mode.other(), then.clone())]);
            out.push(vec![(11, mode, case11()), (0, mode.other(), then), (0, mode, inter(rng)), (0, mode.other(), case11())]);
        }
        let other = mode.other();
        out.push(vec![(11, mode, case11()), (0, other, case11()), (0, mode, case11()), (0, mode, case12()), (0, other, case9())]);
    }
    out
}

/// A frame that is refused with that number in that mode.
fn refused(rng: &mut Rng, mode: Mode, number: u8, key: bool) -> Frame {
    loop {
        let mut f = gen::refused(rng, number, key);
        // By the standard an empty first partition is enough.
        if number == 4 && mode == Mode::Standard {
            f.extend([0x5a, 0xa5]);
        }
        if Engine::new().call(mode, &f).refusal == number {
            return f;
        }
    }
}

/// Every refusal in each mode, of key frames and others, between frames in the other mode.
fn refusals(rng: &mut Rng) -> Vec<Vec<Item>> {
    let mut out = Vec::new();
    for mode in MODES {
        for key in [false, true] {
            for number in 1..=5u8 {
                let frames = [gen::touch(rng), refused(rng, mode, number, key), inter(rng), gen::touch(rng)];
                let modes = [mode.other(), mode, mode.other(), mode];
                out.push(frames.into_iter().zip(modes).map(|(f, mode)| (0, mode, f)).collect());
            }
        }
    }
    out
}

/// A frame of this code alone, which is all of its first partition.
fn bare(s: &Spec, code: &[u8]) -> Frame {
    [&s.chunk(code.len() as u32)[..], code].concat()
}

/// A drawn header and its code without the zeros at the end, after which a reader in that mode stands exactly at its end.
fn exact(rng: &mut Rng, mode: Mode, key: bool) -> (Spec, Vec<u8>) {
    loop {
        let s = Spec { log2: 0, end: 0, ..gen::drawn(rng, key, 0) };
        let (mut code, _) = s.header();
        let answer = Engine::new().call(mode, &bare(&s, &code));
        if answer.refusal != 0 || answer.get("past") != 0 {
            continue;
        }
        let at = answer.get("hsize") as usize;
        if at % 8 == 0 && code[at / 8..].iter().all(|b| *b == 0) {
            code.truncate(at / 8);
            return (s, code);
        }
    }
}

/// Frames whose headers end with their bytes, a byte before and a byte after; headers cut at each byte; and the farthest past the end.
fn reaches(rng: &mut Rng) -> Vec<Vec<Item>> {
    let mut out = Vec::new();
    for mode in MODES {
        for key in [true, false] {
            // V is R, and stays so over zeros: every bool is 1, in whatever number. Eight partitions, all of them empty.
            let area = [&[0xff][..], &[0; 21]].concat();
            let far = [gen::drawn(rng, key, 0).chunk(1), area].concat();
            out.push(plain(mode, vec![gen::touch(rng), far, inter(rng)]));
            for _ in 0..3 {
                let (s, code) = exact(rng, mode, key);
                let longer = [&code[..], &[0]].concat();
                let frames = [&code[..], &code[..code.len() - 1], &longer[..]].map(|c| bare(&s, c));
                out.push(plain(mode, [&[gen::touch(rng)], &frames[..]].concat()));
            }
            let s = Spec { log2: 0, ..gen::drawn(rng, key, 0) };
            let (code, _) = s.header();
            let cut: Vec<Frame> = (1..=code.len()).map(|n| bare(&s, &code[..n])).collect();
            out.extend(cut.chunks(7).map(|some| plain(mode, [&[gen::touch(rng)], some].concat())));
        }
    }
    out
}
