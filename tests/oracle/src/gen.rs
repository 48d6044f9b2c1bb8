//! Frames and scripts to try: the kinds from which the fixed lists and the generated runs are made.

use crate::answer::{Mode, COEFFS, MOTION};
use crate::bare::Read;
use crate::codec::vp8::probs::{COEFF_DEFAULT_PROBS, MV_DEFAULT_PROBS, NK_UV_MODE_PROBS, NK_Y_MODE_PROBS};
use crate::engine::Engine;
use crate::records::LONGEST;
use crate::rng::Rng;
use crate::spec::{Signed, Spec};
use std::path::Path;

pub type Frame = Vec<u8>;

/// The frames of one recording.
pub type Stream = Vec<Frame>;

/// The frames of all recordings of a folder; a frame that the dump would not take is left out.
pub fn streams(folder: &Path) -> Result<Vec<Stream>, String> {
    let taken = |frames: Vec<Frame>| frames.into_iter().filter(|f| f.len() <= LONGEST).collect();
    Ok(crate::ivf::folder(folder)?.into_iter().map(|r| taken(r.frames)).collect())
}

/// A real frame with at most `keep` bytes of its last partition; the rest of it has no say in the header.
pub fn shortened(frame: &[u8], keep: usize) -> Frame {
    let answer = Engine::new().call(Mode::Rust, frame);
    if answer.refusal != 0 {
        return frame.to_vec();
    }
    let last = answer.get(&format!("part{}", answer.get("n") - 1)) as usize;
    frame[..frame.len() - last + last.min(keep)].to_vec()
}

fn signed(rng: &mut Rng, width: u32) -> Signed {
    (rng.below(1 << width) as u8, rng.flip())
}

fn maybe(rng: &mut Rng, width: u32) -> Option<Signed> {
    // Written so that each draw is made in one order.
    let set = rng.flip();
    let value = signed(rng, width);
    set.then_some(value)
}

/// A header with each flag and value drawn, and about that many coefficient updates.
pub fn drawn(rng: &mut Rng, key: bool, updates: usize) -> Spec {
    let mut s = Spec { key, version: rng.below(8) as u8, show: rng.flip(), ..Spec::default() };
    let any = rng.below(16_384) as u16;
    s.width = rng.pick(&[0, 1, 15, 16, 17, 176, 640, 1080, 4096, 16_383, any]);
    s.height = rng.pick(&[0, 1, 15, 16, 17, 144, 480, 1920, 8192, 16_383, any]);
    s.hscale = rng.below(4) as u8;
    s.vscale = rng.below(4) as u8;
    s.color = rng.flip();
    s.clamp = rng.flip();
    s.seg = rng.flip();
    s.seg_map = rng.flip();
    s.seg_data = rng.flip();
    s.seg_mode = rng.flip();
    s.seg_q = std::array::from_fn(|_| maybe(rng, 7));
    s.seg_l = std::array::from_fn(|_| maybe(rng, 6));
    s.seg_p = std::array::from_fn(|_| Some(rng.byte()).filter(|b| b % 2 == 0));
    s.simple = rng.flip();
    s.level = rng.below(64) as u8;
    s.sharp = rng.below(8) as u8;
    s.adj = rng.flip();
    s.adj_update = rng.flip();
    s.deltas = std::array::from_fn(|_| maybe(rng, 6));
    s.log2 = if rng.flip() { 0 } else { rng.below(4) as u8 };
    s.q = rng.below(128) as u8;
    s.q_deltas = std::array::from_fn(|_| maybe(rng, 4));
    s.golden = rng.flip();
    s.alt = rng.flip();
    s.copy_golden = rng.below(4) as u8;
    s.copy_alt = rng.below(4) as u8;
    s.sign_golden = rng.flip();
    s.sign_alt = rng.flip();
    s.keep = rng.flip();
    s.last = rng.flip();
    for _ in 0..updates {
        let at = rng.below(COEFFS);
        s.coeff.insert(at, rng.byte());
    }
    s.skip = Some(rng.byte()).filter(|b| b % 3 != 0);
    s.end = rng.below(128) as u8;
    s.p_intra = rng.byte();
    s.p_last = rng.byte();
    s.p_golden = rng.byte();
    s.luma = rng.flip().then(|| std::array::from_fn(|_| rng.byte()));
    s.chroma = rng.flip().then(|| std::array::from_fn(|_| rng.byte()));
    for _ in 0..rng.pick(&[0, 1, 4]) {
        let at = rng.below(MOTION);
        let any = rng.below(128) as u8;
        s.mv.insert(at, rng.pick(&[0, 1, 64, 127, any]));
    }
    s
}

/// A number from 1 to `most`, so that a change is a change.
fn change(rng: &mut Rng, most: usize) -> u8 {
    rng.range(1, most) as u8
}

/// Every flag set and every value coded, and each unlike what a fresh parser holds: the most bools.
pub fn most(rng: &mut Rng, key: bool) -> Spec {
    let mut s = drawn(rng, key, 0);
    (s.seg, s.seg_map, s.seg_data, s.seg_mode) = (true, true, true, true);
    s.seg_q = std::array::from_fn(|_| Some((change(rng, 127), rng.flip())));
    s.seg_l = std::array::from_fn(|_| Some((change(rng, 63), rng.flip())));
    s.seg_p = std::array::from_fn(|_| Some(change(rng, 255)));
    (s.adj, s.adj_update) = (true, true);
    s.deltas = std::array::from_fn(|_| Some((change(rng, 63), rng.flip())));
    s.q_deltas = std::array::from_fn(|_| Some(signed(rng, 4)));
    (s.golden, s.alt, s.keep) = (false, false, true);
    for (i, old) in COEFF_DEFAULT_PROBS.as_flattened().as_flattened().as_flattened().iter().enumerate() {
        s.coeff.insert(i, old ^ change(rng, 255));
    }
    s.skip = Some(rng.byte());
    s.luma = Some(NK_Y_MODE_PROBS.map(|old| old ^ change(rng, 255)));
    s.chroma = Some(NK_UV_MODE_PROBS.map(|old| old ^ change(rng, 255)));
    for (i, old) in MV_DEFAULT_PROBS.as_flattened().iter().enumerate() {
        let new = rng.below(128) as u8;
        // No default is 1, which is what 0 stores.
        s.mv.insert(i, if 2 * new == *old { 0 } else { new });
    }
    s
}

/// A short inter frame that changes something of every kind that is kept.
pub fn touch(rng: &mut Rng) -> Frame {
    let mut s = drawn(rng, false, 4);
    (s.seg, s.seg_map, s.seg_data, s.adj, s.adj_update, s.keep) = (true, true, true, true, true, true);
    s.seg_mode = true;
    s.seg_q[rng.below(4)] = Some((change(rng, 127), rng.flip()));
    s.seg_l[rng.below(4)] = Some((change(rng, 63), rng.flip()));
    s.seg_p[rng.below(3)] = Some(change(rng, 254));
    s.deltas[rng.below(4)] = Some((change(rng, 63), rng.flip()));
    s.deltas[rng.range(4, 7)] = Some((change(rng, 63), rng.flip()));
    s.luma = Some(std::array::from_fn(|_| rng.byte()));
    s.chroma = Some(std::array::from_fn(|_| rng.byte()));
    s.mv.insert(rng.below(MOTION), 0);
    s.log2 = 0;
    s.frame(&[], &few(rng))
}

/// 0 to 3 bytes.
fn few(rng: &mut Rng) -> Vec<u8> {
    let n = rng.below(4);
    rng.bytes(n)
}

/// A frame of that header with sizes drawn, whole.
pub fn whole(rng: &mut Rng, s: &Spec) -> Frame {
    let sizes: Vec<u32> = (1..1 << s.log2).map(|_| rng.below(6) as u32).collect();
    let sum: u32 = sizes.iter().sum();
    let last = rng.below(5);
    let rest = rng.bytes(sum as usize + last);
    let zeros = rng.pick(&[0, 0, 0, 1, 5]);
    s.padded(zeros, &sizes, &rest)
}

/// A frame that is refused with that number, for a parser in any state.
pub fn refused(rng: &mut Rng, number: u8, key: bool) -> Frame {
    let mut s = drawn(rng, key, 1);
    match number {
        1 => {
            let right = s.chunk(1);
            let most = if key { 9 } else { 2 };
            let cut = rng.range(0, most);
            right[..cut].to_vec()
        }
        2 => {
            s.key = true;
            let mut f = s.chunk(1);
            let at = rng.range(3, 5);
            f[at] ^= change(rng, 255);
            let length = rng.range(6, 14);
            f.resize(length, 0);
            f
        }
        3 => {
            let area = rng.below(4);
            let over = rng.pick(&[1, 2, 300, 0x7ffff - area]);
            let mut f = s.chunk((area + over) as u32);
            f.extend(rng.bytes(area));
            f
        }
        4 => s.chunk(0),
        _ => {
            s.log2 = rng.range(1, 3) as u8;
            let n = 1usize << s.log2;
            if rng.flip() {
                // The table of sizes is cut.
                let f = s.frame(&vec![0; n - 1], &[]);
                let cut = rng.range(1, 3 * (n - 1));
                f[..f.len() - cut].to_vec()
            } else {
                // The sizes go one byte or more past the end.
                let mut sizes: Vec<u32> = (1..n).map(|_| rng.below(4) as u32).collect();
                let at = rng.below(n - 1);
                sizes[at] = rng.pick(&[1, 2, 255, 256, 65_535, 65_536, 0xff_ffff]);
                let sum: u32 = sizes.iter().sum();
                let under = (sum - rng.pick(&[1, 1, sum])).min(300);
                s.frame(&sizes, &rng.bytes(under as usize))
            }
        }
    }
}

/// Frames of n partitions with the end at, one before and one after each of the two limits.
pub fn at_limits(rng: &mut Rng, key: bool, log2: u8, sizes: &[u32], zeros: usize) -> Vec<Frame> {
    let mut s = drawn(rng, key, 1);
    s.log2 = log2;
    let sum: u32 = sizes.iter().sum();
    let rest = rng.bytes(sum as usize + 1);
    let full = s.padded(zeros, sizes, &rest);
    let table = full.len() - rest.len();
    let mut ends = vec![table + sum as usize - (sum > 0) as usize, table + sum as usize, full.len()];
    if table > 0 && !sizes.is_empty() {
        ends.extend([table - 1, table - 3 * sizes.len(), table - 3 * sizes.len() + 1]);
    }
    ends.sort();
    ends.dedup();
    ends.iter().map(|e| full[..*e].to_vec()).collect()
}

/// A chunk followed by an area of any bytes.
pub fn over_area(rng: &mut Rng, key: bool, area: &[u8]) -> Frame {
    let s = drawn(rng, key, 0);
    let first = rng.pick(&[0, area.len(), area.len().saturating_sub(1), area.len() / 2]);
    let mut f = s.chunk(first as u32);
    f.extend(area);
    f
}

/// An area of that length that begins with FF.
pub fn ff_area(rng: &mut Rng, length: usize) -> Vec<u8> {
    let mut area = rng.bytes(length);
    let run = rng.pick(&[1, 1, 2, 3, 8, length]).min(length);
    area[..run].fill(0xff);
    area
}

/// A copy with one thing spoilt.
pub fn damaged(rng: &mut Rng, frame: &[u8]) -> Frame {
    let mut f = frame.to_vec();
    match rng.below(6) {
        0 => f.truncate(rng.range(0, frame.len())),
        1 => f.truncate(rng.range(0, frame.len().min(40))),
        2 => {
            // One bit near the front, where the header is.
            let at = rng.below(f.len().min(48));
            f[at] ^= 1 << rng.below(8);
        }
        3 => {
            let at = rng.below(f.len());
            f[at] ^= change(rng, 255);
        }
        4 => {
            let from = rng.below(f.len());
            let upto = (from + rng.range(1, 8)).min(f.len());
            f[from..upto].fill(rng.pick(&[0, 0x80, 0xff]));
        }
        _ => {
            let at = rng.below(f.len().min(30));
            f.insert(at, rng.byte());
        }
    }
    f
}

/// Signed values in turn: over 128 numbers every magnitude with both signs, zero included.
pub fn signs(rng: &mut Rng, turn: usize) -> Frame {
    let mut s = drawn(rng, turn % 4 == 0, 0);
    (s.seg, s.seg_map, s.seg_data, s.adj, s.adj_update) = (true, true, true, true, true);
    s.seg_q = std::array::from_fn(|i| {
        let m = (turn * 4 + i) % 256;
        Some(((m % 128) as u8, m >= 128))
    });
    let six = |m: usize| Some(((m % 64) as u8, m % 128 >= 64));
    s.seg_l = std::array::from_fn(|i| six(turn * 4 + i));
    s.deltas = std::array::from_fn(|i| six(turn * 4 + i % 4 + 32 * (i / 4)));
    s.seg_p = std::array::from_fn(|i| Some(((turn * 3 + i) % 256) as u8));
    s.q_deltas = std::array::from_fn(|i| {
        let m = (turn + 7 * i) % 32;
        Some(((m % 16) as u8, m >= 16))
    });
    s.q = (turn % 128) as u8;
    s.level = (turn % 64) as u8;
    s.sharp = (turn % 8) as u8;
    s.mv.insert(turn % MOTION, (turn % 128) as u8);
    whole(rng, &s)
}

/// One drawn sequence of 1 to 8 frames.
pub fn sequence(rng: &mut Rng, streams: &[Stream]) -> Vec<Frame> {
    let mut out = Vec::new();
    let frames = rng.range(1, 8);
    let kind = rng.below(if streams.is_empty() { 10 } else { 13 });
    if kind == 0 {
        // Every kept number changed, then refusals.
        out.push(Spec { log2: 0, ..most(rng, false) }.frame(&[], &[]));
    } else if kind < 4 && frames > 1 {
        out.push(touch(rng));
    }
    while out.len() < frames {
        let key = rng.one_in(3);
        let frame = match kind {
            0 | 1 => {
                if rng.one_in(4) {
                    let s = drawn(rng, key, 2);
                    whole(rng, &s)
                } else {
                    let number = rng.range(1, 5) as u8;
                    refused(rng, number, key)
                }
            }
            2 => {
                let log2 = rng.below(4) as u8;
                let size = rng.pick(&[0, 1, 3, 255, 256, 300]);
                let sizes: Vec<u32> = (1..1 << log2).map(|_| rng.below(size + 1) as u32).collect();
                let zeros = rng.pick(&[0, 0, 1, 7]);
                let all = at_limits(rng, key, log2, &sizes, zeros);
                rng.pick(&all)
            }
            3 => {
                // Short frames with a good or spoilt chunk.
                let first = rng.pick(&[0, 0, 1, 2, 3]);
                let mut f = drawn(rng, key, 0).chunk(first);
                f.extend(rng.bytes(4));
                if rng.one_in(4) {
                    let at = rng.below(f.len());
                    f[at] = rng.byte();
                }
                let cut = rng.below(f.len() + 1);
                f.truncate(cut);
                f
            }
            4 | 5 => {
                let updates = rng.pick(&[0, 1, 5, 40]);
                let s = drawn(rng, key || out.is_empty(), updates);
                whole(rng, &s)
            }
            6 => {
                let length = rng.pick(&[1, 2, 3, 4, 5, 6, 8, 9, 16, 17, 40, 200]);
                let area = if rng.flip() { ff_area(rng, length) } else { rng.bytes(length) };
                over_area(rng, key, &area)
            }
            7 => {
                let s = match rng.below(3) {
                    0 => Spec::least(key),
                    1 => Spec { log2: 0, ..most(rng, key) },
                    _ => Spec { log2: 0, keep: false, ..most(rng, key) },
                };
                s.frame(&[], &few(rng))
            }
            8 => {
                let turn = rng.below(256);
                signs(rng, turn)
            }
            9 => {
                let length = rng.pick(&[0, 1, 2, 3, 4, 6, 9, 10, 11, 12, 20, 50, 120]);
                rng.bytes(length)
            }
            _ => {
                let stream = &streams[rng.below(streams.len())];
                // A run from the start, since the first frame is a key frame.
                let at = if out.is_empty() { 0 } else { rng.below(stream.len()) };
                let keep = rng.pick(&[0, 1, 20, LONGEST]);
                let f = shortened(&stream[at], keep);
                if kind == 10 || f.is_empty() { f } else { damaged(rng, &f) }
            }
        };
        assert!(frame.len() <= LONGEST, "a frame longer than the dump takes");
        out.push(frame);
    }
    out
}

/// A frame whose first partition has the first so many bytes of the header's code, with zeros where that has fewer. Either the code
/// goes on after it, or the table of sizes and the partitions stand there, as a reader expects that is held to the first partition.
pub fn ended(rng: &mut Rng, s: &Spec, first: usize, goes_on: bool) -> Frame {
    let (code, _) = s.header();
    let mut f = s.chunk(first as u32);
    f.extend(code.iter().chain(std::iter::repeat(&0)).take(first));
    if goes_on {
        f.extend(code.iter().skip(first));
        f.extend(few(rng));
    } else {
        let sizes: Vec<u8> = (1..1 << s.log2).map(|_| rng.below(4) as u8).collect();
        sizes.iter().for_each(|size| f.extend([*size, 0, 0]));
        let sum: usize = sizes.iter().map(|size| *size as usize).sum();
        f.extend(rng.bytes(sum));
        f.extend(few(rng));
    }
    f
}

/// A header with the map flag set, feature data or not, and its probabilities coded as either mode reads them.
pub fn mapped(rng: &mut Rng, key: bool, data: bool, by_map: bool) -> Spec {
    let updates = rng.pick(&[0, 1, 4]);
    Spec { seg: true, seg_map: true, seg_data: data, by_map, ..drawn(rng, key, updates) }
}

/// A frame at which the modes part, or nearly do: by the map flag, or by where the first partition ends.
pub fn parting(rng: &mut Rng, key: bool) -> Frame {
    match rng.below(8) {
        0..=2 => {
            let (data, by_map) = (rng.one_in(4), rng.flip());
            let s = mapped(rng, key, data, by_map);
            whole(rng, &s)
        }
        3 | 4 => {
            let (data, by_map) = (rng.flip(), rng.flip());
            let s = if rng.flip() { mapped(rng, key, data, by_map) } else { drawn(rng, key, 2) };
            let length = s.header().0.len();
            let (any, goes_on) = (rng.range(0, length), rng.flip());
            let first = rng.pick(&[any, any, any, length - 1, length - 2, length + 1]);
            ended(rng, &s, first, goes_on)
        }
        5 => {
            let length = rng.range(0, 8);
            let mut f = drawn(rng, key, 0).chunk(0);
            f.extend(rng.bytes(length));
            f
        }
        6 => {
            let (first, more) = (rng.range(1, 3), rng.range(0, 24));
            let mut f = drawn(rng, key, 0).chunk(first as u32);
            f.extend(rng.bytes(first + more));
            f
        }
        _ => {
            let length = rng.range(1, 40);
            let area = if rng.flip() { ff_area(rng, length) } else { rng.bytes(length) };
            over_area(rng, key, &area)
        }
    }
}

/// One drawn sequence of 1 to 8 frames at which the modes part, with refusals among them.
pub fn partings(rng: &mut Rng) -> Vec<Frame> {
    let frames = rng.range(1, 8);
    let mut out = if rng.flip() { vec![touch(rng)] } else { Vec::new() };
    while out.len() < frames {
        let (key, number) = (rng.one_in(3), rng.range(1, 5) as u8);
        out.push(if rng.one_in(6) { refused(rng, number, key) } else { parting(rng, key) });
    }
    out
}

/// One drawn script for the bare decoder.
pub fn script(rng: &mut Rng) -> (Vec<u8>, Vec<Read>) {
    let length = match rng.below(10) {
        0 => 0,
        1..=4 => rng.range(1, 12),
        5..=7 => rng.range(1, 64),
        8 => rng.range(1, 400),
        _ => rng.pick(&[7, 8, 9, 15, 16, 17, 4095, 4096]),
    };
    let area = match rng.below(6) {
        0 => vec![0; length],
        1 => vec![0xff; length],
        2 if length > 0 => ff_area(rng, length),
        _ => rng.bytes(length),
    };
    let reads = match rng.below(12) {
        0 => 0,
        1..=6 => rng.range(1, 20),
        7..=10 => rng.range(1, 120),
        _ => rng.range(500, 1024),
    };
    let style = rng.below(5);
    let reads = (0..reads).map(|_| one_read(rng, style)).collect();
    (area, reads)
}

fn one_read(rng: &mut Rng, style: usize) -> Read {
    let edge = [0, 1, 2, 127, 128, 129, 253, 254, 255];
    match style {
        0 => (0, rng.byte()),
        1 => (0, rng.pick(&edge)),
        2 => (rng.range(1, 2) as u8, rng.range(0, 31) as u8),
        3 => (rng.range(1, 2) as u8, rng.range(0, 40) as u8),
        _ => match rng.below(4) {
            0 => (0, rng.pick(&edge)),
            1 => (0, rng.byte()),
            2 => (1, rng.pick(&[0, 1, 2, 7, 8, 30, 31, 32, 40, 255])),
            _ => (2, rng.pick(&[0, 1, 4, 6, 7, 30, 31, 32, 33, 255])),
        },
    }
}
