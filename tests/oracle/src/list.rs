//! The fixed lists: which frames and scripts, and how they are stored with the answers.

use crate::answer::{Answer, Mode, KEPT, NUMBERS};
use crate::bare::{self, Read};
use crate::both;
use crate::engine::Engine;
use crate::gen::{self, Frame, Stream};
use crate::rng::Rng;
use crate::rules::{self, Rules};
use crate::spec::Spec;
use crate::stats::{Scripts, Stats};

/// A frame with its number among the worked cases of docs/RULES.md (0: none) and the mode in which it is read.
pub type Item = (u8, Mode, Frame);

/// The list's sequences, and with which sequence each part of it begins.
pub struct Fixed {
    pub sequences: Vec<Vec<Item>>,
    pub parts: Vec<(usize, &'static str)>,
}

/// K of the worked cases: start code and 176 by 144.
const K: [u8; 7] = [0x9d, 0x01, 0x2a, 0xb0, 0x00, 0x90, 0x00];

fn with_k(front: [u8; 3], back: &[u8]) -> Frame {
    [&front[..], &K, back].concat()
}

/// The frames of cases 9, 11 and 12.
pub fn case9() -> Frame {
    vec![0x51, 0, 0, 0, 0x04, 0, 0]
}

pub fn case11() -> Frame {
    with_k([0x70, 0, 0], &[0x30, 0x80, 0, 0])
}

pub fn case12() -> Frame {
    vec![0x01, 0, 0]
}

/// The worked cases, and the one that is named among the slips beside them.
fn cases() -> Vec<Numbered> {
    vec![
        vec![(1, vec![])],
        vec![(1, vec![0, 0])],
        vec![(2, vec![0, 0, 0])],
        vec![(3, vec![0, 0, 0, 0x9d, 0x01, 0x2b])],
        vec![(4, with_k([0x30, 0, 0], &[]))],
        vec![(5, with_k([0x10, 0, 0], &[]))],
        vec![(6, with_k([0x30, 0, 0], &[0, 0]))],
        vec![(7, vec![0x31, 0, 0, 0, 0])],
        vec![(8, vec![0x51, 0, 0, 0, 0x04, 0, 0, 0, 0])],
        vec![(9, case9())],
        vec![(10, vec![0x31, 0, 0, 0, 0x04])],
        vec![(11, case11())],
        vec![(11, case11()), (12, case12())],
        vec![(11, case11()), (0, case9())],
    ]
}

/// The outcome of a worked case, from the table of docs/RULES.md.
fn as_listed(case: u8, mode: Mode, a: &Answer) -> bool {
    let shows = |want: &[(&str, i64)]| a.refusal == 0 && want.iter().all(|(name, v)| a.get(name) == *v);
    let standard = mode == Mode::Standard;
    // By the standard the position stops at the first partition's end, and what is made up begins there.
    let ends = |rust: (i64, i64), own: (i64, i64)| {
        let (at, past) = if standard { own } else { rust };
        shows(&[("hsize", at), ("past", past)])
    };
    let segment = if standard { [255; 3] } else { [0; 3] };
    match case {
        0 => true,
        1 | 2 => a.refusal == 1,
        3 => (a.refusal, a.a) == (2, 0x2b019d),
        4 => (a.refusal, a.a, a.b) == (3, 11, 10) && a.kept == Engine::new().kept(),
        5 => a.refusal == 4 && a.kept == Engine::new().kept(),
        6 => shows(&[("n", 1), ("part0", 1), ("bools", 1086), ("value", 0)]) && ends((16, 27), (8, 35)),
        7 => shows(&[("part0", 1), ("bools", 1157)]) && ends((16, 61), (8, 69)),
        8 => shows(&[("n", 2), ("part0", 0), ("part1", 1)]) && ends((48, 29), (16, 61)),
        10 if standard => shows(&[("n", 1), ("part0", 1)]),
        9 | 10 => a.refusal == 5,
        11 if standard => {
            let after = [("bools", 1091), ("range", 194), ("count", 0), ("hsize", 24), ("past", 24)];
            shows(&[("ft", 1), ("lvl", 0)]) && shows(&after) && a.kept[..3] == [1, 1, 0] && a.kept[12..15] == segment
        }
        11 => shows(&[("ft", 0), ("lvl", 8), ("hsize", 32), ("past", 13)]) && a.kept[..3] == [1, 1, 0] && a.kept[12..15] == segment,
        12 => a.refusal == 4 && a.kept[..3] == [1, 0, 0] && a.kept[12..15] == segment,
        _ => false,
    }
}

/// The outcome of a worked case of the bare decoder.
fn line_listed(case: u8) -> Option<&'static str> {
    match case {
        13 => Some("1,@1+0 | 254 0 7 1 0"),
        14 => Some("1,@1+0 1,@2+0 0,@3+0 | 254 3 5 3 0"),
        15 => Some("0,@0+0 | 128 127 0 0 0"),
        16 => Some("0,@7+0 | 128 0 1 7 0"),
        17 => Some("0,@0+0 | 254 0 0 0 0"),
        18 => Some("0,@0+0 0,@1+0 0,@2+0 0,@3+0 0,@4+0 0,@5+0 0,@6+0 0,@7+0 0,@8+0 0,@8+1 | 128 0 7 8 1"),
        _ => None,
    }
}

/// A well formed frame is read back and held against what was written, so that the writer is tried too.
pub fn written(mode: Mode, spec: &Spec, frame: Frame) -> Frame {
    let answer = Engine::new().call(mode, &frame);
    assert!(answer.refusal == 0 && spec.shown(&answer), "the writer wrote another header");
    frame
}

/// The first drawn frame that is accepted, or the last of many where none is.
fn accepted(rng: &mut Rng, draw: impl Fn(&mut Rng) -> Frame) -> Frame {
    let mut frame = draw(rng);
    for _ in 0..300 {
        if Engine::new().call(Mode::Rust, &frame).refusal == 0 {
            break;
        }
        frame = draw(rng);
    }
    frame
}

/// All sequences of the fixed list: those of the Rust's mode, and after them the others.
pub fn sequences(streams: &[Stream]) -> Fixed {
    let (plain, parts) = of_the_rust(streams);
    let mut out = Fixed { sequences: plain.iter().map(|s| both::all(Mode::Rust, s)).collect(), parts };
    both::add(&mut out, &plain);
    out
}

/// A short inter frame that leaves segmentation and filter adjustments off.
pub fn inter(rng: &mut Rng) -> Frame {
    let s = Spec { seg: false, adj: false, log2: 0, ..gen::drawn(rng, false, 0) };
    written(Mode::Rust, &s, s.frame(&[], &[]))
}

/// A sequence's frames with their case numbers.
pub type Numbered = Vec<(u8, Frame)>;

/// The sequences of the Rust's mode, and with which of them each part begins.
fn of_the_rust(streams: &[Stream]) -> (Vec<Numbered>, Vec<(usize, &'static str)>) {
    let rng = &mut Rng::new(0x5111_b200);
    let mut out = cases();
    let mut parts = vec![(1, "the worked cases, and case 9 after case 11")];
    let plain = |frames: Vec<Frame>| frames.into_iter().map(|f| (0, f)).collect::<Numbered>();
    let full = |rng: &mut Rng, key: bool, keep: bool| {
        let s = Spec { keep, log2: 0, ..gen::most(rng, key) };
        written(Mode::Rust, &s, s.frame(&[], &[]))
    };

    // Every refusal over a parser whose every kept number has changed.
    parts.push((out.len() + 1, "every refusal over a parser whose every kept number has changed"));
    let mut start = vec![full(rng, false, true)];
    for (number, key) in [(1, false), (1, true), (1, true), (2, true), (2, true), (3, false), (4, false)] {
        start.push(gen::refused(rng, number, key));
    }
    out.push(plain(start));
    for (number, key) in [(5, false), (3, true), (4, true), (5, true)] {
        let frames = vec![full(rng, false, true), gen::refused(rng, number, key), inter(rng)];
        out.push(plain(frames));
    }
    // The fullest headers, kept or not, accepted or refused after the header.
    parts.push((out.len() + 1, "the fullest and the least headers"));
    for (key, keep) in [(false, true), (false, false), (true, true), (true, false)] {
        let cut = Spec { log2: 1, keep, ..gen::most(rng, key) }.frame(&[9], &[1, 2, 3]);
        out.push(plain(vec![full(rng, false, true), full(rng, key, keep), inter(rng)]));
        out.push(plain(vec![gen::touch(rng), cut, inter(rng)]));
    }
    for key in [true, false] {
        let s = Spec::least(key);
        out.push(plain(vec![gen::touch(rng), written(Mode::Rust, &s, s.frame(&[], &[])), inter(rng)]));
    }

    // Every refusal over a parser of which every kind of number has changed, many times over.
    parts.push((out.len() + 1, "every refusal over a parser of which every kind of number has changed"));
    for turn in 0..20 {
        let mut frames = vec![gen::touch(rng)];
        for step in 0..3 {
            frames.push(gen::refused(rng, (turn + step) as u8 % 5 + 1, turn % 3 == step));
        }
        frames.push(inter(rng));
        out.push(plain(frames));
    }

    // Every length around the chunk.
    parts.push((out.len() + 1, "lengths around the chunk"));
    for length in 0..=12 {
        let f = Spec { width: 176, height: 144, ..Spec::least(true) }.padded(0, &[], &[]);
        let mut zero = f.clone();
        // With no first partition a length of 10 leaves an empty area, not a short partition.
        zero[..3].copy_from_slice(&[0x10, 0, 0]);
        out.push(plain(vec![gen::touch(rng), f[..length].to_vec(), inter(rng)]));
        out.push(plain(vec![gen::touch(rng), zero[..length].to_vec(), inter(rng)]));
    }
    for first in 0..3 {
        let chunk = Spec::least(false).chunk(first);
        let mut frames = vec![gen::touch(rng)];
        for length in 0..=6 {
            let mut f = chunk.clone();
            f.resize(6, 0);
            frames.push(f[..length].to_vec());
        }
        out.push(plain(frames));
    }

    // Wrong start codes of several lengths.
    parts.push((out.len() + 1, "wrong start codes"));
    for lengths in [[6, 7, 8, 9, 10, 11, 12], [6, 6, 10, 10, 10, 10, 30]] {
        let mut frames = vec![gen::touch(rng)];
        for (i, length) in lengths.iter().enumerate() {
            let mut f = with_k([0x10, 0, 0], &[0; 30]);
            f[3 + i % 3] ^= [1, 0x80, 0xff, 2, 0x10, 0x7f, 4][i];
            f.truncate(*length);
            frames.push(f);
        }
        out.push(plain(frames));
    }

    // The end of the first partition around the end of the frame.
    parts.push((out.len() + 1, "the first partition's end around the frame's"));
    for key in [true, false] {
        for area in 0..4usize {
            for first in [area.saturating_sub(1), area, area + 1, area + 2, 0x7ffff] {
                let mut f = gen::drawn(rng, key, 0).chunk(first as u32);
                f.extend(rng.bytes(area));
                out.push(plain(vec![gen::touch(rng), f]));
            }
        }
    }

    // One, two, four and eight partitions at and around each limit.
    parts.push((out.len() + 1, "partitions at and around each limit"));
    for key in [true, false] {
        for log2 in 0..4u8 {
            let n = 1usize << log2;
            let rising: Vec<u32> = (1..n as u32).collect();
            let mut wide = vec![0; n - 1];
            wide.iter_mut().last().into_iter().for_each(|s| *s = 256);
            for (sizes, zeros) in [(vec![0; n - 1], 0), (vec![1; n - 1], 3), (rising, 0), (wide, 1)] {
                let mut frames = gen::at_limits(rng, key, log2, &sizes, zeros);
                frames.insert(0, gen::touch(rng));
                out.push(plain(frames));
            }
        }
    }
    // A size whose third byte counts, and frames that must not be taken for long enough.
    for rest in [300, 33_000] {
        let s = Spec { log2: 1, ..gen::drawn(rng, true, 0) };
        out.push(plain(vec![s.frame(&[0x01_0000], &vec![0; rest])]));
    }
    // The table of sizes lies inside the header's own bytes, or the header is read from beyond it.
    for turn in 0..16 {
        let s = gen::drawn(rng, turn % 2 == 0, 3);
        let (code, _) = s.header();
        let first = [0, 1, 2, code.len() / 2][turn / 4];
        let mut f = s.chunk(first as u32);
        f.extend(code);
        f.extend([0; 12]);
        out.push(plain(vec![gen::touch(rng), f]));
    }

    // Areas that begin with FF, of all small lengths.
    parts.push((out.len() + 1, "areas that begin with FF"));
    for length in 1..=24usize {
        let all = vec![0xff; length];
        let some = gen::ff_area(rng, length);
        let more = gen::ff_area(rng, 2 * length + 20);
        let keys = [length % 2 == 0, length % 2 == 1, length % 3 == 0];
        let mut frames: Vec<Frame> = [all, some, more].iter().zip(keys).map(|(a, key)| gen::over_area(rng, key, a)).collect();
        // Most such areas ask for more partitions than there is room for; some shall be accepted.
        for key in [true, false] {
            frames.push(accepted(rng, |rng| {
                let area = gen::ff_area(rng, length);
                gen::over_area(rng, key, &area)
            }));
        }
        out.push(plain(frames));
    }
    // Short areas, read far past their end.
    parts.push((out.len() + 1, "short areas"));
    for length in 1..=12usize {
        let mut frames = Vec::new();
        for turn in 0..6 {
            let draw = |rng: &mut Rng| {
                let area = rng.bytes(length);
                gen::over_area(rng, turn % 2 == 0, &area)
            };
            frames.push(if turn < 4 { accepted(rng, draw) } else { draw(rng) });
        }
        out.push(plain(frames));
    }

    // Every signed value with both signs, levels, quantizers and motion updates in turn.
    parts.push((out.len() + 1, "signed values in turn"));
    for turn in 0..16 {
        let frames = (0..8).map(|i| gen::signs(rng, 8 * turn + i)).collect();
        out.push(plain(frames));
    }

    // Headers that end at each bit of a decoder's window, with bits that count after them.
    parts.push((out.len() + 1, "headers that end at each bit of a window"));
    for turn in 0..8 {
        let mut frames = Vec::new();
        for i in 0..8 {
            let mut s = Spec { skip: Some(rng.byte()), end: rng.range(1, 127) as u8, ..Spec::least(i % 4 != 3) };
            // Each delta lengthens the header by five bits, each coefficient by more.
            (0..i % 6).for_each(|d| s.q_deltas[d.min(4)] = Some((9, d % 2 == 0)));
            (0..turn).for_each(|c| _ = s.coeff.insert(7 + 40 * c, rng.byte()));
            frames.push(written(Mode::Rust, &s, s.frame(&[], &[0xff, 0xff])));
        }
        out.push(plain(frames));
    }

    // Versions, show flags, sizes and scale codes.
    parts.push((out.len() + 1, "versions, show flags, sizes, scale codes"));
    for version in 0..8u8 {
        let mut frames = Vec::new();
        for i in 0..4u8 {
            let mut s = Spec { version, show: i % 2 == 0, log2: 0, ..gen::drawn(rng, i < 2, 0) };
            s.width = [0, 1, 15, 16, 17, 31, 8192, 16_383][(version + i) as usize % 8];
            s.height = [16_383, 0, 16, 47, 4095, 1, 15, 1080][version as usize];
            (s.hscale, s.vscale) = (version % 4, (version / 2 + i) % 4);
            frames.push(written(Mode::Rust, &s, s.frame(&[], &[7])));
        }
        out.push(plain(frames));
    }

    // Drawn headers: what is kept goes from frame to frame.
    parts.push((out.len() + 1, "drawn headers"));
    for turn in 0..56 {
        let mut frames = Vec::new();
        for i in 0..1 + turn % 6 {
            let updates = rng.pick(&[0, 1, 3, 8]);
            let key = (turn % 4 != 0 && i == 0) || rng.one_in(8);
            let s = gen::drawn(rng, key, updates);
            frames.push(written(Mode::Rust, &s, gen::whole(rng, &s)));
        }
        out.push(plain(frames));
    }

    // Plain random bytes.
    parts.push((out.len() + 1, "random bytes"));
    for turn in 0..32 {
        let frames = (0..1 + turn % 4).map(|_| {
            let length = rng.pick(&[1, 2, 3, 4, 5, 6, 9, 10, 11, 12, 16, 30, 60]);
            let mut f = rng.bytes(length);
            if rng.one_in(3) && length > 6 {
                f[0] &= 0xfe;
                f[3..6].copy_from_slice(&K[..3]);
            }
            if rng.flip() && length > 2 {
                (f[1], f[2]) = (0, 0);
            }
            f
        });
        out.push(plain(frames.collect()));
    }

    // Real frames, most with their last partition cut, and damaged copies of them.
    parts.push((out.len() + 1, "real frames and damaged copies"));
    for (i, stream) in streams.iter().enumerate() {
        let mut frames: Vec<Frame> = Vec::new();
        for f in stream.iter() {
            let cut = gen::shortened(f, 8);
            let most = if frames.is_empty() { 900 } else { 400 };
            if f.len() <= 400 {
                frames.push(f.clone());
            } else if cut.len() <= most {
                frames.push(cut);
            }
            if frames.len() == 4 {
                break;
            }
        }
        if frames.is_empty() {
            continue;
        }
        let mut spoilt = vec![frames[0].clone()];
        // A damaged key frame is put first too, where nothing went before.
        if i % 3 == 0 {
            spoilt[0] = gen::damaged(rng, &frames[0]);
        }
        for _ in 0..3 {
            let f = rng.pick(&frames);
            spoilt.push(gen::damaged(rng, &f));
        }
        out.push(plain(frames));
        // Long key frames are not stored twice.
        spoilt.retain(|f| f.len() <= 500);
        if !spoilt.is_empty() {
            out.push(plain(spoilt));
        }
    }
    // A few whole ones.
    for stream in streams.iter().filter(|s| s.iter().take(2).all(|f| (900..4000).contains(&f.len()))).take(3) {
        out.push(plain(stream.iter().take(2).cloned().collect()));
    }
    // A mixture as the generator makes it.
    parts.push((out.len() + 1, "a mixture as the generator makes it"));
    while out.len() < 550 {
        let frames = gen::sequence(rng, streams);
        if frames.iter().all(|f| f.len() <= 900) {
            out.push(plain(frames));
        }
    }
    (out, parts)
}

fn patch(out: &mut Vec<u8>, old: &[u8], new: &[u8]) {
    let changed: Vec<usize> = (0..old.len()).filter(|i| old[*i] != new[*i]).collect();
    out.extend((changed.len() as u16).to_le_bytes());
    for i in changed {
        out.extend((i as u16).to_le_bytes());
        out.push(new[i]);
    }
}

/// The bytes of the list of frames, and what they reach. Every answer is held against the rules.
pub fn frames(sequences: &[Vec<Item>]) -> (Vec<u8>, Stats) {
    let fresh = Engine::new().kept().to_vec();
    assert_eq!(fresh.len(), KEPT);
    let mut out = b"SBFRAME2".to_vec();
    out.extend(&fresh);
    let mut stats = Stats::default();
    let mut total = 0u32;
    for sequence in sequences {
        out.push(1);
        let (mut engine, mut rules) = (Engine::new(), Rules::new());
        let (mut kept, mut probs) = (fresh.clone(), fresh[25..].to_vec());
        stats.sequence(sequence.len());
        for item in sequence {
            let (case, mode, frame) = item;
            total += 1;
            let other = engine.clone().call(mode.other(), frame);
            let answer = engine.call(*mode, frame);
            agree(*mode, &answer, &rules.call(*mode, frame), frame);
            assert!(as_listed(*case, *mode, &answer), "case {case} in {mode} is not as docs/RULES.md lists it");
            stats.frame(item, &kept, &fresh, &answer, &other);
            let kind = match mode {
                Mode::Rust => 2,
                Mode::Standard => 3,
            };
            out.extend([kind, *case]);
            out.extend((frame.len() as u32).to_le_bytes());
            out.extend(frame);
            out.push(answer.refusal);
            out.extend(answer.a.to_le_bytes());
            out.extend(answer.b.to_le_bytes());
            if answer.refusal == 0 {
                for ((name, width), value) in NUMBERS.iter().zip(&answer.numbers) {
                    assert!(*value >= 0 && *value < 1 << (8 * width), "{name} does not fit");
                    out.extend(&value.to_le_bytes()[..*width]);
                }
                patch(&mut out, &probs, &answer.probs);
                probs.clone_from(&answer.probs);
            }
            patch(&mut out, &kept, &answer.kept);
            kept = answer.kept;
        }
    }
    out.push(0);
    out.extend((sequences.len() as u32).to_le_bytes());
    out.extend(total.to_le_bytes());
    (out, stats)
}

/// Stops where a reader and the rules part.
pub fn agree(mode: Mode, reader: &Answer, rules: &Answer, frame: &[u8]) {
    if reader != rules {
        eprintln!("the reader and the rules part in {mode} on the frame {frame:02x?}");
        std::process::exit(1);
    }
}

/// All scripts of the fixed list, each with its number among the worked cases (0: none).
pub fn scripts() -> Vec<(u8, Vec<u8>, Vec<Read>)> {
    let rng = &mut Rng::new(0x5111_b201);
    let mut out = vec![
        (13, vec![0x80], vec![(0, 128)]),
        (14, vec![0xff; 8], vec![(0, 128); 3]),
        (15, vec![0x7f], vec![(0, 128)]),
        (16, vec![0x00], vec![(0, 0)]),
        (17, vec![0x00], vec![(0, 255)]),
        (18, vec![0x00], vec![(0, 128); 10]),
    ];
    let mut add = |area: Vec<u8>, reads: Vec<Read>| out.push((0, area, reads));
    // The decoder before any read, and over nothing at all.
    for area in [vec![], vec![0x00], vec![0xff], vec![0x5a, 0xa5]] {
        add(area, vec![]);
    }
    add(vec![], vec![(0, 128), (1, 0), (2, 0), (1, 31), (1, 32), (2, 31), (2, 32), (1, 0), (0, 0), (0, 255), (1, 255)]);
    // A refusal of the width leaves the decoder as it was.
    add(vec![0xc3, 0x55, 0x01], vec![(1, 5), (1, 32), (2, 32), (1, 255), (1, 5), (2, 33), (2, 4), (1, 0), (2, 0)]);
    // Every probability in turn, up and down, over plain and drawn areas.
    let up: Vec<Read> = (0..=255).map(|p| (0, p)).collect();
    let down: Vec<Read> = up.iter().rev().copied().collect();
    for area in [vec![0; 40], vec![0xff; 40], vec![0x55; 300], rng.bytes(300), rng.bytes(3)] {
        add(area.clone(), up.clone());
        add(area, down.clone());
    }
    // A known range, then every probability: the ranges before doubling, the small ones too.
    for p in 0..=7u8 {
        let reads = (0..32).flat_map(|i| [(0, 255), (0, 32 * p + i)]).collect();
        add(vec![0; 9], reads);
    }
    // Ones at high probabilities leave small ranges as well.
    for _ in 0..6 {
        let reads = (0..200).map(|_| (0, rng.pick(&[200, 230, 240, 250, 253, 254, 255]))).collect();
        add(vec![0xfe; 60], reads);
    }
    // Every width, unsigned and signed.
    for kind in [1, 2] {
        for area in [rng.bytes(80), vec![0xff; 80], vec![0; 5], rng.bytes(20)] {
            add(area, (0..=40).map(|w| (kind, w)).collect());
        }
    }
    // All ones: the widest value and the most negative one.
    add(vec![0xaa; 40], vec![(1, 31); 6]);
    for _ in 0..6 {
        let area = rng.bytes(60);
        add(area, vec![(1, 31), (2, 31), (2, 30), (1, 30), (2, 1), (1, 1)]);
    }
    // Areas of every small length, read past the end, led by FF or not.
    for length in 1..=20 {
        let (plain, led) = (rng.bytes(length), gen::ff_area(rng, length));
        for area in [plain, led] {
            let mut reads: Vec<Read> = vec![(1, 7), (2, 7), (0, rng.byte()), (1, 31)];
            reads.extend((0..length * 3).map(|_| (0, rng.byte())));
            reads.extend([(2, 6), (1, 8), (0, 1), (0, 254)]);
            add(area, reads);
        }
    }
    // The largest scripts.
    for area in [rng.bytes(4096), gen::ff_area(rng, 4096)] {
        add(area, (0..1024).map(|_| (rng.range(1, 2) as u8, rng.range(28, 31) as u8)).collect());
    }
    add(rng.bytes(600), (0..1024).map(|_| (0, rng.byte())).collect());
    while out.len() < 320 {
        let (area, reads) = gen::script(rng);
        // A few long ones are enough.
        if area.len() <= 1000 || out.len() % 40 == 0 {
            out.push((0, area, reads));
        }
    }
    out
}

/// One script as it is read by `bools`.
pub fn script_record(area: &[u8], reads: &[Read]) -> Vec<u8> {
    let mut out = (area.len() as u32).to_le_bytes().to_vec();
    out.extend(area);
    out.extend((reads.len() as u16).to_le_bytes());
    reads.iter().for_each(|(kind, n)| out.extend([*kind, *n]));
    out
}

/// The bytes of the list of scripts, and what they reach.
pub fn bools(scripts: &[(u8, Vec<u8>, Vec<Read>)]) -> (Vec<u8>, Scripts) {
    let mut out = b"SBBOOLS1".to_vec();
    let mut stats = Scripts::default();
    for (case, area, reads) in scripts {
        let line = checked(area, reads, &mut stats);
        assert!(line_listed(*case).is_none_or(|l| l == line), "case {case} is not as docs/RULES.md lists it");
        out.extend([2, *case]);
        out.extend(script_record(area, reads));
        out.extend(u16::try_from(line.len()).expect("a short line").to_le_bytes());
        out.extend(line.as_bytes());
    }
    out.push(0);
    out.extend((scripts.len() as u32).to_le_bytes());
    (out, stats)
}

/// The Rust's line; stops where it is not that of the rules.
pub fn checked(area: &[u8], reads: &[Read], stats: &mut Scripts) -> String {
    let line = bare::line(area, reads);
    stats.script(area, reads, &line);
    let rules = rules::line(area, reads, |d, read| stats.read(d, read, area));
    if line != rules {
        eprintln!("the Rust and the rules part on a script over {area:02x?}: {line} / {rules}");
        std::process::exit(1);
    }
    line
}
