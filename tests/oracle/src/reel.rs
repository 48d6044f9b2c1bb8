//! Recordings as the port takes them: the walk by docs/RULES.md, written apart from the port's and from ivf.rs, which takes whole ones
//! alone, and held against the Rust's own iterator; the lines that are printed of one; drawn ones, put down by the Rust's own writer and
//! most of them damaged then; and slips of the walk.

use crate::answer::{Answer, Mode};
use crate::bitstream_utils::{IvfFileHeader, IvfFrameHeader, IvfIterator};
use crate::engine::Engine;
use crate::gen::{self, Frame, Stream};
use crate::rng::Rng;
use std::ops::Range;

/// The longest file that the program takes, and the entries of its lists.
pub const LONGEST: usize = 65_536;
pub const ENTRIES: usize = 5_458;

/// Where the bytes of each listed frame stand, and the refusal that ended the walk: 0 for none.
pub struct Walk {
    pub frames: Vec<Range<usize>>,
    pub refusal: u8,
}

/// The walk over a file, where so many frames can be listed.
pub fn walk(file: &[u8], room: usize) -> Walk {
    let mut frames = Vec::new();
    if file.len() < 32 || !file.starts_with(b"DKIF\0\0\x20\0VP80") {
        return Walk { frames, refusal: 10 };
    }
    let mut rest = &file[32..];
    let refusal = loop {
        if rest.is_empty() {
            break 0;
        }
        // As wide a number as there is: no size wraps.
        let size = rest.get(..12).map(|head| head[..4].iter().rev().fold(0u128, |n, b| n << 8 | *b as u128));
        let Some(size) = size.filter(|size| 12 + size <= rest.len() as u128) else { break 11 };
        if frames.len() == room {
            break 12;
        }
        let start = file.len() - rest.len() + 12;
        frames.push(start..start + size as usize);
        rest = &rest[12 + size as usize..];
    };
    Walk { frames, refusal }
}

/// The same, borne out by the Rust's iterator, which looks at no header and is not asked for a record that is cut short: it panics there.
fn borne_out(file: &[u8], room: usize) -> Walk {
    let walk = walk(file, room);
    if walk.refusal != 10 {
        let mut packets = IvfIterator::new(file);
        for at in &walk.frames {
            assert!(packets.next() == Some(&file[at.clone()]), "the Rust's iterator has another frame");
        }
        assert!(walk.refusal != 0 || packets.next().is_none(), "the Rust's iterator has a frame more");
    }
    walk
}

/// The lines of the printing program for one answer.
fn printed(a: &Answer) -> Vec<String> {
    match a.refusal {
        0 => {}
        2 => return vec![format!("refused 2 code {}", a.a)],
        3 => return vec![format!("refused 3 end {} length {}", a.a, a.b)],
        n => return vec![format!("refused {n}")],
    }
    let words = [("key", "key"), ("version", "ver"), ("show", "show"), ("chunk", "chunk"), ("first", "first")];
    let front: String = words.iter().map(|(word, name)| format!(" {word} {}", a.get(name))).collect();
    let mut lines = vec![format!("accepted{front} size {}x{} parts {} bools {}", a.get("w"), a.get("h"), a.get("n"), a.get("bools"))];
    let mut start = a.get("chunk") + a.get("first") + 3 * (a.get("n") - 1);
    for i in 0..a.get("n") {
        let length = a.get(&format!("part{i}"));
        lines.push(format!("part {i} start {start} length {length}"));
        start += length;
    }
    lines
}

/// What the program over recordings prints of a file.
pub fn told(file: &[u8], mode: Mode) -> String {
    if file.len() > LONGEST {
        return "too large\n".into();
    }
    let (walk, mut engine, mut out) = (borne_out(file, ENTRIES), Engine::new(), String::new());
    for (i, at) in walk.frames.into_iter().enumerate() {
        for line in printed(&engine.call(mode, &file[at])) {
            out += &format!("{i} {line}\n");
        }
    }
    if walk.refusal != 0 {
        out += &format!("refused {}\n", walk.refusal);
    }
    out
}

/// What the lists' program prints: the answer, and both lists whole, whose entries were 1,000,000 and 2,000,000 and on before.
pub fn listed(file: &[u8], offsets: usize, lengths: usize) -> String {
    let walk = borne_out(file, offsets.min(lengths));
    let list = |entries: usize, first: usize, value: fn(&Range<usize>) -> usize| -> String {
        (0..entries).map(|i| format!(" {}", walk.frames.get(i).map_or(first + i, value))).collect()
    };
    let (offsets, lengths) = (list(offsets, 1_000_000, |at| at.start), list(lengths, 2_000_000, |at| at.len()));
    format!("count {} refused {} offsets{offsets} lengths{lengths}\n", walk.frames.len(), walk.refusal)
}

fn header(rng: &mut Rng, frames: u32) -> Vec<u8> {
    let head = IvfFileHeader {
        codec: IvfFileHeader::CODEC_VP8,
        width: rng.next() as u16,
        height: rng.next() as u16,
        framerate: rng.next() as u32,
        timescale: rng.next() as u32,
        // Right or not.
        frame_count: if rng.flip() { frames } else { rng.pick(&[0, 1, frames + 1, u32::MAX, 0x8000_0000]) },
        unused: rng.next() as u32,
        ..IvfFileHeader::default()
    };
    let mut out = Vec::new();
    head.writo_into(&mut out).expect("a vector takes all");
    out
}

fn put(rng: &mut Rng, out: &mut Vec<u8>, frame: &[u8]) {
    let timestamp = if rng.one_in(4) { u64::MAX } else { rng.next() };
    IvfFrameHeader { frame_size: frame.len() as u32, timestamp }.writo_into(out).expect("a vector takes all");
    out.extend(frame);
}

/// Frames of a recording or drawn ones, with empty ones between, as far as they make a file of that size.
fn frames(rng: &mut Rng, streams: &[Stream], most: usize) -> Vec<Frame> {
    let mut all = if rng.flip() { gen::sequence(rng, streams) } else { rng.pick(streams) };
    let from = rng.below(all.len().max(1));
    all.drain(..from.min(all.len()));
    for _ in 0..rng.pick(&[0, 0, 1, 3]) {
        let at = rng.range(0, all.len());
        all.insert(at, Vec::new());
    }
    let mut size = 32;
    all.retain(|f| {
        let fits = size + 12 + f.len() <= most;
        size += if fits { 12 + f.len() } else { 0 };
        fits
    });
    all
}

/// A file, and where its records begin; the last place is its end.
fn whole(rng: &mut Rng, frames: &[Frame]) -> (Vec<u8>, Vec<usize>) {
    let mut out = header(rng, frames.len() as u32);
    let mut places = vec![out.len()];
    for f in frames {
        put(rng, &mut out, f);
        places.push(out.len());
    }
    (out, places)
}

/// A drawn recording of at most that many bytes or a few more, whole or damaged.
pub fn drawn(rng: &mut Rng, streams: &[Stream], most: usize) -> Vec<u8> {
    // As many records as there can be, the last of them perhaps cut.
    if rng.one_in(40) {
        let many = vec![Vec::new(); (most - 32) / 12];
        let (mut file, _) = whole(rng, &many);
        let more = rng.below(most - file.len() + 1);
        file.extend(rng.bytes(more));
        return file;
    }
    let frames = frames(rng, streams, most);
    let (mut file, places) = whole(rng, &frames);
    match rng.below(12) {
        0 | 1 => {}
        2 => file.truncate(rng.below(file.len() + 1)),
        3 => {
            let near = rng.pick(&places) + rng.below(14);
            file.truncate(near);
        }
        4 => file.truncate(rng.below(33)),
        5 => {
            let at = rng.below(12);
            file[at] ^= 1 << rng.below(8);
        }
        6 => {
            let more = rng.range(1, 30);
            file.extend(rng.bytes(more));
        }
        7 => {
            let more = rng.range(1, 30);
            file.resize(file.len() + more, 0);
        }
        8 => {
            let at = rng.below(file.len());
            file[at] = rng.byte();
        }
        // A size that is another.
        _ if places.len() > 1 => {
            let at = places[rng.below(places.len() - 1)];
            let size = u32::from_le_bytes(file[at..at + 4].try_into().unwrap());
            let left = (file.len() - at - 12) as u32;
            let any = rng.next() as u32;
            let wrong = rng.pick(&[
                0, size + 1, size.wrapping_sub(1), size + 12, left, left + 1, left.wrapping_sub(1), u32::MAX, u32::MAX - 11, u32::MAX - 12,
                u32::MAX - at as u32, 0x8000_0000, 0x7fff_ffff, any, size + 256, size + 65_536, size | 0x0100_0000,
            ]);
            file[at..at + 4].copy_from_slice(&wrong.to_le_bytes());
        }
        _ => {}
    }
    if rng.one_in(30) {
        // At the limit of the program, or past it.
        let to = LONGEST + rng.pick(&[0, 0, 1, 2, 5_000]);
        if file.len() + 12 < to && most == LONGEST {
            let frame = rng.bytes(to - file.len() - 12);
            put(rng, &mut file, &frame);
        }
    }
    file
}

/// A record of the lists' program.
pub fn list_record(rng: &mut Rng, streams: &[Stream]) -> Vec<u8> {
    let most = rng.pick(&[44, 100, 1_000, 5_000]);
    let file = drawn(rng, streams, most);
    let (offsets, lengths) = (rng.pick(&[0, 1, 2, 3, 5, 8, 64]), rng.pick(&[0, 1, 2, 3, 5, 8, 64]));
    let mut out = vec![offsets, lengths];
    out.extend((file.len() as u32).to_le_bytes());
    out.extend(file);
    out
}

/// The slips that the stored list of walks has to tell from the walk, and the first, which is none.
const SLIPS: [&str; 21] = [
    "none",
    "12 is told before 11",
    "full lists are told at the end of the file too",
    "the offset is that of the record",
    "the offset is that of the timestamp",
    "the timestamp's bytes count as the frame's",
    "the size has three bytes",
    "the size has its most significant byte first",
    "where the record ends is added up in 32 bits",
    "a size of 2^31 and more counts as 0",
    "a frame that runs past the end is listed as far as it goes",
    "fewer than 12 bytes are no record, and no refusal",
    "a header may end with the file",
    "the version is not looked at",
    "the header's length is not looked at",
    "the codec is not looked at",
    "the count in the header ends the walk",
    "the lengths' list is taken to be as long as the offsets'",
    "an entry is written before it is known that there is room for both",
    "entries past the count are cleared",
    "an empty frame is not listed",
];

/// The line of a walk with a slip, by another walk than the one above.
fn slipped(slip: usize, file: &[u8], offsets: usize, lengths: usize) -> String {
    let mut of: Vec<usize> = (1_000_000..1_000_000 + offsets).collect();
    let mut le: Vec<usize> = (2_000_000..2_000_000 + lengths).collect();
    let byte = |at: usize| file.get(at).map_or(0, |b| *b as usize);
    let word = |at: usize| (0..4).fold(0, |n, i| n | byte(at + i) << (8 * i));
    let skips = |place: usize| matches!((slip, place), (13, 4 | 5) | (14, 6 | 7) | (15, 8..=11));
    let magic = b"DKIF\0\0\x20\0VP80";
    let headed = file.len() >= if slip == 12 { 12 } else { 32 } && (0..12).all(|i| byte(i) == magic[i] as usize || skips(i));
    let (mut at, mut count) = (32, 0);
    let ended = loop {
        let left = file.len().saturating_sub(at);
        let full = count == offsets.min(lengths);
        let mut size = match slip {
            6 => word(at) & 0xff_ffff,
            7 => (word(at) as u32).swap_bytes() as usize,
            9 if word(at) >> 31 == 1 => 0,
            _ => word(at),
        };
        if !headed {
            break 10;
        }
        if left == 0 || slip == 11 && left < 12 || slip == 16 && count >= word(24) {
            break if slip == 2 && full { 12 } else { 0 };
        }
        let short = left < 12 || if slip == 8 { ((at + 12 + size) as u32 as usize) > file.len() } else { left - 12 < size };
        if short && !(slip == 1 && full) && !(slip == 10 && left >= 12) {
            break 11;
        }
        size = size.min(left.saturating_sub(12));
        if slip == 18 && count < offsets {
            of[count] = at + 12;
        }
        if full && !(slip == 17 && count < offsets) {
            break 12;
        }
        if slip != 20 || size > 0 {
            of[count] = at + match slip { 3 => 0, 4 | 5 => 4, _ => 12 };
            le.resize(le.len().max(count + 1), 0);
            le[count] = size + if slip == 5 { 8 } else { 0 };
            count += 1;
        }
        at += 12 + size;
    };
    if slip == 19 {
        of.iter_mut().skip(count).for_each(|e| *e = 0);
    }
    let list = |entries: &[usize]| -> String { entries.iter().map(|e| format!(" {e}")).collect() };
    format!("count {count} refused {ended} offsets{} lengths{}", list(&of), list(&le))
}

/// The records of the lists' program.
pub fn list_records(mut input: &[u8]) -> Vec<(Vec<u8>, usize, usize)> {
    let mut all = Vec::new();
    while let [offsets, lengths, a, b, c, d, rest @ ..] = input {
        let n = u32::from_le_bytes([*a, *b, *c, *d]) as usize;
        all.push((rest[..n].to_vec(), *offsets as usize, *lengths as usize));
        input = &rest[n..];
    }
    all
}

/// Whether the stored lines tell each slip from the walk; says the first line of each that differs.
pub fn slips(input: &[u8], lines: &str) -> bool {
    let records = list_records(input);
    let stored: Vec<&str> = lines.lines().collect();
    assert!(records.len() == stored.len(), "as many lines as records");
    let mut good = true;
    for (slip, name) in SLIPS.iter().enumerate() {
        let first = records.iter().zip(&stored).position(|((file, a, b), line)| slipped(slip, file, *a, *b) != *line);
        match first {
            Some(i) => println!("     {name}: first line {}", i + 1),
            None => println!("     {name}: nothing differs"),
        }
        good &= first.is_some() == (slip > 0);
    }
    println!("{} slips of the walk, {}", SLIPS.len() - 1, if good { "each told apart" } else { "NOT each told apart" });
    good
}
