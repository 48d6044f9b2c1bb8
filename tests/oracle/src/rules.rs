//! The rules of docs/RULES.md written out a second time, from their words, to be held against the Rust.

use crate::answer::{blocks, Answer, Look, Mode, COEFFS, KEPT, MOTION, NUMBERS, PROBS, SEEN};
use crate::bare::Read;
use crate::codec::vp8::probs;

/// The decoder as arithmetic: the whole part of V, R and the doublings so far.
pub struct Dec<'a> {
    area: &'a [u8],
    pub whole: u32,
    pub range: u32,
    pub doublings: usize,
    pub bools: u32,
    /// The range as it stood before the last doublings.
    pub raw: u32,
}

impl<'a> Dec<'a> {
    pub fn new(area: &'a [u8]) -> Dec<'a> {
        let whole = area.first().map_or(0, |b| *b as u32);
        Dec { area, whole, range: 255, doublings: 0, bools: 0, raw: 255 }
    }

    /// The area is followed by endless zero bits.
    fn bit(&self, i: usize) -> u32 {
        self.area.get(i / 8).map_or(0, |b| (*b as u32) >> (7 - i % 8) & 1)
    }

    pub fn bool(&mut self, p: u8) -> bool {
        self.bools += 1;
        let split = 1 + (self.range - 1) * p as u32 / 256;
        let one = self.whole >= split;
        if one {
            self.whole -= split;
            self.range -= split;
        } else {
            self.range = split;
        }
        self.raw = self.range;
        while self.range < 128 {
            self.range *= 2;
            // What reaches 256 is dropped.
            self.whole = (self.whole * 2 + self.bit(8 + self.doublings)) % 256;
            self.doublings += 1;
        }
        one
    }

    pub fn literal(&mut self, n: u8) -> i64 {
        (0..n).fold(0, |v, _| v * 2 + self.bool(128) as i64)
    }

    pub fn signed(&mut self, n: u8) -> i64 {
        let magnitude = self.literal(n);
        if self.bool(128) { -magnitude } else { magnitude }
    }

    fn flag(&mut self) -> u8 {
        self.bool(128) as u8
    }

    pub fn position(&self) -> usize {
        self.doublings.min(8 * self.area.len())
    }

    pub fn past(&self) -> usize {
        self.doublings.saturating_sub(8 * self.area.len())
    }

    pub fn count(&self) -> usize {
        (8 - self.doublings % 8) % 8
    }
}

/// A script's answer line by the rules; `see` is told of every decoder state after a bool.
pub fn line(area: &[u8], reads: &[Read], mut see: impl FnMut(&Dec, Read)) -> String {
    let mut d = Dec::new(area);
    let mut parts = Vec::new();
    for &(kind, n) in reads {
        let wanted = match kind {
            0 => 1,
            1 => n as u32,
            _ => n as u32 + 1,
        };
        let value = if kind != 0 && n > 31 {
            "r7".to_string()
        } else if area.is_empty() && wanted > 0 {
            "r4".to_string()
        } else {
            let v = match kind {
                0 => d.bool(n) as i64,
                1 => d.literal(n),
                _ => d.signed(n),
            };
            see(&d, (kind, n));
            v.to_string()
        };
        parts.push(format!("{value},@{}+{}", d.position(), d.past()));
    }
    format!("{} | {} {} {} {} {}", parts.join(" "), d.range, d.whole, d.count(), d.position(), d.past())
}

pub struct Rules {
    kept: Vec<u8>,
}

fn little(bytes: &[u8]) -> u32 {
    bytes.iter().rev().fold(0, |v, b| v * 256 + *b as u32)
}

/// A look at the first ten bytes, or at all where there are fewer: key, version, show, first partition, width, height and both scale codes;
/// or refusal 1 or 2, with its code.
pub fn look(f: &[u8]) -> Look {
    let f = &f[..f.len().min(10)];
    if f.len() < 3 {
        return Err((1, 0));
    }
    let tag = little(&f[..3]);
    let key = tag & 1 == 0;
    let (mut w, mut h) = (0, 0);
    if key {
        if f.len() < 6 {
            return Err((1, 0));
        }
        if f[3..6] != [0x9d, 0x01, 0x2a] {
            return Err((2, little(&f[3..6])));
        }
        if f.len() < 10 {
            return Err((1, 0));
        }
        (w, h) = (little(&f[6..8]) as i64, little(&f[8..10]) as i64);
    }
    let [version, show, first] = [tag >> 1 & 7, tag >> 4 & 1, tag >> 5].map(i64::from);
    Ok([key as i64, version, show, first, w % 16384, h % 16384, w / 16384, h / 16384])
}

impl Rules {
    pub fn new() -> Rules {
        let mut kept = vec![0; 25];
        kept.extend(probs::COEFF_DEFAULT_PROBS.as_flattened().as_flattened().as_flattened());
        kept.extend(probs::MV_DEFAULT_PROBS.as_flattened());
        kept.extend(probs::NK_Y_MODE_PROBS);
        kept.extend(probs::NK_UV_MODE_PROBS);
        assert_eq!(kept.len(), KEPT);
        Rules { kept }
    }

    pub fn call(&mut self, mode: Mode, f: &[u8]) -> Answer {
        let mut out = self.read(mode, f);
        out.kept = self.kept.clone();
        out
    }

    fn read(&mut self, mode: Mode, f: &[u8]) -> Answer {
        let refused = |refusal, a, b| Answer { refusal, a, b, ..Answer::default() };
        let seen = match look(f) {
            Ok(seen) => seen,
            Err((refusal, code)) => return refused(refusal, code, 0),
        };
        let key = seen[0] == 1;
        let first = seen[3] as usize;
        if key {
            self.kept = Rules::new().kept;
        }
        let chunk = if key { 10 } else { 3 };
        if chunk + first > f.len() {
            return refused(3, (chunk + first) as u32, f.len() as u32);
        }
        let area = &f[chunk..];
        let standard = mode == Mode::Standard;
        let read = if standard { &area[..first] } else { area };
        if read.is_empty() {
            self.kept[1] = 0;
            self.kept[2] = 0;
            return refused(4, 0, 0);
        }

        let mut named: Vec<(&str, i64)> = SEEN.into_iter().zip(seen).collect();
        named.extend([("chunk", chunk as i64), ("cols", blocks(seen[4])), ("rows", blocks(seen[5]))]);
        let mut d = Dec::new(read);
        let k = &mut self.kept;
        if key {
            named.extend([("cs", d.flag() as i64), ("ct", d.flag() as i64)]);
        }
        k[1] = 0;
        k[2] = 0;
        k[0] = d.flag();
        if k[0] == 1 {
            k[1] = d.flag();
            k[2] = d.flag();
            if k[2] == 1 {
                k[3] = d.flag();
                for i in 4..12 {
                    k[i] = if d.flag() == 1 { d.signed(if i < 8 { 7 } else { 6 }) as u8 } else { 0 };
                }
            }
            if k[1] == 1 && (standard || k[2] == 1) {
                for i in 12..15 {
                    k[i] = if d.flag() == 1 { d.literal(8) as u8 } else { 255 };
                }
            }
        }
        named.extend([("ft", d.flag() as i64), ("lvl", d.literal(6)), ("sharp", d.literal(3))]);
        k[16] = 0;
        k[15] = d.flag();
        if k[15] == 1 {
            k[16] = d.flag();
            for i in 17..25 {
                if k[16] == 1 && d.flag() == 1 {
                    k[i] = d.signed(6) as u8;
                }
            }
        }
        let log2 = d.literal(2);
        let n = 1usize << log2;
        named.extend([("log2", log2), ("n", n as i64), ("q0", d.literal(7))]);
        for name in ["q1", "q2", "q3", "q4", "q5"] {
            named.push((name, if d.flag() == 1 { d.signed(4) as u8 as i64 } else { 0 }));
        }
        let keep;
        if key {
            keep = d.flag();
            named.extend([("rl", 1), ("rg", 1), ("ra", 1)]);
        } else {
            let (golden, alt) = (d.flag(), d.flag());
            named.extend([("rg", golden as i64), ("ra", alt as i64)]);
            if golden == 0 {
                named.push(("cg", d.literal(2)));
            }
            if alt == 0 {
                named.push(("ca", d.literal(2)));
            }
            named.extend([("sg", d.flag() as i64), ("sa", d.flag() as i64)]);
            keep = d.flag();
            named.push(("rl", d.flag() as i64));
        }
        named.push(("rep", keep as i64));
        let mut header = k[25..].to_vec();
        assert_eq!(header.len(), PROBS);
        let modes = COEFFS + MOTION;
        if key {
            header[modes..modes + 4].copy_from_slice(&probs::KF_Y_MODE_PROBS);
            header[modes + 4..].copy_from_slice(&probs::KF_UV_MODE_PROBS);
        }
        let flags = probs::COEFF_UPDATE_PROBS.as_flattened().as_flattened().as_flattened();
        for i in 0..COEFFS {
            if d.bool(flags[i]) {
                header[i] = d.literal(8) as u8;
            }
        }
        let skip = d.flag();
        named.push(("skip", skip as i64));
        if skip == 1 {
            named.push(("psf", d.literal(8)));
        }
        if !key {
            named.extend([("pi", d.literal(8)), ("pl", d.literal(8)), ("pg", d.literal(8))]);
            for group in [modes..modes + 4, modes + 4..PROBS] {
                if d.flag() == 1 {
                    group.for_each(|i| header[i] = d.literal(8) as u8);
                }
            }
            for i in 0..MOTION {
                if d.bool(probs::MV_UPDATE_PROBS.as_flattened()[i]) {
                    let v = d.literal(7) as u8;
                    header[COEFFS + i] = if v == 0 { 1 } else { 2 * v };
                }
            }
        }
        if keep == 1 {
            k[25..25 + modes].copy_from_slice(&header[..modes]);
            if !key {
                k[25 + modes..].copy_from_slice(&header[modes..]);
            }
        }
        named.extend([("range", d.range as i64), ("value", d.whole as i64), ("count", d.count() as i64)]);
        named.extend([("hsize", d.position() as i64), ("bools", d.bools as i64), ("past", d.past() as i64)]);

        let table = first + 3 * (n - 1);
        if table > area.len() {
            return refused(5, 0, 0);
        }
        let sizes: Vec<usize> = (0..n - 1).map(|i| little(&area[first + 3 * i..first + 3 * i + 3]) as usize).collect();
        let end = table + sizes.iter().sum::<usize>();
        if end > area.len() {
            return refused(5, 0, 0);
        }
        let parts = ["part0", "part1", "part2", "part3", "part4", "part5", "part6", "part7"];
        for (name, size) in parts.iter().zip(sizes.iter().chain([&(area.len() - end)])) {
            named.push((name, *size as i64));
        }
        let mut numbers = vec![0; NUMBERS.len()];
        named.iter().for_each(|(name, v)| numbers[crate::answer::at(name)] = *v);
        Answer { numbers, probs: header, view: f.len(), ..Answer::default() }
    }
}
