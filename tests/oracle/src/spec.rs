//! A frame to be written: the header's coded fields, and the layout around them.

use crate::answer::{Answer, COEFFS, MOTION};
use crate::codec::vp8::probs::{COEFF_UPDATE_PROBS, MV_UPDATE_PROBS};
use crate::encode::BoolWriter;
use std::collections::BTreeMap;

/// A magnitude and its sign, so that minus zero can be written.
pub type Signed = (u8, bool);

#[derive(Clone, Default)]
pub struct Spec {
    pub key: bool,
    pub version: u8,
    pub show: bool,
    pub width: u16,
    pub height: u16,
    pub hscale: u8,
    pub vscale: u8,
    pub color: bool,
    pub clamp: bool,
    pub seg: bool,
    pub seg_map: bool,
    pub seg_data: bool,
    pub seg_mode: bool,
    pub seg_q: [Option<Signed>; 4],
    pub seg_l: [Option<Signed>; 4],
    pub seg_p: [Option<u8>; 3],
    /// Whether the segment probabilities are coded by the map flag alone, as the standard has it.
    pub by_map: bool,
    pub simple: bool,
    pub level: u8,
    pub sharp: u8,
    pub adj: bool,
    pub adj_update: bool,
    pub deltas: [Option<Signed>; 8],
    pub log2: u8,
    pub q: u8,
    pub q_deltas: [Option<Signed>; 5],
    pub golden: bool,
    pub alt: bool,
    pub copy_golden: u8,
    pub copy_alt: u8,
    pub sign_golden: bool,
    pub sign_alt: bool,
    pub keep: bool,
    pub last: bool,
    pub coeff: BTreeMap<usize, u8>,
    pub skip: Option<u8>,
    pub p_intra: u8,
    pub p_last: u8,
    pub p_golden: u8,
    pub luma: Option<[u8; 4]>,
    pub chroma: Option<[u8; 3]>,
    pub mv: BTreeMap<usize, u8>,
    /// The decoder's value after the header, 0 to 127.
    pub end: u8,
}

fn optional(w: &mut BoolWriter, width: u32, value: Option<Signed>) {
    w.flag(value.is_some());
    if let Some((magnitude, negative)) = value {
        w.literal(width, magnitude as u32);
        w.flag(negative);
    }
}

impl Spec {
    /// The least header: every flag clear, so the fewest bools.
    pub fn least(key: bool) -> Spec {
        // In an inter frame a refreshed buffer has no copy code.
        Spec { key, golden: !key, alt: !key, ..Spec::default() }
    }

    /// The coded header and its number of bools.
    pub fn header(&self) -> (Vec<u8>, u32) {
        let mut w = BoolWriter::new();
        if self.key {
            w.flag(self.color);
            w.flag(self.clamp);
        }
        w.flag(self.seg);
        if self.seg {
            w.flag(self.seg_map);
            w.flag(self.seg_data);
            if self.seg_data {
                w.flag(self.seg_mode);
                self.seg_q.iter().for_each(|v| optional(&mut w, 7, *v));
                self.seg_l.iter().for_each(|v| optional(&mut w, 6, *v));
            }
            if self.seg_map && (self.seg_data || self.by_map) {
                for p in self.seg_p {
                    w.flag(p.is_some());
                    if let Some(p) = p {
                        w.literal(8, p as u32);
                    }
                }
            }
        }
        w.flag(self.simple);
        w.literal(6, self.level as u32);
        w.literal(3, self.sharp as u32);
        w.flag(self.adj);
        if self.adj {
            w.flag(self.adj_update);
            if self.adj_update {
                self.deltas.iter().for_each(|v| optional(&mut w, 6, *v));
            }
        }
        w.literal(2, self.log2 as u32);
        w.literal(7, self.q as u32);
        self.q_deltas.iter().for_each(|v| optional(&mut w, 4, *v));
        if !self.key {
            w.flag(self.golden);
            w.flag(self.alt);
            if !self.golden {
                w.literal(2, self.copy_golden as u32);
            }
            if !self.alt {
                w.literal(2, self.copy_alt as u32);
            }
            w.flag(self.sign_golden);
            w.flag(self.sign_alt);
        }
        w.flag(self.keep);
        if !self.key {
            w.flag(self.last);
        }
        let flags = COEFF_UPDATE_PROBS.as_flattened().as_flattened().as_flattened();
        for i in 0..COEFFS {
            let value = self.coeff.get(&i);
            w.bool(flags[i], value.is_some());
            if let Some(v) = value {
                w.literal(8, *v as u32);
            }
        }
        w.flag(self.skip.is_some());
        if let Some(p) = self.skip {
            w.literal(8, p as u32);
        }
        if !self.key {
            w.literal(8, self.p_intra as u32);
            w.literal(8, self.p_last as u32);
            w.literal(8, self.p_golden as u32);
            w.flag(self.luma.is_some());
            self.luma.iter().flatten().for_each(|p| w.literal(8, *p as u32));
            w.flag(self.chroma.is_some());
            self.chroma.iter().flatten().for_each(|p| w.literal(8, *p as u32));
            let flags = MV_UPDATE_PROBS.as_flattened();
            for i in 0..MOTION {
                let value = self.mv.get(&i);
                w.bool(flags[i], value.is_some());
                if let Some(v) = value {
                    w.literal(7, *v as u32);
                }
            }
        }
        let bools = w.bools;
        (w.finish(self.end), bools)
    }

    /// The uncompressed chunk with that size of the first partition.
    pub fn chunk(&self, first: u32) -> Vec<u8> {
        let tag = !self.key as u32 | (self.version as u32) << 1 | (self.show as u32) << 4 | first << 5;
        let mut out = tag.to_le_bytes()[..3].to_vec();
        if self.key {
            out.extend([0x9d, 0x01, 0x2a]);
            out.extend((self.width | (self.hscale as u16) << 14).to_le_bytes());
            out.extend((self.height | (self.vscale as u16) << 14).to_le_bytes());
        }
        out
    }

    /// A whole frame: the sizes of all partitions but the last, then the bytes of all of them.
    pub fn frame(&self, sizes: &[u32], rest: &[u8]) -> Vec<u8> {
        self.padded(0, sizes, rest)
    }

    /// The same with zeros after the header inside the first partition.
    pub fn padded(&self, zeros: usize, sizes: &[u32], rest: &[u8]) -> Vec<u8> {
        let (mut code, _) = self.header();
        code.resize(code.len() + zeros, 0);
        let mut out = self.chunk(code.len() as u32);
        out.extend(code);
        sizes.iter().for_each(|s| out.extend(&s.to_le_bytes()[..3]));
        out.extend(rest);
        out
    }

    /// Whether an accepted frame's answer shows what was written; a fault of the writer otherwise.
    pub fn shown(&self, answer: &Answer) -> bool {
        let signed = |v: Option<Signed>| v.map_or(0, |(m, n)| if n { (m as i8).wrapping_neg() as u8 } else { m }) as i64;
        let mut want = vec![
            ("key", self.key as i64),
            ("ver", self.version as i64),
            ("show", self.show as i64),
            ("ft", self.simple as i64),
            ("lvl", self.level as i64),
            ("sharp", self.sharp as i64),
            ("log2", self.log2 as i64),
            ("q0", self.q as i64),
            ("q5", signed(self.q_deltas[4])),
            ("rep", self.keep as i64),
            ("skip", self.skip.is_some() as i64),
            ("psf", self.skip.unwrap_or(0) as i64),
            ("bools", self.header().1 as i64),
            ("value", self.end as i64),
        ];
        if self.key {
            want.extend([("w", self.width as i64), ("h", self.height as i64), ("vs", self.vscale as i64)]);
            want.extend([("cs", self.color as i64), ("ct", self.clamp as i64)]);
        } else {
            want.extend([("pi", self.p_intra as i64), ("pg", self.p_golden as i64), ("rl", self.last as i64)]);
        }
        let motion = |v: u8| if v == 0 { 1 } else { 2 * v };
        want.iter().all(|(name, v)| answer.get(name) == *v)
            && self.coeff.iter().all(|(i, v)| answer.probs[*i] == *v)
            && self.mv.iter().all(|(i, v)| self.key || answer.probs[COEFFS + *i] == motion(*v))
    }
}
