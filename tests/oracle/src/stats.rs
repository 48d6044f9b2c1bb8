//! What a list reaches, and what it would have to reach and does not.

use crate::answer::{Answer, Mode, COEFFS, KEPT, MODES, MOTION, NUMBERS, PROBS};
use crate::bare::Read;
use crate::list::Item;
use crate::rules::Dec;
use std::collections::{BTreeMap, BTreeSet};

/// A list of frames: its sequences, and what the frames of each mode reach.
#[derive(Default)]
pub struct Stats {
    sequences: usize,
    lengths: BTreeSet<usize>,
    /// Changes of mode from one frame of a sequence to the next.
    changes: usize,
    /// The mode of the frame before, in the same sequence.
    last: Option<Mode>,
    modes: [Reach; 2],
}

impl Stats {
    pub fn sequence(&mut self, length: usize) {
        self.sequences += 1;
        self.lengths.insert(length);
        self.last = None;
    }

    /// `other` is the other mode's answer over the same record.
    pub fn frame(&mut self, item: &Item, before: &[u8], fresh: &[u8], answer: &Answer, other: &Answer) {
        let reach = &mut self.modes[item.1 as usize];
        reach.frame(item, before, fresh, answer, other);
        if self.last.replace(item.1).is_some_and(|mode| mode != item.1) {
            self.changes += 1;
            reach.turned.insert((answer.refusal, key(&item.2)));
        }
    }

    pub fn print(&self) {
        println!("sequences {}, changes of mode within them {}", self.sequences, self.changes);
        println!("sequence lengths {:?}", self.lengths);
        for mode in MODES {
            println!("in {mode}:");
            self.modes[mode as usize].print();
        }
    }

    /// What the fixed list must reach and this one does not.
    pub fn missing(&self) -> Vec<String> {
        let mut out = Vec::new();
        let mut need = |ok: bool, what: &str| {
            if !ok {
                out.push(what.to_string());
            }
        };
        need(self.sequences >= 300, "300 sequences");
        need((1..=8).all(|n| self.lengths.contains(&n)), "sequences of 1 to 8 frames");
        need(self.changes >= 50, "50 changes of mode within sequences");
        for mode in MODES {
            let lacking = self.modes[mode as usize].missing(mode);
            out.extend(lacking.iter().map(|what| format!("in {mode}: {what}")));
        }
        out
    }
}

/// What the frames of one mode reach.
#[derive(Default)]
struct Reach {
    frames: usize,
    bytes: usize,
    longest: usize,
    cases: BTreeSet<u8>,
    /// Frames by refusal (0 accepted) and key.
    outcomes: BTreeMap<(u8, bool), usize>,
    /// By refusal and key, the kept numbers that stood changed before some such call.
    stood: BTreeMap<(u8, bool), BTreeSet<usize>>,
    /// By refusal and key, the kept numbers that some such call altered.
    altered: BTreeMap<(u8, bool), BTreeSet<usize>>,
    /// Values of each header number in key and in inter frames.
    values: BTreeMap<(usize, bool), BTreeSet<i64>>,
    /// Values of the first 25 kept numbers.
    kept: BTreeMap<usize, BTreeSet<u8>>,
    /// Header probabilities that were coded anew, by refresh_entropy_probs.
    coded: BTreeMap<bool, BTreeSet<usize>>,
    motion: BTreeSet<u8>,
    areas: BTreeSet<usize>,
    led: usize,
    /// Headers that end exactly where the bytes do, so that nothing is made up.
    exact: usize,
    /// Headers that are read past the first partition by the Rust, and so told otherwise by the standard.
    beyond: usize,
    /// Accepted frames with the map flag and no feature data, by whether all segment probabilities are then 255.
    mapped: BTreeMap<bool, usize>,
    /// Outcomes, by refusal and key, of frames after one in the other mode.
    turned: BTreeSet<(u8, bool)>,
    /// Frames that the other mode answers otherwise.
    parted: usize,
    /// Refusals 4 of frames with an area that is not empty.
    emptied: BTreeMap<bool, usize>,
}

/// Whether the frame's tag says key; too short a frame is counted as none.
fn key(frame: &[u8]) -> bool {
    frame.len() >= 3 && frame[0] & 1 == 0
}

impl Reach {
    fn frame(&mut self, (case, mode, frame): &Item, before: &[u8], fresh: &[u8], a: &Answer, other: &Answer) {
        self.frames += 1;
        self.bytes += frame.len();
        self.longest = self.longest.max(frame.len());
        self.cases.insert(*case);
        let key = key(frame);
        let which = (a.refusal, key);
        *self.outcomes.entry(which).or_default() += 1;
        let unlike = |x: &[u8], y: &[u8]| (0..x.len()).filter(|i| x[*i] != y[*i]).collect::<Vec<_>>();
        self.stood.entry(which).or_default().extend(unlike(before, fresh));
        self.altered.entry(which).or_default().extend(unlike(before, &a.kept));
        for i in 0..25 {
            self.kept.entry(i).or_default().insert(a.kept[i]);
        }
        self.parted += (a != other) as usize;
        if a.refusal == 4 && frame.len() > if key { 10 } else { 3 } {
            *self.emptied.entry(key).or_default() += 1;
        }
        if a.refusal != 0 {
            return;
        }
        for (i, v) in a.numbers.iter().enumerate() {
            self.values.entry((i, key)).or_default().insert(*v);
        }
        let base = if key { &fresh[25..] } else { &before[25..] };
        self.coded.entry(a.get("rep") == 1).or_default().extend(unlike(base, &a.probs));
        self.motion.extend(&a.probs[COEFFS..COEFFS + MOTION]);
        let chunk = a.get("chunk") as usize;
        let area = match mode {
            Mode::Rust => frame.len() - chunk,
            Mode::Standard => a.get("first") as usize,
        };
        self.areas.insert(area);
        self.led += (frame[chunk] == 0xff) as usize;
        self.exact += (a.get("hsize") as usize == 8 * area && a.get("past") == 0) as usize;
        let mapped = a.kept[1] == 1 && a.kept[2] == 0;
        if mapped {
            *self.mapped.entry(a.kept[12..15] == [255; 3]).or_default() += 1;
        }
        self.beyond += match mode {
            Mode::Rust => a.get("hsize") > 8 * a.get("first"),
            // Nothing but the bytes after the first partition can tell the modes apart then.
            Mode::Standard => !mapped && a != other,
        } as usize;
    }

    fn seen(&self, name: &str, key: bool) -> BTreeSet<i64> {
        self.values.get(&(crate::answer::at(name), key)).cloned().unwrap_or_default()
    }

    fn print(&self) {
        println!("frames {}, frame bytes {}, longest {}", self.frames, self.bytes, self.longest);
        println!("cases {:?}", self.cases);
        for ((refusal, key), count) in &self.outcomes {
            let stood = self.stood[&(*refusal, *key)].len();
            let altered = self.altered[&(*refusal, *key)].len();
            let what = if *refusal == 0 { "accepted".to_string() } else { format!("refusal {refusal}") };
            let kind = if *key { "key" } else { "other" };
            println!("{what} {kind}: {count}; kept numbers changed before {stood}, altered by it {altered} of {KEPT}");
        }
        for (i, (name, _)) in NUMBERS.iter().enumerate() {
            for key in [true, false] {
                let v = self.seen(name, key);
                let (low, high) = (v.first().copied().unwrap_or(0), v.last().copied().unwrap_or(0));
                let kind = if key { "key" } else { "inter" };
                println!("{:>2} {name} {kind}: {} values, {low} to {high}", i, v.len());
            }
        }
        for (i, v) in &self.kept {
            println!("kept number {i}: {} values", v.len());
        }
        for (keep, set) in &self.coded {
            println!("header probabilities coded anew, refresh_entropy_probs {}: {} of {PROBS}", *keep as u8, set.len());
        }
        println!("motion probabilities: {} values", self.motion.len());
        println!("areas led by FF {}, headers that end where the bytes do {}, past the first partition {}", self.led, self.exact, self.beyond);
        println!("map flag without data, by whether the probabilities are 255 {:?}", self.mapped);
        println!("answered otherwise by the other mode {}, refusal 4 before other bytes, by key {:?}", self.parted, self.emptied);
    }

    fn missing(&self, mode: Mode) -> Vec<String> {
        let mut out = Vec::new();
        let mut need = |ok: bool, what: String| {
            if !ok {
                out.push(what);
            }
        };
        need(self.frames >= 800, "800 frames".into());
        need((1..=12).all(|c| self.cases.contains(&c)), "cases 1 to 12".into());
        for which in [(1, true), (1, false), (2, true), (3, true), (3, false), (4, true), (4, false), (5, true), (5, false)] {
            // A frame under 3 bytes counts as no key frame.
            need(self.outcomes.get(&which).is_some_and(|n| *n >= 4), format!("refusal {which:?}"));
            need(self.turned.contains(&which), format!("refusal {which:?} after a frame in the other mode"));
            let stood = self.stood.get(&which).map_or(0, |s| s.len());
            need(stood == KEPT, format!("all kept numbers changed before refusal {which:?}: {stood}"));
        }
        for which in [(0, true), (0, false), (3, true), (4, true), (5, true)] {
            let altered = self.altered.get(&which).map_or(0, |s| s.len());
            need(altered == KEPT, format!("all kept numbers altered by {which:?}: {altered}"));
        }
        need(self.altered.get(&(4, false)).is_some_and(|s| s.len() == 2), "refusal 4 of an inter frame clears two flags".into());
        need(self.altered.get(&(5, false)).is_some_and(|s| s.len() == KEPT), "all kept numbers altered by refusal 5 of an inter frame".into());
        let mut all = |name: &str, keys: &[bool], values: std::ops::Range<i64>| {
            for k in keys {
                let seen = self.seen(name, *k);
                let lacking: Vec<i64> = values.clone().filter(|v| !seen.contains(v)).collect();
                need(lacking.is_empty(), format!("{name} (key {k}) never {lacking:?}"));
            }
        };
        let (both, only_key, only_inter) = ([true, false], [true], [false]);
        for name in ["show", "ft", "rep", "skip"] {
            all(name, &both, 0..2);
        }
        for name in ["cs", "ct"] {
            all(name, &only_key, 0..2);
        }
        for name in ["rl", "rg", "ra", "sg", "sa"] {
            all(name, &only_inter, 0..2);
        }
        all("ver", &both, 0..8);
        all("hs", &only_key, 0..4);
        all("vs", &only_key, 0..4);
        all("cg", &only_inter, 0..4);
        all("ca", &only_inter, 0..4);
        all("log2", &both, 0..4);
        all("lvl", &only_inter, 0..64);
        all("sharp", &both, 0..8);
        all("q0", &only_inter, 1..2);
        all("w", &only_key, 0..2);
        all("w", &only_key, 16_383..16_384);
        all("h", &only_key, 0..2);
        all("h", &only_key, 16_383..16_384);
        for name in ["cols", "rows"] {
            all(name, &only_key, 0..4);
            all(name, &only_key, 68..69);
            all(name, &only_key, 1024..1025);
        }
        all("count", &both, 0..8);
        all("value", &only_inter, 0..100);
        for name in ["q1", "q2", "q3", "q4", "q5"] {
            all(name, &only_inter, 0..16);
            all(name, &only_inter, 241..256);
        }
        for (k, low, high) in [(true, 1086, 9730), (false, 1153, 10_123)] {
            let seen = self.seen("bools", k);
            let ends = (seen.first().copied(), seen.last().copied());
            need(ends == (Some(low), Some(high)), format!("fewest and most bools (key {k}): {ends:?}"));
        }
        for (i, wanted) in [(0..4, 2), (4..8, 255), (8..12, 127), (15..17, 2), (17..25, 127)].into_iter().flat_map(|(r, n)| r.map(move |i| (i, n))) {
            // Each of four places has its share of the values; all together have every one.
            let group = if wanted == 2 { i..i + 1 } else { i / 4 * 4..i / 4 * 4 + 4 };
            let group = if (17..25).contains(&i) { (i - 1) / 4 * 4 + 1..(i - 1) / 4 * 4 + 5 } else { group };
            let seen: BTreeSet<u8> = group.flat_map(|i| self.kept.get(&i).cloned().unwrap_or_default()).collect();
            need(seen.len() == wanted, format!("kept number {i}: {} values of {wanted}", seen.len()));
        }
        for keep in [true, false] {
            let coded = self.coded.get(&keep).map_or(0, |s| s.len());
            need(coded == PROBS, format!("all header probabilities coded anew, refresh_entropy_probs {keep}: {coded}"));
        }
        need(self.motion.contains(&1) && self.motion.contains(&2) && self.motion.contains(&254), "motion updates 0, 1 and 127".into());
        need((1..=40).all(|n| self.areas.contains(&n)), "areas of 1 to 40 bytes".into());
        need(self.led >= 30, "areas led by FF".into());
        for k in both {
            let seen = self.seen("past", k);
            need(seen.contains(&0) && seen.len() > 40, format!("bits past the end, none and 40 others (key {k}): {}", seen.len()));
            need(seen.last().is_some_and(|most| *most > 256), format!("more bits past the end than a byte holds (key {k})"));
        }
        need(self.exact >= 4, "headers that end where the bytes do".into());
        need(self.beyond >= 50, "headers read past the first partition".into());
        let mapped = |whole: bool| self.mapped.get(&whole).copied().unwrap_or(0);
        need(mapped(true) + mapped(false) >= 10, "the map flag without feature data".into());
        need(self.parted >= 100, "frames that the modes answer otherwise".into());
        if mode == Mode::Standard {
            need(mapped(true) >= 10 && mapped(false) >= 10, "the map flag without feature data, with probabilities 255 and with others".into());
            let emptied = |key: bool| self.emptied.get(&key).is_some_and(|n| *n >= 10);
            need(emptied(true) && emptied(false), "refusal 4 of key frames and others whose area is not empty".into());
        }
        out
    }
}

/// The same for scripts of the bare decoder.
#[derive(Default)]
pub struct Scripts {
    scripts: usize,
    reads: usize,
    lengths: BTreeSet<usize>,
    /// Probabilities with the bool that came of them.
    bools: BTreeSet<(u8, bool)>,
    widths: BTreeSet<Read>,
    /// Ranges before doubling.
    ranges: BTreeSet<u32>,
    refused: BTreeMap<&'static str, usize>,
    past: usize,
    above: usize,
    longest: usize,
}

impl Scripts {
    pub fn script(&mut self, area: &[u8], reads: &[Read], line: &str) {
        self.scripts += 1;
        self.reads += reads.len();
        self.lengths.insert(area.len());
        self.longest = self.longest.max(reads.len());
        for word in ["r4", "r7"] {
            *self.refused.entry(word).or_default() += line.matches(word).count();
        }
        for ((kind, n), word) in reads.iter().zip(line.split(' ')) {
            match kind {
                0 if !area.is_empty() => _ = self.bools.insert((*n, word.starts_with('1'))),
                0 => {}
                _ => _ = self.widths.insert((*kind, *n)),
            }
        }
    }

    pub fn read(&mut self, d: &Dec, read: Read, area: &[u8]) {
        if read.0 == 0 {
            self.ranges.insert(d.raw);
        }
        self.past += (d.doublings > 8 * area.len()) as usize;
        self.above += (d.whole >= d.range) as usize;
    }

    pub fn print(&self) {
        println!("scripts {}, reads {}, most reads {}", self.scripts, self.reads, self.longest);
        println!("area lengths {}, longest {:?}", self.lengths.len(), self.lengths.last());
        println!("probability and bool: {} of 512", self.bools.len());
        println!("kind and width: {}; refusals {:?}", self.widths.len(), self.refused);
        println!("ranges before doubling: {} of 255", self.ranges.len());
        println!("reads that end past the area {}, with V at or above R {}", self.past, self.above);
    }

    pub fn missing(&self) -> Vec<String> {
        let mut out = Vec::new();
        let mut need = |ok: bool, what: &str| {
            if !ok {
                out.push(what.to_string());
            }
        };
        need(self.scripts >= 200, "200 scripts");
        need((0..=20).all(|n| self.lengths.contains(&n)), "areas of 0 to 20 bytes");
        need(self.lengths.contains(&4096) && self.longest == 1024, "the largest area and script");
        need(self.bools.len() == 512, "every probability with both bools");
        need((0..=40).all(|n| self.widths.contains(&(1, n)) && self.widths.contains(&(2, n))), "widths 0 to 40");
        need((1..255).all(|r| self.ranges.contains(&r)), "every range before doubling");
        need(["r4", "r7"].iter().all(|r| self.refused.get(r).is_some_and(|n| *n > 5)), "refusals 4 and 7");
        need(self.past >= 500, "reads past the end");
        need(self.above >= 50, "V at or above R");
        out
    }
}
