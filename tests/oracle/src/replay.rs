//! Replays the stored lists on the Rust and the standard's reader that this program was built with, and tells the first difference of
//! each mode's frames and of the scripts.

use crate::answer::{Answer, Mode, BOOLS, KEPT, NUMBERS, PAST, PROBS};
use crate::codec::vp8::parser::access as plain;
use crate::standard::codec::vp8::parser::access as standard;

/// Reads a stored list; a list cut short is a fault of the list, so it stops.
struct Bytes<'a>(&'a [u8]);

impl<'a> Bytes<'a> {
    fn take(&mut self, n: usize) -> &'a [u8] {
        if self.0.len() < n {
            stop("a list that ends too early");
        }
        let (head, tail) = self.0.split_at(n);
        self.0 = tail;
        head
    }

    fn number(&mut self, n: usize) -> usize {
        self.take(n).iter().rev().fold(0, |sum, b| sum * 256 + *b as usize)
    }

    fn patch(&mut self, on: &mut [u8]) {
        for _ in 0..self.number(2) {
            let at = self.number(2);
            on[at] = self.number(1) as u8;
        }
    }
}

fn stop(why: &str) -> ! {
    eprintln!("{why}");
    std::process::exit(2)
}

fn magic(list: &mut Bytes, want: &[u8]) {
    if list.take(8) != want {
        stop("not a list of this kind");
    }
}

/// What differs between the stored answer and the one given, in words; none if nothing does.
fn difference(want: &Answer, got: &Answer) -> Option<String> {
    let told = |name: String, w: i64, g: i64| Some(format!("{name} is {g}, not {w}"));
    if want.refusal != got.refusal {
        return told("refusal".into(), want.refusal as i64, got.refusal as i64);
    }
    if (want.a, want.b) != (got.a, got.b) {
        return Some(format!("refusal {} carries {} {}, not {} {}", want.refusal, got.a, got.b, want.a, want.b));
    }
    for (i, (name, _)) in NUMBERS.iter().enumerate().take(want.numbers.len()) {
        // The count of bools and the bits past the end are not the Rust's.
        if i != BOOLS && i != PAST && want.numbers[i] != got.numbers[i] {
            return told(name.to_string(), want.numbers[i], got.numbers[i]);
        }
    }
    let first = |a: &[u8], b: &[u8]| (0..a.len()).find(|i| a[*i] != b[*i]);
    if let Some(i) = first(&want.probs, &got.probs) {
        return told(format!("header probability {i}"), want.probs[i] as i64, got.probs[i] as i64);
    }
    if let Some(i) = first(&want.kept, &got.kept) {
        return told(format!("kept number {i}"), want.kept[i] as i64, got.kept[i] as i64);
    }
    None
}

/// A panic of the Rust is an answer too: a wrong one.
fn guarded<T>(run: impl FnOnce() -> T) -> Option<T> {
    std::panic::catch_unwind(std::panic::AssertUnwindSafe(run)).ok()
}

/// How many there were, and the first difference.
#[derive(Default)]
struct Found {
    count: usize,
    first: Option<String>,
}

/// The answer stored after a frame; both patches are applied to what was expected before it.
fn stored(list: &mut Bytes, probs: &mut [u8], kept: &mut [u8]) -> Answer {
    let mut want = Answer { refusal: list.number(1) as u8, ..Answer::default() };
    want.a = list.number(4) as u32;
    want.b = list.number(4) as u32;
    if want.refusal == 0 {
        want.numbers = NUMBERS.iter().map(|(_, w)| list.number(*w) as i64).collect();
        list.patch(probs);
        want.probs = probs.to_vec();
    }
    list.patch(kept);
    want.kept = kept.to_vec();
    want
}

/// The frames of each mode.
fn frames(bytes: &[u8]) -> [Found; 2] {
    let mut list = Bytes(bytes);
    magic(&mut list, b"SBFRAME2");
    let fresh = list.take(KEPT).to_vec();
    let start = fresh[25..25 + PROBS].to_vec();
    let mut found = [plain::fresh(), standard::fresh()].map(|f| Found {
        first: (f != fresh).then(|| "the kept numbers of a fresh parser".to_string()),
        ..Found::default()
    });
    let (mut kept, mut probs) = (fresh.clone(), start.clone());
    let (mut sequences, mut within) = (0, 0);
    loop {
        match list.number(1) {
            1 => {
                (kept, probs) = (fresh.clone(), start.clone());
                sequences += 1;
                within = 0;
            }
            kind @ (2 | 3) => {
                let (mode, reader): (_, fn(&[u8], &[u8]) -> Answer) = match kind {
                    2 => (Mode::Rust, plain::call),
                    _ => (Mode::Standard, standard::call),
                };
                within += 1;
                let found = &mut found[mode as usize];
                found.count += 1;
                let case = list.number(1);
                let length = list.number(4);
                let frame = list.take(length);
                let before = kept.clone();
                let want = stored(&mut list, &mut probs, &mut kept);
                // Each call starts from the record that is stored, so that a difference of one mode is none of the other's.
                if found.first.is_none() {
                    let what = match guarded(|| reader(&before, frame)) {
                        None => Some("a panic".into()),
                        Some(got) => difference(&want, &got),
                    };
                    found.first = what.map(|w| format!("sequence {sequences} frame {within}{}: {w}", named(case)));
                }
            }
            0 => {
                let frames = found.iter().map(|f| f.count).sum();
                if (list.number(4), list.number(4)) != (sequences, frames) || !list.0.is_empty() {
                    stop("a list with a wrong end");
                }
                return found;
            }
            kind => stop(&format!("a list with a record of kind {kind}")),
        }
    }
}

/// A worked case by its number.
fn named(case: usize) -> String {
    if case == 0 { String::new() } else { format!(" (case {case})") }
}

fn scripts(bytes: &[u8]) -> Found {
    let mut list = Bytes(bytes);
    magic(&mut list, b"SBBOOLS1");
    let mut found = Found::default();
    while list.number(1) == 2 {
        found.count += 1;
        let case = list.number(1);
        let length = list.number(4);
        let area = list.take(length);
        let count = list.number(2);
        let reads: Vec<_> = list.take(2 * count).chunks(2).map(|r| (r[0], r[1])).collect();
        let length = list.number(2);
        let want = list.take(length);
        let what = match guarded(|| crate::bare::line(area, &reads)) {
            None => Some("a panic".to_string()),
            Some(got) if got.as_bytes() != want => Some(parted(&got, &String::from_utf8_lossy(want))),
            Some(_) => None,
        };
        if found.first.is_none() {
            found.first = what.map(|w| format!("script {}{}: {w}", found.count, named(case)));
        }
    }
    if list.number(4) != found.count || !list.0.is_empty() {
        stop("a list with a wrong end");
    }
    found
}

/// The first word at which two answer lines part.
fn parted(got: &str, want: &str) -> String {
    let mut words = got.split(' ').zip(want.split(' ')).enumerate();
    match words.find(|(_, (g, w))| g != w) {
        Some((i, (g, w))) => format!("word {} is {g}, not {w}", i + 1),
        None => "the lines' lengths".to_string(),
    }
}

/// Arguments: the paths of the list of frames and of the list of scripts; and the modes whose reader was altered. 0 where nothing
/// differs, 1 where frames of each of those modes do, or scripts, whose decoder both modes share; 3 where only other frames do.
pub fn main(arguments: &[String], altered: &[Mode]) -> i32 {
    std::panic::set_hook(Box::new(|_| {}));
    let read = |i: usize| {
        let path = arguments.get(i).map_or("", |p| p);
        std::fs::read(path).unwrap_or_else(|why| stop(&format!("cannot read {path:?}: {why}")))
    };
    let [rust, standard] = frames(&read(0));
    let all = [("frames in the Rust's mode", rust), ("frames in the standard's mode", standard), ("scripts", scripts(&read(1)))];
    for (what, found) in &all {
        match &found.first {
            None => println!("{what}: {}, 0 differences", found.count),
            Some(where_) => println!("{what}: differs at {where_}"),
        }
    }
    let same = |at: usize| all[at].1.first.is_none();
    if (0..3).all(same) {
        return 0;
    }
    if same(2) && altered.iter().any(|mode| same(*mode as usize)) { 3 } else { 1 }
}
