//! The Rust as given, asked for its answers; see README.md. Called by `tests/oracle/run`.

// The Rust says `log::debug`; this program plays that crate, and its one macro does nothing.
extern crate self as log;

#[macro_export]
macro_rules! debug {
    ($($any:tt)*) => {};
}

// The Rust unchanged, as `crate::bitstream_utils` and `crate::codec`.
include!(concat!(env!("OUT_DIR"), "/plain.rs"));

/// The Rust with two lines more: one in `read_bit` counts bools, one in `pos` tells how far past its bytes the decoder is.
pub mod counted {
    include!(concat!(env!("OUT_DIR"), "/counted.rs"));
}

/// The standard's reader: the Rust with the edits of assemble.rs.
pub mod standard {
    include!(concat!(env!("OUT_DIR"), "/standard.rs"));
}

/// The same with those lines more.
pub mod standard_counted {
    include!(concat!(env!("OUT_DIR"), "/standard_counted.rs"));
}

mod answer;
// Half of it serves build.rs only.
#[allow(dead_code)]
mod assemble;
mod bare;
mod both;
mod encode;
mod engine;
mod gen;
mod ivf;
mod list;
mod look;
mod records;
mod reel;
mod replay;
mod rng;
mod rules;
mod slips;
mod spec;
mod stats;
mod tally;

use answer::{Answer, Mode, COEFFS, MOTION, NUMBERS};
use engine::Engine;
use records::{length, number, take, word, Record, Records, FRESH, LOOK, STANDARD};
use rng::Rng;
use std::io::{BufRead, Read, Write};
use std::path::PathBuf;

const USAGE: &str = "usage: tests/oracle/run COMMAND
  dump                       answers to frame records on standard input, one line a frame
  bools                      answers to scripts on standard input, one line a script
  ivf [--standard]           what is printed of a recording on standard input
  lists                      what a walk lists of each recording on standard input, into lists of given lengths
  check                      holds the Rust and the standard's reader against the rules on frame records on standard input
  standard                   what the standard's reader has otherwise than the Rust
  gen frames --seed S --count N [--streams DIR] [--parting]   writes frame records; half at which the modes part
  gen bools --seed S --count N                                writes scripts
  gen ivf --seed S --count N --into DIR                       writes recordings, most of them damaged, into a folder
  gen lists --seed S --count N                                writes recordings with lengths of lists
  modes standard             frame records again, all in the standard's mode
  modes mixed SEED           frame records again, with the mode drawn from frame to frame
  looks [--prefixes]         frame records again, with a look at each frame before it; and at its first 0 to 12 bytes
  records [FILE..]           writes the frames of recordings as frame records (all recordings where none is named)
  list                       writes the fixed list of frames (needs the recordings)
  scripts                    writes the fixed list of scripts
  stats                      what both fixed lists reach (needs the recordings)
  stats -                    what frame records on standard input reach
  replay FRAMES BOOLS        replays both stored lists on the Rust and the standard's reader
  slips DIR                  writes one program for each slip into DIR
  walk-slips RECORDS LINES   whether a stored list of walks tells slips of a walk apart";

fn stop(code: i32, why: &str) -> ! {
    eprintln!("{why}");
    std::process::exit(code)
}

/// Standard output that is written at once and ends the program quietly when nobody reads on.
fn emit(bytes: &[u8]) {
    let mut out = std::io::stdout().lock();
    if out.write_all(bytes).and_then(|_| out.flush()).is_err() {
        std::process::exit(1);
    }
}

fn hex(bytes: &[u8]) -> String {
    let digits = b"0123456789abcdef";
    bytes.iter().flat_map(|b| [digits[(b >> 4) as usize] as char, digits[(b & 15) as usize] as char]).collect()
}

/// The dump line of one frame. The stored deltas are bytes; here they have their sign.
fn line(a: &Answer) -> String {
    let kept = hex(&a.kept);
    match a.refusal {
        0 => {}
        2 => return format!("err 2 code={} st={kept}", a.a),
        3 => return format!("err 3 end={} length={} st={kept}", a.a, a.b),
        n => return format!("err {n} st={kept}"),
    }
    let mut out = "ok".to_string();
    for ((name, _), value) in NUMBERS.iter().zip(&a.numbers) {
        match *name {
            "part0" => out += &format!(" parts={value}"),
            "q0" => out += &format!(" q={value}"),
            n if n.starts_with("part") => out += &format!(",{value}"),
            n if n.starts_with('q') && n.len() == 2 => out += &format!(",{}", *value as u8 as i8),
            n => {
                if n == "range" {
                    let (coeff, rest) = a.probs.split_at(COEFFS);
                    let (mv, modes) = rest.split_at(MOTION);
                    out += &format!(" modes={} mv={} coeff={}", hex(modes), hex(mv), hex(coeff));
                }
                out += &format!(" {n}={value}");
            }
        }
    }
    format!("{out} st={kept}")
}

fn dump() {
    let mut input = Records::new();
    let mut engine = Engine::new();
    loop {
        match input.next() {
            Record::Fresh => engine = Engine::new(),
            Record::Mode(_) => {}
            Record::Frame(f) => emit(format!("{}\n", line(&engine.call(input.mode, &f))).as_bytes()),
            Record::Look(f) => emit(format!("{}\n", look::line(input.mode, &f)).as_bytes()),
            Record::End(None) => return,
            Record::End(Some(why)) => return emit(format!("{why}\n").as_bytes()),
        }
    }
}

fn check() {
    let mut input = Records::new();
    let (mut engine, mut rules, mut frames) = (Engine::new(), rules::Rules::new(), 0);
    loop {
        match input.next() {
            Record::Fresh => (engine, rules) = (Engine::new(), rules::Rules::new()),
            Record::Mode(_) => {}
            Record::Frame(f) => {
                frames += 1;
                list::agree(input.mode, &engine.call(input.mode, &f), &rules.call(input.mode, &f), &f);
            }
            Record::Look(f) => drop(look::look(input.mode, &f)),
            Record::End(None) => break,
            Record::End(Some(why)) => stop(1, why),
        }
    }
    println!("{frames} frames, all as docs/RULES.md says");
}

fn reached() {
    let mut input = Records::new();
    let (mut sequences, mut frames) = (Vec::new(), Vec::new());
    loop {
        match input.next() {
            Record::Frame(f) => frames.push((0, input.mode, f)),
            Record::Mode(_) | Record::Look(_) => {}
            Record::Fresh => sequences.push(std::mem::take(&mut frames)),
            Record::End(None) => break,
            Record::End(Some(why)) => stop(1, why),
        }
    }
    sequences.push(frames);
    sequences.retain(|s| !s.is_empty());
    let (_, stats) = list::frames(&sequences);
    stats.print();
    println!("lacking: {:?}", stats.missing());
}

fn frame_record(out: &mut Vec<u8>, f: &[u8]) {
    out.extend((f.len() as u32).to_le_bytes());
    out.extend(f);
}

fn look_record(out: &mut Vec<u8>, f: &[u8]) {
    out.extend(LOOK.to_le_bytes());
    frame_record(out, f);
}

/// The records of standard input again, each as `put` writes it.
fn again(mut put: impl FnMut(Record, &mut Vec<u8>)) {
    let mut input = Records::new();
    loop {
        let mut out = Vec::new();
        match input.next() {
            Record::Fresh => out.extend(FRESH.to_le_bytes()),
            Record::End(None) => return,
            Record::End(Some(why)) => stop(1, why),
            record => put(record, &mut out),
        }
        emit(&out);
    }
}

/// The same records, with a look at each frame before it is parsed, and with `prefixes` one at its first 0 to 12 bytes each.
fn looks(prefixes: bool) {
    again(|record, out| match record {
        Record::Mode(mode) => out.extend(word(mode).to_le_bytes()),
        Record::Frame(f) => {
            let short = (0..=f.len().min(12)).filter(|_| prefixes).map(|n| &f[..n]);
            short.chain([&f[..]]).for_each(|part| look_record(out, part));
            frame_record(out, &f);
        }
        _ => {}
    });
}

/// The same records with modes of our own: before each frame that of `draw`, if it gives one.
fn modes(mut draw: impl FnMut() -> Option<Mode>) {
    again(|record, out| match record {
        Record::Frame(f) => {
            draw().into_iter().for_each(|mode| out.extend(word(mode).to_le_bytes()));
            frame_record(out, &f);
        }
        Record::Look(f) => look_record(out, &f),
        _ => {}
    });
}

/// What the standard's reader has otherwise than the Rust.
fn standard() {
    let given = assemble::Given::found().unwrap_or_else(|why| stop(2, &why));
    for (name, edits) in assemble::STANDARD {
        println!("{name}");
        given.changes(&given.edited(edits)).lines().for_each(|l| println!("     {l}"));
    }
}

/// One script, or how the input ends.
fn script(input: &mut impl BufRead) -> Result<(Vec<u8>, Vec<bare::Read>), Option<&'static str>> {
    let cut = Some("cut short");
    let n = length(input)?;
    if n > 4096 {
        return Err(Some("too large"));
    }
    let area = take(input, n).ok_or(cut)?;
    let count = number(&take(input, 2).ok_or(cut)?);
    if count > 1024 {
        return Err(Some("too large"));
    }
    let reads: Vec<_> = take(input, 2 * count).ok_or(cut)?.chunks(2).map(|r| (r[0], r[1])).collect();
    if reads.iter().any(|(kind, _)| *kind > 2) {
        return Err(Some("bad kind"));
    }
    Ok((area, reads))
}

fn bools() {
    let mut input = std::io::stdin().lock();
    let mut stats = stats::Scripts::default();
    loop {
        match script(&mut input) {
            Ok((area, reads)) => emit(format!("{}\n", list::checked(&area, &reads, &mut stats)).as_bytes()),
            Err(None) => return,
            Err(Some(why)) => return emit(format!("{why}\n").as_bytes()),
        }
    }
}

/// A recording on standard input.
fn ivf_lines(mode: Mode) {
    let mut file = Vec::new();
    if std::io::stdin().lock().read_to_end(&mut file).is_err() {
        stop(2, "cannot read standard input");
    }
    emit(reel::told(&file, mode).as_bytes());
}

/// Recordings on standard input, each after two lengths of lists and its own.
fn lists() {
    let mut input = Vec::new();
    if std::io::stdin().lock().read_to_end(&mut input).is_err() {
        stop(2, "cannot read standard input");
    }
    for (file, offsets, lengths) in reel::list_records(&input) {
        emit(reel::listed(&file, offsets, lengths).as_bytes());
    }
}

/// Whether a stored list of walks tells each slip apart.
fn walk_slips(records: &str, lines: &str) {
    let read = |name: &str| std::fs::read(name).unwrap_or_else(|why| stop(2, &format!("{name}: {why}")));
    let lines = String::from_utf8(read(lines)).unwrap_or_else(|why| stop(1, &why.to_string()));
    if !reel::slips(&read(records), &lines) {
        std::process::exit(1);
    }
}

/// The value after an option, or none.
fn option(arguments: &[String], name: &str) -> Option<String> {
    let at = arguments.iter().position(|a| a == name)?;
    Some(arguments.get(at + 1).unwrap_or_else(|| stop(2, USAGE)).clone())
}

fn whole_number(arguments: &[String], name: &str) -> u64 {
    option(arguments, name).and_then(|v| v.parse().ok()).unwrap_or_else(|| stop(2, USAGE))
}

fn gen_frames(arguments: &[String]) {
    let (seed, count) = (whole_number(arguments, "--seed"), whole_number(arguments, "--count"));
    let streams = option(arguments, "--streams")
        .map_or(Vec::new(), |d| gen::streams(&PathBuf::from(d)).unwrap_or_else(|why| stop(2, &why)));
    let parting = arguments.iter().any(|a| a == "--parting");
    let rng = &mut Rng::new(seed);
    let mut left = count as usize;
    while left > 0 {
        let mut frames = if parting && rng.flip() { gen::partings(rng) } else { gen::sequence(rng, &streams) };
        frames.truncate(left);
        left -= frames.len();
        let mut out = FRESH.to_le_bytes().to_vec();
        for f in frames {
            frame_record(&mut out, &f);
        }
        emit(&out);
    }
}

fn gen_bools(arguments: &[String]) {
    let rng = &mut Rng::new(whole_number(arguments, "--seed"));
    for _ in 0..whole_number(arguments, "--count") {
        let (area, reads) = gen::script(rng);
        emit(&list::script_record(&area, &reads));
    }
}

/// The recordings, of which drawn ones are made.
fn streams() -> Vec<gen::Stream> {
    gen::streams(&folder()).unwrap_or_else(|why| stop(2, &why))
}

fn gen_ivf(arguments: &[String]) {
    let into = PathBuf::from(option(arguments, "--into").unwrap_or_else(|| stop(2, USAGE)));
    let (rng, streams) = (&mut Rng::new(whole_number(arguments, "--seed")), streams());
    for i in 0..whole_number(arguments, "--count") {
        let file = reel::drawn(rng, &streams, reel::LONGEST);
        std::fs::write(into.join(format!("{i}.ivf")), file).unwrap_or_else(|why| stop(2, &why.to_string()));
    }
}

fn gen_lists(arguments: &[String]) {
    let (rng, streams) = (&mut Rng::new(whole_number(arguments, "--seed")), streams());
    for _ in 0..whole_number(arguments, "--count") {
        emit(&reel::list_record(rng, &streams));
    }
}

/// The folder of the recordings.
fn folder() -> PathBuf {
    let named = std::env::var("SILLBROOK_STREAMS").unwrap_or_else(|_| stop(2, "SILLBROOK_STREAMS is not set; call tests/oracle/run"));
    PathBuf::from(named)
}

/// The frames of recordings as records, each recording over a fresh parser; says how many are too long for a record.
fn records(files: &[String]) {
    let all = match files {
        [] => ivf::folder(&folder()),
        _ => files.iter().map(|f| ivf::read(&PathBuf::from(f))).collect(),
    };
    let mut skipped = 0;
    for recording in all.unwrap_or_else(|why| stop(2, &why)) {
        let mut out = FRESH.to_le_bytes().to_vec();
        for f in recording.frames {
            if f.len() > records::LONGEST {
                eprintln!("{}: a frame of {} bytes is left out", recording.path.display(), f.len());
                skipped += 1;
                continue;
            }
            frame_record(&mut out, &f);
        }
        emit(&out);
    }
    eprintln!("recordings: {skipped} frames above {} bytes skipped", records::LONGEST);
}

/// The fixed list of frames, some of which come from the recordings.
fn fixed_list() -> list::Fixed {
    let streams = gen::streams(&folder()).unwrap_or_else(|why| stop(2, &format!("no recordings: {why}")));
    list::sequences(&streams)
}

/// Writes a list, unless it lacks something that it has to reach.
fn fixed(bytes: &[u8], most: usize, mut missing: Vec<String>) {
    if bytes.len() > most {
        missing.push(format!("{} bytes are more than {most}", bytes.len()));
    }
    if !missing.is_empty() {
        stop(1, &format!("the list lacks: {}", missing.join("; ")));
    }
    emit(bytes);
}

fn main() {
    let arguments: Vec<String> = std::env::args().skip(1).collect();
    let words: Vec<&str> = arguments.iter().map(String::as_str).collect();
    match words[..] {
        ["dump"] => dump(),
        ["bools"] => bools(),
        ["check"] => check(),
        ["gen", "frames", ..] => gen_frames(&arguments[2..]),
        ["gen", "bools", ..] => gen_bools(&arguments[2..]),
        ["gen", "ivf", ..] => gen_ivf(&arguments[2..]),
        ["gen", "lists", ..] => gen_lists(&arguments[2..]),
        ["ivf"] => ivf_lines(Mode::Rust),
        ["ivf", "--standard"] => ivf_lines(Mode::Standard),
        ["lists"] => lists(),
        ["standard"] => standard(),
        ["modes", "standard"] => {
            emit(&STANDARD.to_le_bytes());
            modes(|| None);
        }
        ["modes", "mixed", seed] => {
            let rng = &mut Rng::new(seed.parse().unwrap_or_else(|_| stop(2, USAGE)));
            modes(|| rng.pick(&[None, Some(Mode::Rust), Some(Mode::Standard)]));
        }
        ["looks"] => looks(false),
        ["looks", "--prefixes"] => looks(true),
        ["records", ..] => records(&arguments[1..]),
        ["list"] => {
            let (bytes, stats) = list::frames(&fixed_list().sequences);
            fixed(&bytes, 1_700_000, stats.missing());
        }
        ["scripts"] => {
            let (bytes, stats) = list::bools(&list::scripts());
            fixed(&bytes, 600_000, stats.missing());
        }
        ["stats"] => {
            let fixed = fixed_list();
            let ((frames, stats), (bools, scripts)) = (list::frames(&fixed.sequences), list::bools(&list::scripts()));
            println!("frames: {} bytes", frames.len());
            fixed.parts.iter().for_each(|(at, name)| println!("from sequence {at}: {name}"));
            stats.print();
            println!("lacking: {:?}", stats.missing());
            println!("scripts: {} bytes", bools.len());
            scripts.print();
            println!("lacking: {:?}", scripts.missing());
        }
        ["stats", "-"] => reached(),
        ["replay", ..] => std::process::exit(replay::main(&arguments[1..], &[])),
        ["walk-slips", records, lines] => walk_slips(records, lines),
        ["slips", folder] => slips::write(&PathBuf::from(folder)),
        _ => stop(2, USAGE),
    }
}
