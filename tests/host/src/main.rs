//! The port's exported calls beside the Rust as given, frame by frame; and a record that is handed over from one process to another.
//! Called by tests/host/run, with frame records (docs/RULES.md, "The programs") on standard input or in a file.
//!   beside          every frame by both, in its mode; blocks that are to be refused among the calls
//!   give N FILE     calls up to a frame that is refused by N and changes the record; then the block, and how many frames it has had, go
//!                   to standard output, and the record is printed to standard error
//!   take FILE       takes these from standard input, prints the record, goes on with the frames after it, and prints the record again
//!   whole N FILE    the same calls by one process, and by the Rust: the record there and at the end
#![no_main]

// The Rust says `log::debug`; this program plays that crate, and its one macro does nothing.
extern crate self as log;

#[macro_export]
macro_rules! debug {
    ($($any:tt)*) => {};
}

// The Rust unchanged, as `crate::bitstream_utils` and `crate::codec`.
include!(concat!(env!("OUT_DIR"), "/plain.rs"));

/// The standard's reader: the Rust with the edits of assemble.rs.
pub mod standard {
    include!(concat!(env!("OUT_DIR"), "/standard.rs"));
}

// Half of these serve the oracle.
#[allow(dead_code)]
#[path = "../../oracle/src/answer.rs"]
mod answer;
#[allow(dead_code)]
#[path = "../../oracle/src/records.rs"]
mod records;

mod hostile;
mod state;

use answer::{Answer, Mode, MODES};
use records::{Record, Records};
use std::io::{Read, Write};

/// After how many frames blocks that are to be refused are tried again.
const BETWEEN: u64 = 4_000;

fn stop(why: &str) -> ! {
    println!("{why}");
    std::process::exit(1)
}

fn hex(bytes: &[u8]) -> String {
    bytes.iter().map(|b| format!("{b:02x}")).collect()
}

/// A mode as a number: 0 is the Rust's, any other the standard's.
fn number(mode: Mode, turn: u64) -> u32 {
    match mode {
        Mode::Rust => 0,
        Mode::Standard => [1, 2, 255, 256, 1 << 31, u32::MAX][turn as usize % 6],
    }
}

/// The Rust's own answer, over the record of these numbers.
fn asked(mode: Mode, kept: &[u8], frame: &[u8]) -> Answer {
    match mode {
        Mode::Rust => codec::vp8::parser::access::call(kept, frame),
        Mode::Standard => standard::codec::vp8::parser::access::call(kept, frame),
    }
}

fn fresh() -> Vec<u8> {
    codec::vp8::parser::access::fresh()
}

/// The record of a block, and that block made of it again.
fn record(block: &[u8]) -> Vec<u8> {
    let (mut flat, mut back) = ([0xa5; state::RECORD], [0x5a; state::BLOCK]);
    if state::read(block, &mut flat) != 0 || state::write(&flat, &mut back) != 0 || back[..] != *block {
        stop("a block that is not read, or not written again");
    }
    flat.to_vec()
}

/// One frame by both: the answer, and all 1,148 bytes.
fn both(mode: Mode, turn: u64, block: &mut Vec<u8>, kept: &mut Vec<u8>, frame: &[u8]) -> u8 {
    let said = state::parse(number(mode, turn), block, frame);
    let answer = asked(mode, kept, frame);
    let expected = hostile::block(&answer.kept);
    if said != answer.refusal as u32 || *block != expected {
        let at = block.iter().zip(&expected).position(|(a, b)| a != b);
        stop(&format!("frame {turn}: {said}, the Rust {}; the first byte that differs: {at:?}", answer.refusal));
    }
    if record(block) != answer.kept {
        stop(&format!("frame {turn}: another flat record"));
    }
    *kept = answer.kept;
    answer.refusal
}

fn beside() {
    let mut input = Records::new();
    let (mut kept, mut frames, mut calls, mut values) = (fresh(), 0u64, 0u64, 0u64);
    let mut block = hostile::block(&kept);
    let mut answers = [[0u64; 6]; 2];
    loop {
        match input.next() {
            Record::Fresh => {
                kept = fresh();
                block = hostile::block(&kept);
            }
            Record::Frame(frame) => {
                let refusal = both(input.mode, frames, &mut block, &mut kept, &frame);
                answers[input.mode as usize][refusal as usize] += 1;
                if frames % BETWEEN == 0 {
                    calls += hostile::all(&block, &frame);
                    values += if frames == 0 { hostile::values(&block) } else { 0 };
                }
                frames += 1;
            }
            Record::Mode(_) | Record::Look(_) => {}
            Record::End(None) => break,
            Record::End(Some(why)) => stop(why),
        }
    }
    // The limit is the port's own, so the Rust is not asked.
    let before = block.clone();
    if MODES.iter().any(|mode| state::parse(number(*mode, 0), &mut block, &vec![0; 1 << 28]) != 6) || block != before {
        stop("a frame of 2^28 bytes is not refused by 6, or leaves another record");
    }
    println!("{frames} frames over blocks, 0 apart from the Rust in answer, block and flat record");
    for (mode, of) in MODES.iter().zip(&answers) {
        println!("in {mode}: {} accepted, refused 1 to 5: {}, {}, {}, {}, {}", of[0], of[1], of[2], of[3], of[4], of[5]);
    }
    println!("{calls} calls with other blocks and records among them, all refused as the rules say, nothing written");
    println!("{values} records with one byte at every value, read and written as the rules say");
    if answers.iter().flatten().any(|n| *n == 0) {
        stop("not every answer was reached in both modes");
    }
}

/// Frames with their modes; none stands for a fresh parser.
fn frames(file: &str) -> Vec<Option<(Mode, Vec<u8>)>> {
    let bytes = std::fs::read(file).unwrap_or_else(|why| stop(&format!("{file}: {why}")));
    let mut input = Records::over(&bytes[..]);
    let mut all = Vec::new();
    loop {
        match input.next() {
            Record::Fresh => all.push(None),
            Record::Frame(frame) => all.push(Some((input.mode, frame))),
            Record::Mode(_) | Record::Look(_) => {}
            Record::End(None) => return all,
            Record::End(Some(why)) => stop(why),
        }
    }
}

/// Calls up to the first frame that is refused by this number, leaves another record, and has two more after it.
fn upto(refusal: u32, all: &[Option<(Mode, Vec<u8>)>], block: &mut Vec<u8>) -> usize {
    for (i, item) in all.iter().enumerate() {
        match item {
            None => *block = hostile::block(&fresh()),
            Some((mode, frame)) => {
                let before = block.clone();
                let answer = state::parse(number(*mode, 0), block, frame);
                if answer == refusal && *block != before && all[i + 1..].iter().take(2).flatten().count() == 2 {
                    return i + 1;
                }
            }
        }
    }
    stop(&format!("no frame that is refused by {refusal}, leaves another record and has two more after it"))
}

/// Calls on, up to the next fresh parser.
fn rest(all: &[Option<(Mode, Vec<u8>)>], block: &mut [u8]) -> usize {
    let more: Vec<_> = all.iter().map_while(|item| item.as_ref()).collect();
    for (mode, frame) in &more {
        state::parse(number(*mode, 0), block, frame);
    }
    more.len()
}

fn give(refusal: u32, file: &str) {
    let mut block = Vec::new();
    let had = upto(refusal, &frames(file), &mut block);
    let mut out = std::io::stdout().lock();
    let sent = out.write_all(&(had as u32).to_le_bytes()).and_then(|_| out.write_all(&block)).and_then(|_| out.flush());
    sent.unwrap_or_else(|why| stop(&why.to_string()));
    eprintln!("record {}", hex(&record(&block)));
}

fn take(file: &str) {
    let mut sent = Vec::new();
    std::io::stdin().lock().read_to_end(&mut sent).unwrap_or_else(|why| stop(&why.to_string()));
    let had = records::number(&sent[..4]);
    let mut block = sent[4..].to_vec();
    println!("record {}", hex(&record(&block)));
    let more = rest(&frames(file)[had..], &mut block);
    println!("after {more} more {}", hex(&record(&block)));
}

/// One process, and the Rust beside it.
fn whole(refusal: u32, file: &str) {
    let all = frames(file);
    let mut block = Vec::new();
    let had = upto(refusal, &all, &mut block);
    println!("record {}", hex(&record(&block)));
    let more = rest(&all[had..], &mut block);
    println!("after {more} more {}", hex(&record(&block)));
    let mut kept = fresh();
    for item in &all[..had + more] {
        kept = item.as_ref().map_or_else(fresh, |(mode, frame)| asked(*mode, &kept, frame).kept);
    }
    if record(&block) != kept {
        stop("another record than the Rust's");
    }
}

// The usual main would look for its stack in /proc, which the kit's emulator does not bear.
#[no_mangle]
pub extern "C" fn main(_: i32, _: *const *const u8) -> i32 {
    let words: Vec<String> = std::env::args().skip(1).collect();
    let word = |i: usize| words.get(i).map_or("", |w| w.as_str());
    let refusal = word(1).parse().unwrap_or(0);
    match word(0) {
        "beside" => beside(),
        "give" => give(refusal, word(2)),
        "take" => take(word(1)),
        "whole" => whole(refusal, word(2)),
        _ => stop("call: host beside | give N FILE | take FILE | whole N FILE"),
    }
    0
}
