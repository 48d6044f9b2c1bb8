//! Blocks and records that are to be refused, by docs/RULES.md ("The block") written out once more: what each is refused by, and that
//! nothing is written.

use crate::state::{parse, read, write, BLOCK, RECORD};

/// Count, then offset and length of each section.
const HEADING: [u16; 11] = [5, 22, 15, 37, 10, 47, 1056, 1103, 38, 1141, 7];
pub const HEAD: usize = 2 * HEADING.len();

/// The block of a record.
pub fn block(record: &[u8]) -> Vec<u8> {
    HEADING.iter().flat_map(|n| n.to_le_bytes()).chain(record.iter().copied()).collect()
}

/// Whether byte `at` of a record may have this value.
fn allowed(at: usize, value: u8) -> bool {
    let signed = value as i8;
    match at {
        0..=3 | 15 | 16 => value <= 1,
        4..=7 => signed != -128,
        8..=11 | 17..=24 => (-63..=63).contains(&signed),
        _ => true,
    }
}

/// The places of the bytes that are checked.
fn checked() -> impl Iterator<Item = usize> {
    (0..25).filter(|at| (0..=255).any(|value| !allowed(*at, value)))
}

fn stop(why: &str, answer: u32, expected: u32) -> ! {
    println!("{why}: answered {answer}, where {expected} was to come, or something was written");
    std::process::exit(1)
}

/// A block that is to be refused, by all that is exported: nothing is written.
fn refused(block: &[u8], frame: &[u8], expected: u32, why: &str) -> u64 {
    let mut held = block.to_vec();
    for mode in [0, 1] {
        let answer = parse(mode, &mut held, frame);
        if answer != expected || held != block {
            stop(&format!("{why}, parsed over"), answer, expected);
        }
    }
    let mut record = [0xa5; RECORD];
    let answer = read(block, &mut record);
    if answer != expected || record != [0xa5; RECORD] {
        stop(&format!("{why}, read"), answer, expected);
    }
    3
}

/// A record that is not to be written into this buffer.
fn unwritten(record: &[u8], size: usize, expected: u32, why: &str) -> u64 {
    let mut block = vec![0xa5; size];
    let answer = write(record, &mut block);
    if answer != expected || block.iter().any(|b| *b != 0xa5) {
        stop(&format!("{why}, written"), answer, expected);
    }
    1
}

/// Every single change of the heading, every wrong value of every checked byte, other sizes, and which comes first: over a block that is
/// right, with this frame. Gives the number of calls.
pub fn all(good: &[u8], frame: &[u8]) -> u64 {
    let mut calls = 0;
    let mut bad = good.to_vec();
    for at in 0..HEAD {
        for value in (0..=255).filter(|value| *value != good[at]) {
            bad[at] = value;
            calls += refused(&bad, frame, 14, "another heading");
        }
        // 14 comes before 15.
        bad[HEAD] = 2;
        calls += refused(&bad, frame, 14, "another heading and a fault");
        bad.copy_from_slice(good);
    }
    // Two lengths exchanged.
    bad.swap(4, 8);
    calls += refused(&bad, frame, 14, "lengths exchanged");
    bad.copy_from_slice(good);
    for at in checked() {
        for value in (0..=255).filter(|value| !allowed(at, *value)) {
            bad[HEAD + at] = value;
            calls += refused(&bad, frame, 15, "a fault");
            calls += unwritten(&bad[HEAD..], BLOCK, 15, "a fault");
            calls += unwritten(&bad[HEAD..], BLOCK - 1, 13, "a fault and another size");
        }
        bad[HEAD + at] = good[HEAD + at];
    }
    // 13 comes before both.
    bad[0] = 6;
    bad[HEAD] = 2;
    for size in (0..BLOCK).chain(BLOCK + 1..BLOCK + 60) {
        let mut other = bad.clone();
        other.resize(size, 0);
        calls += refused(&other, frame, 13, "another size");
        calls += unwritten(&good[HEAD..], size, 13, "another size");
    }
    for size in (0..RECORD).chain(RECORD + 1..RECORD + 60) {
        let mut record = vec![0xa5; size];
        let answer = read(&bad, &mut record);
        if answer != 13 || record.iter().any(|b| *b != 0xa5) {
            stop("a flat record of another size, read into", answer, 13);
        }
        calls += 1 + unwritten(&record, BLOCK, 13, "a flat record of another size");
    }
    calls
}

/// Every value of every byte of a record: read and written where the rules allow it, and nowhere else. Gives the number of records.
pub fn values(good: &[u8]) -> u64 {
    let mut record = good[HEAD..].to_vec();
    for at in 0..RECORD {
        for value in 0..=255 {
            record[at] = value;
            let expected = if allowed(at, value) { 0 } else { 15 };
            let from = block(&record);
            let (mut back, mut made) = ([0xa5; RECORD], [0x5a; BLOCK]);
            let answer = read(&from, &mut back);
            if answer != expected || expected == 0 && back[..] != record[..] {
                stop(&format!("byte {at} of a record as {value}, read"), answer, expected);
            }
            let answer = write(&record, &mut made);
            if answer != expected || expected == 0 && made[..] != from[..] {
                stop(&format!("byte {at} of a record as {value}, written"), answer, expected);
            }
        }
        record[at] = good[HEAD + at];
    }
    (RECORD * 256) as u64
}
