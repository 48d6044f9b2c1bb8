//! Frame records on standard input, as docs/RULES.md ("The programs") has them.

use crate::answer::Mode;
use std::io::{BufRead, Read};

/// No frame record is longer.
pub const LONGEST: usize = 65_536;

/// A frame record: a fresh parser, the mode from here on, a frame, one that is only looked at, or why there are no more.
pub enum Record {
    Fresh,
    Mode(Mode),
    Frame(Vec<u8>),
    Look(Vec<u8>),
    End(Option<&'static str>),
}

/// The words that stand in place of a length: a fresh parser, each mode from here on, and that the next frame is only looked at.
pub const FRESH: u32 = 0xffff_ffff;
pub const STANDARD: u32 = 0xffff_fffe;
pub const RUST: u32 = 0xffff_fffd;
pub const LOOK: u32 = 0xffff_fffc;

pub fn word(mode: Mode) -> u32 {
    match mode {
        Mode::Rust => RUST,
        Mode::Standard => STANDARD,
    }
}

/// That many bytes; none if there are fewer.
pub fn take(input: &mut impl Read, n: usize) -> Option<Vec<u8>> {
    let mut bytes = vec![0; n];
    input.read_exact(&mut bytes).ok().map(|_| bytes)
}

pub fn number(bytes: &[u8]) -> usize {
    bytes.iter().rev().fold(0, |v, b| v * 256 + *b as usize)
}

/// The next length, or how the input ends before it.
pub fn length(input: &mut impl BufRead) -> Result<usize, Option<&'static str>> {
    if input.fill_buf().map_or(true, |b| b.is_empty()) {
        return Err(None);
    }
    take(input, 4).map(|b| number(&b)).ok_or(Some("cut short"))
}

/// Frame records, from standard input or others.
pub struct Records<I> {
    input: I,
    /// Whether the next frame is only looked at.
    looks: bool,
    /// The mode of the next frame. A fresh parser keeps it.
    pub mode: Mode,
}

impl Records<std::io::StdinLock<'static>> {
    pub fn new() -> Self {
        Records::over(std::io::stdin().lock())
    }
}

impl<I: BufRead> Records<I> {
    pub fn over(input: I) -> Records<I> {
        Records { input, looks: false, mode: Mode::Rust }
    }

    pub fn next(&mut self) -> Record {
        let cut = Record::End(Some("cut short"));
        loop {
            let n = match length(&mut self.input) {
                Err(None) if self.looks => return cut,
                Err(end) => return Record::End(end),
                Ok(n) => n,
            };
            match n as u32 {
                FRESH => return Record::Fresh,
                STANDARD => return self.turned(Mode::Standard),
                RUST => return self.turned(Mode::Rust),
                LOOK => self.looks = true,
                _ if n > LONGEST => return Record::End(Some("too large")),
                _ => {
                    let wrap = if std::mem::take(&mut self.looks) { Record::Look } else { Record::Frame };
                    return take(&mut self.input, n).map_or(cut, wrap);
                }
            }
        }
    }

    fn turned(&mut self, mode: Mode) -> Record {
        self.mode = mode;
        Record::Mode(mode)
    }
}
