//! One record, read by the Rust or by the standard's reader, each run twice: as it is, and with the lines that count, which must agree.

use crate::answer::{Answer, Mode, BOOLS, PAST};
use crate::codec::vp8::parser::access as plain;
use crate::counted::codec::vp8::parser::access as counted;
use crate::standard::codec::vp8::parser::access as standard;
use crate::standard_counted::codec::vp8::parser::access as standard_counted;

#[derive(Clone)]
pub struct Engine {
    kept: Vec<u8>,
}

impl Engine {
    pub fn new() -> Engine {
        Engine { kept: plain::fresh() }
    }

    pub fn kept(&self) -> &[u8] {
        &self.kept
    }

    pub fn call(&mut self, mode: Mode, frame: &[u8]) -> Answer {
        let (reader, counting): (fn(&[u8], &[u8]) -> Answer, fn(&[u8], &[u8]) -> Answer) = match mode {
            Mode::Rust => (plain::call, counted::call),
            Mode::Standard => (standard::call, standard_counted::call),
        };
        let mut answer = reader(&self.kept, frame);
        crate::tally::clear();
        let other = counting(&self.kept, frame);
        assert!(answer == other, "the counting copy answers otherwise");
        if answer.refusal == 0 {
            assert!(answer.view == frame.len(), "the frame's view is not the whole frame");
            answer.numbers[BOOLS] = crate::tally::bools();
            answer.numbers[PAST] = crate::tally::past();
        }
        self.kept.clone_from(&answer.kept);
        answer
    }
}
