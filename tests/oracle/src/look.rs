//! A look at the first bytes of a frame: what it tells by the Rust, by the whole call in either mode and by the rules, which must agree.

use crate::answer::{Look, Mode, SEEN};
use crate::codec::vp8::parser::access;
use crate::engine::Engine;
use crate::rules;

/// What the whole call over a fresh parser tells of a look; none where it refuses after the chunk.
fn by_call(mode: Mode, f: &[u8]) -> Option<Look> {
    let answer = Engine::new().call(mode, f);
    match answer.refusal {
        0 => Some(Ok(SEEN.map(|name| answer.get(name)))),
        1 | 2 => Some(Err((answer.refusal, answer.a))),
        _ => None,
    }
}

/// The Rust's own reading of the chunk, over all bytes, which the whole call in that mode and the rules have to bear out.
pub fn look(mode: Mode, f: &[u8]) -> Look {
    let (rust, call, rule) = (access::look(f), by_call(mode, f), rules::look(f));
    let borne = call.map_or(rust.is_ok(), |told| told == rust);
    if !borne || rust != rule {
        eprintln!("looks part on the frame {f:02x?}: the Rust's chunk {rust:?}, the call in {mode} {call:?}, the rules {rule:?}");
        std::process::exit(1);
    }
    rust
}

/// The dump line of a look.
pub fn line(mode: Mode, f: &[u8]) -> String {
    match look(mode, f) {
        Ok(numbers) => SEEN.iter().zip(numbers).fold("peek".to_string(), |out, (name, v)| format!("{out} {name}={v}")),
        Err((2, code)) => format!("peek err 2 code={code}"),
        Err((n, _)) => format!("peek err {n}"),
    }
}
