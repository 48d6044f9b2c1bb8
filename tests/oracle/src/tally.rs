//! What the counting copy tells: the number of bools that it has read, and how far past its bytes it was when it was last asked for its
//! position, which is after the header.

use std::cell::Cell;

thread_local!(static BOOLS: Cell<i64> = const { Cell::new(0) });
thread_local!(static PAST: Cell<i64> = const { Cell::new(0) });

pub fn bump() {
    BOOLS.set(BOOLS.get() + 1);
}

pub fn reach(past: usize) {
    PAST.set(past as i64);
}

pub fn clear() {
    BOOLS.set(0);
    PAST.set(0);
}

pub fn bools() -> i64 {
    BOOLS.get()
}

pub fn past() -> i64 {
    PAST.get()
}
