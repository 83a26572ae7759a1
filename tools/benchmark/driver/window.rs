//! The marks, and the calls between them.

use std::hint::black_box;

pub const CALLS: usize = 64;

/// Two windows, N and 2 N calls, announced by a line: what is added to or taken from which side of which row.
pub fn measure(row: &str, side: &str, sign: char, call: impl FnMut()) {
    measure_calls(row, side, sign, CALLS, call);
}

/// The same with another N.
pub fn measure_calls(row: &str, side: &str, sign: char, calls: usize, mut call: impl FnMut()) {
    println!("{sign}\t{side}\t{row}\t{calls}");
    window(calls, &mut call);
    window(2 * calls, &mut call);
}

/// What a call gave stands somewhere, on every side, and is then dropped; nothing is copied to be looked at.
#[inline(always)]
pub fn keep<T>(result: T) {
    black_box(&result);
}

/// A call for the next of some, from the first again after the last.
pub fn in_turn<T: ?Sized>(all: &[&T], mut call: impl FnMut(&T)) -> impl FnMut() {
    let mut at = 0;
    move || {
        call(all[at]);
        at += 1;
        if at == all.len() {
            at = 0;
        }
    }
}

#[inline(never)]
fn window(times: usize, call: &mut impl FnMut()) {
    bench_begin();
    for _ in 0..times {
        call();
    }
    bench_end();
}

#[unsafe(no_mangle)]
#[inline(never)]
extern "C" fn bench_begin() {
    black_box(1);
}

#[unsafe(no_mangle)]
#[inline(never)]
extern "C" fn bench_end() {
    black_box(2);
}
