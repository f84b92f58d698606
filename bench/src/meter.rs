//! What one call costs: nanoseconds, or a pair of marks around it for whoever counts instructions.

use std::{arch::asm, hint::black_box, time::Instant};

const ROUNDS: usize = 30;

#[derive(Clone, Copy, PartialEq, Eq)]
pub enum Meter {
    /// The fastest of thirty rounds, in nanoseconds for each call.
    Time,
    /// Makes one call between two marks, in the order of the rows, after two calls without.
    Count,
}

/// A place that a trace of the program's instructions shows by name.
#[unsafe(no_mangle)]
#[inline(never)]
pub extern "C" fn bench_mark() {
    // SAFETY: it does nothing
    unsafe { asm!("nop", options(nomem, nostack, preserves_flags)) };
}

impl Meter {
    /// Each round has a state of its own, prepared before the clock starts and warmed by two calls. A call that is made once in a round is
    /// too long to be counted: its marks have nothing between them.
    pub fn cost<S>(self, calls: u32, mut prepare: impl FnMut() -> S, mut call: impl FnMut(&mut S)) -> f64 {
        let mut fastest = f64::INFINITY;
        for _ in 0..if self == Self::Time { ROUNDS } else { 1 } {
            let mut state = prepare();
            if self == Self::Count && calls == 1 {
                bench_mark();
                bench_mark();
                continue;
            }
            call(&mut state);
            call(&mut state);
            if self == Self::Count {
                bench_mark();
                call(black_box(&mut state));
                bench_mark();
                continue;
            }
            let began = Instant::now();
            for _ in 0..calls {
                call(black_box(&mut state));
            }
            fastest = fastest.min(began.elapsed().as_nanos() as f64 / f64::from(calls));
        }
        fastest
    }
}
