//! How much of the stack each call needs, in bytes: the memory below the stack pointer is painted, the call is made, and what it changed is
//! looked for. x86-64 alone, as the archive.

use std::{arch::asm, hint::black_box, thread};

use tapes::{Owned, Shape, calls};

/// More than any call needs.
const PAINTED: usize = 256 * 1024;
const PAINT: u8 = 0xa5;
/// Left alone below the stack pointer, for the painting loop itself.
const OWN: usize = 512;

/// What a call takes below this function's own frame.
#[inline(never)]
fn taken(call: impl FnOnce()) -> usize {
    let pointer: usize;
    // SAFETY: it reads a register
    unsafe { asm!("mov {}, rsp", out(reg) pointer, options(nomem, nostack, preserves_flags)) };
    let floor = pointer - PAINTED;
    for at in floor..pointer - OWN {
        // SAFETY: the thread's stack is far larger, and nothing lives below the stack pointer
        unsafe { (at as *mut u8).write_volatile(PAINT) };
    }
    call();
    // SAFETY: as above; the memory was painted
    let lowest = (floor..pointer).find(|&at| unsafe { (at as *const u8).read_volatile() } != PAINT);
    lowest.map_or(0, |at| pointer - at)
}

fn show(what: &str, call: impl FnOnce()) {
    // what lies in the part that is left alone is not seen
    let most = taken(call).max(OWN);
    println!("{what:<16} at most {most:>6} bytes of stack");
}

fn measure() {
    let mut store = Owned::zeros(8);
    let mut out = [0; 4096];
    let small = Shape { cache: 64, ..Shape::default() };
    show("format", || assert_eq!(calls::format(&mut store, 8).code, 0));
    show("store", || assert_eq!(calls::store(&mut store).code, 0));
    show("append", || assert_eq!(calls::append(&mut store).code, 0));
    show("open, new", || assert_eq!(calls::open(&mut store, 1, b"room", small).code, 0));
    show("append_entries", || assert_eq!(calls::append_entries(&mut store, 1, 1, &[7; 5000]).code, 0));
    show("shift_start", || assert_eq!(calls::shift_start(&mut store, 1, 1, 1).code, 0));
    show("commit, append", || assert_eq!(calls::commit(&mut store, 1).code, 0));
    show("store, again", || assert_eq!(calls::store(&mut store).code, 0));
    assert_eq!(calls::append(&mut store).code, 0);
    show("open, known", || assert_eq!(calls::open(&mut store, 1, b"room", Shape::default()).code, 0));
    show("drop", || assert_eq!(calls::drop_transaction(&mut store, 1).code, 0));
    show("reader", || assert_eq!(calls::reader(&mut store).code, 0));
    show("read_entries", || assert_eq!(calls::read_entries(&store, 2, 1, 100, 4096, &mut out).code, 0));
    show("read_entry", || assert_eq!(calls::read_entry(&store, 2, 1, 100, &mut out).code, 0));
    show("truncate", || assert_eq!(calls::truncate(&mut store).code, 0));
    show("pop_entry", || assert_eq!(calls::pop_entry(&mut store, 3, 1, &mut out).code, 0));
    show("truncate_tape", || assert_eq!(calls::truncate_tape(&mut store, 3, 1, 10).code, 0));
    show("commit, truncate", || assert_eq!(calls::commit(&mut store, 3).code, 0));
    black_box(store);
}

pub fn run() {
    thread::Builder::new()
        .stack_size(8 * PAINTED)
        .spawn(measure)
        .expect("a thread")
        .join()
        .expect("every call is served");
}
