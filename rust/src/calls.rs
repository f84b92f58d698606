//! The C functions as safe ones: the two areas, numbers and slices in, the plain reply out. This is the only module with
//! `unsafe` in it.
//!
//! What makes them safe: every function takes slices of any length with any bytes in them (none has a `requires`), reads and
//! writes inside of them alone, keeps no pointer, and writes only through those that are `*mut`. Rust's borrows see to the
//! rest: what is lent lives for the whole call, and nothing that is lent for writing is lent a second time.

#![allow(unsafe_code, missing_docs)]

pub use crate::ffi::Reply;
use crate::{areas::Areas, ffi, tape::Shape};

/// What [`read_entry`] and [`pop_entry`] have as value where there is no entry: no index is that large.
pub const NO_ENTRY: u64 = u64::MAX;

pub fn disk_bytes(slots: u64) -> u64 {
    // SAFETY: a number in, a number out
    unsafe { ffi::tapes_disk_bytes(slots) }
}

pub fn session_bytes() -> u64 {
    // SAFETY: a number out
    unsafe { ffi::tapes_session_bytes() }
}

pub fn format<A: Areas + ?Sized>(areas: &mut A, slots: u64) -> Reply {
    let (disk, session) = areas.areas_mut();
    // SAFETY: both areas are borrowed for writing while the call runs
    unsafe { ffi::tapes_format(disk.as_mut_ptr(), disk.len(), session.as_mut_ptr(), session.len(), slots) }
}

pub fn store<A: Areas + ?Sized>(areas: &mut A) -> Reply {
    let (disk, session) = areas.areas_mut();
    // SAFETY: both areas are borrowed for writing while the call runs
    unsafe { ffi::tapes_store(disk.as_ptr(), disk.len(), session.as_mut_ptr(), session.len()) }
}

pub fn append<A: Areas + ?Sized>(areas: &mut A) -> Reply {
    let (disk, session) = areas.areas_mut();
    // SAFETY: both areas are borrowed for writing while the call runs
    unsafe { ffi::tapes_append(disk.as_ptr(), disk.len(), session.as_mut_ptr(), session.len()) }
}

pub fn reader<A: Areas + ?Sized>(areas: &mut A) -> Reply {
    let (disk, session) = areas.areas_mut();
    // SAFETY: both areas are borrowed for writing while the call runs
    unsafe { ffi::tapes_reader(disk.as_ptr(), disk.len(), session.as_mut_ptr(), session.len()) }
}

pub fn truncate<A: Areas + ?Sized>(areas: &mut A) -> Reply {
    let (disk, session) = areas.areas_mut();
    // SAFETY: both areas are borrowed for writing while the call runs
    unsafe { ffi::tapes_truncate(disk.as_ptr(), disk.len(), session.as_mut_ptr(), session.len()) }
}

pub fn open<A: Areas + ?Sized>(areas: &mut A, transaction: u64, name: &[u8], shape: Shape) -> Reply {
    let (disk, session) = areas.areas_mut();
    let Shape { entry_size, file_size, cache, start } = shape;
    // SAFETY: both areas are borrowed for writing while the call runs, the name for reading
    unsafe {
        ffi::tapes_open(
            disk.as_mut_ptr(),
            disk.len(),
            session.as_mut_ptr(),
            session.len(),
            transaction,
            name.as_ptr(),
            name.len(),
            entry_size,
            file_size,
            cache,
            start,
        )
    }
}

pub fn append_entries<A: Areas + ?Sized>(areas: &mut A, transaction: u64, handle: u64, entries: &[u8]) -> Reply {
    let (disk, session) = areas.areas_mut();
    // SAFETY: both areas are borrowed for writing while the call runs, the entries for reading
    unsafe {
        ffi::tapes_append_entries(
            disk.as_mut_ptr(),
            disk.len(),
            session.as_mut_ptr(),
            session.len(),
            transaction,
            handle,
            entries.as_ptr(),
            entries.len(),
        )
    }
}

pub fn shift_start<A: Areas + ?Sized>(areas: &mut A, transaction: u64, handle: u64, index: u64) -> Reply {
    let (disk, session) = areas.areas_mut();
    let (disk, disk_len, session, session_len) = (disk.as_ptr(), disk.len(), session.as_mut_ptr(), session.len());
    // SAFETY: both areas are borrowed for writing while the call runs
    unsafe { ffi::tapes_shift_start(disk, disk_len, session, session_len, transaction, handle, index) }
}

pub fn truncate_tape<A: Areas + ?Sized>(areas: &mut A, transaction: u64, handle: u64, len: u64) -> Reply {
    let (disk, session) = areas.areas_mut();
    let (disk, disk_len, session, session_len) = (disk.as_ptr(), disk.len(), session.as_mut_ptr(), session.len());
    // SAFETY: both areas are borrowed for writing while the call runs
    unsafe { ffi::tapes_truncate_tape(disk, disk_len, session, session_len, transaction, handle, len) }
}

pub fn drop_entries<A: Areas + ?Sized>(areas: &mut A, transaction: u64, handle: u64, count: u64) -> Reply {
    let (disk, session) = areas.areas_mut();
    let (disk, disk_len, session, session_len) = (disk.as_ptr(), disk.len(), session.as_mut_ptr(), session.len());
    // SAFETY: both areas are borrowed for writing while the call runs
    unsafe { ffi::tapes_drop_entries(disk, disk_len, session, session_len, transaction, handle, count) }
}

pub fn len<A: Areas + ?Sized>(areas: &A, transaction: u64, handle: u64) -> Reply {
    let (disk, session) = areas.areas();
    // SAFETY: both areas are borrowed for reading while the call runs
    unsafe { ffi::tapes_len(disk.as_ptr(), disk.len(), session.as_ptr(), session.len(), transaction, handle) }
}

pub fn start<A: Areas + ?Sized>(areas: &A, transaction: u64, handle: u64) -> Reply {
    let (disk, session) = areas.areas();
    // SAFETY: both areas are borrowed for reading while the call runs
    unsafe { ffi::tapes_start(disk.as_ptr(), disk.len(), session.as_ptr(), session.len(), transaction, handle) }
}

pub fn exists<A: Areas + ?Sized>(areas: &A, transaction: u64, name: &[u8]) -> Reply {
    let (disk, session) = areas.areas();
    let (disk, disk_len, session, session_len) = (disk.as_ptr(), disk.len(), session.as_ptr(), session.len());
    // SAFETY: both areas and the name are borrowed for reading while the call runs
    unsafe { ffi::tapes_exists(disk, disk_len, session, session_len, transaction, name.as_ptr(), name.len()) }
}

pub fn read_entries<A: Areas + ?Sized>(
    areas: &A,
    transaction: u64,
    handle: u64,
    index: u64,
    count: u64,
    out: &mut [u8],
) -> Reply {
    let (disk, session) = areas.areas();
    // SAFETY: both areas are borrowed for reading while the call runs, the buffer for writing
    unsafe {
        ffi::tapes_read_entries(
            disk.as_ptr(),
            disk.len(),
            session.as_ptr(),
            session.len(),
            transaction,
            handle,
            index,
            count,
            out.as_mut_ptr(),
            out.len(),
        )
    }
}

pub fn read_entry<A: Areas + ?Sized>(areas: &A, transaction: u64, handle: u64, index: u64, out: &mut [u8]) -> Reply {
    let (disk, session) = areas.areas();
    // SAFETY: both areas are borrowed for reading while the call runs, the buffer for writing
    unsafe {
        ffi::tapes_read_entry(
            disk.as_ptr(),
            disk.len(),
            session.as_ptr(),
            session.len(),
            transaction,
            handle,
            index,
            out.as_mut_ptr(),
            out.len(),
        )
    }
}

pub fn pop_entry<A: Areas + ?Sized>(areas: &mut A, transaction: u64, handle: u64, out: &mut [u8]) -> Reply {
    let (disk, session) = areas.areas_mut();
    // SAFETY: both areas and the buffer are borrowed for writing while the call runs
    unsafe {
        ffi::tapes_pop_entry(
            disk.as_ptr(),
            disk.len(),
            session.as_mut_ptr(),
            session.len(),
            transaction,
            handle,
            out.as_mut_ptr(),
            out.len(),
        )
    }
}

pub fn commit<A: Areas + ?Sized>(areas: &mut A, transaction: u64) -> Reply {
    let (disk, session) = areas.areas_mut();
    // SAFETY: both areas are borrowed for writing while the call runs
    unsafe { ffi::tapes_commit(disk.as_mut_ptr(), disk.len(), session.as_mut_ptr(), session.len(), transaction) }
}

pub fn drop_transaction<A: Areas + ?Sized>(areas: &mut A, transaction: u64) -> Reply {
    let (disk, session) = areas.areas_mut();
    // SAFETY: both areas are borrowed for writing while the call runs
    unsafe { ffi::tapes_drop(disk.as_ptr(), disk.len(), session.as_mut_ptr(), session.len(), transaction) }
}
