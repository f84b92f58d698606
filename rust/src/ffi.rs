//! The C functions of `crates/tapes/src`, declared: a slice there is a pointer and a length here. `tests/all/declared.rs` holds
//! these declarations against the functions.

/// A code, 0 or the refusal's number, and a value.
#[allow(missing_docs)]
#[repr(C)]
#[derive(Clone, Copy, Debug, PartialEq, Eq)]
pub struct Reply {
    pub code: u64,
    pub value: u64,
}

extern "C" {
    // sizes.rt
    pub fn tapes_disk_bytes(slots: u64) -> u64;
    pub fn tapes_session_bytes() -> u64;

    // begins.rt
    pub fn tapes_format(disk: *mut u8, disk_len: usize, session: *mut u8, session_len: usize, slots: u64) -> Reply;
    pub fn tapes_store(disk: *const u8, disk_len: usize, session: *mut u8, session_len: usize) -> Reply;
    pub fn tapes_append(disk: *const u8, disk_len: usize, session: *mut u8, session_len: usize) -> Reply;
    pub fn tapes_reader(disk: *const u8, disk_len: usize, session: *mut u8, session_len: usize) -> Reply;
    pub fn tapes_truncate(disk: *const u8, disk_len: usize, session: *mut u8, session_len: usize) -> Reply;

    // writes.rt
    pub fn tapes_open(
        disk: *mut u8,
        disk_len: usize,
        session: *mut u8,
        session_len: usize,
        transaction: u64,
        name: *const u8,
        name_len: usize,
        entry: u64,
        file_size: u64,
        cache: u64,
        start: u64,
    ) -> Reply;
    pub fn tapes_append_entries(
        disk: *mut u8,
        disk_len: usize,
        session: *mut u8,
        session_len: usize,
        transaction: u64,
        handle: u64,
        entries: *const u8,
        entries_len: usize,
    ) -> Reply;
    pub fn tapes_shift_start(
        disk: *const u8,
        disk_len: usize,
        session: *mut u8,
        session_len: usize,
        transaction: u64,
        handle: u64,
        index: u64,
    ) -> Reply;
    pub fn tapes_truncate_tape(
        disk: *const u8,
        disk_len: usize,
        session: *mut u8,
        session_len: usize,
        transaction: u64,
        handle: u64,
        len: u64,
    ) -> Reply;
    pub fn tapes_drop_entries(
        disk: *const u8,
        disk_len: usize,
        session: *mut u8,
        session_len: usize,
        transaction: u64,
        handle: u64,
        count: u64,
    ) -> Reply;

    // reads.rt
    pub fn tapes_len(
        disk: *const u8,
        disk_len: usize,
        session: *const u8,
        session_len: usize,
        transaction: u64,
        handle: u64,
    ) -> Reply;
    pub fn tapes_start(
        disk: *const u8,
        disk_len: usize,
        session: *const u8,
        session_len: usize,
        transaction: u64,
        handle: u64,
    ) -> Reply;
    pub fn tapes_exists(
        disk: *const u8,
        disk_len: usize,
        session: *const u8,
        session_len: usize,
        transaction: u64,
        name: *const u8,
        name_len: usize,
    ) -> Reply;
    pub fn tapes_read_entries(
        disk: *const u8,
        disk_len: usize,
        session: *const u8,
        session_len: usize,
        transaction: u64,
        handle: u64,
        index: u64,
        count: u64,
        out: *mut u8,
        out_len: usize,
    ) -> Reply;
    pub fn tapes_read_entry(
        disk: *const u8,
        disk_len: usize,
        session: *const u8,
        session_len: usize,
        transaction: u64,
        handle: u64,
        index: u64,
        out: *mut u8,
        out_len: usize,
    ) -> Reply;
    pub fn tapes_pop_entry(
        disk: *const u8,
        disk_len: usize,
        session: *mut u8,
        session_len: usize,
        transaction: u64,
        handle: u64,
        out: *mut u8,
        out_len: usize,
    ) -> Reply;

    // ends.rt
    pub fn tapes_commit(
        disk: *mut u8,
        disk_len: usize,
        session: *mut u8,
        session_len: usize,
        transaction: u64,
    ) -> Reply;
    pub fn tapes_drop(
        disk: *const u8,
        disk_len: usize,
        session: *mut u8,
        session_len: usize,
        transaction: u64,
    ) -> Reply;
}
