//! Where things stand in the two areas, as docs/LAYOUT.md has it; of the disk, `disk.rs` has the offsets. Nothing here trusts an area: what
//! lies behind its end is 0.

use oracle::{Listed, Record, choose, decode_list};

use crate::disk::{
    DIRECTORIES, FILE_TABLE, LONGEST_NAME, MOST_NAMES, MOST_SLOTS, PLACE_BYTES, SLOT_BYTES, SLOT_COUNT, SLOTS, left,
    name, right, word,
};

const HEAD: usize = 8;
const TAPE_PLACES: usize = 48;
const VIEWS: usize = 304;
const TRANSACTIONS: usize = 3760;
const TAPES: usize = 4168;
const TRACKING: usize = 4936;
const RINGS: usize = 5960;
pub const SESSION_BYTES: usize = 38728;
const VIEW_ROW: usize = 24;
const TRANSACTION_ROW: usize = 24;
const TAPE_ROW: usize = 96;

const SESSION_MARK: &[u8] = b"tapesess";

/// Of a disk, what is behind is never looked at.
pub fn disk_bytes(slots: u64) -> usize {
    SLOTS + SLOT_BYTES * slots.min(MOST_SLOTS) as usize
}

pub fn slot_count(disk: &[u8]) -> u64 {
    word(disk, SLOT_COUNT)
}

/// The record that a store would begin with.
pub fn record(disk: &[u8]) -> Record {
    choose(left(disk), right(disk))
}

/// The tapes of that record, if its list is one.
pub fn listed(disk: &[u8]) -> Option<Vec<Listed>> {
    decode_list(&record(disk).list)
}

/// An open tape.
pub struct Handle<'a> {
    pub number: u64,
    pub entry: u64,
    pub name: &'a [u8],
}

/// Those of the session, if there is one.
pub fn handles(session: &[u8]) -> Vec<Handle<'_>> {
    if !session.starts_with(SESSION_MARK) {
        return Vec::new();
    }
    let handle = |place| {
        let row = TAPES + place * TAPE_ROW;
        Handle { number: word(session, row), entry: word(session, row + 8), name: name(session, TAPE_PLACES, place) }
    };
    (0..MOST_NAMES).map(handle).filter(|handle| handle.number != 0).collect()
}

/// Of an open handle, the first of that number.
pub fn entry_size(session: &[u8], number: u64) -> Option<u64> {
    handles(session).into_iter().find(|handle| handle.number == number).map(|handle| handle.entry)
}

/// The numbers of the open transactions.
pub fn transactions(session: &[u8]) -> Vec<u64> {
    let rows = (0..17).map(|place| TRANSACTIONS + place * TRANSACTION_ROW);
    rows.filter(|row| word(session, *row) != 0).map(|row| word(session, row + 8)).collect()
}

/// A number of an area and the largest that the layout rule lets pass, 1 for a flag; 2^64-1 where every number does.
pub struct Field {
    pub at: usize,
    pub limit: u64,
}

const ANY: u64 = u64::MAX;

/// The words of a table's rows, one limit for each word.
fn table(at: usize, rows: usize, limits: &[u64]) -> impl Iterator<Item = Field> {
    let words = limits.len();
    (0..rows * words).map(move |word| Field { at: at + word * 8, limit: limits[word % words] })
}

/// Those of a table of names: the first word of each place.
fn names(at: usize) -> impl Iterator<Item = Field> {
    (0..MOST_NAMES).map(move |place| Field { at: at + place * PLACE_BYTES, limit: LONGEST_NAME })
}

pub fn disk_fields(disk: &[u8]) -> Vec<Field> {
    let slots = slot_count(disk).clamp(1, MOST_SLOTS) as usize;
    let head = table(0, 1, &[ANY, MOST_SLOTS, 512, 512]);
    head.chain(names(DIRECTORIES)).chain(table(FILE_TABLE, slots, &[8, ANY, SLOT_BYTES as u64])).collect()
}

pub fn session_fields() -> Vec<Field> {
    const RING: u64 = 4096;
    // handle; ring; staged
    const TAPE: [u64; 12] = [ANY, 256, 4096, RING, RING, RING, ANY, 1, ANY, ANY, ANY, RING];
    table(0, 1, &[ANY])
        .chain(table(HEAD, 1, &[ANY, 1, 1, ANY, ANY]))
        .chain(names(TAPE_PLACES))
        .chain(table(VIEWS, (TRANSACTIONS - VIEWS) / VIEW_ROW, &[1, ANY, ANY]))
        .chain(table(TRANSACTIONS, 17, &[3, ANY, ANY]))
        .chain(table(TAPES, MOST_NAMES, &TAPE))
        .chain(table(TRACKING, (RINGS - TRACKING) / 16, &[2, ANY]))
        .collect()
}
