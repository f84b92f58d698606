//! Document 01's worked example and its nine checked examples, through the API; where they are about the areas' bytes, those are
//! looked at.

use crate::disk::{self, directories, hex, left, word};
use std::mem;
use tapes::{Error, Owned, Shape, Store, Tape};

fn shape(file_size: u64, cache: u64) -> Shape {
    Shape { file_size, cache, ..Shape::default() }
}

/// Files 0 to 2, len 10, epoch 1.
fn ten_bytes() -> Result<(Store, Tape), Error> {
    let store = Store::new(8)?;
    let mut append = store.append()?;
    let tape = append.open("a", shape(4, 16))?;
    append.append_entries(tape, "0123456789")?;
    append.commit()?;
    Ok((store, tape))
}

/// Of `a`, the one tape.
fn files(disk: &[u8]) -> Vec<(u64, &[u8])> {
    assert_eq!(directories(disk), [(&b"a"[..], 1)]);
    disk::files(disk, 1)
}

fn file_numbers(store: &Store) -> Vec<u64> {
    files(&store.copy_disk()).iter().map(|(number, _)| *number).collect()
}

/// Its cache: the first index, and the bytes in the tape's order. It stands at the first of the session's eight places.
fn cache(session: &[u8]) -> (u64, Vec<u8>) {
    const TAPE_PLACES: usize = 48;
    const RING: usize = 4192;
    const RINGS: usize = 5960;
    assert_eq!(disk::name(session, TAPE_PLACES, 0), b"a");
    let [capacity, start, length, first] = [0, 8, 16, 24].map(|field| word(session, RING + field));
    let byte = |index| session[RINGS + ((start + index) % capacity) as usize];
    (first, (0..length).map(byte).collect())
}

#[test]
fn the_worked_example() -> Result<(), Error> {
    let store = Store::new(8)?;
    assert_eq!(store.epoch(), 0);
    let mut append = store.append()?;
    assert_eq!(append.number(), 1);
    let votes = append.open("votes", shape(4, 8))?;
    assert_eq!(votes.number(), 1);
    assert_eq!(append.append_entries(votes, "yes")?, 0);
    assert_eq!(append.append_entries(votes, "yes")?, 3);
    assert_eq!(append.commit()?, 1);
    let reader = store.reader()?;
    assert_eq!(reader.number(), 2);
    assert_eq!(reader.read_entries(votes, 0, 6)?, b"yesyes");
    Ok(())
}

#[test]
fn example_1_an_empty_list() -> Result<(), Error> {
    let store = Store::new(8)?;
    store.append()?.commit()?;
    let disk = store.copy_disk();
    assert_eq!(left(&disk).len(), 52);
    assert_eq!(left(&disk)[48..], [0; 4]);
    Ok(())
}

#[test]
fn examples_2_and_3_a_tape_that_begins_at_6() -> Result<(), Error> {
    let store = Store::new(8)?;
    let mut append = store.append()?;
    let tape = append.open("a", Shape { start: 6, ..shape(4, 8) })?;
    assert_eq!(append.append_entries(tape, "hello")?, 6);
    append.commit()?;

    let disk = store.copy_disk();
    let record = left(&disk);
    assert_eq!(record.len(), 73);
    assert_eq!(hex(&record[48..]), "0100000001000000610b000000000000000600000000000000");
    assert_eq!(files(&disk), [(1, &b"\0\0he"[..]), (2, b"llo")]);
    assert_eq!(store.reader()?.read_entries(tape, 6, 5)?, b"hello");
    Ok(())
}

/// The areas with what an open append has staged: it is forgotten, so that nothing closes it.
fn with_staged(bytes: &str) -> Result<Owned, Error> {
    let store = Store::new(8)?;
    let mut append = store.append()?;
    let tape = append.open("a", shape(8, 4))?;
    append.append_entries(tape, "abcdef")?;
    if !bytes.is_empty() {
        append.commit()?;
        append = store.append()?;
        append.append_entries(tape, bytes)?;
    }
    mem::forget(append);
    Ok(store.into_areas())
}

#[test]
fn examples_4_and_5_the_cache() -> Result<(), Error> {
    assert_eq!(cache(&with_staged("")?.session), (2, b"cdef".to_vec()));
    assert_eq!(cache(&with_staged("g")?.session), (3, b"defg".to_vec()));

    let store = Store::new(8)?;
    let mut append = store.append()?;
    let tape = append.open("a", shape(8, 4))?;
    append.append_entries(tape, "abcdef")?;
    append.commit()?;
    let mut append = store.append()?;
    append.append_entries(tape, "g")?;
    drop(append);
    assert_eq!(store.reader()?.read_entries(tape, 2, 2)?, b"cd");
    assert_eq!(cache(&store.into_areas().session), (3, b"def".to_vec()));
    Ok(())
}

#[test]
fn example_6_a_reader_keeps_files() -> Result<(), Error> {
    let (store, tape) = ten_bytes()?;
    let reader = store.reader()?;
    let mut append = store.append()?;
    append.shift_start(tape, 8)?;
    append.commit()?;
    assert_eq!(file_numbers(&store), [0, 1, 2]);
    assert_eq!(reader.read_entries(tape, 0, 10)?, b"0123456789");
    drop(reader);
    let mut append = store.append()?;
    append.append_entries(tape, "")?;
    append.commit()?;
    assert_eq!(file_numbers(&store), [2]);
    assert_eq!(store.reader()?.read_entries(tape, 8, 2)?, b"89");
    assert_eq!(store.reader()?.read_entries(tape, 7, 1), Err(Error::OutOfBounds));
    Ok(())
}

#[test]
fn example_7_no_reader() -> Result<(), Error> {
    let (store, tape) = ten_bytes()?;
    let mut append = store.append()?;
    append.shift_start(tape, 7)?;
    append.commit()?;
    assert_eq!(file_numbers(&store), [1, 2]);
    Ok(())
}

#[test]
fn example_8_the_keeper_waits() -> Result<(), Error> {
    let (store, tape) = ten_bytes()?;
    store.append()?.commit()?;
    let before = store.reader()?;
    let mut truncate = store.truncate()?;
    truncate.truncate_tape(tape, 5)?;
    assert_eq!(truncate.commit()?, 3);
    let after = store.reader()?;
    assert_eq!(store.append().unwrap_err(), Error::Wait { windows: 1 });
    assert_eq!(before.read_entries(tape, 0, 10)?, b"0123456789");
    drop(before);
    assert!(store.append().is_ok());
    assert_eq!(after.read_entries(tape, 0, 5)?, b"01234");
    Ok(())
}

#[test]
fn example_9_bounds() -> Result<(), Error> {
    let (store, tape) = ten_bytes()?;
    let reader = store.reader()?;
    assert_eq!(reader.read_entries(tape, 10, 0)?, b"");
    assert_eq!(reader.read_entries(tape, 10, 1), Err(Error::OutOfBounds));
    assert_eq!(reader.read_entries(tape, 11, 0), Err(Error::OutOfBounds));
    assert_eq!(reader.read_entries(tape, 9, 1)?, b"9");
    Ok(())
}
