//! Every refusal number, reached through the API.

use crate::disk::put_metadata;
use tapes::{disk_bytes, format, session_bytes, Append, Error, Owned, Reader, Refused, Shape, Store, Tape};

/// Hashes of the records below: Python's `hashlib.blake2b(b"epoch" + epoch + b"tapes" + list, digest_size=32)`, with the epoch
/// as 8 bytes, the lowest first.
const ONE_BYTE_OVER: &str =
    "0100000080d59bd6bb0ee163a2adea4d8f2480f4d17a252319566f2f35c8007b0969cbb70100000000000000050000000000000000";
const LAST_EPOCH: &str =
    "01000000d17d6c9c76f00e2d537ce3bf14ca55417c0a251cc5a7eab1e4e031a93841d409ffffffffffffffff0400000000000000";
/// The tape `a` from 0 to 2^64-1.
const LONGEST_TAPE: &str =
    "0100000000440548f4f4d370114f9ac68b6656e391fbe948e343f747cb6532d7a0e69571010000000000000019000000\
                            010000000100000061ffffffffffffffff0000000000000000";

const SMALL: Shape = Shape { entry_size: 1, file_size: 4, cache: 16, start: 0 };

fn unhex(text: &str) -> Vec<u8> {
    (0..text.len() / 2).map(|at| u8::from_str_radix(&text[2 * at..2 * at + 2], 16).unwrap()).collect()
}

/// A disk on which the directory `a` was made, and whose record is this one.
fn with_record(record: &str) -> Result<Owned, Error> {
    let store = Store::new(8)?;
    store.append()?.open("a", SMALL)?;
    let mut areas = store.into_areas();
    put_metadata(&mut areas.disk, true, &unhex(record));
    Ok(areas)
}

fn begun(areas: Owned) -> Result<Store, Error> {
    Ok(Store::begin(areas)?)
}

/// A store with ten bytes on a tape.
fn ten_bytes() -> Result<(Store, Tape), Error> {
    let store = Store::new(8)?;
    let mut append = store.append()?;
    let tape = append.open("a", SMALL)?;
    append.append_entries(tape, "0123456789")?;
    append.commit()?;
    Ok((store, tape))
}

#[test]
fn number_1_areas() {
    let Refused { error, back } = Store::begin(Owned::zeros(8)).unwrap_err();
    assert_eq!(error, Error::Unusable, "not formatted");
    assert!(back == Owned::zeros(8), "the areas come back as they were");

    let mut small = Owned { disk: vec![7; disk_bytes(8) - 1], session: vec![7; session_bytes()] };
    assert_eq!(format(&mut small, 8), Err(Error::Unusable));
    assert!(small.disk.iter().chain(&small.session).all(|byte| *byte == 7));
    let mut small = Owned { disk: vec![0; disk_bytes(8)], session: vec![0; session_bytes() - 1] };
    assert_eq!(format(&mut small, 8), Err(Error::Unusable));
    let mut none = Owned { disk: Vec::new(), session: Vec::new() };
    assert_eq!(format(&mut none, 1), Err(Error::Unusable));
}

#[test]
fn number_2_tapes_that_are_not_open() -> Result<(), Error> {
    let (store, _) = ten_bytes()?;
    let created = store.append()?.open("b", SMALL)?;
    assert_eq!(store.reader()?.len(created), Err(Error::Unknown), "its creation was dropped");
    let mut append = store.append()?;
    assert_eq!(append.append_entries(created, ""), Err(Error::Unknown));
    assert_eq!(append.shift_start(created, 0), Err(Error::Unknown));
    drop(append);
    let mut truncate = store.truncate()?;
    assert_eq!(truncate.truncate_tape(created, 0), Err(Error::Unknown));
    assert_eq!(truncate.drop_entries(created, 0), Err(Error::Unknown));
    assert_eq!(truncate.pop_entry(created), Err(Error::Unknown));
    assert_eq!(truncate.read_entry(created, 0), Err(Error::Unknown));
    Ok(())
}

#[test]
fn numbers_3_and_4_writers() -> Result<(), Error> {
    let (store, _) = ten_bytes()?;
    let windows: Vec<Reader> = (0..2).map(|_| store.reader()).collect::<Result<_, _>>()?;
    let truncate = store.truncate()?;
    assert_eq!(store.append().unwrap_err(), Error::WriterOpen);
    truncate.commit()?;
    assert_eq!(store.append().unwrap_err(), Error::Wait { windows: 2 });
    drop(windows);
    let append = store.append()?;
    assert_eq!(store.truncate().unwrap_err(), Error::WriterOpen);
    append.close()?;
    Ok(())
}

#[test]
fn number_5_places() -> Result<(), Error> {
    let store = Store::new(8)?;
    let readers: Vec<Reader> = (0..16).map(|_| store.reader()).collect::<Result<_, _>>()?;
    assert_eq!(store.reader().unwrap_err(), Error::Full);
    let mut append = store.append()?;
    for name in ["a", "b", "c", "d", "e", "f", "g", "h"] {
        append.open(name, SMALL)?;
    }
    assert_eq!(append.open("i", SMALL), Err(Error::Full));
    assert_eq!(readers.len(), 16);
    Ok(())
}

#[test]
fn numbers_6_to_10_at_an_opening() -> Result<(), Error> {
    let (mut store, _) = ten_bytes()?;
    let opened = |append: &mut Append, name: &[u8], shape| append.open(name, shape).unwrap_err().number();
    let mut append = store.append()?;
    for name in [&b""[..], b"Votes", b"a b", b"1234567890123456789012345", b"\xff"] {
        assert_eq!(opened(&mut append, name, SMALL), 6);
    }
    assert_eq!(opened(&mut append, b"metadata", SMALL), 7);
    for shape in [
        Shape { entry_size: 0, ..SMALL },
        Shape { entry_size: 257, ..SMALL },
        Shape { file_size: 0, ..SMALL },
        Shape { file_size: 4097, ..SMALL },
        Shape { cache: 0, ..SMALL },
        Shape { cache: 4097, ..SMALL },
    ] {
        assert_eq!(opened(&mut append, b"b", shape), 8);
    }
    assert_eq!(opened(&mut append, b"a", SMALL), 9);
    assert_eq!(opened(&mut append, b"b", Shape { entry_size: 4, start: 6, ..SMALL }), 10);
    drop(append);
    store.restart()?;
    assert_eq!(opened(&mut store.append()?, b"a", Shape { entry_size: 3, ..SMALL }), 10);
    Ok(())
}

#[test]
fn number_8_slots() {
    for slots in [0, 65, u64::MAX] {
        assert_eq!(Store::new(slots).unwrap_err(), Error::BadSize);
    }
    assert!(Store::new(1).is_ok() && Store::new(64).is_ok());
}

#[test]
fn numbers_10_to_14_on_a_tape() -> Result<(), Error> {
    let (store, a) = ten_bytes()?;
    let window = store.reader()?;
    let mut append = store.append()?;
    let pairs = append.open("pairs", Shape { entry_size: 2, ..SMALL })?;
    assert_eq!(append.append_entries(pairs, "odd"), Err(Error::NotWhole));
    assert_eq!(append.append_entries(pairs, "even")?, 0);
    assert_eq!(append.read_entries_into(pairs, 0, 2, &mut [0; 3]), Err(Error::NotWhole));
    assert_eq!(append.read_entry_into(pairs, 0, &mut [0]), Err(Error::NotWhole));
    assert_eq!(append.read_entries(pairs, 1, 2), Err(Error::OutOfBounds));
    assert_eq!(append.read_entries(pairs, u64::MAX, u64::MAX), Err(Error::OutOfBounds));
    assert_eq!(append.shift_start(pairs, 3), Err(Error::StartPastLength));
    assert_eq!(append.shift_start(pairs, u64::MAX), Err(Error::StartPastLength));
    append.commit()?;

    assert_eq!(window.len(pairs), Err(Error::Absent), "it began before the tape was committed");
    assert_eq!(window.start(pairs), Err(Error::Absent));
    assert_eq!(window.read_entries(pairs, 0, 0), Err(Error::Absent));
    assert_eq!(window.read_entry(pairs, 0), Err(Error::Absent));
    let mut truncate = store.truncate()?;
    assert_eq!(truncate.truncate_tape(a, 11), Err(Error::LongerCut));
    assert_eq!(truncate.truncate_tape(pairs, u64::MAX), Err(Error::LongerCut));
    assert_eq!(truncate.pop_entry_into(pairs, &mut [0]), Err(Error::NotWhole));
    Ok(())
}

#[test]
fn number_15_slots() -> Result<(), Error> {
    let store = Store::new(2)?;
    let mut append = store.append()?;
    let tape = append.open("a", SMALL)?;
    assert_eq!(append.append_entries(tape, "012345678"), Err(Error::NoSlot));
    assert_eq!(append.append_entries(tape, "01234567")?, 0);
    assert_eq!(append.append_entries(tape, "8"), Err(Error::NoSlot));
    append.commit()?;
    Ok(())
}

/// A tape that is opened with another file size.
#[test]
fn number_16_files() -> Result<(), Error> {
    let (mut store, _) = ten_bytes()?;
    store.restart()?;
    let mut append = store.append()?;
    assert_eq!(append.open("a", Shape { file_size: 16, ..SMALL }), Err(Error::Missing));
    // its last byte is found, so that it opens
    let tape = append.open("a", Shape { file_size: 6, cache: 1, ..SMALL })?;
    assert_eq!(append.read_entries(tape, 0, 10), Err(Error::Missing));
    assert_eq!(append.read_entry(tape, 5), Err(Error::Missing));
    Ok(())
}

/// A record that promises more bytes than a disk has: no buffer is made for them.
#[test]
fn number_16_of_a_read_longer_than_a_disk() -> Result<(), Error> {
    let store = Store::new(8)?;
    let mut append = store.append()?;
    let tape = append.open("a", Shape { start: u64::MAX - 20, ..SMALL })?;
    append.append_entries(tape, [b'.'; 20])?;
    append.commit()?;
    let mut areas = store.into_areas();
    put_metadata(&mut areas.disk, true, &unhex(LONGEST_TAPE));

    let store = begun(areas)?;
    let mut append = store.append()?;
    let tape = append.open("a", SMALL)?;
    assert_eq!((append.start(tape)?, append.len(tape)?), (0, u64::MAX));
    for count in [1, 4096, 1 << 20, 1 << 62, u64::MAX] {
        assert_eq!(append.read_entries(tape, 0, count), Err(Error::Missing), "{count}");
        assert_eq!(append.read_entries(tape, u64::MAX, count), Err(Error::OutOfBounds), "{count}");
    }
    assert_eq!(append.read_entries(tape, u64::MAX - 20, 20)?, [b'.'; 20]);
    Ok(())
}

#[test]
fn number_17_the_list() -> Result<(), Error> {
    let areas = with_record(ONE_BYTE_OVER)?;
    let Refused { error, back } = Store::begin(areas.clone()).unwrap_err();
    assert_eq!(error, Error::BadList);
    assert!(back == areas);
    Ok(())
}

#[test]
fn number_18_the_last_numbers() -> Result<(), Error> {
    let store = Store::new(8)?;
    let mut append = store.append()?;
    let top = append.open("top", Shape { start: u64::MAX - 1, ..SMALL })?;
    assert_eq!(append.append_entries(top, "12"), Err(Error::TooLarge));
    assert_eq!(append.append_entries(top, "1")?, u64::MAX - 1);
    assert_eq!(append.read_entries(top, u64::MAX - 1, 1)?, b"1");
    append.commit()?;

    let store = begun(with_record(LAST_EPOCH)?)?;
    assert_eq!(store.epoch(), u64::MAX);
    let mut append = store.append()?;
    let tape = append.open("b", SMALL)?;
    append.append_entries(tape, "kept")?;
    let Refused { error, back } = append.commit().unwrap_err();
    assert_eq!((error, error.number()), (Error::TooLarge, 18));
    assert_eq!(back.read_entries(tape, 0, 4)?, b"kept", "the append is still open");
    assert_eq!(store.append().unwrap_err(), Error::WriterOpen);
    drop(back);
    assert_eq!(store.truncate()?.commit().map_err(Error::from), Err(Error::TooLarge));
    assert!(store.append().is_ok(), "what was refused was dropped with its error");
    Ok(())
}
