//! Where the Rust does something else than document 01 asks for, shown on the unchanged Rust without the oracle. The numbers are those
//! of the cases `open-a*`.

mod common;

use std::{
    fs,
    panic::{self, AssertUnwindSafe},
    sync::mpsc,
    thread,
    time::Duration,
};

use common::*;
use oracle::{Scratch, decode_list, encode_list};
use tapes::*;

/// A1.
#[test]
fn a_refused_shift_touches_the_tape() {
    let place = Scratch::new();
    let (store, tape) = ten_bytes(place.path());
    let reader = store.reader();
    shift(&store, &tape, 8);
    drop(reader);
    assert_eq!(numbers(place.path()), [0, 1, 2]);

    let mut append = store.append();
    assert!(append.shift_start_idx(&tape, 99).is_err());
    append.commit(Persistence::Buffer).unwrap();
    assert_eq!(numbers(place.path()), [2]);
}

/// A2.
#[test]
fn a_refused_open_has_removed_files() {
    let place = Scratch::new();
    let (store, tape) = ten_bytes(place.path());
    shift(&store, &tape, 8);
    drop((store, tape));

    let store = Tapes::open(place.path()).unwrap();
    let mut append = store.append();
    assert!(append.open_blob_tape::<Tape>("a", options(place.path(), 2, 16, 0)).is_err());
    assert_eq!(numbers(place.path()), []);
    assert!(append.open_blob_tape::<Tape>("a", options(place.path(), 4, 16, 0)).is_err());
}

/// A3, with two entries of two bytes.
#[test]
fn products_wrap() {
    let place = Scratch::new();
    let store = Tapes::open(place.path()).unwrap();
    let mut append = store.append();
    let tape: FixedSizedTape<[u8; 2], Tape> =
        append.open_fixed_sized_tape("a", options(place.path(), 4, 16, 0)).unwrap();
    append.append_entries(&tape, &[*b"01", *b"23"]).unwrap();
    append.commit(Persistence::Buffer).unwrap();

    let mut append = store.append();
    append.shift_start_idx_fixed(&tape, 1 << 63).unwrap();
    drop(append);
    assert_eq!(store.reader().read_entry(&tape, 1 << 63).unwrap(), Some(*b"01"));
    let mut truncate = store.truncate();
    truncate.truncate_fixed_sized_tape(&tape, 1 << 63).unwrap();
    assert_eq!(truncate.fixed_sized_tape_len(&tape), Some(0));
}

/// A4 and the 9 of A7: the old handle finds the tape that another one made, and a tape can be opened twice.
#[test]
fn a_dropped_creation_keeps_its_handle() {
    let place = Scratch::new();
    let store = Tapes::open(place.path()).unwrap();
    let mut append = store.append();
    let old: Tape = append.open_blob_tape("a", options(place.path(), 4, 16, 0)).unwrap();
    drop(append);

    let mut append = store.append();
    let new: Tape = append.open_blob_tape("a", options(place.path(), 4, 16, 0)).unwrap();
    append.append_bytes(&new, b"x").unwrap();
    append.commit(Persistence::Buffer).unwrap();
    assert_eq!(store.reader().blob_tape_len(&old), Some(1));
    let mut append = store.append();
    assert!(append.open_blob_tape::<Tape>("a", options(place.path(), 4, 16, 0)).is_ok());
}

/// A5: lists that are 17 for us.
#[test]
fn the_rust_takes_more_lists() {
    let nine = ["a", "b", "c", "d", "e", "f", "g", "h", "i"].map(|name| (name, 0, 0));
    let lists = [
        encode_list(&[("b", 0, 0), ("a", 0, 0)]),
        encode_list(&[("a", 0, 0), ("a", 1, 0)]),
        encode_list(&[("A", 0, 0)]),
        encode_list(&[("", 0, 0)]),
        encode_list(&[("a", 1, 2)]),
        encode_list(&nine),
    ];
    for bytes in lists {
        let place = Scratch::new();
        write_left(place.path(), &record(1, &bytes));
        assert!(Tapes::open(place.path()).is_ok());
        assert_eq!(decode_list(&bytes), None);
    }
}

/// Both refuse these; a list of no bytes with a right hash isn't the empty list.
#[test]
fn lists_that_do_not_decode() {
    let good = encode_list(&[("a", 3, 1)]);
    for bytes in [good[..good.len() - 1].to_vec(), [good.clone(), vec![0]].concat(), Vec::new()] {
        let place = Scratch::new();
        write_left(place.path(), &record(1, &bytes));
        assert!(Tapes::open(place.path()).is_err());
        assert_eq!(decode_list(&bytes), None);
    }
}

/// A6: the tape says that it has the entry, the file is too short for it.
#[test]
fn a_short_file_is_hidden() {
    let place = Scratch::new();
    drop(ten_bytes(place.path()));
    let store = Tapes::open(place.path()).unwrap();
    let mut append = store.append();
    let tape: FixedSizedTape<[u8; 2], Tape> =
        append.open_fixed_sized_tape("a", options(place.path(), 4, 2, 0)).unwrap();
    fs::write(place.path().join("tapes/a/0"), b"0").unwrap();
    assert_eq!(append.fixed_sized_tape_len(&tape), Some(5));
    assert_eq!(append.read_entry(&tape, 0).unwrap(), None);
    assert!(append.read_entries(&tape, 0, &mut [*b"--"]).is_err());
}

/// A read that is refused in its middle has written what it found before.
#[test]
fn a_refused_read_has_filled_a_part() {
    let place = Scratch::new();
    drop(ten_bytes(place.path()));
    let store = Tapes::open(place.path()).unwrap();
    let mut append = store.append();
    let tape: Tape = append.open_blob_tape("a", options(place.path(), 4, 2, 0)).unwrap();
    fs::write(place.path().join("tapes/a/1"), b"4").unwrap();
    let mut bytes = *b"--------";
    assert!(append.read_bytes(&tape, 0, &mut bytes).is_err());
    assert_eq!(&bytes[..4], b"0123");
}

/// A7: the append waits until the older reader has gone, and for no later one.
#[test]
fn an_append_waits() {
    let place = Scratch::new();
    let (store, tape) = ten_bytes(place.path());
    let older = store.reader();
    let mut truncate = store.truncate();
    truncate.truncate_blob_tape(&tape, 5).unwrap();
    truncate.commit(Persistence::Buffer).unwrap();
    let _later = store.reader();

    thread::scope(|scope| {
        let (begun, waiting) = mpsc::channel();
        let store = &store;
        scope.spawn(move || {
            drop(store.append());
            begun.send(()).unwrap();
        });
        assert!(waiting.recv_timeout(Duration::from_millis(100)).is_err());
        drop(older);
        waiting.recv().unwrap();
    });
}

/// A7: no cache at all.
#[test]
fn a_cache_of_no_bytes_panics() {
    let place = Scratch::new();
    let store = Tapes::open(place.path()).unwrap();
    let mut append = store.append();
    let tape: Tape = append.open_blob_tape("a", options(place.path(), 4, 0, 0)).unwrap();
    let put = panic::catch_unwind(AssertUnwindSafe(|| append.append_bytes(&tape, b"x")));
    assert!(put.is_err());
}

/// A7: after the last epoch comes 0, which the next opening doesn't choose.
#[test]
fn the_epoch_wraps() {
    let place = Scratch::new();
    write_left(place.path(), &record(u64::MAX, &encode_list(&[])));
    let store = Tapes::open(place.path()).unwrap();
    store.append().commit(Persistence::Buffer).unwrap();
    let right = fs::read(place.path().join("tapes/metadata/right")).unwrap();
    assert_eq!(right, record(0, &encode_list(&[])));
}
