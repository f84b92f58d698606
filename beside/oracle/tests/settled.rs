//! Points that no script reaches, since they need metadata that our own calls do not write: what the unchanged Rust does.

mod common;

use std::fs;

use common::*;
use oracle::{Scratch, choose, decode_list, encode_list};
use tapes::*;

/// A listed tape named `metadata` decodes, and can't be opened (7).
#[test]
fn a_tape_named_metadata_is_listed_but_never_opened() {
    let bytes = encode_list(&[("metadata", 0, 0)]);
    assert!(decode_list(&bytes).is_some());
    let place = Scratch::new();
    write_left(place.path(), &record(1, &bytes));
    let store = Tapes::open(place.path()).unwrap();
    let refused = store.append().open_blob_tape::<Tape>("metadata", options(place.path(), 4, 8, 0));
    assert_eq!(refused.err().unwrap().to_string(), "The tape name `metadata` is reserved.");
}

/// At epoch 2^64-1 an opening marks files but removes none: no mark is below 2^64-1. One epoch before, it removes them.
#[test]
fn nothing_is_removed_at_the_last_epoch() {
    for (epoch, left_over) in [(u64::MAX, vec![0, 1, 2]), (u64::MAX - 1, vec![2])] {
        let place = Scratch::new();
        write_left(place.path(), &record(epoch, &encode_list(&[("a", 10, 8)])));
        fs::create_dir_all(place.path().join("tapes/a")).unwrap();
        for number in 0..3 {
            fs::write(place.path().join(format!("tapes/a/{number}")), b"abcd").unwrap();
        }
        let store = Tapes::open(place.path()).unwrap();
        store.append().open_blob_tape::<Tape>("a", options(place.path(), 4, 8, 0)).unwrap();
        assert_eq!(numbers(place.path()), left_over);
    }
}

/// A chosen record whose list doesn't decode is not replaced by the other, good one.
#[test]
fn the_other_record_does_not_step_in() {
    let place = Scratch::new();
    let (bad, good) = (record(2, b"\x01\0\0\0"), record(1, &encode_list(&[])));
    write_left(place.path(), &bad);
    fs::write(place.path().join("tapes/metadata/right"), &good).unwrap();
    assert!(Tapes::open(place.path()).is_err());
    assert_eq!(decode_list(&choose(&bad, &good).list), None);
}

/// A listed tape without its directory is refused (16).
#[test]
fn a_listed_tape_without_directory() {
    let place = Scratch::new();
    write_left(place.path(), &record(1, &encode_list(&[("a", 0, 0)])));
    let store = Tapes::open(place.path()).unwrap();
    let refused = store.append().open_blob_tape::<Tape>("a", options(place.path(), 4, 8, 0));
    assert_eq!(refused.err().unwrap().to_string(), "tape was in metadata but files was not found.");
}
