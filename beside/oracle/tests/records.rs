//! The records that the unchanged Rust writes with the stand-ins, byte for byte. The hashes in the expected bytes were taken from
//! Python: `hashlib.blake2b(b"epoch" + epoch + b"tapes" + list, digest_size=32)`, with the epoch as 8 little-endian bytes.

mod common;

use std::fs;

use common::{Tape, options, record};
use oracle::{Listed, Scratch, choose, decode_list, encode_list};
use tapes::*;

fn hex(bytes: &[u8]) -> String {
    bytes.iter().map(|byte| format!("{byte:02x}")).collect()
}

/// Document 01, example 1, at epoch 1.
#[test]
fn an_empty_list() {
    let place = Scratch::new();
    let store = Tapes::open(place.path()).unwrap();
    store.append().commit(Persistence::Buffer).unwrap();

    let left = fs::read(place.path().join("tapes/metadata/left")).unwrap();
    assert_eq!(left.len(), 52);
    assert_eq!(
        hex(&left),
        "01000000cbba4b4716671067369533a26f7a10348b162c143b64a1cb2ef580fcf973d52c01000000000000000400000000000000"
    );
    assert_eq!(fs::read(place.path().join("tapes/metadata/right")).unwrap(), b"");
}

/// Document 01, examples 2 and 3, at epoch 1.
#[test]
fn one_tape() {
    let place = Scratch::new();
    let store = Tapes::open(place.path()).unwrap();
    let mut append = store.append();
    let tape: Tape = append.open_blob_tape("a", options(place.path(), 4, 8, 6)).unwrap();
    append.append_bytes(&tape, b"hello").unwrap();
    append.commit(Persistence::Buffer).unwrap();

    let left = fs::read(place.path().join("tapes/metadata/left")).unwrap();
    assert_eq!(left.len(), 73);
    assert_eq!(
        hex(&left),
        "01000000c75ea1d0947ccb5dd71a18d198680d4d88573de25839bed707a79dba04e3ade20100000000000000190000000\
         100000001000000610b000000000000000600000000000000"
    );
    assert_eq!(fs::read(place.path().join("tapes/a/1")).unwrap(), b"\0\0he");
    assert_eq!(fs::read(place.path().join("tapes/a/2")).unwrap(), b"llo");
}

#[test]
fn the_choice_between_left_and_right() {
    let (old, new) = (record(4, &encode_list(&[("a", 3, 1)])), record(5, &encode_list(&[])));
    assert_eq!(choose(&old, &new).epoch, 5);
    assert_eq!(choose(&new, &old).epoch, 5);
    let same = record(4, &encode_list(&[("b", 9, 9)]));
    assert_eq!(decode_list(&choose(&old, &same).list).unwrap()[0].name, "b");

    let mut wrong = new.clone();
    wrong[4] ^= 1;
    let read = choose(&wrong, &old);
    assert_eq!(decode_list(&read.list).unwrap(), [Listed { name: "a".into(), len: 3, start: 1 }]);
    let empty = choose(&wrong, &old[..old.len() - 1]);
    assert_eq!((empty.epoch, decode_list(&empty.list).unwrap()), (0, vec![]));
    // bytes after the record are ignored
    assert_eq!(choose(&[new, vec![7]].concat(), &old).epoch, 5);
}

/// Whether left or right is overwritten tells which one the Rust chose, and the new record what it read there.
#[test]
fn the_rust_chooses_alike() {
    let named = encode_list(&[("a", 3, 1), ("b", 7, 7)]);
    let mut wrong_hash = record(9, &named);
    wrong_hash[20] ^= 0x80;
    let mut other_version = record(3, &named);
    other_version[0] = 2;
    let files = [
        Vec::new(),
        record(0, &named),
        record(1, &encode_list(&[])),
        record(5, &named),
        [record(5, &encode_list(&[])), vec![0xee; 70]].concat(),
        record(8, &named)[..72].to_vec(),
        wrong_hash,
        other_version,
    ];
    for left in &files {
        for right in &files {
            the_rust_chooses(left, right);
        }
    }
}

fn the_rust_chooses(left: &[u8], right: &[u8]) {
    let place = Scratch::new();
    let directory = place.path().join("tapes/metadata");
    fs::create_dir_all(&directory).unwrap();
    fs::write(directory.join("left"), left).unwrap();
    fs::write(directory.join("right"), right).unwrap();
    Tapes::open(place.path()).unwrap().append().commit(Persistence::Buffer).unwrap();

    let chosen = choose(left, right);
    let new = record(chosen.epoch + 1, &chosen.list);
    // the next write goes to the other file, from its first byte, without shortening it
    let over = |old: &[u8]| [&new, old.get(new.len()..).unwrap_or_default()].concat();
    let left_is_chosen = choose(left, &[]).epoch > choose(&[], right).epoch;
    let (left, right) = if left_is_chosen { (left.to_vec(), over(right)) } else { (over(left), right.to_vec()) };
    assert_eq!(fs::read(directory.join("left")).unwrap(), left);
    assert_eq!(fs::read(directory.join("right")).unwrap(), right);
}
