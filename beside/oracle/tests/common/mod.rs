//! The unchanged Rust, called without the oracle.
#![allow(dead_code, reason = "each test file uses a part")]

use std::{fs, io, path::Path};

use oracle::Record;
use tapes::*;

pub type Tape = CachedBlobTape<RollingBlobTape>;

pub fn options(place: &Path, file_size: u64, cache: u64, start_index: u64) -> CachedTapeOpenOptions<RollingBlobTape> {
    let inner = RollingTapeOpenOptions { file_size, dir: place.to_path_buf(), start_index };
    CachedTapeOpenOptions { inner, top_cache_size: cache }
}

/// The tape `a` that most cases begin with: file size 4, cache 16, ten bytes, files 0 to 2, epoch 1.
pub fn ten_bytes(place: &Path) -> (Tapes, Tape) {
    let store = Tapes::open(place).unwrap();
    let mut append = store.append();
    let tape: Tape = append.open_blob_tape("a", options(place, 4, 16, 0)).unwrap();
    append.append_bytes(&tape, b"0123456789").unwrap();
    append.commit(Persistence::Buffer).unwrap();
    (store, tape)
}

/// Shifts the start of a tape and commits.
pub fn shift(store: &Tapes, tape: &Tape, start: u64) {
    let mut append = store.append();
    append.shift_start_idx(tape, start).unwrap();
    append.commit(Persistence::Buffer).unwrap();
}

/// The numbers of the files of tape `a`.
pub fn numbers(place: &Path) -> Vec<u64> {
    let files = fs::read_dir(place.join("tapes/a")).unwrap();
    let mut numbers: Vec<u64> =
        files.map(|file| file.unwrap().file_name().into_string().unwrap().parse().unwrap()).collect();
    numbers.sort();
    numbers
}

pub fn read(from: &impl TapesRead, tape: &Tape, offset: u64, length: usize) -> io::Result<Vec<u8>> {
    let mut bytes = vec![0; length];
    from.read_bytes(tape, offset, &mut bytes)?;
    Ok(bytes)
}

/// A record with a right hash around any list bytes.
pub fn record(epoch: u64, list: &[u8]) -> Vec<u8> {
    Record { epoch, list: list.to_vec() }.written()
}

/// Writes left before the store is opened.
pub fn write_left(place: &Path, bytes: &[u8]) {
    fs::create_dir_all(place.join("tapes/metadata")).unwrap();
    fs::write(place.join("tapes/metadata/left"), bytes).unwrap();
}
