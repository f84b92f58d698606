//! The Rust, prepared for a row: files in the directory that the caller names, written through its own calls.

use std::{fs, path::Path};

use cuprate_tapes::{
    CachedBlobTape, CachedTapeOpenOptions, Persistence, RollingBlobTape, RollingTapeOpenOptions, Tapes, TapesAppend,
    TapesAppendTransaction,
};

use crate::Shape;

pub type Tape = CachedBlobTape<RollingBlobTape>;

pub struct Theirs {
    pub tapes: Tapes,
    /// The first of the shape's names.
    pub tape: Tape,
}

fn open(append: &mut TapesAppendTransaction, root: &Path, name: &'static str, shape: &Shape) -> Tape {
    let inner = RollingTapeOpenOptions { file_size: shape.file, dir: root.to_path_buf(), start_index: 0 };
    append.open_blob_tape(name, CachedTapeOpenOptions { inner, top_cache_size: shape.cache }).expect("a tape")
}

pub fn prepared(root: &Path, shape: &Shape) -> Theirs {
    let _ = fs::remove_dir_all(root);
    fs::create_dir_all(root).expect("a directory");
    let tapes = Tapes::open(root).expect("the metadata");
    let mut append = tapes.append();
    let mut opened: Vec<Tape> = shape.names.iter().map(|name| open(&mut append, root, name, shape)).collect();
    for part in shape.parts() {
        for tape in &opened {
            append.append_bytes(tape, &part).expect("it is appended");
        }
    }
    append.commit(Persistence::Buffer).expect("it is committed");
    Theirs { tapes, tape: opened.swap_remove(0) }
}

/// Begins an append, appends and commits.
pub fn append(theirs: &Theirs, bytes: &[u8]) {
    let mut append = theirs.tapes.append();
    append.append_bytes(&theirs.tape, bytes).expect("there is room");
    append.commit(Persistence::Buffer).expect("it is committed");
}

/// A new store on the same files that opens every tape.
pub fn reopen(root: &Path, shape: &Shape) {
    let tapes = Tapes::open(root).expect("the metadata");
    let mut append = tapes.append();
    for name in shape.names {
        open(&mut append, root, name, shape);
    }
}
