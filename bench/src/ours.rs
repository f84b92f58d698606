//! The store, prepared for a row: two areas of our own, filled through the calls.

use tapes::{
    Owned,
    calls::{self, Reply},
};

use crate::Shape;

fn open(store: &mut Owned, append: u64, name: &str, shape: &Shape) -> u64 {
    let shape = tapes::Shape { file_size: shape.file, cache: shape.cache, ..tapes::Shape::default() };
    served(calls::open(store, append, name.as_bytes(), shape))
}

/// A store on so many slots, with a tape in each of the shape's names, committed, and a session begun.
pub fn prepared(shape: &Shape) -> Owned {
    let mut store = Owned::zeros(shape.slots);
    served(calls::format(&mut store, shape.slots));
    served(calls::store(&mut store));
    let append = served(calls::append(&mut store));
    let handles: Vec<u64> = shape.names.iter().map(|name| open(&mut store, append, name, shape)).collect();
    // in turns, so that the tapes' files stand among each other
    for part in shape.parts() {
        for handle in &handles {
            served(calls::append_entries(&mut store, append, *handle, &part));
        }
    }
    served(calls::commit(&mut store, append));
    store
}

pub fn served(reply: Reply) -> u64 {
    assert_eq!(reply.code, 0);
    reply.value
}

/// Begins an append, appends and commits.
pub fn append(store: &mut Owned, bytes: &[u8]) {
    let append = served(calls::append(store));
    served(calls::append_entries(store, append, 1, bytes));
    served(calls::commit(store, append));
}

pub fn begin_and_drop(store: &mut Owned) {
    let reader = served(calls::reader(store));
    served(calls::drop_transaction(store, reader));
}

/// A new session that opens every tape.
pub fn reopen(store: &mut Owned, shape: &Shape) {
    served(calls::store(store));
    let append = served(calls::append(store));
    for name in shape.names {
        open(store, append, name, shape);
    }
    served(calls::drop_transaction(store, append));
}
