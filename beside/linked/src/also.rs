//! The library's further calls after a line, held against the line's answer, the record on the disk and each other. An error says what
//! disagrees.

use oracle::{Call, Reply as Printed};
use tapes::{
    Owned,
    calls::{self, NO_ENTRY, Reply},
};

use crate::{areas, disk};

type Agreed = Result<(), String>;

const READ_OUT_OF_BOUNDS: u64 = 12;
const NO_TAPE: u64 = 11;
const NO_TRANSACTION: u64 = 2;
const LARGEST_ENTRY: usize = 256;

fn served(value: u64) -> Reply {
    Reply { code: 0, value }
}

fn refused(code: u64) -> Reply {
    Reply { code, value: 0 }
}

fn expect(what: &str, found: Reply, wanted: Reply) -> Agreed {
    if found == wanted { Ok(()) } else { Err(format!("{what}: {found:?}, not {wanted:?}")) }
}

fn ensure(what: &str, holds: bool) -> Agreed {
    if holds { Ok(()) } else { Err(what.to_string()) }
}

/// After a line: `before` and `after` are the areas around it.
pub fn agree(before: &Owned, after: &Owned, call: &Call, reply: &Printed) -> Agreed {
    let Printed::Answered { code, value, bytes } = reply else {
        return Ok(());
    };
    if let Call::Read { transaction, handle, offset, count } = *call {
        return read(after, transaction, handle, offset, count, bytes);
    }
    if *code != 0 {
        return ensure("a refused line changed a byte", before == after);
    }
    match *call {
        Call::Append => begun(after, *value, true),
        Call::Reader | Call::Truncate => begun(after, *value, false),
        Call::Open { transaction, ref name, entry, start, .. } => {
            expect("exists", calls::exists(after, transaction, name), served(1))?;
            let listed =
                areas::listed(&after.disk).unwrap_or_default().into_iter().find(|tape| tape.name.as_bytes() == name);
            let (start, len) = listed.map_or((start, start), |tape| (tape.start, tape.len));
            bounds(after, transaction, *value, start / entry, len / entry)
        }
        Call::Put { transaction, handle, ref bytes } => put(before, after, transaction, handle, *value, bytes),
        Call::Shift { transaction, handle, start } => {
            let old = calls::start(before, transaction, handle).value;
            bounds(after, transaction, handle, old.max(start), calls::len(before, transaction, handle).value)
        }
        Call::Cut { transaction, handle, length } => {
            bounds(after, transaction, handle, calls::start(before, transaction, handle).value, length)?;
            dropped(after, transaction, handle, length)?;
            popped(after, transaction, handle, length)
        }
        Call::Commit { transaction } => {
            ensure("the record has another epoch", areas::record(&after.disk).epoch == *value)?;
            ended(after, transaction)
        }
        Call::Drop { transaction } => ended(after, transaction),
        Call::Format | Call::Store | Call::Read { .. } => Ok(()),
    }
}

fn bounds(store: &Owned, transaction: u64, handle: u64, start: u64, len: u64) -> Agreed {
    expect("start", calls::start(store, transaction, handle), served(start))?;
    expect("len", calls::len(store, transaction, handle), served(len))
}

/// A transaction begins with the list of the last commit.
fn begun(store: &Owned, transaction: u64, append: bool) -> Agreed {
    let listed = areas::listed(&store.disk).unwrap_or_default();
    for handle in areas::handles(&store.session) {
        match listed.iter().find(|tape| tape.name.as_bytes() == handle.name) {
            Some(tape) => {
                bounds(store, transaction, handle.number, tape.start / handle.entry, tape.len / handle.entry)?;
            }
            // the open append has created it
            None => expect("len", calls::len(store, transaction, handle.number), refused(NO_TAPE))?,
        }
    }
    let directories = disk::directories(&store.disk);
    let names = directories.iter().map(|(name, _)| *name).chain(listed.iter().map(|tape| tape.name.as_bytes()));
    for name in names.chain([b"".as_slice(), b"metadata", b"never-opened"]) {
        let is_listed = listed.iter().any(|tape| tape.name.as_bytes() == name);
        let wanted = if append { served(is_listed.into()) } else { refused(NO_TRANSACTION) };
        expect("exists", calls::exists(store, transaction, name), wanted)?;
    }
    Ok(())
}

fn ended(store: &Owned, transaction: u64) -> Agreed {
    let numbers = areas::handles(&store.session).into_iter().map(|handle| handle.number);
    for handle in numbers.chain([0]) {
        expect("len", calls::len(store, transaction, handle), refused(NO_TRANSACTION))?;
        expect("start", calls::start(store, transaction, handle), refused(NO_TRANSACTION))?;
    }
    Ok(())
}

/// The bytes can be read back, all and one by one.
fn put(before: &Owned, after: &Owned, transaction: u64, handle: u64, index: u64, bytes: &[u8]) -> Agreed {
    let entry = areas::entry_size(&after.session, handle).ok_or("a put without a handle")?;
    let count = bytes.len() as u64 / entry;
    expect("len before a put", calls::len(before, transaction, handle), served(index))?;
    bounds(after, transaction, handle, calls::start(before, transaction, handle).value, index + count)?;
    let mut out = vec![0; bytes.len()];
    expect("read", calls::read_entries(after, transaction, handle, index, count, &mut out), served(count))?;
    ensure("a put reads otherwise", out == bytes)?;
    read(after, transaction, handle, index, count, bytes)
}

/// One by one what was read, and none on either side of the tape.
fn read(store: &Owned, transaction: u64, handle: u64, index: u64, count: u64, bytes: &[u8]) -> Agreed {
    let len = calls::len(store, transaction, handle);
    let start = calls::start(store, transaction, handle);
    expect("start", Reply { value: 0, ..start }, refused(len.code))?;
    if bytes.is_empty() {
        return one(store, transaction, handle, index).map(|_| ());
    }
    for (index, wanted) in (index..).zip(bytes.chunks_exact(bytes.len() / count as usize)) {
        ensure("one entry reads otherwise", one(store, transaction, handle, index)?.as_deref() == Some(wanted))?;
    }
    ensure("an entry at the length", one(store, transaction, handle, len.value)?.is_none())?;
    let below = start.value.checked_sub(1);
    ensure(
        "an entry below the start",
        below.map_or(Ok(None), |index| one(store, transaction, handle, index))?.is_none(),
    )
}

/// The entry at an index, which both calls read alike; none where it can't be read.
fn one(store: &Owned, transaction: u64, handle: u64, index: u64) -> Result<Option<Vec<u8>>, String> {
    let entry = areas::entry_size(&store.session, handle).unwrap_or_default() as usize;
    let (mut among, mut alone) = ([0; LARGEST_ENTRY], [0; LARGEST_ENTRY]);
    let several = calls::read_entries(store, transaction, handle, index, 1, &mut among);
    let single = calls::read_entry(store, transaction, handle, index, &mut alone);
    let wanted = match several.code {
        0 => served(index),
        READ_OUT_OF_BOUNDS => served(NO_ENTRY),
        code => refused(code),
    };
    expect("read of one entry", single, wanted)?;
    ensure("one entry has other bytes", among == alone)?;
    Ok((several.code == 0).then(|| alone[..entry].to_vec()))
}

/// Dropping entries is cutting to what is left.
fn dropped(store: &Owned, transaction: u64, handle: u64, len: u64) -> Agreed {
    for count in [0, 1, 2, len, len.saturating_add(1), u64::MAX] {
        let (mut one, mut other) = (store.clone(), store.clone());
        expect("drop", calls::drop_entries(&mut one, transaction, handle, count), served(0))?;
        expect("cut", calls::truncate_tape(&mut other, transaction, handle, len.saturating_sub(count)), served(0))?;
        ensure("a drop is another cut", one == other)?;
    }
    Ok(())
}

/// Popping is reading the last entry and cutting it off.
fn popped(store: &Owned, transaction: u64, handle: u64, len: u64) -> Agreed {
    let (mut one, mut other) = (store.clone(), store.clone());
    let (mut popped, mut read) = ([0; LARGEST_ENTRY], [0; LARGEST_ENTRY]);
    let reply = calls::pop_entry(&mut one, transaction, handle, &mut popped);
    let wanted = match len.checked_sub(1) {
        None => served(NO_ENTRY),
        Some(index) => calls::read_entry(store, transaction, handle, index, &mut read),
    };
    expect("pop", reply, wanted)?;
    ensure("a pop has other bytes", popped == read)?;
    if wanted.code == 0 && wanted.value != NO_ENTRY {
        expect("cut", calls::truncate_tape(&mut other, transaction, handle, wanted.value), served(0))?;
    }
    ensure("a pop is another cut", one == other)
}
