//! The library's calls as values: those of the driver's lines, and those that the driver lacks.

use oracle::Call;
use tapes::{
    Owned, Shape,
    calls::{self, Reply},
};

#[derive(Clone, Debug)]
pub enum Asked {
    Line(Call),
    Len { transaction: u64, handle: u64 },
    Start { transaction: u64, handle: u64 },
    Exists { transaction: u64, name: Vec<u8> },
    ReadEntry { transaction: u64, handle: u64, index: u64 },
    PopEntry { transaction: u64, handle: u64 },
    DropEntries { transaction: u64, handle: u64, count: u64 },
}

/// Makes the call of a line. `slots` are for format, `out` is for a read.
pub fn ask_line(store: &mut Owned, call: &Call, slots: u64, out: &mut [u8]) -> Reply {
    match *call {
        Call::Format => calls::format(store, slots),
        Call::Store => calls::store(store),
        Call::Append => calls::append(store),
        Call::Reader => calls::reader(store),
        Call::Truncate => calls::truncate(store),
        Call::Open { transaction, ref name, entry, file, cache, start } => {
            calls::open(store, transaction, name, Shape { entry_size: entry, file_size: file, cache, start })
        }
        Call::Put { transaction, handle, ref bytes } => calls::append_entries(store, transaction, handle, bytes),
        Call::Shift { transaction, handle, start } => calls::shift_start(store, transaction, handle, start),
        Call::Cut { transaction, handle, length } => calls::truncate_tape(store, transaction, handle, length),
        Call::Read { transaction, handle, offset, count } => {
            calls::read_entries(store, transaction, handle, offset, count, out)
        }
        Call::Commit { transaction } => calls::commit(store, transaction),
        Call::Drop { transaction } => calls::drop_transaction(store, transaction),
    }
}

/// Makes any call.
pub fn ask(store: &mut Owned, asked: &Asked, slots: u64, out: &mut [u8]) -> Reply {
    match *asked {
        Asked::Line(ref call) => ask_line(store, call, slots, out),
        Asked::Len { transaction, handle } => calls::len(store, transaction, handle),
        Asked::Start { transaction, handle } => calls::start(store, transaction, handle),
        Asked::Exists { transaction, ref name } => calls::exists(store, transaction, name),
        Asked::ReadEntry { transaction, handle, index } => calls::read_entry(store, transaction, handle, index, out),
        Asked::PopEntry { transaction, handle } => calls::pop_entry(store, transaction, handle, out),
        Asked::DropEntries { transaction, handle, count } => calls::drop_entries(store, transaction, handle, count),
    }
}
