//! A tape's handle, what is read through it, and the slots that its files take.

use std::{collections::BTreeSet, sync::Mutex};

use tapes::{CachedBlobTape, RollingBlobTape, TapesRead};

use crate::{
    disk::Disk,
    refusal::{self, Refusal},
};

/// Of the driver's disk.
pub const SLOTS: usize = 8;

pub type Tape = CachedBlobTape<RollingBlobTape>;

/// A tape of entries is a blob tape of the Rust with the arithmetic of `src/traits.rs` done here: the Rust's own wants a type for each
/// size.
pub struct Handle {
    pub name: &'static str,
    pub entry: u64,
    pub file_size: u64,
    pub tape: Tape,
}

/// A product or sum that wraps is 12, but not before 11.
pub fn read_in(transaction: &impl TapesRead, handle: &Handle, offset: u64, count: u64) -> Result<Vec<u8>, Refusal> {
    let offset = offset.checked_mul(handle.entry);
    // a readable line asks for no more than 4,096 bytes
    let mut bytes = vec![0; (count * handle.entry) as usize];
    let end = offset.and_then(|offset| offset.checked_add(bytes.len() as u64));
    if end.is_none() && transaction.blob_tape_len(&handle.tape).is_some() {
        return Err(refusal::READ_OUT_OF_BOUNDS);
    }
    let read = transaction.read_bytes(&handle.tape, offset.unwrap_or_default(), &mut bytes);
    read.map_err(|error| refusal::of_rust(&error))?;
    Ok(bytes)
}

/// The rule of 15: files on the disk, and (tape, number) pairs that staged bytes cover and the disk lacks.
pub fn slots_needed<'a>(disk: &Disk, staged: impl Iterator<Item = (&'a Handle, u64, u64)>) -> usize {
    let on_disk: usize = disk.directories().iter().map(|name| disk.numbers(name).len()).sum();
    let lacking: usize = staged
        .filter(|(_, from, to)| from < to)
        .map(|(handle, from, to)| {
            let there = disk.numbers(handle.name);
            let covered = from / handle.file_size..=(to - 1) / handle.file_size;
            covered.filter(|number| !there.contains(number)).count()
        })
        .sum();
    on_disk + lacking
}

/// The Rust wants names that live for ever; each is kept once.
pub fn leaked(name: &str) -> &'static str {
    static NAMES: Mutex<BTreeSet<&'static str>> = Mutex::new(BTreeSet::new());
    let mut names = NAMES.lock().expect("nothing panics while it is held");
    if let Some(known) = names.get(name) {
        return known;
    }
    let name: &'static str = Box::leak(name.to_string().into_boxed_str());
    names.insert(name);
    name
}
