//! A session: the Rust's own store, transactions and tapes, with the bookkeeping for what document 01 adds.
//!
//! Each call makes its refusals in document 01's order. A line that ends in a call of the Rust is the Rust's answer.

use std::collections::{BTreeMap, BTreeSet};

use tapes::{
    CachedTapeOpenOptions, Persistence, RollingTapeOpenOptions, Tapes, TapesAppend, TapesAppendTransaction, TapesRead,
    TapesReadTransaction, TapesTruncate, TapesTruncateTransaction,
};

use crate::{
    disk::Disk,
    line::Call,
    record::{Listed, choose, decode_list, valid_name},
    refusal::{self, Refusal},
    tape::{Handle, SLOTS, Tape, leaked, read_in, slots_needed},
};

const MOST_READERS: usize = 16;
const MOST_NAMES: usize = 8;
const LARGEST_ENTRY: u64 = 256;
const LARGEST_FILE: u64 = 4096;
const LARGEST_CACHE: u64 = 4096;

type Answer = Result<u64, Refusal>;

struct Reader {
    transaction: TapesReadTransaction,
    epoch: u64,
}

enum Writer {
    Append { transaction: TapesAppendTransaction, created: Vec<Creation> },
    Truncate(TapesTruncateTransaction),
}

/// A tape made in the open append.
struct Creation {
    handle: u64,
    start: u64,
}

/// The sizes and the start given to open.
struct Options {
    entry: u64,
    file: u64,
    cache: u64,
    start: u64,
}

pub struct Session {
    tapes: Tapes,
    /// The last numbers given; none is given twice.
    last_transaction: u64,
    last_handle: u64,
    readers: BTreeMap<u64, Reader>,
    writer: Option<(u64, Writer)>,
    handles: BTreeMap<u64, Handle>,
    /// As the Rust's record on the disk has them. With one writer at a time this is also what an open append began with.
    epoch: u64,
    list: Vec<Listed>,
    last_commit_was_truncate: bool,
}

fn committed(disk: &Disk) -> Result<(u64, Vec<Listed>), Refusal> {
    let [left, right] = disk.metadata();
    let chosen = choose(&left, &right);
    let list = decode_list(&chosen.list).ok_or(refusal::BAD_LIST)?;
    Ok((chosen.epoch, list))
}

impl Session {
    /// 17 is stricter than the Rust, so it is tested first.
    pub fn check(disk: &Disk) -> Result<(), Refusal> {
        committed(disk).map(|_| ())
    }

    /// On a disk that passed the check.
    pub fn begin(disk: &Disk) -> Self {
        let tapes = Tapes::open(disk.root()).expect("the Rust takes every list that the check takes");
        let (epoch, list) = committed(disk).expect("checked before");
        Self {
            tapes,
            last_transaction: 0,
            last_handle: 0,
            readers: BTreeMap::new(),
            writer: None,
            handles: BTreeMap::new(),
            epoch,
            list,
            last_commit_was_truncate: false,
        }
    }

    pub fn epoch(&self) -> u64 {
        self.epoch
    }

    pub fn entry_size(&self, handle: u64) -> Option<u64> {
        Some(self.handles.get(&handle)?.entry)
    }

    pub fn call(&mut self, disk: &Disk, call: Call) -> Result<(u64, Vec<u8>), Refusal> {
        let value = match call {
            Call::Format | Call::Store => unreachable!("answered without a session"),
            Call::Append => self.begin_append(),
            Call::Reader => self.begin_reader(),
            Call::Truncate => self.begin_truncate(),
            Call::Open { transaction, name, entry, file, cache, start } => {
                self.open(disk, transaction, &name, Options { entry, file, cache, start })
            }
            Call::Put { transaction, handle, bytes } => self.put(disk, transaction, handle, &bytes),
            Call::Shift { transaction, handle, start } => self.shift(transaction, handle, start),
            Call::Cut { transaction, handle, length } => self.cut(transaction, handle, length),
            Call::Read { transaction, handle, offset, count } => {
                return self.read(transaction, handle, offset, count).map(|bytes| (count, bytes));
            }
            Call::Commit { transaction } => self.commit(disk, transaction),
            Call::Drop { transaction } => self.drop_transaction(transaction),
        };
        value.map(|value| (value, Vec::new()))
    }

    fn next_transaction(&mut self) -> Answer {
        self.last_transaction = self.last_transaction.checked_add(1).ok_or(refusal::PAST_THE_END)?;
        Ok(self.last_transaction)
    }

    /// The Rust would block where this says 4.
    fn begin_append(&mut self) -> Answer {
        if self.writer.is_some() {
            return Err(refusal::WRITER_OPEN);
        }
        let older = self.readers.values().filter(|reader| reader.epoch < self.epoch).count();
        if self.last_commit_was_truncate && older != 0 {
            return Err(Refusal::wait_for(older as u64));
        }
        let number = self.next_transaction()?;
        let append = Writer::Append { transaction: self.tapes.append(), created: Vec::new() };
        self.writer = Some((number, append));
        Ok(number)
    }

    fn begin_truncate(&mut self) -> Answer {
        if self.writer.is_some() {
            return Err(refusal::WRITER_OPEN);
        }
        let number = self.next_transaction()?;
        self.writer = Some((number, Writer::Truncate(self.tapes.truncate())));
        Ok(number)
    }

    fn begin_reader(&mut self) -> Answer {
        if self.readers.len() == MOST_READERS {
            return Err(refusal::TOO_MANY);
        }
        let number = self.next_transaction()?;
        self.readers.insert(number, Reader { transaction: self.tapes.reader(), epoch: self.epoch });
        Ok(number)
    }

    fn open(&mut self, disk: &Disk, transaction: u64, name: &[u8], options: Options) -> Answer {
        let Some((number, Writer::Append { .. })) = self.writer else {
            return Err(refusal::NO_TRANSACTION_OR_HANDLE);
        };
        if number != transaction {
            return Err(refusal::NO_TRANSACTION_OR_HANDLE);
        }
        let name = valid_name(name).ok_or(refusal::BAD_NAME)?;
        self.check_entry(name, &options)?;
        if options.file > LARGEST_FILE {
            return Err(refusal::OUT_OF_RANGE);
        }
        // these two the Rust refuses itself, before it touches a file
        if options.file != 0 && name != "metadata" {
            self.check_place(disk, name, &options)?;
        }
        let handle = self.last_handle.checked_add(1).ok_or(refusal::PAST_THE_END)?;
        self.open_in_rust(disk, leaked(name), handle, &options)?;
        self.last_handle = handle;
        Ok(handle)
    }

    fn listed(&self, name: &str) -> Option<&Listed> {
        self.list.iter().find(|tape| tape.name == name)
    }

    /// 8 for the entry size; 10, as the Rust's `open_fixed_sized_tape` has it.
    fn check_entry(&self, name: &str, options: &Options) -> Result<(), Refusal> {
        if !(1..=LARGEST_ENTRY).contains(&options.entry) {
            return Err(refusal::OUT_OF_RANGE);
        }
        let (start, len) = self.listed(name).map_or((options.start, options.start), |tape| (tape.start, tape.len));
        if start.is_multiple_of(options.entry) && len.is_multiple_of(options.entry) {
            Ok(())
        } else {
            Err(refusal::NO_MULTIPLE)
        }
    }

    /// 8 for the cache, 9 and 5.
    fn check_place(&self, disk: &Disk, name: &str, options: &Options) -> Result<(), Refusal> {
        if !(1..=LARGEST_CACHE).contains(&options.cache) {
            return Err(refusal::OUT_OF_RANGE);
        }
        if self.handles.values().any(|handle| handle.name == name) {
            return Err(refusal::OPEN_ALREADY);
        }
        let mut names: BTreeSet<String> = disk.directories();
        names.extend(self.list.iter().map(|tape| tape.name.clone()));
        if names.len() >= MOST_NAMES && !names.contains(name) {
            return Err(refusal::TOO_MANY);
        }
        Ok(())
    }

    /// The Rust removes files before it refuses with 16. No handle of this tape is open then, so putting them back is enough.
    fn open_in_rust(&mut self, disk: &Disk, name: &'static str, number: u64, options: &Options) -> Result<(), Refusal> {
        let known = self.listed(name).is_some();
        let Some((_, Writer::Append { transaction, created })) = &mut self.writer else {
            unreachable!("tested before");
        };
        let inner = RollingTapeOpenOptions {
            file_size: options.file,
            dir: disk.root().to_path_buf(),
            start_index: options.start,
        };
        let before = known.then(|| disk.files(name));
        let opened =
            transaction.open_blob_tape::<Tape>(name, CachedTapeOpenOptions { inner, top_cache_size: options.cache });

        let tape = opened.map_err(|error| {
            if let Some(files) = &before {
                disk.restore(name, files);
            }
            refusal::of_rust(&error)
        })?;
        if !known {
            created.push(Creation { handle: number, start: options.start });
        }
        self.handles.insert(number, Handle { name, entry: options.entry, file_size: options.file, tape });
        Ok(())
    }

    fn put(&mut self, disk: &Disk, number: u64, handle: u64, bytes: &[u8]) -> Answer {
        let (transaction, created) = append_of(&mut self.writer, number)?;
        let handle = handle_of(&self.handles, handle)?;
        let length = transaction.blob_tape_len(&handle.tape).ok_or(refusal::NO_TAPE)?;
        if !(bytes.len() as u64).is_multiple_of(handle.entry) {
            return Err(refusal::NO_MULTIPLE);
        }
        let after = length.checked_add(bytes.len() as u64).ok_or(refusal::PAST_THE_END)?;

        let staged = self.handles.iter().filter_map(|(key, other)| {
            let creation = created.iter().find(|creation| creation.handle == *key);
            let listed = self.list.iter().find(|tape| tape.name == other.name);
            let from = creation.map(|creation| creation.start).or(listed.map(|tape| tape.len))?;
            let to = transaction.blob_tape_len(&other.tape)?;
            Some((other, from, if other.name == handle.name { after } else { to }))
        });
        if slots_needed(disk, staged) > SLOTS {
            return Err(refusal::NO_SLOT);
        }

        let index = transaction.append_bytes(&handle.tape, bytes).map_err(|error| refusal::of_rust(&error))?;
        Ok(index / handle.entry)
    }

    /// The Rust would touch the tape before it refuses, so 13 is found by asking it for the length.
    fn shift(&mut self, number: u64, handle: u64, start: u64) -> Answer {
        let (transaction, _) = append_of(&mut self.writer, number)?;
        let handle = handle_of(&self.handles, handle)?;
        let length = transaction.blob_tape_len(&handle.tape).ok_or(refusal::NO_TAPE)?;
        let start = start.checked_mul(handle.entry).ok_or(refusal::START_PAST_LENGTH)?;
        if start > length {
            return Err(refusal::START_PAST_LENGTH);
        }
        transaction.shift_start_idx(&handle.tape, start).map_err(|error| refusal::of_rust(&error))?;
        Ok(0)
    }

    fn cut(&mut self, number: u64, handle: u64, length: u64) -> Answer {
        let transaction = match &mut self.writer {
            Some((open, Writer::Truncate(transaction))) if *open == number => transaction,
            _ => return Err(refusal::NO_TRANSACTION_OR_HANDLE),
        };
        let handle = handle_of(&self.handles, handle)?;
        // a product that wraps is 14, but not before the Rust's own 11
        if transaction.blob_tape_len(&handle.tape).is_some() && length.checked_mul(handle.entry).is_none() {
            return Err(refusal::LONGER_LENGTH);
        }
        let length = length.wrapping_mul(handle.entry);
        transaction.truncate_blob_tape(&handle.tape, length).map_err(|error| refusal::of_rust(&error))?;
        Ok(0)
    }

    fn read(&self, number: u64, handle: u64, offset: u64, count: u64) -> Result<Vec<u8>, Refusal> {
        let handle_found = handle_of(&self.handles, handle);
        match (self.readers.get(&number), &self.writer) {
            (Some(reader), _) => read_in(&reader.transaction, handle_found?, offset, count),
            (None, Some((open, writer))) if *open == number => match writer {
                Writer::Append { transaction, .. } => read_in(transaction, handle_found?, offset, count),
                Writer::Truncate(transaction) => read_in(transaction, handle_found?, offset, count),
            },
            _ => Err(refusal::NO_TRANSACTION_OR_HANDLE),
        }
    }

    fn commit(&mut self, disk: &Disk, number: u64) -> Answer {
        let (_, writer) = self.writer.take_if(|(open, _)| *open == number).ok_or(refusal::NO_TRANSACTION_OR_HANDLE)?;
        if self.epoch == u64::MAX {
            self.writer = Some((number, writer));
            return Err(refusal::PAST_THE_END);
        }
        self.last_commit_was_truncate = matches!(writer, Writer::Truncate(_));
        let done = match writer {
            Writer::Append { transaction, .. } => transaction.commit(Persistence::Buffer),
            Writer::Truncate(transaction) => transaction.commit(Persistence::Buffer),
        };
        done.expect("the Rust commits what it staged");
        (self.epoch, self.list) = committed(disk).expect("the Rust wrote a list of valid names");
        Ok(self.epoch)
    }

    /// A tape created in a dropped append loses its handle; in the Rust it lives on.
    fn drop_transaction(&mut self, number: u64) -> Answer {
        if self.readers.remove(&number).is_some() {
            return Ok(0);
        }
        let (_, writer) = self.writer.take_if(|(open, _)| *open == number).ok_or(refusal::NO_TRANSACTION_OR_HANDLE)?;
        if let Writer::Append { transaction, created } = writer {
            drop(transaction);
            for creation in created {
                self.handles.remove(&creation.handle);
            }
        }
        Ok(0)
    }
}

/// The open append of this number.
fn append_of(
    writer: &mut Option<(u64, Writer)>,
    number: u64,
) -> Result<(&mut TapesAppendTransaction, &[Creation]), Refusal> {
    match writer {
        Some((open, Writer::Append { transaction, created })) if *open == number => Ok((transaction, created)),
        _ => Err(refusal::NO_TRANSACTION_OR_HANDLE),
    }
}

fn handle_of(handles: &BTreeMap<u64, Handle>, number: u64) -> Result<&Handle, Refusal> {
    handles.get(&number).ok_or(refusal::NO_TRANSACTION_OR_HANDLE)
}
