//! The promise, tried on the Rust: every read inside an open transaction's bounds is served with the bytes committed when it began and
//! its own staged changes, and an append waits for exactly the windows opened before the last cut. The bytes are worked out from the
//! calls' arguments alone, with none of the store's steps: no files, no cache, no epochs on files.

use std::collections::{BTreeMap, BTreeSet};

use oracle::{Call, Reply};

use crate::generator::Script;

/// A tape's bytes from `origin` up, of which those from `start` up may be read.
#[derive(Clone, Default)]
struct Content {
    origin: u64,
    start: u64,
    bytes: Vec<u8>,
}

impl Content {
    fn len(&self) -> u64 {
        self.origin + self.bytes.len() as u64
    }

    fn cut(&mut self, length: u64) {
        self.bytes.truncate(length.saturating_sub(self.origin) as usize);
        self.origin = self.origin.min(length);
    }

    /// None is 12.
    fn read(&self, offset: Option<u64>, count: u64) -> Option<&[u8]> {
        let offset = offset?;
        let end = offset.checked_add(count)?;
        if offset < self.start || end > self.len() {
            return None;
        }
        Some(&self.bytes[(offset - self.origin) as usize..(end - self.origin) as usize])
    }
}

type View = BTreeMap<Vec<u8>, Content>;

struct Window {
    view: View,
    /// How many commits there had been.
    commits: u64,
}

struct Handle {
    name: Vec<u8>,
    entry: u64,
}

#[derive(Default)]
pub struct Model {
    committed: View,
    commits: u64,
    last_was_cut: bool,
    windows: BTreeMap<u64, Window>,
    writer: Option<(u64, View, bool)>,
    handles: BTreeMap<u64, Handle>,
    file_sizes: BTreeMap<Vec<u8>, u64>,
    /// Tapes reopened with another file size: of these nothing is promised.
    changed: BTreeSet<Vec<u8>>,
    pub reads: u64,
    /// Reads in a window that is behind the last commit.
    pub old_reads: u64,
    pub waits: u64,
}

impl Model {
    /// What the promise says against a reply.
    pub fn check(&mut self, line: &[u8], reply: &Reply) -> Result<(), String> {
        let Reply::Answered { code, value, bytes } = reply else {
            return Ok(());
        };
        let Ok(call) = Call::parse(line, |handle| Some(self.handles.get(&handle)?.entry)) else {
            return Err("an unreadable line was answered".into());
        };
        match call {
            Call::Append if *code == 0 || *code == 4 => self.check_wait(*code, *value)?,
            Call::Read { transaction, handle, offset, count } if *code > 2 || *code == 0 => {
                self.check_read(transaction, handle, offset, count, (*code, bytes))?;
            }
            _ => (),
        }
        if *code == 0 {
            self.served(call, *value);
        }
        Ok(())
    }

    fn check_wait(&mut self, code: u8, value: u64) -> Result<(), String> {
        let older = self.windows.values().filter(|window| window.commits < self.commits).count() as u64;
        let wanted = if self.last_was_cut && older != 0 { (4, older) } else { (0, value) };
        self.waits += u64::from(code == 4);
        if (code, value) == wanted { Ok(()) } else { Err(format!("{wanted:?} was promised to the append")) }
    }

    fn check_read(
        &mut self,
        number: u64,
        handle: u64,
        offset: u64,
        count: u64,
        given: (u8, &[u8]),
    ) -> Result<(), String> {
        let Some(Handle { name, entry }) = self.handles.get(&handle) else {
            return Err("a read through no handle".into());
        };
        let (view, old) = match (self.windows.get(&number), &self.writer) {
            (Some(window), _) => (&window.view, window.commits < self.commits),
            (None, Some((writer, view, _))) if *writer == number => (view, false),
            _ => return Err("a read in no transaction".into()),
        };
        let wanted: (u8, &[u8]) = match view.get(name).map(|tape| tape.read(offset.checked_mul(*entry), count * entry))
        {
            None => (11, &[]),
            Some(None) => (12, &[]),
            Some(Some(_)) if self.changed.contains(name) => return Ok(()),
            Some(Some(bytes)) => (0, bytes),
        };
        self.reads += u64::from(wanted.0 == 0 && count != 0);
        self.old_reads += u64::from(wanted.0 == 0 && count != 0 && old);
        if given == wanted { Ok(()) } else { Err(format!("{wanted:?} was promised to the read")) }
    }

    fn served(&mut self, call: Call, value: u64) {
        match call {
            Call::Format => {
                *self = Self { reads: self.reads, old_reads: self.old_reads, waits: self.waits, ..Self::default() };
            }
            Call::Store => {
                self.windows.clear();
                self.handles.clear();
                self.writer = None;
                self.last_was_cut = false;
            }
            Call::Append => self.writer = Some((value, self.committed.clone(), false)),
            Call::Truncate => self.writer = Some((value, self.committed.clone(), true)),
            Call::Reader => {
                self.windows.insert(value, Window { view: self.committed.clone(), commits: self.commits });
            }
            Call::Open { name, entry, file, start, .. } => self.open(value, name, entry, file, start),
            Call::Put { handle, bytes, .. } => self.stage(handle, |tape, _| tape.bytes.extend(bytes)),
            Call::Shift { handle, start, .. } => {
                self.stage(handle, |tape, entry| tape.start = tape.start.max(start * entry))
            }
            Call::Cut { handle, length, .. } => self.stage(handle, |tape, entry| tape.cut(length * entry)),
            Call::Read { .. } => (),
            Call::Commit { .. } => self.commit(),
            Call::Drop { transaction } => self.drop_transaction(transaction),
        }
    }

    fn open(&mut self, number: u64, name: Vec<u8>, entry: u64, file: u64, start: u64) {
        if let Some((_, view, _)) = &mut self.writer {
            view.entry(name.clone()).or_insert(Content { origin: start, start, bytes: Vec::new() });
        }
        let before = self.file_sizes.insert(name.clone(), file);
        if !self.committed.contains_key(&name) {
            self.changed.remove(&name);
        } else if before != Some(file) {
            self.changed.insert(name.clone());
        }
        self.handles.insert(number, Handle { name, entry });
    }

    fn stage(&mut self, handle: u64, change: impl FnOnce(&mut Content, u64)) {
        let (Some(handle), Some((_, view, _))) = (self.handles.get(&handle), &mut self.writer) else {
            return;
        };
        if let Some(tape) = view.get_mut(&handle.name) {
            change(tape, handle.entry);
        }
    }

    fn commit(&mut self) {
        if let Some((_, mut view, is_cut)) = self.writer.take() {
            view.values_mut().for_each(|tape| tape.start = tape.start.min(tape.len()));
            self.committed = view;
            self.commits += 1;
            self.last_was_cut = is_cut;
        }
    }

    fn drop_transaction(&mut self, number: u64) {
        if self.windows.remove(&number).is_none() {
            self.writer = None;
            self.handles.retain(|_, handle| self.committed.contains_key(&handle.name));
        }
    }
}

/// Tries the promise on generated scripts; true if it holds.
pub fn tried(count: u64, seed: u64) -> bool {
    let (mut lines, mut reads, mut old_reads, mut waits) = (0, 0, 0, 0);
    for seed in seed..seed + count {
        let script = Script::generate(seed, 400);
        let mut model = Model::default();
        for (index, (line, reply)) in script.lines.iter().zip(&script.replies).enumerate() {
            if let Err(broken) = model.check(line, reply) {
                println!("seed {seed}, line {}: {broken}, the reply is {reply}", index + 1);
                return false;
            }
        }
        lines += script.lines.len();
        reads += model.reads;
        old_reads += model.old_reads;
        waits += model.waits;
    }
    println!(
        "{count} scripts, {lines} lines: the promise holds in {reads} reads of some bytes, {old_reads} of them in a window behind the last commit, and in {waits} waits"
    );
    true
}
