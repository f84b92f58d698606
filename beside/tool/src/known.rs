//! What the generator remembers of the store, so that most of its lines mean something. It is told the replies and may be wrong about
//! nothing that matters: a wrong guess only makes a line that is refused.

use std::collections::BTreeMap;

use oracle::{Call, Reply};

#[derive(Clone, Copy, Debug, PartialEq, Eq)]
pub enum Kind {
    Append,
    Truncate,
}

/// In bytes.
#[derive(Clone, Copy, Debug, Default)]
pub struct Bounds {
    pub start: u64,
    pub len: u64,
}

#[derive(Clone, Copy, Debug)]
pub struct Sizes {
    pub entry: u64,
    pub file: u64,
    pub cache: u64,
}

#[derive(Clone, Debug)]
pub struct Handle {
    pub number: u64,
    pub name: Vec<u8>,
    pub sizes: Sizes,
}

pub type View = BTreeMap<Vec<u8>, Bounds>;

#[derive(Default)]
pub struct Known {
    pub session: bool,
    pub readers: Vec<(u64, View)>,
    pub writer: Option<(u64, Kind)>,
    pub last_transaction: u64,
    pub last_handle: u64,
    pub handles: Vec<Handle>,
    /// The committed list, and what the writer makes of it.
    pub listed: View,
    pub staged: View,
    /// How each tape was last opened; it outlives the session.
    pub opened_as: BTreeMap<Vec<u8>, Sizes>,
    /// The code of the last reply.
    pub last_code: u8,
    /// A put found no slot since the last commit.
    pub crowded: bool,
    /// How many puts found no slot since the last that brought bytes. Files above a cut or left by a drop keep their slots, so an
    /// episode can get stuck.
    pub refused_puts: u64,
}

impl Known {
    pub fn handle(&self, number: u64) -> Option<&Handle> {
        self.handles.iter().find(|handle| handle.number == number)
    }

    /// Takes in what became of a line.
    pub fn learn(&mut self, line: &[u8], reply: &Reply) {
        let Reply::Answered { code, value, .. } = reply else {
            return;
        };
        self.last_code = *code;
        self.crowded |= *code == 15;
        self.refused_puts += u64::from(*code == 15);
        let call = Call::parse(line, |handle| Some(self.handle(handle)?.sizes.entry));
        if let (0, Ok(call)) = (*code, call) {
            self.served(call, *value);
        }
    }

    fn served(&mut self, call: Call, value: u64) {
        match call {
            Call::Format => *self = Self::default(),
            Call::Store => self.store(),
            Call::Append => self.begin(value, Kind::Append),
            Call::Truncate => self.begin(value, Kind::Truncate),
            Call::Reader => {
                self.last_transaction = value;
                self.readers.push((value, self.listed.clone()));
            }
            Call::Open { name, entry, file, cache, start, .. } => {
                self.last_handle = value;
                let sizes = Sizes { entry, file, cache };
                self.staged.entry(name.clone()).or_insert(Bounds { start, len: start });
                self.opened_as.insert(name.clone(), sizes);
                self.handles.push(Handle { number: value, name, sizes });
            }
            Call::Put { handle, bytes, .. } => {
                self.refused_puts = if bytes.is_empty() { self.refused_puts } else { 0 };
                self.stage(handle, |bounds, _| bounds.len = bounds.len.saturating_add(bytes.len() as u64));
            }
            Call::Shift { handle, start, .. } => {
                self.stage(handle, |bounds, entry| bounds.start = bounds.start.max(start.saturating_mul(entry)));
            }
            Call::Cut { handle, length, .. } => {
                self.stage(handle, |bounds, entry| bounds.len = length.saturating_mul(entry));
            }
            Call::Read { .. } => (),
            Call::Commit { .. } => self.commit(),
            Call::Drop { transaction } => self.drop_transaction(transaction),
        }
    }

    fn store(&mut self) {
        self.session = true;
        self.readers.clear();
        self.handles.clear();
        self.writer = None;
        self.last_transaction = 0;
        self.last_handle = 0;
        self.staged = self.listed.clone();
    }

    fn begin(&mut self, number: u64, kind: Kind) {
        self.last_transaction = number;
        self.writer = Some((number, kind));
        self.staged = self.listed.clone();
    }

    fn stage(&mut self, handle: u64, change: impl FnOnce(&mut Bounds, u64)) {
        let Some(Handle { name, sizes, .. }) = self.handle(handle).cloned() else {
            return;
        };
        if let Some(bounds) = self.staged.get_mut(&name) {
            change(bounds, sizes.entry);
        }
    }

    fn commit(&mut self) {
        self.writer = None;
        self.crowded = false;
        for bounds in self.staged.values_mut() {
            bounds.start = bounds.start.min(bounds.len);
        }
        self.listed = self.staged.clone();
    }

    fn drop_transaction(&mut self, number: u64) {
        self.readers.retain(|(reader, _)| *reader != number);
        if self.writer.is_some_and(|(writer, _)| writer == number) {
            self.writer = None;
            self.handles.retain(|handle| self.listed.contains_key(&handle.name));
            self.staged = self.listed.clone();
        }
    }
}
