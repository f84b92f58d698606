//! Runs a script of driver lines through the API.
//!
//! A line may name a transaction or a handle that is not open, or one of the wrong kind. The API has no words for that: such a
//! line finds no value to make its call with, and is answered here, with 2 or, before a session, 1. All others reach the store.

use crate::{
    disk::{self, hex},
    line::Call,
};
use std::collections::BTreeMap;
use tapes::{format, Append, Areas, Error, Owned, Reader, Refused, Shape, Store, Tape, Truncate, View};

/// Of the driver's disk.
const SLOTS: u64 = 8;

/// A value, and bytes where it is a read's.
type Answer = Result<(u64, Vec<u8>), Error>;

fn plain(value: u64) -> (u64, Vec<u8>) {
    (value, Vec::new())
}

fn done(_: ()) -> (u64, Vec<u8>) {
    plain(0)
}

/// What was printed so far.
#[derive(Default)]
pub struct Replies {
    pub text: String,
    lines: u64,
    with_disk: bool,
    /// How many lines found no value to make their call with.
    pub not_asked: u64,
}

impl Replies {
    /// None is the answer to an unreadable line.
    fn say(&mut self, answer: Option<Answer>, disk: impl FnOnce() -> Vec<u8>) {
        self.lines += 1;
        let reply = match answer {
            None => "-\t-\t-".to_string(),
            Some(Ok((value, bytes))) => format!("0\t{value}\t{}", hex(&bytes)),
            Some(Err(Error::Wait { windows })) => format!("4\t{windows}\t-"),
            Some(Err(error)) => format!("{}\t0\t-", error.number()),
        };
        self.text += &format!("{}\t{reply}\n", self.lines);
        if self.with_disk {
            self.text += &disk::text(&disk());
        }
    }

    fn not_asked(&mut self, why: Error) -> Answer {
        self.not_asked += 1;
        Err(why)
    }
}

/// Runs a script; with the disk after each reply if this is wanted.
pub fn run(script: &[u8], with_disk: bool) -> Replies {
    let mut replies = Replies { with_disk, ..Replies::default() };
    // an end behind the last line begins no further one
    let mut lines = script.strip_suffix(b"\n").unwrap_or(script).split(|byte| *byte == b'\n');
    let mut areas = Owned::zeros(SLOTS);
    while let Some(mut store) = before_a_session(areas, &mut lines, &mut replies) {
        areas = loop {
            match session(&store, &mut lines, &mut replies) {
                End::Script => return replies,
                End::Store => {
                    let answer = store.restart().map(plain);
                    replies.say(Some(answer), || store.copy_disk());
                }
                End::Format => {
                    let mut areas = store.into_areas();
                    let answer = format(&mut areas, SLOTS).map(done);
                    replies.say(Some(answer), || areas.disk.clone());
                    break areas;
                }
            }
        };
    }
    replies
}

/// Lines up to the one that begins a session.
fn before_a_session<'a>(
    mut areas: Owned,
    lines: &mut impl Iterator<Item = &'a [u8]>,
    replies: &mut Replies,
) -> Option<Store> {
    for line in lines {
        let answer = match Call::parse(line, |_| None) {
            Err(_) => None,
            Ok(Call::Format) => Some(format(&mut areas, SLOTS).map(done)),
            Ok(Call::Store) => match Store::begin(areas) {
                Ok(store) => {
                    replies.say(Some(Ok(plain(store.epoch()))), || store.copy_disk());
                    return Some(store);
                }
                Err(Refused { error, back }) => {
                    areas = back;
                    Some(Err(error))
                }
            },
            Ok(_) => Some(replies.not_asked(Error::Unusable)),
        };
        // before the first format, the disk is zeros and has nothing to show
        replies.say(answer, || areas.areas().0.to_vec());
    }
    None
}

/// What ended a session: the script, or a call that the transactions must be gone for.
enum End {
    Script,
    Store,
    Format,
}

fn session<'a>(store: &Store, lines: &mut impl Iterator<Item = &'a [u8]>, replies: &mut Replies) -> End {
    let mut session = Session { store, open: BTreeMap::new(), tapes: BTreeMap::new() };
    for line in lines {
        let answer = match Call::parse(line, |handle| session.tape(handle).map(Tape::entry_size)) {
            Err(_) => None,
            Ok(Call::Format) => return End::Format,
            Ok(Call::Store) => return End::Store,
            Ok(call) => Some(session.ask(call).unwrap_or_else(|| replies.not_asked(Error::Unknown))),
        };
        replies.say(answer, || store.copy_disk());
    }
    End::Script
}

enum Open<'s> {
    Reader(Reader<'s>),
    Append(Append<'s>),
    Truncate(Truncate<'s>),
}

/// A tape, and whether the open append created it: then it goes with that append.
struct Known {
    tape: Tape,
    created: bool,
}

struct Session<'s> {
    store: &'s Store,
    open: BTreeMap<u64, Open<'s>>,
    tapes: BTreeMap<u64, Known>,
}

impl<'s> Session<'s> {
    /// None where there is no value to make the call with.
    fn ask(&mut self, call: Call) -> Option<Answer> {
        match call {
            Call::Format | Call::Store => None,
            Call::Append => Some(self.begun(self.store.append().map(Open::Append))),
            Call::Reader => Some(self.begun(self.store.reader().map(Open::Reader))),
            Call::Truncate => Some(self.begun(self.store.truncate().map(Open::Truncate))),
            Call::Open { transaction, name, entry, file, cache, start } => {
                self.open_tape(transaction, &name, Shape { entry_size: entry, file_size: file, cache, start })
            }
            Call::Put { transaction, handle, bytes } => {
                let tape = self.tape(handle)?;
                Some(self.append(transaction)?.append_entries(tape, bytes).map(plain))
            }
            Call::Shift { transaction, handle, start } => {
                let tape = self.tape(handle)?;
                Some(self.append(transaction)?.shift_start(tape, start).map(done))
            }
            Call::Cut { transaction, handle, length } => {
                let tape = self.tape(handle)?;
                Some(self.truncate(transaction)?.truncate_tape(tape, length).map(done))
            }
            Call::Read { transaction, handle, offset, count } => {
                let tape = self.tape(handle)?;
                Some(self.view(transaction)?.read_entries(tape, offset, count).map(|bytes| (count, bytes)))
            }
            Call::Commit { transaction } => self.commit(transaction),
            Call::Drop { transaction } => self.drop_transaction(transaction),
        }
    }

    fn tape(&self, handle: u64) -> Option<Tape> {
        self.tapes.get(&handle).map(|known| known.tape)
    }

    fn append(&mut self, transaction: u64) -> Option<&mut Append<'s>> {
        match self.open.get_mut(&transaction)? {
            Open::Append(append) => Some(append),
            _ => None,
        }
    }

    fn truncate(&mut self, transaction: u64) -> Option<&mut Truncate<'s>> {
        match self.open.get_mut(&transaction)? {
            Open::Truncate(truncate) => Some(truncate),
            _ => None,
        }
    }

    fn view(&self, transaction: u64) -> Option<&View<'s>> {
        Some(match self.open.get(&transaction)? {
            Open::Reader(reader) => reader,
            Open::Append(append) => append,
            Open::Truncate(truncate) => truncate,
        })
    }

    fn begun(&mut self, begun: Result<Open<'s>, Error>) -> Answer {
        let open = begun?;
        let number = match &open {
            Open::Reader(reader) => reader.number(),
            Open::Append(append) => append.number(),
            Open::Truncate(truncate) => truncate.number(),
        };
        self.open.insert(number, open);
        Ok(plain(number))
    }

    fn open_tape(&mut self, transaction: u64, name: &[u8], shape: Shape) -> Option<Answer> {
        let append = self.append(transaction)?;
        let opened = append.exists(name).and_then(|exists| Ok((exists, append.open(name, shape)?)));
        Some(opened.map(|(exists, tape)| {
            self.tapes.insert(tape.number(), Known { tape, created: !exists });
            plain(tape.number())
        }))
    }

    fn commit(&mut self, transaction: u64) -> Option<Answer> {
        let committed = match self.open.remove(&transaction)? {
            Open::Append(append) => append.commit().map_err(|refused| (refused.error, Open::Append(refused.back))),
            Open::Truncate(cut) => cut.commit().map_err(|refused| (refused.error, Open::Truncate(refused.back))),
            reader @ Open::Reader(_) => {
                self.open.insert(transaction, reader);
                return None;
            }
        };
        Some(match committed {
            Ok(epoch) => {
                self.tapes.values_mut().for_each(|known| known.created = false);
                Ok(plain(epoch))
            }
            Err((error, open)) => {
                self.open.insert(transaction, open);
                Err(error)
            }
        })
    }

    fn drop_transaction(&mut self, transaction: u64) -> Option<Answer> {
        let closed = match self.open.remove(&transaction)? {
            Open::Append(append) => {
                self.tapes.retain(|_, known| !known.created);
                append.close().map_err(Error::from)
            }
            Open::Reader(reader) => reader.close().map_err(Error::from),
            Open::Truncate(truncate) => truncate.close().map_err(Error::from),
        };
        Some(closed.map(done))
    }
}
