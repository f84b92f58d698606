//! What a transaction sees, whatever its kind.

use std::{fmt, mem};

use crate::{
    areas::{Areas, Owned},
    calls,
    error::Answer,
    store::Store,
    tape::Tape,
    Error, Refused,
};

/// No read is served with more bytes on areas that the store wrote: the files of the largest disk and a cache have no more.
const MOST_BYTES: u64 = 64 * 4096 + 4096;

/// An open transaction, and what it sees: what was committed when it began, and what it has staged itself. [`Reader`],
/// [`Append`] and [`Truncate`] all lend one, so that a function which only reads takes a `&View` of any of them.
///
/// It closes itself where it is dropped. One that is forgotten ([`std::mem::forget`]) stays open until the session ends.
///
/// [`Reader`]: crate::Reader
/// [`Append`]: crate::Append
/// [`Truncate`]: crate::Truncate
pub struct View<'s, A: Areas = Owned> {
    store: &'s Store<A>,
    number: u64,
}

impl<'s, A: Areas> View<'s, A> {
    pub(crate) fn new(store: &'s Store<A>, number: u64) -> Self {
        Self { store, number }
    }

    /// The transaction's number, as the C functions and the driver have it: never used twice in a session.
    pub fn number(&self) -> u64 {
        self.number
    }

    /// A tape's length in entries: the index that the next one would have.
    ///
    /// # Errors
    ///
    /// [`Error::Absent`], [`Error::Unknown`].
    pub fn len(&self, tape: Tape) -> Result<u64, Error> {
        self.store.reading(|areas| calls::len(areas, self.number, self.handle(tape)))
    }

    /// The index of a tape's first entry. In a truncate that has cut below it, it is past the length until the commit.
    ///
    /// # Errors
    ///
    /// [`Error::Absent`], [`Error::Unknown`].
    pub fn start(&self, tape: Tape) -> Result<u64, Error> {
        self.store.reading(|areas| calls::start(areas, self.number, self.handle(tape)))
    }

    /// Reads so many entries from an index on.
    ///
    /// # Errors
    ///
    /// [`Error::OutOfBounds`] where one of them is below the start or past the length; [`Error::Absent`], [`Error::Unknown`];
    /// [`Error::Missing`] on a tape that was opened with another file size.
    pub fn read_entries(&self, tape: Tape, index: u64, count: u64) -> Result<Vec<u8>, Error> {
        let held = self.len(tape)?.saturating_sub(self.start(tape)?);
        // more than the tape holds is out of bounds, which is said before the buffer is looked at
        let wanted = if count > held { 0 } else { count.saturating_mul(tape.entry_size) };
        let mut out = vec![0; wanted.min(MOST_BYTES) as usize];
        match self.read_entries_into(tape, index, count, &mut out).map(drop) {
            Ok(()) => Ok(out),
            // inside the bounds, but longer than all files together: one is missing
            Err(Error::NotWhole) if wanted > MOST_BYTES => Err(Error::Missing),
            Err(error) => Err(error),
        }
    }

    /// Reads so many entries from an index on into the front of a buffer, and gives that front. The rest of the buffer, and
    /// all of it where the read is refused, stays as it is.
    ///
    /// # Errors
    ///
    /// As [`View::read_entries`]; [`Error::NotWhole`] if the buffer is too short.
    pub fn read_entries_into<'b>(
        &self,
        tape: Tape,
        index: u64,
        count: u64,
        out: &'b mut [u8],
    ) -> Result<&'b [u8], Error> {
        let (number, handle) = (self.number, self.handle(tape));
        let read = self.store.reading(|areas| calls::read_entries(areas, number, handle, index, count, out))?;
        Ok(front(out, read.saturating_mul(tape.entry_size)))
    }

    /// Reads one entry; none where the index is out of bounds.
    ///
    /// # Errors
    ///
    /// [`Error::Absent`], [`Error::Unknown`]; [`Error::Missing`] on a tape that was opened with another file size.
    pub fn read_entry(&self, tape: Tape, index: u64) -> Result<Option<Vec<u8>>, Error> {
        let mut out = vec![0; tape.entry_size as usize];
        let found = self.read_entry_into(tape, index, &mut out)?.is_some();
        Ok(found.then_some(out))
    }

    /// Reads one entry into the front of a buffer, and gives that front; none where the index is out of bounds.
    ///
    /// # Errors
    ///
    /// As [`View::read_entry`]; [`Error::NotWhole`] if the buffer is too short.
    pub fn read_entry_into<'b>(&self, tape: Tape, index: u64, out: &'b mut [u8]) -> Result<Option<&'b [u8]>, Error> {
        let (number, handle) = (self.number, self.handle(tape));
        let found = self.store.reading(|areas| calls::read_entry(areas, number, handle, index, out))?;
        Ok(entry_at(found).map(|_| front(out, tape.entry_size)))
    }

    pub(crate) fn store(&self) -> &'s Store<A> {
        self.store
    }

    /// The number for a call on a tape. No tape has the number 0, so one of another session is refused in its turn.
    pub(crate) fn handle(&self, tape: Tape) -> u64 {
        if tape.session == self.store.session() {
            tape.number
        } else {
            0
        }
    }

    pub(crate) fn commit(&self) -> Answer {
        let epoch = self.store.writing(|areas| calls::commit(areas, self.number))?;
        self.store.set_epoch(epoch);
        Ok(epoch)
    }

    pub(crate) fn close(&self) -> Answer {
        self.store.writing(|areas| calls::drop_transaction(areas, self.number))
    }
}

impl<A: Areas> Drop for View<'_, A> {
    fn drop(&mut self) {
        // refused only on areas that somebody else changed; whoever wants to know calls `close`
        let _ = self.close();
    }
}

impl<A: Areas> fmt::Debug for View<'_, A> {
    fn fmt(&self, f: &mut fmt::Formatter<'_>) -> fmt::Result {
        f.debug_struct("View").field("number", &self.number).finish_non_exhaustive()
    }
}

/// The index that a call on one entry gave; none where there is no such entry.
pub(crate) fn entry_at(value: u64) -> Option<u64> {
    (value != calls::NO_ENTRY).then_some(value)
}

/// Of a served call so much was written.
pub(crate) fn front(out: &mut [u8], bytes: u64) -> &[u8] {
    out.get(..bytes as usize).unwrap_or_default()
}

/// What becomes of a transaction that a call should end: served, it is over, and nothing is left to close.
pub(crate) fn ended<T>(transaction: T, answer: Answer) -> Result<u64, Refused<T>> {
    match answer {
        Ok(value) => {
            mem::forget(transaction);
            Ok(value)
        }
        Err(error) => Err(Refused { error, back: transaction }),
    }
}
