//! A session over two areas.

use std::{
    cell::{Cell, RefCell},
    fmt,
    sync::atomic::{AtomicU64, Ordering},
};

use crate::{
    areas::{format, Areas, Owned},
    calls::{self, Reply},
    error::{answer, Answer},
    transaction::{Append, Reader, Truncate},
    view::View,
    Error, Refused,
};

/// Marks sessions, so that a tape of one is not taken for another's.
static SESSIONS: AtomicU64 = AtomicU64::new(1);

fn next_session() -> u64 {
    SESSIONS.fetch_add(1, Ordering::Relaxed)
}

/// A store with a session begun: up to 16 readers, and beside them one append or one truncate.
///
/// Transactions borrow the store and may be held together; the store is for one thread at a time.
pub struct Store<A: Areas = Owned> {
    /// Borrowed while a call runs and never longer, so that no borrow meets another.
    areas: RefCell<A>,
    epoch: Cell<u64>,
    session: u64,
}

impl Store {
    /// An empty store of so many slots, 1 to 64, in areas of its own.
    ///
    /// # Errors
    ///
    /// [`Error::BadSize`] for the number of slots.
    pub fn new(slots: u64) -> Result<Self, Error> {
        let mut areas = Owned::zeros(slots);
        format(&mut areas, slots)?;
        Ok(Self::begin(areas)?)
    }
}

impl<A: Areas> Store<A> {
    /// Begins a session (the call `store`): it finds what was committed last on the disk; no transaction is open and no tape.
    ///
    /// # Errors
    ///
    /// [`Error::Unusable`], [`Error::BadList`]; the areas come back with it.
    pub fn begin(mut areas: A) -> Result<Self, Refused<A>> {
        match answer(calls::store(&mut areas)) {
            Ok(epoch) => Ok(Self { areas: RefCell::new(areas), epoch: Cell::new(epoch), session: next_session() }),
            Err(error) => Err(Refused { error, back: areas }),
        }
    }

    /// Begins the session anew, and gives its epoch. Tapes are to be opened again. The borrow checker sees to it that no
    /// transaction is held:
    ///
    /// ```compile_fail,E0502
    /// # fn main() -> Result<(), tapes::Error> {
    /// let mut store = tapes::Store::new(8)?;
    /// let reader = store.reader()?;
    /// store.restart()?;
    /// drop(reader);
    /// # Ok(())
    /// # }
    /// ```
    ///
    /// # Errors
    ///
    /// [`Error::Unusable`], [`Error::BadList`], for areas that somebody else changed; the old session then goes on.
    pub fn restart(&mut self) -> Result<u64, Error> {
        let epoch = self.writing(calls::store)?;
        self.epoch.set(epoch);
        self.session = next_session();
        Ok(epoch)
    }

    /// How many commits there have been on this disk.
    pub fn epoch(&self) -> u64 {
        self.epoch.get()
    }

    /// Begins a reader: a window on what is committed now. It stays as it is, whatever is committed later.
    ///
    /// # Errors
    ///
    /// [`Error::Full`] if 16 are open; [`Error::TooLarge`] where the session has given all numbers up to 2^64-1.
    pub fn reader(&self) -> Result<Reader<'_, A>, Error> {
        let number = self.writing(calls::reader)?;
        Ok(Reader::new(View::new(self, number)))
    }

    /// Begins an append, which opens tapes, appends to them and moves their starts up.
    ///
    /// # Errors
    ///
    /// [`Error::WriterOpen`] while an append or a truncate is open; [`Error::Wait`] if the last commit was a truncate's and
    /// windows are open that began before it: once exactly these are closed it is let in, however many opened since.
    /// [`Error::TooLarge`] as of [`Store::reader`].
    pub fn append(&self) -> Result<Append<'_, A>, Error> {
        let number = self.writing(calls::append)?;
        Ok(Append::new(View::new(self, number)))
    }

    /// Begins a truncate, which cuts off the ends of tapes.
    ///
    /// # Errors
    ///
    /// [`Error::WriterOpen`] while an append or a truncate is open; [`Error::TooLarge`] as of [`Store::reader`].
    pub fn truncate(&self) -> Result<Truncate<'_, A>, Error> {
        let number = self.writing(calls::truncate)?;
        Ok(Truncate::new(View::new(self, number)))
    }

    /// The disk's bytes as they are now, to be kept: a session begun on them finds what is committed now.
    pub fn copy_disk(&self) -> Vec<u8> {
        self.areas.borrow().areas().0.to_vec()
    }

    /// Gives the areas back. What is committed is on the disk.
    pub fn into_areas(self) -> A {
        self.areas.into_inner()
    }

    /// The mark that the tapes of this session have.
    pub(crate) fn session(&self) -> u64 {
        self.session
    }

    pub(crate) fn set_epoch(&self, epoch: u64) {
        self.epoch.set(epoch);
    }

    /// Lends the areas to a call.
    pub(crate) fn reading(&self, call: impl FnOnce(&A) -> Reply) -> Answer {
        answer(call(&self.areas.borrow()))
    }

    /// Lends the areas to a call that writes.
    pub(crate) fn writing(&self, call: impl FnOnce(&mut A) -> Reply) -> Answer {
        answer(call(&mut self.areas.borrow_mut()))
    }
}

impl<A: Areas> fmt::Debug for Store<A> {
    fn fmt(&self, f: &mut fmt::Formatter<'_>) -> fmt::Result {
        f.debug_struct("Store").field("epoch", &self.epoch()).finish_non_exhaustive()
    }
}
