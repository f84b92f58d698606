//! The three kinds of transactions, as values.

use std::{fmt, ops::Deref};

use crate::{
    areas::{Areas, Owned},
    calls,
    tape::{Shape, Tape},
    view::{ended, entry_at, front, View},
    Error, Refused,
};

/// A window: what was committed when it began, for as long as it is held.
#[must_use = "a transaction closes itself where it is dropped"]
pub struct Reader<'s, A: Areas = Owned>(View<'s, A>);

/// A transaction that opens tapes, appends to them and moves their starts up. Dropped, it leaves what was committed.
#[must_use = "a transaction closes itself where it is dropped"]
pub struct Append<'s, A: Areas = Owned>(View<'s, A>);

/// A transaction that cuts off the ends of tapes. Dropped, it leaves what was committed.
#[must_use = "a transaction closes itself where it is dropped"]
pub struct Truncate<'s, A: Areas = Owned>(View<'s, A>);

/// What the three have in common.
macro_rules! transaction {
    ($kind:ident) => {
        impl<'s, A: Areas> $kind<'s, A> {
            pub(crate) fn new(view: View<'s, A>) -> Self {
                Self(view)
            }

            /// Gives the transaction up, as dropping it does, and says whether that was served.
            ///
            /// # Errors
            ///
            /// [`Error::Unusable`] and [`Error::Unknown`], for areas that somebody else changed.
            pub fn close(self) -> Result<(), Refused<Self>> {
                let answer = self.0.close();
                ended(self, answer).map(drop)
            }
        }

        impl<'s, A: Areas> Deref for $kind<'s, A> {
            type Target = View<'s, A>;

            fn deref(&self) -> &View<'s, A> {
                &self.0
            }
        }

        impl<A: Areas> fmt::Debug for $kind<'_, A> {
            fn fmt(&self, f: &mut fmt::Formatter<'_>) -> fmt::Result {
                f.debug_struct(stringify!($kind)).field("number", &self.number()).finish_non_exhaustive()
            }
        }
    };
}

transaction!(Reader);
transaction!(Append);
transaction!(Truncate);

impl<A: Areas> Append<'_, A> {
    /// Whether this append sees a tape of this name: a committed one, or one that it has created itself.
    ///
    /// # Errors
    ///
    /// [`Error::Unusable`], for areas that somebody else changed.
    pub fn exists(&self, name: impl AsRef<[u8]>) -> Result<bool, Error> {
        let (number, name) = (self.number(), name.as_ref());
        let found = self.0.store().reading(|areas| calls::exists(areas, number, name))?;
        Ok(found != 0)
    }

    /// Opens a tape, and creates it if there is none of this name. One that was created lasts if this append is committed.
    ///
    /// # Errors
    ///
    /// [`Error::BadName`], [`Error::ReservedName`], [`Error::BadSize`]; [`Error::NotWhole`] if the tape's start or length is no
    /// multiple of the entry size; [`Error::AlreadyOpen`]; [`Error::Full`] for a ninth name; [`Error::Missing`] on a tape that
    /// was written with another file size; [`Error::TooLarge`] where the session has given all handles up to 2^64-1.
    pub fn open(&mut self, name: impl AsRef<[u8]>, shape: Shape) -> Result<Tape, Error> {
        let (store, number, name) = (self.0.store(), self.number(), name.as_ref());
        let handle = store.writing(|areas| calls::open(areas, number, name, shape))?;
        Ok(Tape { number: handle, entry_size: shape.entry_size, session: store.session() })
    }

    /// Appends entries, and gives the index of the first: their place, by which equal ones are told apart.
    ///
    /// # Errors
    ///
    /// [`Error::NotWhole`] if the bytes are no multiple of the entry size; [`Error::NoSlot`]; [`Error::TooLarge`] for a length;
    /// [`Error::Unknown`].
    pub fn append_entries(&mut self, tape: Tape, entries: impl AsRef<[u8]>) -> Result<u64, Error> {
        let (number, handle, entries) = (self.number(), self.handle(tape), entries.as_ref());
        self.0.store().writing(|areas| calls::append_entries(areas, number, handle, entries))
    }

    /// Moves a tape's start up to an index, or leaves it where it is higher already.
    ///
    /// # Errors
    ///
    /// [`Error::StartPastLength`], [`Error::Unknown`].
    pub fn shift_start(&mut self, tape: Tape, index: u64) -> Result<(), Error> {
        let (number, handle) = (self.number(), self.handle(tape));
        self.0.store().writing(|areas| calls::shift_start(areas, number, handle, index)).map(drop)
    }

    /// Publishes what was staged, and gives the new epoch. It is over then:
    ///
    /// ```compile_fail,E0382
    /// # fn main() -> Result<(), tapes::Error> {
    /// let store = tapes::Store::new(8)?;
    /// let append = store.append()?;
    /// append.commit()?;
    /// append.exists("votes")?;
    /// # Ok(())
    /// # }
    /// ```
    ///
    /// # Errors
    ///
    /// [`Error::TooLarge`] past epoch 2^64-1; nothing else unless somebody changed the areas. The append comes back with it.
    pub fn commit(self) -> Result<u64, Refused<Self>> {
        let answer = self.0.commit();
        ended(self, answer)
    }
}

impl<A: Areas> Truncate<'_, A> {
    /// Cuts a tape to so many entries.
    ///
    /// # Errors
    ///
    /// [`Error::LongerCut`], [`Error::Unknown`].
    pub fn truncate_tape(&mut self, tape: Tape, len: u64) -> Result<(), Error> {
        let (number, handle) = (self.number(), self.handle(tape));
        self.0.store().writing(|areas| calls::truncate_tape(areas, number, handle, len)).map(drop)
    }

    /// Drops so many entries from a tape's end, at most all.
    ///
    /// # Errors
    ///
    /// [`Error::Unknown`].
    pub fn drop_entries(&mut self, tape: Tape, count: u64) -> Result<(), Error> {
        let (number, handle) = (self.number(), self.handle(tape));
        self.0.store().writing(|areas| calls::drop_entries(areas, number, handle, count)).map(drop)
    }

    /// Cuts off a tape's last entry, and gives its index and its bytes; none where the tape has no entry at or above its start.
    ///
    /// # Errors
    ///
    /// [`Error::Unknown`]; [`Error::Missing`] on a tape that was opened with another file size.
    pub fn pop_entry(&mut self, tape: Tape) -> Result<Option<(u64, Vec<u8>)>, Error> {
        let mut out = vec![0; tape.entry_size() as usize];
        let popped = self.pop_entry_into(tape, &mut out)?.map(|(index, _)| index);
        Ok(popped.map(|index| (index, out)))
    }

    /// Cuts off a tape's last entry, reads it into the front of a buffer, and gives its index and that front; none where the
    /// tape has no entry at or above its start.
    ///
    /// # Errors
    ///
    /// As [`Truncate::pop_entry`]; [`Error::NotWhole`] if the buffer is too short.
    pub fn pop_entry_into<'b>(&mut self, tape: Tape, out: &'b mut [u8]) -> Result<Option<(u64, &'b [u8])>, Error> {
        let (number, handle) = (self.number(), self.handle(tape));
        let popped = self.0.store().writing(|areas| calls::pop_entry(areas, number, handle, out))?;
        Ok(entry_at(popped).map(|index| (index, front(out, tape.entry_size()))))
    }

    /// Publishes what was staged, and gives the new epoch. Appends wait then for the windows that are open now.
    ///
    /// # Errors
    ///
    /// [`Error::TooLarge`] past epoch 2^64-1; nothing else unless somebody changed the areas. The truncate comes back with it.
    pub fn commit(self) -> Result<u64, Refused<Self>> {
        let answer = self.0.commit();
        ended(self, answer)
    }
}
