//! A store of byte tapes in memory that the caller lends, with transactions: a safe API over the C functions of a store that
//! was proved in Rattle.
//!
//! A [`Store`] lives in two [`Areas`], a disk and a session, which it owns or borrows: no file, no thread, and no allocation but
//! for the `Vec`s that are asked for. Tapes are appended to at the end ([`Append`]), cut off there ([`Truncate`]) and given up
//! from the start. A window ([`Reader`]) stays as it was when it was opened, whatever is committed later; whoever cuts off a
//! tail waits with the next append for exactly the windows opened before the cut.
//!
//! ```
//! use tapes::{Error, Shape, Store};
//!
//! # fn main() -> Result<(), Error> {
//! let store = Store::new(8)?; // a disk of 8 slots, one for each file
//!
//! let mut append = store.append()?; // one writer at a time
//! let votes = append.open("votes", Shape { file_size: 4, cache: 8, ..Shape::default() })?;
//! assert_eq!(append.append_entries(votes, "yes")?, 0);
//! assert_eq!(append.append_entries(votes, "yes")?, 3); // two identical messages are two messages
//! assert_eq!(append.commit()?, 1); // the epoch
//!
//! let window = store.reader()?;
//! let mut truncate = store.truncate()?;
//! truncate.truncate_tape(votes, 3)?;
//! truncate.commit()?;
//! assert_eq!(window.read_entries(votes, 0, 6)?, b"yesyes"); // the page stands
//!
//! assert_eq!(store.append().unwrap_err(), Error::Wait { windows: 1 }); // and the keeper waits for it
//! drop(window);
//! drop(store.append()?); // let in; dropped, it changes nothing
//! assert_eq!(store.reader()?.read_entries(votes, 0, 3)?, b"yes");
//! # Ok(())
//! # }
//! ```
//!
//! # What is promised
//!
//! Of the C functions it is proved that every call ends properly on all arguments and on damaged memory, that a refused call
//! changes no lent byte, and that over every sequence of calls from a formatted store, with each tape reopened with its old
//! file size and nobody else writing to the areas, a read inside an open transaction's bounds is served with the bytes that
//! were committed when the transaction began, and its own staged changes. This crate is Rust and is not proved: it passes
//! arguments on and turns numbers into values. Its tests hold it against recorded answers and a model of the promise.
//!
//! # Refusals
//!
//! Nothing here panics because a call is refused: [`Error`] names each refusal, says it in a sentence and has its
//! [`number`](Error::number). A call that takes a value and is refused gives it back in a [`Refused`].

#![deny(unsafe_code)]
#![warn(missing_docs)]

/// The README's lines, run as a test.
#[cfg(doctest)]
#[doc = include_str!("../README.md")]
struct Readme;

mod areas;
// no part of the API: for programs that test or measure the C functions themselves, on any areas and with any numbers, and
// need their replies as they are (`beside/linked`, `bench`)
#[doc(hidden)]
pub mod calls;
mod error;
mod ffi;
mod store;
mod tape;
mod transaction;
mod view;

pub use areas::{disk_bytes, format, session_bytes, Areas, Lent, Owned};
pub use error::{Error, Refused};
pub use store::Store;
pub use tape::{Shape, Tape};
pub use transaction::{Append, Reader, Truncate};
pub use view::View;
