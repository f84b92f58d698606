//! The oracle: it speaks the driver's protocol and gets its answers by running the unchanged Rust on real files.
//!
//! What document 01 adds to the Rust is decided in front of it, in `session.rs` and `line.rs`; a call refused by an added rule never
//! reaches the Rust. All else (answers, bytes, files, records, removals) is the Rust's.

mod disk;
mod line;
mod oracle;
mod record;
mod refusal;
mod session;
mod tape;

pub use disk::{Scratch, hex};
pub use line::{Call, LARGEST_READ, LONGEST_LINE, Unreadable};
pub use oracle::{Oracle, Reply, answers};
pub use record::{Listed, Record, choose, decode_list, encode_list};
