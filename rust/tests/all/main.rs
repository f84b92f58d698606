//! The crate's API, held against document 01's examples, recorded answers, a model of the promise, and the C functions.

mod declared;
mod disk;
mod examples;
mod generated;
#[path = "../../../beside/oracle/src/line.rs"]
mod line;
mod model;
mod random;
mod refusals;
mod script;
mod scripts;
mod transactions;
