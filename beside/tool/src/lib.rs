//! Scripts for the driver, and the oracle beside it. The program `beside` is made of it, and `linked` takes its scripts from here.

pub mod compare;
pub mod coverage;
mod disk_rules;
mod driver;
mod generator;
mod known;
mod profile;
pub mod promise;
mod random;
mod shrink;
mod wild;

pub use generator::{Generator, Script};
pub use random::Random;
