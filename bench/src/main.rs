//! The store's calls beside the Rust's, in one table: `bench DIRECTORY` prints comma separated lines, times in nanoseconds. The Rust's
//! files are made in that directory (a memory file system, to leave the disk out). `bench DIRECTORY --count` makes each call once, between
//! two marks, in the same order.

#[cfg(feature = "inside")]
mod inside;
mod meter;
mod ours;
mod rows;
mod theirs;
#[cfg(feature = "inside")]
mod words;

use std::{
    fs,
    path::PathBuf,
    process::{self, ExitCode},
};

use meter::Meter;

/// What a row is measured on: tapes of one shape.
pub struct Shape {
    pub slots: u64,
    pub file: u64,
    pub cache: u64,
    /// Bytes of each tape.
    pub held: usize,
    pub names: &'static [&'static str],
}

impl Shape {
    /// A tape's bytes, in runs that one call may append.
    fn parts(&self) -> impl Iterator<Item = Vec<u8>> {
        (0..self.held).step_by(4096).map(|at| vec![(at / 4096) as u8; (self.held - at).min(4096)])
    }
}

pub struct Bench {
    pub meter: Meter,
    pub root: PathBuf,
}

/// One line of the table: what it is, of which group and at which place along its group.
pub struct Row<'a> {
    pub group: &'a str,
    pub what: &'a str,
    pub file: u64,
    pub cache: u64,
    pub at: u64,
}

impl Row<'_> {
    pub fn print(&self, beside: &str, ours: f64, theirs: Option<f64>) {
        let Row { group, what, file, cache, at } = self;
        let theirs = theirs
            .map_or([String::new(), String::new()], |theirs| [format!("{theirs:.1}"), format!("{:.2}", ours / theirs)]);
        println!("{group},{what},{file},{cache},{at},{beside},{ours:.1},{}", theirs.join(","));
    }
}

fn main() -> ExitCode {
    let words: Vec<String> = std::env::args().skip(1).collect();
    let words: Vec<&str> = words.iter().map(String::as_str).collect();
    let (directory, meter) = match words[..] {
        [directory] => (directory, Meter::Time),
        [directory, "--count"] => (directory, Meter::Count),
        _ => {
            eprintln!("usage: bench DIRECTORY [--count]");
            return ExitCode::FAILURE;
        }
    };
    let bench = Bench { meter, root: PathBuf::from(directory).join(format!("tapes-bench-{}", process::id())) };
    println!("group,what,file_size,cache,at,beside,ours_ns,theirs_ns,ratio");
    rows::all(&bench);
    let _ = fs::remove_dir_all(&bench.root);
    ExitCode::SUCCESS
}
