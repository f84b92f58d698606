//! The disk: a directory of real files, laid out by the Rust. Below the root it has `tapes/metadata/left`, `right`, and
//! `tapes/NAME/NUMBER`.

use std::{
    collections::{BTreeMap, BTreeSet},
    fs,
    io::ErrorKind,
    path::{Path, PathBuf},
    process,
    sync::atomic::{AtomicU64, Ordering},
};

/// A directory of its own, in memory where the system has such a place, removed with its value.
pub struct Scratch(PathBuf);

impl Scratch {
    pub fn new() -> Self {
        static COUNT: AtomicU64 = AtomicU64::new(0);

        let memory = PathBuf::from("/dev/shm");
        let place = if memory.is_dir() { memory } else { std::env::temp_dir() };
        let path = place.join(format!("beside-{}-{}", process::id(), COUNT.fetch_add(1, Ordering::Relaxed)));
        fs::create_dir_all(&path).expect("a temporary directory can be made");
        Self(path)
    }

    pub fn path(&self) -> &Path {
        &self.0
    }
}

impl Default for Scratch {
    fn default() -> Self {
        Self::new()
    }
}

impl Drop for Scratch {
    fn drop(&mut self) {
        // nothing sensible can be done if it fails
        let _ = fs::remove_dir_all(&self.0);
    }
}

/// Numbered files with their bytes.
pub type Files = BTreeMap<u64, Vec<u8>>;

pub struct Disk(Scratch);

impl Disk {
    /// An area that was never formatted: an empty directory.
    pub fn new() -> Self {
        Self(Scratch::new())
    }

    /// What the Rust is given as path and directory.
    pub fn root(&self) -> &Path {
        self.0.path()
    }

    fn tapes(&self) -> PathBuf {
        self.root().join("tapes")
    }

    pub fn format(&self) {
        match fs::remove_dir_all(self.tapes()) {
            Err(e) if e.kind() != ErrorKind::NotFound => panic!("the disk can't be emptied: {e}"),
            _ => (),
        }
    }

    /// Left and right, empty where there is no such file yet.
    pub fn metadata(&self) -> [Vec<u8>; 2] {
        ["left", "right"].map(|name| fs::read(self.tapes().join("metadata").join(name)).unwrap_or_default())
    }

    /// The names of the tapes' directories.
    pub fn directories(&self) -> BTreeSet<String> {
        let mut names = names_in(&self.tapes());
        names.remove("metadata");
        names
    }

    /// The numbers of a tape's files.
    pub fn numbers(&self, tape: &str) -> BTreeSet<u64> {
        let numbers = names_in(&self.tapes().join(tape));
        numbers.iter().map(|name| name.parse().expect("the Rust gives files numbers")).collect()
    }

    pub fn files(&self, tape: &str) -> Files {
        let read = |number: u64| fs::read(self.file(tape, number)).expect("a file of a tape can be read");
        self.numbers(tape).into_iter().map(|number| (number, read(number))).collect()
    }

    /// Puts back those of the files that are gone.
    pub fn restore(&self, tape: &str, files: &Files) {
        let there = self.numbers(tape);
        for (number, bytes) in files.iter().filter(|(number, _)| !there.contains(number)) {
            fs::write(self.file(tape, *number), bytes).expect("a file of a tape can be written");
        }
    }

    fn file(&self, tape: &str, number: u64) -> PathBuf {
        self.tapes().join(tape).join(number.to_string())
    }

    /// All of it as text: left and right, then every directory with its files.
    pub fn dump(&self) -> String {
        let [left, right] = self.metadata();
        let mut text = format!("left\t{}\nright\t{}\n", hex(&left), hex(&right));
        for name in self.directories() {
            text += &format!("directory\t{name}\n");
            for (number, bytes) in self.files(&name) {
                text += &format!("file\t{name}\t{number}\t{}\n", hex(&bytes));
            }
        }
        text
    }
}

/// Lower case, `-` for no bytes.
pub fn hex(bytes: &[u8]) -> String {
    const DIGITS: [char; 16] = ['0', '1', '2', '3', '4', '5', '6', '7', '8', '9', 'a', 'b', 'c', 'd', 'e', 'f'];
    if bytes.is_empty() {
        return "-".to_string();
    }
    bytes.iter().flat_map(|byte| [DIGITS[usize::from(byte >> 4)], DIGITS[usize::from(byte & 15)]]).collect()
}

/// None in a directory that doesn't exist.
fn names_in(directory: &Path) -> BTreeSet<String> {
    let entries = match fs::read_dir(directory) {
        Err(e) if e.kind() == ErrorKind::NotFound => return BTreeSet::new(),
        entries => entries.expect("a directory of the disk can be read"),
    };
    let name = |entry: fs::DirEntry| entry.file_name().into_string().expect("names are ASCII");
    entries.map(|entry| name(entry.expect("a directory of the disk can be read"))).collect()
}
