//! What the store promises, worked out from the calls' arguments alone: committed bytes are a `Vec`, a window is a clone of them.
//! There is no file, no cache and no slot in it.

use std::collections::BTreeMap;
use tapes::{Error, Shape};

/// One tape: its bytes from offset 0 on, of which those from the start on may be read.
#[derive(Clone)]
pub struct Page {
    start: u64,
    bytes: Vec<u8>,
}

impl Page {
    /// In bytes.
    fn len(&self) -> u64 {
        self.bytes.len() as u64
    }

    fn cut(&mut self, len: u64) {
        self.bytes.truncate(len as usize);
    }
}

/// By the number that the run gives each tape.
type Pages = BTreeMap<usize, Page>;

struct Window {
    pages: Pages,
    /// How many commits there had been when it began.
    commits: u64,
}

struct Writer {
    number: u64,
    pages: Pages,
    is_cut: bool,
}

pub struct Model {
    pub shapes: Vec<Shape>,
    committed: Pages,
    commits: u64,
    last_was_cut: bool,
    windows: BTreeMap<u64, Window>,
    writer: Option<Writer>,
    /// The last transaction's number.
    last: u64,
}

impl Model {
    pub fn new(shapes: Vec<Shape>) -> Self {
        let (committed, windows) = (Pages::new(), BTreeMap::new());
        Self { shapes, committed, commits: 0, last_was_cut: false, windows, writer: None, last: 0 }
    }

    /// A session begins: what is committed stays.
    pub fn restart(&mut self) -> u64 {
        self.windows.clear();
        (self.writer, self.last_was_cut, self.last) = (None, false, 0);
        self.commits
    }

    pub fn reader(&mut self) -> Result<u64, Error> {
        if self.windows.len() == 16 {
            return Err(Error::Full);
        }
        self.last += 1;
        self.windows.insert(self.last, Window { pages: self.committed.clone(), commits: self.commits });
        Ok(self.last)
    }

    /// An append, or a truncate.
    pub fn writer(&mut self, is_cut: bool) -> Result<u64, Error> {
        let older = self.windows.values().filter(|window| window.commits < self.commits).count() as u64;
        if self.writer.is_some() {
            return Err(Error::WriterOpen);
        }
        if !is_cut && self.last_was_cut && older != 0 {
            return Err(Error::Wait { windows: older });
        }
        self.last += 1;
        self.writer = Some(Writer { number: self.last, pages: self.committed.clone(), is_cut });
        Ok(self.last)
    }

    pub fn drop_reader(&mut self, number: u64) {
        self.windows.remove(&number);
    }

    pub fn drop_writer(&mut self) {
        self.writer = None;
    }

    pub fn commit(&mut self) -> u64 {
        if let Some(Writer { mut pages, is_cut, .. }) = self.writer.take() {
            pages.values_mut().for_each(|page| page.start = page.start.min(page.len()));
            (self.committed, self.last_was_cut) = (pages, is_cut);
            self.commits += 1;
        }
        self.commits
    }

    /// Whether a page is behind the last commit.
    pub fn is_old(&self, transaction: u64) -> bool {
        self.windows.get(&transaction).is_some_and(|window| window.commits < self.commits)
    }

    pub fn is_committed(&self, tape: usize) -> bool {
        self.committed.contains_key(&tape)
    }

    /// Whether the open writer sees it.
    pub fn exists(&self, tape: usize) -> bool {
        self.writer.as_ref().is_some_and(|writer| writer.pages.contains_key(&tape))
    }

    fn page(&self, transaction: u64, tape: usize) -> Result<&Page, Error> {
        let written = self.writer.as_ref().filter(|writer| writer.number == transaction).map(|writer| &writer.pages);
        let pages = written.or_else(|| Some(&self.windows.get(&transaction)?.pages)).ok_or(Error::Unknown)?;
        pages.get(&tape).ok_or(Error::Absent)
    }

    /// The writer's own, and the tape's entry size.
    fn staged(&mut self, tape: usize) -> Result<(&mut Page, u64), Error> {
        let writer = self.writer.as_mut().ok_or(Error::Unknown)?;
        Ok((writer.pages.get_mut(&tape).ok_or(Error::Absent)?, self.shapes[tape].entry_size))
    }

    /// Start and length, in entries.
    pub fn bounds(&self, transaction: u64, tape: usize) -> Result<(u64, u64), Error> {
        let (page, entry) = (self.page(transaction, tape)?, self.shapes[tape].entry_size);
        Ok((page.start / entry, page.len() / entry))
    }

    pub fn read(&self, transaction: u64, tape: usize, index: u64, count: u64) -> Result<Vec<u8>, Error> {
        let (page, entry) = (self.page(transaction, tape)?, self.shapes[tape].entry_size);
        let offset = index.checked_mul(entry).ok_or(Error::OutOfBounds)?;
        let end = count.checked_mul(entry).and_then(|bytes| offset.checked_add(bytes)).ok_or(Error::OutOfBounds)?;
        if offset < page.start || end > page.len() {
            return Err(Error::OutOfBounds);
        }
        Ok(page.bytes[offset as usize..end as usize].to_vec())
    }

    /// A tape that nobody made yet begins at its shape's start.
    pub fn open(&mut self, tape: usize) {
        let start = self.shapes[tape].start;
        if let Some(writer) = &mut self.writer {
            writer.pages.entry(tape).or_insert_with(|| Page { start, bytes: vec![0; start as usize] });
        }
    }

    pub fn put(&mut self, tape: usize, bytes: &[u8]) -> Result<u64, Error> {
        let (page, entry) = self.staged(tape)?;
        if bytes.len() as u64 % entry != 0 {
            return Err(Error::NotWhole);
        }
        let index = page.len() / entry;
        page.bytes.extend(bytes);
        Ok(index)
    }

    pub fn shift(&mut self, tape: usize, index: u64) -> Result<(), Error> {
        let (page, entry) = self.staged(tape)?;
        let start = index.checked_mul(entry).filter(|start| *start <= page.len()).ok_or(Error::StartPastLength)?;
        page.start = page.start.max(start);
        Ok(())
    }

    pub fn cut(&mut self, tape: usize, len: u64) -> Result<(), Error> {
        let (page, entry) = self.staged(tape)?;
        let len = len.checked_mul(entry).filter(|len| *len <= page.len()).ok_or(Error::LongerCut)?;
        page.cut(len);
        Ok(())
    }

    pub fn drop_entries(&mut self, tape: usize, count: u64) -> Result<(), Error> {
        let (page, entry) = self.staged(tape)?;
        page.cut(page.len().saturating_sub(count.saturating_mul(entry)));
        Ok(())
    }

    pub fn pop(&mut self, tape: usize) -> Option<(u64, Vec<u8>)> {
        let (page, entry) = self.staged(tape).ok()?;
        let offset = page.len().checked_sub(entry).filter(|offset| *offset >= page.start)?;
        let bytes = page.bytes[offset as usize..].to_vec();
        page.cut(offset);
        Some((offset / entry, bytes))
    }
}
