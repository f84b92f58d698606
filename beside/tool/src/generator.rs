//! Seeded scripts. An episode begins with `format` and keeps to a profile, which steers it towards some deep state; a script is one
//! episode after the other.

use oracle::{Oracle, Reply};

use crate::{
    known::{Handle, Kind, Known, Sizes, View},
    profile::Profile,
    random::Random,
    wild,
};

pub struct Generator {
    pub(crate) random: Random,
    pub(crate) known: Known,
    pub(crate) profile: Profile,
    /// Lines until the next `format`.
    left: u64,
    /// Counts up through the bytes put, so that most neighbours differ.
    pub(crate) next_byte: u8,
}

/// A script with the oracle's replies, line by line.
pub struct Script {
    pub lines: Vec<Vec<u8>>,
    pub replies: Vec<Reply>,
}

impl Script {
    /// Each line is chosen knowing the replies to those before it.
    pub fn generate(seed: u64, length: usize) -> Self {
        let mut generator = Generator::new(seed);
        let mut oracle = Oracle::new();
        let mut script = Self { lines: Vec::new(), replies: Vec::new() };
        while script.lines.len() < length {
            let line = generator.next_line();
            let reply = oracle.answer(&line);
            generator.learn(&line, &reply);
            script.lines.push(line);
            script.replies.push(reply);
        }
        script
    }

    /// The script as bytes. Line ends are never part of a line.
    pub fn text(&self) -> Vec<u8> {
        self.lines.iter().flat_map(|line| line.iter().copied().chain([b'\n'])).collect()
    }

    pub fn answers(&self) -> String {
        let lines = self.replies.iter().enumerate();
        lines.map(|(index, reply)| format!("{}\t{reply}\n", index + 1)).collect()
    }
}

#[derive(Clone, Copy)]
enum Move {
    Append,
    Truncate,
    Reader,
    Store,
    Open,
    Put,
    Shift,
    Cut,
    Read,
    Commit,
    DropWriter,
    DropReader,
}

impl Generator {
    pub fn new(seed: u64) -> Self {
        let mut random = Random::new(seed);
        let profile = Profile::choose(&mut random);
        // a script begins before the first format, now and then for some lines
        let left = if random.percent(30) { random.between(1, 4) } else { 0 };
        Self { random, known: Known::default(), profile, left, next_byte: 0x30 }
    }

    pub fn next_line(&mut self) -> Vec<u8> {
        if self.left == 0 || self.known.refused_puts >= 6 {
            self.profile = Profile::choose(&mut self.random);
            self.left = self.random.between(30, self.profile.longest);
            return b"format".to_vec();
        }
        self.left -= 1;
        if self.random.percent(3) {
            return wild::unreadable(self);
        }
        if self.random.percent(4) {
            return wild::any_call(self);
        }
        if !self.known.session {
            return if self.random.percent(80) { b"store".to_vec() } else { wild::any_call(self) };
        }
        match self.choose_move() {
            Move::Append => b"append".to_vec(),
            Move::Truncate => b"truncate".to_vec(),
            Move::Reader => b"reader".to_vec(),
            Move::Store => b"store".to_vec(),
            Move::Open => self.open(),
            Move::Put => self.put(),
            Move::Shift => self.shift(),
            Move::Cut => self.cut(),
            Move::Read => self.read(),
            Move::Commit => self.end("commit"),
            Move::DropWriter => self.end("drop"),
            Move::DropReader => self.drop_reader(),
        }
    }

    /// Takes in what became of a line, for those that follow.
    pub fn learn(&mut self, line: &[u8], reply: &Reply) {
        self.known.learn(line, reply);
    }

    fn choose_move(&mut self) -> Move {
        let readers = self.known.readers.len() as u64;
        let waiting = self.known.last_code == 4;
        let some = |weight, condition| if condition { weight } else { 0 };
        // little can be seen while every tape is empty
        let filled = self.known.staged.values().any(|tape| tape.start < tape.len);
        let mut choices = vec![
            // a window on nothing is worth little
            (if self.known.listed.is_empty() { 1 } else { self.profile.readers }, Move::Reader),
            (some(if filled { 26 } else { 5 }, readers != 0), Move::Read),
            (some(2 + readers / 2, readers != 0) + some(60, waiting), Move::DropReader),
            (self.profile.restarts, Move::Store),
        ];
        match self.known.writer {
            None => choices.extend([
                (30, Move::Append),
                (some(if filled { self.profile.cuts } else { 2 }, !self.known.handles.is_empty()), Move::Truncate),
            ]),
            Some((_, Kind::Append)) => choices.extend(self.append_moves(filled)),
            Some((_, Kind::Truncate)) => choices.extend([
                (if filled { 24 } else { 4 }, Move::Cut),
                (if filled { 12 } else { 3 }, Move::Read),
                (11, Move::Commit),
                (5, Move::DropWriter),
                (1, Move::Append),
                (1, Move::Truncate),
            ]),
        }
        self.random.weighted(&choices)
    }

    fn append_moves(&self, filled: bool) -> [(u64, Move); 7] {
        let handles = self.known.handles.len() as u64;
        let open = if handles < self.profile.names { 6 + 2 * self.profile.names } else { 2 };
        let (open, put, shift, read) = match (handles, self.known.crowded, filled) {
            (0, _, _) => (60, 1, 0, 2),
            (_, true, true) => (open, 8, 24, 18),
            (_, true, false) => (open, 8, 24, 2),
            (_, false, true) => (open, 40, 8, 18),
            (_, false, false) => (open, 80, 2, 2),
        };
        [
            (open, Move::Open),
            (put, Move::Put),
            (shift, Move::Shift),
            (read, Move::Read),
            (if self.known.crowded { 20 } else { 9 }, Move::Commit),
            (self.profile.drops, Move::DropWriter),
            (1, Move::Append),
        ]
    }

    /// The number of the open writer, mostly.
    fn writer(&mut self) -> String {
        let right = self.known.writer.map_or(0, |(number, _)| number);
        self.number_near(right)
    }

    /// This number, but now and then another.
    fn number_near(&mut self, right: u64) -> String {
        if self.random.percent(97) { right.to_string() } else { wild::number(self) }
    }

    /// An open handle, mostly one whose tape is in the view, and holds something if that is wanted; none gives any number.
    fn handle(&mut self, view: Option<&View>, filled: bool) -> (String, Option<Handle>) {
        if self.known.handles.is_empty() || self.random.percent(3) {
            return (wild::number(self), None);
        }
        let view = view.unwrap_or(&self.known.staged);
        let fits = |handle: &&Handle| view.get(&handle.name).is_some_and(|tape| !filled || tape.start < tape.len);
        let inside: Vec<_> = self.known.handles.iter().filter(fits).collect();
        let handle = if inside.is_empty() || self.random.percent(4) {
            self.random.pick(&self.known.handles).clone()
        } else {
            (*self.random.pick(&inside)).clone()
        };
        (handle.number.to_string(), Some(handle))
    }

    fn end(&mut self, word: &str) -> Vec<u8> {
        format!("{word}\t{}", self.writer()).into_bytes()
    }

    fn drop_reader(&mut self) -> Vec<u8> {
        // the oldest ones are those that appends wait for
        let index = if self.random.percent(50) { 0 } else { self.random.between(0, 15) as usize };
        let number = self.known.readers.get(index).or(self.known.readers.last()).map_or(0, |(number, _)| *number);
        let number = self.number_near(number);
        let word = if self.random.percent(96) { "drop" } else { "commit" };
        format!("{word}\t{number}").into_bytes()
    }

    fn put(&mut self) -> Vec<u8> {
        let writer = self.writer();
        let (number, handle) = self.handle(None, false);
        let sizes = handle.map(|handle| handle.sizes);
        let length = match sizes {
            None => self.random.between(0, 3),
            Some(sizes) => {
                let entries = self.put_entries(sizes);
                // few slots are free, as a rule
                let fitting = (self.random.between(1, 3) * sizes.file / sizes.entry).max(1);
                let entries = if self.random.percent(75) { entries.min(fitting) } else { entries };
                let ragged = if self.random.percent(4) { 1 } else { 0 };
                (entries * sizes.entry + ragged).min(4200 / sizes.entry * sizes.entry)
            }
        };
        let mut hex = String::new();
        for _ in 0..length {
            hex += &format!("{:02x}", self.next_byte);
            // every fifth byte is a repeat: equal bytes are different messages
            self.next_byte = self.next_byte.wrapping_add(u8::from(!self.random.percent(20)));
        }
        format!("put\t{writer}\t{number}\t{hex}").into_bytes()
    }

    /// Around the sizes of cache and file, where the steps differ.
    fn put_entries(&mut self, sizes: Sizes) -> u64 {
        let about = |size: u64, random: &mut Random| (size / sizes.entry + random.between(0, 2)).saturating_sub(1);
        match self.random.between(0, 19) {
            0..=1 => 0,
            2..=10 => self.random.between(1, 3),
            11..=13 => about(sizes.cache, &mut self.random),
            14..=15 => about(sizes.file, &mut self.random),
            16 => about(2 * sizes.file, &mut self.random),
            17 => about(sizes.file * self.random.between(3, 9), &mut self.random),
            _ => self.random.between(0, (self.profile.room / sizes.entry).max(1)),
        }
    }

    fn shift(&mut self) -> Vec<u8> {
        let writer = self.writer();
        let (number, handle) = self.handle(None, true);
        let start = match handle.and_then(|handle| self.entries(&handle, None)) {
            None => wild::number(self),
            Some((start, len)) => match self.random.between(0, 19) {
                0 => len.to_string(),
                1..=8 if self.known.crowded => len.to_string(),
                9 => wild::number(self),
                10 => len.saturating_add(1).to_string(),
                11 => start.saturating_sub(1).to_string(),
                12..=16 => self.random.between(start, len.min(start.saturating_add(3))).to_string(),
                _ => self.random.between(start, len).to_string(),
            },
        };
        format!("shift\t{writer}\t{number}\t{start}").into_bytes()
    }

    fn cut(&mut self) -> Vec<u8> {
        let writer = self.writer();
        let (number, handle) = self.handle(None, true);
        let length = match handle.and_then(|handle| self.entries(&handle, None)) {
            None => wild::number(self),
            Some((start, len)) => match self.random.between(0, 19) {
                0..=1 => len.to_string(),
                2 => wild::number(self),
                3 => len.saturating_add(1).to_string(),
                4 => start.saturating_sub(self.random.between(0, 5)).to_string(),
                5 => self.random.between(0, start).to_string(),
                6..=13 => len.saturating_sub(self.random.between(1, 3)).to_string(),
                _ => self.random.between(start.min(len), len).to_string(),
            },
        };
        format!("cut\t{writer}\t{number}\t{length}").into_bytes()
    }

    fn read(&mut self) -> Vec<u8> {
        let from_writer = self.known.writer.is_some() && (self.known.readers.is_empty() || self.random.percent(40));
        let (number, view) = if from_writer {
            (self.known.writer.map_or(0, |(number, _)| number), None)
        } else if self.known.readers.is_empty() {
            (0, None)
        } else {
            let (number, view) = self.random.pick(&self.known.readers).clone();
            (number, Some(view))
        };
        let transaction = self.number_near(number);
        let (number, handle) = self.handle(view.as_ref(), true);
        let window = handle.as_ref().and_then(|handle| self.entries(handle, view.as_ref()));
        let entry = handle.map_or(1, |handle| handle.sizes.entry);
        let (offset, count) = match window {
            None => (wild::number(self), self.random.between(0, 3).to_string()),
            Some((start, len)) => self.window(start, len, 4096 / entry),
        };
        format!("read\t{transaction}\t{number}\t{offset}\t{count}").into_bytes()
    }

    fn window(&mut self, start: u64, len: u64, most: u64) -> (String, String) {
        let whole = len.saturating_sub(start);
        let (offset, count) = match self.random.between(0, 19) {
            0..=5 => (start, whole.min(most)),
            6 => (len, 0),
            7 => (len, 1),
            8 => (start.saturating_sub(1), 1),
            9 => (start, whole.saturating_add(1).min(most + 1)),
            10 => (len.saturating_add(1), 0),
            11 => return (wild::number(self), self.random.between(0, 2).to_string()),
            _ => {
                let offset = self.random.between(start.min(len), len.saturating_sub(1).max(start).min(len));
                (offset, self.random.between(1, (len - offset).min(most)))
            }
        };
        (offset.to_string(), count.to_string())
    }

    /// Start and length in entries, in a reader's view or the writer's.
    fn entries(&self, handle: &Handle, view: Option<&View>) -> Option<(u64, u64)> {
        let bounds = view.unwrap_or(&self.known.staged).get(&handle.name)?;
        Some((bounds.start / handle.sizes.entry, bounds.len / handle.sizes.entry))
    }

    fn open(&mut self) -> Vec<u8> {
        let writer = self.writer();
        let name = wild::name(self);
        let known = self.known.opened_as.get(&name).copied();
        let sizes = match known {
            Some(sizes) if self.random.percent(self.profile.same) => sizes,
            _ => self.profile.sizes(&mut self.random),
        };
        let start = self.profile.start(&mut self.random, sizes.entry);
        let mut fields = [sizes.entry, sizes.file, sizes.cache, start].map(|size| size.to_string());
        if self.random.percent(9) {
            let index = self.random.between(0, 3) as usize;
            fields[index] = wild::size(self);
        }
        let mut line = format!("open\t{writer}\t").into_bytes();
        line.extend(name);
        line.extend(format!("\t{}", fields.join("\t")).bytes());
        line
    }
}
