//! Runs of calls from a seed, each answer held against the model. What the model can't say, since it has no files, is whether
//! an append finds a slot: one refused with 15 changes nothing.

use crate::{model::Model, random::Random};
use std::collections::BTreeMap;
use tapes::{Append, Error, Reader, Shape, Store, Tape, Truncate, View};

const NAMES: [&str; 3] = ["bodies", "entries", "votes"];
const RUNS: u64 = 60;
const SESSIONS: u64 = 4;
const STEPS: u64 = 150;

/// What the runs came by, so that they can't all have been about nothing.
#[derive(Default, Debug)]
struct Counts {
    reads: u64,
    old_reads: u64,
    waits: u64,
    commits: u64,
    puts: u64,
    no_slot: u64,
    popped: u64,
    lost_handles: u64,
}

enum Writer<'s> {
    Closed,
    Append(Append<'s>),
    Truncate(Truncate<'s>),
}

/// One session. Tapes are known by their place in `NAMES`.
struct Session<'s> {
    store: &'s Store,
    model: &'s mut Model,
    random: &'s mut Random,
    counts: &'s mut Counts,
    tapes: BTreeMap<usize, Tape>,
    /// One whose creation was dropped.
    lost: Option<Tape>,
    readers: BTreeMap<u64, Reader<'s>>,
    writer: Writer<'s>,
}

#[test]
fn generated_runs_keep_the_promise() {
    let mut counts = Counts::default();
    for seed in 1..=RUNS {
        run(&mut Random::new(seed), &mut counts).unwrap();
    }
    println!("{counts:?}");
    assert!(counts.reads > 10_000 && counts.old_reads > 1_000, "{counts:?}");
    assert!(counts.commits > 1_000 && counts.waits > 100 && counts.popped > 100, "{counts:?}");
    assert!(counts.puts > 2 * counts.no_slot && counts.no_slot > 10 && counts.lost_handles > 10, "{counts:?}");
}

fn run(random: &mut Random, counts: &mut Counts) -> Result<(), Error> {
    let mut store = Store::new(random.pick(&[8, 32, 64, 64]))?;
    let shape = |_| {
        let entry_size = random.pick(&[1, 1, 2, 3]);
        Shape { entry_size, file_size: random.pick(&[2, 4, 7, 16, 40]), cache: 1, start: entry_size * random.below(9) }
    };
    let mut model = Model::new((0..NAMES.len()).map(shape).collect());
    for _ in 0..SESSIONS {
        let mut session = Session::new(&store, &mut model, random, counts);
        for step in 0..STEPS {
            session.step()?;
            if step % 15 == 0 {
                session.read_all()?;
            }
        }
        session.read_all()?;
        drop(session);
        assert_eq!(store.epoch(), model.restart());
        assert_eq!(store.restart()?, store.epoch());
    }
    Ok(())
}

impl<'s> Session<'s> {
    fn new(store: &'s Store, model: &'s mut Model, random: &'s mut Random, counts: &'s mut Counts) -> Self {
        let (tapes, readers) = (BTreeMap::new(), BTreeMap::new());
        Self { store, model, random, counts, tapes, lost: None, readers, writer: Writer::Closed }
    }

    fn step(&mut self) -> Result<(), Error> {
        match self.random.below(100) {
            0..=9 => self.begin_reader(),
            10..=19 => self.begin_append(),
            20..=26 => self.begin_truncate(),
            27..=35 => self.drop_reader(),
            36..=69 => self.write()?,
            70..=89 => self.read()?,
            90..=96 => self.commit()?,
            _ => self.drop_writer(),
        }
        Ok(())
    }

    fn begin_reader(&mut self) {
        let (given, promised) = (self.store.reader(), self.model.reader());
        assert_eq!(given.as_ref().map(|reader| reader.number()), promised.as_ref().copied());
        if let Ok(reader) = given {
            self.readers.insert(reader.number(), reader);
        }
    }

    fn begin_append(&mut self) {
        let (given, promised) = (self.store.append(), self.model.writer(false));
        assert_eq!(given.as_ref().map(|append| append.number()), promised.as_ref().copied());
        match given {
            Ok(append) => self.writer = Writer::Append(append),
            Err(error) => self.counts.waits += u64::from(error != Error::WriterOpen),
        }
    }

    fn begin_truncate(&mut self) {
        let (given, promised) = (self.store.truncate(), self.model.writer(true));
        assert_eq!(given.as_ref().map(|truncate| truncate.number()), promised.as_ref().copied());
        if let Ok(truncate) = given {
            self.writer = Writer::Truncate(truncate);
        }
    }

    fn drop_reader(&mut self) {
        let open: Vec<u64> = self.readers.keys().copied().collect();
        if !open.is_empty() {
            let number = self.random.pick(&open);
            self.readers.remove(&number);
            self.model.drop_reader(number);
        }
    }

    fn commit(&mut self) -> Result<(), Error> {
        let epoch = match std::mem::replace(&mut self.writer, Writer::Closed) {
            Writer::Closed => return Ok(()),
            Writer::Append(append) => append.commit()?,
            Writer::Truncate(truncate) => truncate.commit()?,
        };
        assert_eq!((epoch, epoch), (self.model.commit(), self.store.epoch()));
        self.counts.commits += 1;
        Ok(())
    }

    /// By going out of scope, as it would after an error.
    fn drop_writer(&mut self) {
        if let Writer::Append(_) = self.writer {
            for (tape, handle) in std::mem::take(&mut self.tapes) {
                if self.model.is_committed(tape) {
                    self.tapes.insert(tape, handle);
                } else {
                    self.lost = Some(handle);
                }
            }
        }
        self.writer = Writer::Closed;
        self.model.drop_writer();
    }

    fn write(&mut self) -> Result<(), Error> {
        let tape = self.random.below(NAMES.len() as u64) as usize;
        let index = if self.random.percent(5) { u64::MAX } else { self.random.below(24) };
        match (&mut self.writer, self.tapes.get(&tape)) {
            (Writer::Closed, _) => self.begin_append(),
            (Writer::Append(append), handle) => {
                assert_eq!(append.exists(NAMES[tape])?, self.model.exists(tape));
                match handle {
                    None => self.open(tape)?,
                    Some(handle) if self.random.percent(25) => {
                        assert_eq!(append.shift_start(*handle, index), self.model.shift(tape, index));
                    }
                    Some(_) => self.put(tape),
                }
            }
            (Writer::Truncate(truncate), Some(handle)) => match self.random.below(3) {
                0 => assert_eq!(truncate.truncate_tape(*handle, index), self.model.cut(tape, index)),
                1 => assert_eq!(truncate.drop_entries(*handle, index / 4), self.model.drop_entries(tape, index / 4)),
                _ => {
                    let popped = truncate.pop_entry(*handle)?;
                    self.counts.popped += u64::from(popped.is_some());
                    assert_eq!(popped, self.model.pop(tape));
                }
            },
            (Writer::Truncate(_), None) => (),
        }
        Ok(())
    }

    /// Always with its old file size, but with any cache.
    fn open(&mut self, tape: usize) -> Result<(), Error> {
        if let Writer::Append(append) = &mut self.writer {
            let shape = Shape { cache: 1 + self.random.below(16), ..self.model.shapes[tape] };
            let handle = append.open(NAMES[tape], shape)?;
            assert_eq!(append.open(NAMES[tape], shape), Err(Error::AlreadyOpen));
            self.tapes.insert(tape, handle);
            self.model.open(tape);
        }
        Ok(())
    }

    fn put(&mut self, tape: usize) {
        let entries = if self.random.percent(10) { self.random.below(40) } else { self.random.below(6) };
        let odd = u64::from(self.random.percent(5));
        let bytes = self.random.bytes(entries * self.model.shapes[tape].entry_size + odd);
        if let (Writer::Append(append), Some(handle)) = (&mut self.writer, self.tapes.get(&tape)) {
            match append.append_entries(*handle, &bytes) {
                Err(Error::NoSlot) => self.counts.no_slot += 1,
                given => {
                    self.counts.puts += u64::from(given.is_ok());
                    assert_eq!(given, self.model.put(tape, &bytes));
                }
            }
        }
    }

    /// The open transactions.
    fn views(&self) -> Vec<&View<'s>> {
        let readers = self.readers.values().map(|reader| &**reader);
        let writer: Option<&View> = match &self.writer {
            Writer::Closed => None,
            Writer::Append(append) => Some(append),
            Writer::Truncate(truncate) => Some(truncate),
        };
        readers.chain(writer).collect()
    }

    /// Anything, inside the bounds or outside of them.
    fn read(&mut self) -> Result<(), Error> {
        let tape = self.random.below(NAMES.len() as u64) as usize;
        let index = if self.random.percent(5) { u64::MAX } else { self.random.below(24) };
        let count = if self.random.percent(5) { u64::MAX } else { self.random.below(8) };
        let (views, choice) = (self.views().len() as u64, self.random.below(100));
        let (Some(handle), true) = (self.tapes.get(&tape), views != 0) else {
            return Ok(());
        };
        let view = self.views()[(choice % views) as usize];
        let promised = self.model.read(view.number(), tape, index, count);
        assert_eq!(view.read_entries(*handle, index, count), promised);
        let one = match self.model.read(view.number(), tape, index, 1) {
            Err(Error::OutOfBounds) => Ok(None),
            promised => promised.map(Some),
        };
        assert_eq!(view.read_entry(*handle, index), one);
        self.counts.reads += u64::from(promised.is_ok());
        Ok(())
    }

    /// All that every open transaction sees, by its bounds.
    fn read_all(&mut self) -> Result<(), Error> {
        let (mut reads, mut old_reads) = (0, 0);
        for view in self.views() {
            for (tape, handle) in &self.tapes {
                let promised = self.model.bounds(view.number(), *tape);
                assert_eq!(view.start(*handle).and_then(|start| Ok((start, view.len(*handle)?))), promised);
                // a cut below the start is staged with the old start
                let Some((start, held)) = promised.ok().and_then(|(start, len)| Some((start, len.checked_sub(start)?)))
                else {
                    continue;
                };
                let bytes = view.read_entries(*handle, start, held)?;
                assert_eq!(Ok(bytes), self.model.read(view.number(), *tape, start, held));
                reads += 1;
                old_reads += u64::from(held != 0 && self.model.is_old(view.number()));
            }
            assert!(self.lost.is_none_or(|lost| view.len(lost) == Err(Error::Unknown)));
        }
        self.counts.lost_handles += u64::from(self.lost.is_some());
        self.counts.reads += reads;
        self.counts.old_reads += old_reads;
        Ok(())
    }
}
