//! Calls on damaged areas. After each call: its code is one of document 01's; refused, it changed no byte; served, it wrote nothing but
//! what it may write, and the areas still keep the layout rule.

use std::{
    fmt,
    hash::{DefaultHasher, Hash, Hasher},
    mem,
};

use beside::{Generator, Random};
use oracle::{Call, Reply as Printed};
use tapes::{
    Owned,
    calls::{self, NO_ENTRY, Reply},
};

use crate::{
    areas::{self, Field},
    asked::{Asked, ask},
    disk, forged,
};

const WAITING: u64 = 4;
const MOST_READERS: u64 = 16;
const UNUSABLE: u64 = 1;
const BAD_LIST: u64 = 17;
const LARGEST_BUFFER: usize = 9000;
/// What stands in the buffer before a read.
static FILL: [u8; LARGEST_BUFFER] = [0xa5; LARGEST_BUFFER];

#[derive(Clone, Copy)]
enum Harm {
    Exchange,
    Older,
    Forge,
    Shorten,
    Lengthen,
    Zeros,
    Byte,
    Field,
}

/// How often each comes.
const HARMS: [(u64, Harm); 8] = [
    (2, Harm::Exchange),
    (2, Harm::Older),
    (1, Harm::Forge),
    (1, Harm::Shorten),
    (1, Harm::Lengthen),
    (2, Harm::Zeros),
    (3, Harm::Byte),
    (8, Harm::Field),
];

/// What was done.
#[derive(Default)]
pub struct Count {
    rounds: u64,
    /// Those that changed a store which the next call was made on.
    damages: u64,
    /// By code.
    answers: [u64; 19],
}

impl fmt::Display for Count {
    fn fmt(&self, f: &mut fmt::Formatter<'_>) -> fmt::Result {
        let calls: u64 = self.answers.iter().sum();
        write!(
            f,
            "{} rounds, {calls} calls, {} damages: {} served; refused",
            self.rounds, self.damages, self.answers[0]
        )?;
        let refused = self.answers.iter().enumerate().skip(1).filter(|(_, count)| **count != 0);
        refused.map(|(code, count)| (code, *count)).try_for_each(|(code, count)| write!(f, " {code}:{count}"))
    }
}

/// Rounds until so many damages were made. With `trace`, each call is printed with its answer and a digest of all lent memory after it,
/// for two archives to be compared.
///
/// # Panics
///
/// At the first call that does what it must not.
pub fn run(damages: u64, seed: u64, trace: bool) -> Count {
    let mut count = Count::default();
    let mut random = Random::new(seed);
    while count.damages < damages {
        count.rounds += 1;
        Round::new(Random::new(random.number()), trace)
            .run(&mut count)
            .unwrap_or_else(|wrong| panic!("round {}, {wrong}", count.rounds));
    }
    count
}

/// A store with the lines that are made for it.
struct Bench {
    store: Owned,
    generator: Generator,
    /// As it was some calls ago, and as it was before it was damaged.
    older: Owned,
    unharmed: Option<Owned>,
    /// A record was just put there, which a store should see.
    forged: bool,
}

/// Two stores, so that their areas can be mixed.
struct Round {
    random: Random,
    trace: bool,
    slots: u64,
    /// How often, in a hundred, a damage comes before a call, and how often it is taken back.
    harms: u64,
    heals: u64,
    benches: [Bench; 2],
}

impl Round {
    fn new(mut random: Random, trace: bool) -> Self {
        let slots = *random.pick(&[8, 8, 8, 8, 1, 3, 64]);
        let benches = [random.number(), random.number()].map(|seed| {
            let mut store = Owned::zeros(slots);
            // areas may be longer than they need be
            store.disk.resize(store.disk.len() + random.between(0, 1) as usize * 50, 0xd1);
            store.session.resize(store.session.len() + random.between(0, 1) as usize * 50, 0x5e);
            Bench { older: store.clone(), store, generator: Generator::new(seed), unharmed: None, forged: false }
        });
        let (harms, heals) = (*random.pick(&[2, 8, 25]), *random.pick(&[5, 30, 70]));
        Self { random, trace, slots, harms, heals, benches }
    }

    fn run(&mut self, count: &mut Count) -> Result<(), String> {
        for call in 0..self.random.between(50, 250) {
            let which = usize::from(self.random.percent(30));
            if self.random.percent(5) {
                self.benches[which].older = self.benches[which].store.clone();
            }
            // the first calls make something that can be damaged
            if call > 20 && self.random.percent(self.harms) {
                let before = self.benches[which].store.clone();
                self.harm(which);
                count.damages += u64::from(before != self.benches[which].store);
            }
            let code = self.call(which).map_err(|wrong| format!("call {call}: {wrong}"))?;
            count.answers[code as usize] += 1;
            if self.random.percent(self.heals)
                && let Some(unharmed) = self.benches[which].unharmed.take()
            {
                self.benches[which].store = unharmed;
            }
        }
        Ok(())
    }

    /// The code of a call that did what it may.
    fn call(&mut self, which: usize) -> Result<u64, String> {
        let (line, asked) = self.next(which);
        let slots = if line.is_some() { self.slots } else { self.edge(64) };
        let mut out = FILL[..*self.random.pick(&[0, 1, 7, 256, 4095, 4096, 4096, 4096, LARGEST_BUFFER])].to_vec();

        let Bench { store, generator, .. } = &mut self.benches[which];
        let before = store.clone();
        let reply = ask(store, &asked, slots, &mut out);
        check(&before, store, &out, &asked, slots, reply).map_err(|wrong| format!("{asked:?}: {wrong}: {reply:?}"))?;
        if self.trace {
            let mut digest = DefaultHasher::new();
            (&store.disk, &store.session, &out).hash(&mut digest);
            println!("{asked:?}\t{}\t{}\t{:016x}", reply.code, reply.value, digest.finish());
        }
        if let Some(line) = line {
            let printed = Printed::Answered { code: reply.code as u8, value: reply.value, bytes: Vec::new() };
            generator.learn(&line, &printed);
        }
        Ok(reply.code)
    }

    /// A call, and the line that it comes from.
    fn next(&mut self, which: usize) -> (Option<Vec<u8>>, Asked) {
        if mem::take(&mut self.benches[which].forged) {
            return (Some(b"store".to_vec()), Asked::Line(Call::Store));
        }
        if self.random.percent(25) {
            return (None, self.any_call(which));
        }
        let line = self.benches[which].generator.next_line();
        let session = &self.benches[which].store.session;
        match Call::parse(&line, |handle| areas::entry_size(session, handle)) {
            Ok(call) => (Some(line), Asked::Line(call)),
            Err(_) => (None, self.any_call(which)),
        }
    }

    /// Of those that no line makes, or a read of any size, with numbers that stand in the session.
    fn any_call(&mut self, which: usize) -> Asked {
        let session = &self.benches[which].store.session;
        let transactions = areas::transactions(session);
        let (handles, names): (Vec<_>, Vec<_>) =
            areas::handles(session).into_iter().map(|handle| (handle.number, handle.name.to_vec())).unzip();
        let transaction = self.one_of(&transactions);
        let handle = self.one_of(&handles);
        let index = self.edge(20);
        match self.random.between(0, 20) {
            0..=2 => Asked::Len { transaction, handle },
            3..=4 => Asked::Start { transaction, handle },
            5..=6 if names.is_empty() => Asked::Exists { transaction, name: b"a".to_vec() },
            5..=6 => Asked::Exists { transaction, name: self.random.pick(&names).clone() },
            7..=11 => Asked::ReadEntry { transaction, handle, index },
            12..=14 => Asked::PopEntry { transaction, handle },
            15..=16 => Asked::DropEntries { transaction, handle, count: index },
            17 => {
                // the generator does not know of it
                self.keep_unharmed();
                Asked::Line(Call::Format)
            }
            _ => Asked::Line(Call::Read { transaction, handle, offset: index, count: self.edge(4096) }),
        }
    }

    fn one_of(&mut self, numbers: &[u64]) -> u64 {
        if numbers.is_empty() || self.random.percent(5) { self.edge(20) } else { *self.random.pick(numbers) }
    }

    /// A number at an end of its range, or one in it.
    fn edge(&mut self, limit: u64) -> u64 {
        let inside = self.random.between(0, limit);
        *self.random.pick(&[0, 1, limit, limit.wrapping_add(1), u64::MAX, u64::MAX - 1, inside, inside, inside])
    }

    /// Both, since a damage may exchange areas.
    fn keep_unharmed(&mut self) {
        for bench in &mut self.benches {
            bench.unharmed.get_or_insert_with(|| bench.store.clone());
        }
    }

    /// Damages one area of a store, or exchanges one with the other store.
    fn harm(&mut self, which: usize) {
        self.keep_unharmed();
        let of_disk = self.random.percent(40);
        match self.random.weighted(&HARMS) {
            Harm::Exchange => {
                let [one, other] = &mut self.benches;
                mem::swap(area(&mut one.store, of_disk), area(&mut other.store, of_disk));
            }
            Harm::Older => {
                let Bench { store, older, .. } = &mut self.benches[which];
                area(store, of_disk).clone_from(area(older, of_disk));
            }
            Harm::Forge => {
                let epoch = self.edge(1000);
                let (record, left) = (forged::record(&mut self.random, epoch), self.random.percent(50));
                disk::put_metadata(&mut self.benches[which].store.disk, left, &record);
                self.benches[which].forged = true;
            }
            harm => {
                // taken out, so that numbers can be drawn meanwhile
                let mut harmed = mem::take(area(&mut self.benches[which].store, of_disk));
                self.harm_area(harm, of_disk, &mut harmed);
                *area(&mut self.benches[which].store, of_disk) = harmed;
            }
        }
    }

    fn harm_area(&mut self, harm: Harm, of_disk: bool, area: &mut Vec<u8>) {
        let at = self.random.between(0, area.len() as u64) as usize;
        match harm {
            Harm::Shorten if self.random.percent(50) => drop(area.pop()),
            Harm::Shorten => area.truncate(at),
            Harm::Lengthen => area.resize(area.len() + at % 100 + 1, self.random.number() as u8),
            Harm::Zeros => {
                let end = area.len().min(at + self.random.between(1, 600) as usize);
                area[at..end].fill(0);
            }
            Harm::Byte => {
                // half of them where the tables are
                let at = if self.random.percent(50) { at % 6000 } else { at };
                if let Some(byte) = area.get_mut(at) {
                    *byte = self.random.number() as u8;
                }
            }
            _ => {
                let fields = if of_disk { areas::disk_fields(area) } else { areas::session_fields() };
                let Field { at, limit } = *self.random.pick(&fields);
                let value = self.edge(limit);
                if let Some(bytes) = area.get_mut(at..at + 8) {
                    bytes.copy_from_slice(&value.to_le_bytes());
                }
            }
        }
    }
}

fn area(store: &mut Owned, of_disk: bool) -> &mut Vec<u8> {
    if of_disk { &mut store.disk } else { &mut store.session }
}

/// How many bytes of disk, session and buffer a served call may write: those from there on stay.
fn writable(before: &Owned, asked: &Asked, slots: u64, reply: Reply) -> Option<[usize; 3]> {
    let disk = areas::disk_bytes(areas::slot_count(&before.disk));
    let session = areas::SESSION_BYTES;
    let read = |handle, count: u64| Some(areas::entry_size(&before.session, handle)?.checked_mul(count)? as usize);
    let one = |handle| if reply.value == NO_ENTRY { Some(0) } else { read(handle, 1) };
    Some(match *asked {
        Asked::Line(ref call) => match *call {
            Call::Format => [areas::disk_bytes(slots), session, 0],
            Call::Open { .. } | Call::Put { .. } | Call::Commit { .. } => [disk, session, 0],
            Call::Read { handle, count, .. } => [0, 0, read(handle, count)?],
            _ => [0, session, 0],
        },
        Asked::DropEntries { .. } => [0, session, 0],
        Asked::PopEntry { handle, .. } => [0, if reply.value == NO_ENTRY { 0 } else { session }, one(handle)?],
        Asked::ReadEntry { handle, .. } => [0, 0, one(handle)?],
        Asked::Len { .. } | Asked::Start { .. } | Asked::Exists { .. } => [0, 0, 0],
    })
}

fn check(
    before: &Owned,
    store: &Owned,
    out: &[u8],
    asked: &Asked,
    slots: u64,
    reply: Reply,
) -> Result<(), &'static str> {
    let untouched = |out: &[u8]| *out == FILL[..out.len()];
    let ensure = |what, holds: bool| if holds { Ok(()) } else { Err(what) };
    let Reply { code, value } = reply;
    ensure("no such code", code <= 18)?;
    if let (Asked::Line(Call::Store), 0 | BAD_LIST) = (asked, code) {
        let epoch = areas::listed(&before.disk).map(|_| areas::record(&before.disk).epoch);
        ensure("another record", epoch == (code == 0).then_some(value))?;
    }
    if code != 0 {
        ensure("refused, and an area changed", before == store)?;
        ensure("refused, and the buffer changed", untouched(out))?;
        let counted = if code == WAITING { (1..=MOST_READERS).contains(&value) } else { value == 0 };
        return ensure("refused with such a value", counted);
    }

    let [disk, session, read] = writable(before, asked, slots, reply).ok_or("read without a handle")?;
    let kept = |before: &[u8], after: &[u8], from: usize| before.get(from..) == after.get(from..);
    ensure("wrote on the disk", kept(&before.disk, &store.disk, disk))?;
    ensure("wrote in the session", kept(&before.session, &store.session, session))?;
    ensure("read more than the buffer", read <= out.len())?;
    ensure("wrote behind the answer", untouched(&out[read..]))?;
    match *asked {
        Asked::Line(Call::Read { count, .. }) => ensure("another count", value == count)?,
        Asked::ReadEntry { index, .. } => ensure("another index", value == index || value == NO_ENTRY)?,
        Asked::Exists { .. } => ensure("neither 0 nor 1", value <= 1)?,
        _ => (),
    }
    // a formatted disk has no session, so a store has to tell
    let sound = match asked {
        Asked::Line(Call::Format) => calls::store(&mut store.clone()).code != UNUSABLE,
        _ => calls::len(store, 0, 0).code != UNUSABLE,
    };
    ensure("left areas that break the rule", sound)
}
