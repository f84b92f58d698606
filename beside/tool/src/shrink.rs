//! Makes a script that shows something shorter. Transactions and handles are numbered in the order of their lines, so a line keeps
//! note of the lines that gave the numbers it uses, and is written anew when others have gone.

use std::{
    collections::HashMap,
    time::{Duration, Instant},
};

use oracle::{Call, Oracle, Reply};

/// Enough to get from some hundred lines to a few, and an end for slow drivers and those that hang.
const LONGEST: Duration = Duration::from_secs(240);

#[derive(Clone)]
struct Line {
    /// Its place in the script as it was.
    id: usize,
    fields: Vec<Vec<u8>>,
    /// The line that began the transaction, and the one that opened the handle.
    transaction: Option<usize>,
    handle: Option<usize>,
}

/// Removes lines, then bytes of puts, as long as the script still shows it.
pub fn shrink(lines: &[Vec<u8>], shows_it: impl Fn(&[Vec<u8>]) -> bool) -> Vec<Vec<u8>> {
    let begun = Instant::now();
    let mut still = |lines: &[Line]| begun.elapsed() < LONGEST && shows_it(&written(lines));
    let lines = fewer_lines(noted(lines), &mut still);
    let lines = shorter_puts(lines, &mut still);
    written(&fewer_lines(lines, &mut still))
}

/// Runs of lines first, then single ones.
fn fewer_lines(mut lines: Vec<Line>, still: &mut impl FnMut(&[Line]) -> bool) -> Vec<Line> {
    let mut run = lines.len().div_ceil(2).max(1);
    loop {
        let mut removed = false;
        let mut at = 0;
        while at < lines.len() {
            let mut fewer = lines.clone();
            fewer.drain(at..(at + run).min(lines.len()));
            if still(&fewer) {
                lines = fewer;
                removed = true;
            } else {
                at += run;
            }
        }
        if run == 1 && !removed {
            return lines;
        }
        run = run.div_ceil(2);
    }
}

/// By halves, then by single bytes.
fn shorter_puts(mut lines: Vec<Line>, still: &mut impl FnMut(&[Line]) -> bool) -> Vec<Line> {
    for index in 0..lines.len() {
        if lines[index].fields[0] != b"put" || lines[index].fields.len() != 4 {
            continue;
        }
        let mut step = lines[index].fields[3].len() / 4;
        while step != 0 {
            let mut shorter = lines.clone();
            let hex = &mut shorter[index].fields[3];
            hex.truncate(hex.len().saturating_sub(2 * step));
            if hex.len() < lines[index].fields[3].len() && still(&shorter) {
                lines = shorter;
            } else {
                step /= 2;
            }
        }
    }
    lines
}

/// The places of the number of the transaction and of the handle, in calls that use one given before.
fn uses(call: &Call) -> (Option<u64>, Option<u64>) {
    match *call {
        Call::Open { transaction, .. } | Call::Commit { transaction } | Call::Drop { transaction } => {
            (Some(transaction), None)
        }
        Call::Put { transaction, handle, .. }
        | Call::Shift { transaction, handle, .. }
        | Call::Cut { transaction, handle, .. }
        | Call::Read { transaction, handle, .. } => (Some(transaction), Some(handle)),
        _ => (None, None),
    }
}

/// Notes where each number comes from.
fn noted(lines: &[Vec<u8>]) -> Vec<Line> {
    let mut oracle = Oracle::new();
    let (mut begun, mut opened) = (HashMap::new(), HashMap::new());
    let mut noted = Vec::new();
    for (id, line) in lines.iter().enumerate() {
        let call = Call::parse(line, |_| None).ok();
        let (transaction, handle) = call.as_ref().map(uses).unwrap_or_default();
        noted.push(Line {
            id,
            fields: line.split(|byte| *byte == b'\t').map(<[u8]>::to_vec).collect(),
            transaction: transaction.and_then(|number| begun.get(&number).copied()),
            handle: handle.and_then(|number| opened.get(&number).copied()),
        });
        if let (Reply::Answered { code: 0, value, .. }, Some(call)) = (oracle.answer(line), call) {
            match call {
                Call::Append | Call::Reader | Call::Truncate => drop(begun.insert(value, id)),
                Call::Open { .. } => drop(opened.insert(value, id)),
                Call::Format | Call::Store => {
                    begun.clear();
                    opened.clear();
                }
                _ => (),
            }
        }
    }
    noted
}

/// The lines with the numbers that the lines before them give now.
fn written(lines: &[Line]) -> Vec<Vec<u8>> {
    let mut oracle = Oracle::new();
    let mut given: HashMap<usize, u64> = HashMap::new();
    let mut written = Vec::new();
    for line in lines {
        let mut fields = line.fields.clone();
        for (place, source) in [(1, line.transaction), (2, line.handle)] {
            if let Some(number) = source.and_then(|id| given.get(&id)) {
                fields[place] = number.to_string().into_bytes();
            }
        }
        let text = fields.join(&b'\t');
        if let Reply::Answered { code: 0, value, .. } = oracle.answer(&text) {
            given.insert(line.id, value);
        }
        written.push(text);
    }
    written
}

#[test]
fn what_shows_it_stays() {
    let script = "format\nstore\nreader\nreader\nappend\nopen\t3\ta\t1\t4\t8\t0\nput\t3\t1\t00010203\ncommit\t3\nreader\nread\t4\t1\t0\t4";
    let lines: Vec<Vec<u8>> = script.split('\n').map(|line| line.as_bytes().to_vec()).collect();
    let served = |lines: &[Vec<u8>]| {
        let mut oracle = Oracle::new();
        let replies = lines.iter().map(|line| oracle.answer(line)).collect::<Vec<_>>();
        replies.iter().any(|reply| matches!(reply, Reply::Answered { code: 0, bytes, .. } if bytes.len() == 4))
    };
    let small = shrink(&lines, served);
    let wanted =
        "format\nstore\nappend\nopen\t1\ta\t1\t4\t8\t0\nput\t1\t1\t00010203\ncommit\t1\nreader\nread\t2\t1\t0\t4";
    assert_eq!(String::from_utf8(small.join(&b'\n')).unwrap(), wanted);
}
