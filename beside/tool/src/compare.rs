//! The oracle beside another driver, on generated scripts; or beside the expected output of the cases.

use std::{
    fs, io,
    panic::{self, AssertUnwindSafe},
    path::{Path, PathBuf},
    time::Instant,
};

use oracle::{Oracle, answers};

use crate::{disk_rules, driver::Driver, generator::Script, random::Random, shrink::shrink};

fn joined(lines: &[Vec<u8>]) -> Vec<u8> {
    lines.iter().flat_map(|line| line.iter().copied().chain([b'\n'])).collect()
}

/// From 40 to 400 lines; the length is drawn apart, so that a script is the same for every length up to its own.
fn script_of(seed: u64) -> Script {
    let length = Random::new(!seed).between(40, 400) as usize;
    Script::generate(seed, length)
}

/// What a driver prints for each line.
#[derive(Clone, Copy, Debug, PartialEq, Eq)]
pub enum Printed {
    Replies,
    /// And the whole disk after each reply.
    Disks,
}

impl Printed {
    /// All that the oracle prints for a script.
    fn wanted(self, script: &[u8]) -> String {
        match self {
            Self::Replies => answers(script),
            Self::Disks => with_disk(script),
        }
    }
}

/// Runs the scripts of seeds `seed..seed + count` through the driver; true if none differs.
pub fn with_driver(count: u64, seed: u64, command: &str, printed: Printed) -> io::Result<bool> {
    let driver = Driver::new(command);
    let (begun, mut lines) = (Instant::now(), 0);
    for seed in seed..seed + count {
        let script = script_of(seed);
        let text = script.text();
        let wanted = match printed {
            Printed::Replies => script.answers(),
            Printed::Disks => with_disk(&text),
        };
        if driver.answers(&text)? != wanted.as_bytes() {
            println!("seed {seed}: the driver differs from the Rust");
            show_difference(&script, &driver, printed)?;
            return Ok(false);
        }
        lines += script.lines.len();
    }
    let disks = if printed == Printed::Disks { " with their disks" } else { "" };
    println!("{count} scripts, {lines} lines{disks}, no difference, {:.1} s", begun.elapsed().as_secs_f64());
    Ok(true)
}

fn show_difference(script: &Script, driver: &Driver, printed: Printed) -> io::Result<()> {
    let differs = |lines: &[Vec<u8>]| {
        let text = joined(lines);
        driver.answers(&text).is_ok_and(|given| given != printed.wanted(&text).as_bytes())
    };
    let lines = shrink(&script.lines, differs);
    let text = joined(&lines);
    let (wanted, given) = (printed.wanted(&text), driver.answers(&text)?);
    let given = String::from_utf8_lossy(&given);
    let (wanted, given) = (by_line(&wanted), by_line(&given));
    println!("the smallest script found, `>` for tab, with the oracle's and the driver's replies:");
    for (index, line) in lines.iter().enumerate() {
        let line = String::from_utf8_lossy(line).replace('\t', ">");
        let given = given.get(index).map_or(["nothing"].as_slice(), Vec::as_slice);
        let wanted = &wanted[index];
        let mark = if wanted == given { "  " } else { "* " };
        println!("{mark}{line}\t=> {}\t{}", wanted[0].replace('\t', ">"), given[0].replace('\t', ">"));
        wanted[1..].iter().filter(|row| !given.contains(row)).for_each(|row| println!("*   the oracle's disk: {row}"));
        given[1..].iter().filter(|row| !wanted.contains(row)).for_each(|row| println!("*   the driver's disk: {row}"));
    }
    given.iter().skip(lines.len()).flatten().for_each(|more| println!("* {more}"));
    Ok(())
}

/// What was printed for each line: the reply, then the rows of the disk.
fn by_line(printed: &str) -> Vec<Vec<&str>> {
    let mut lines: Vec<Vec<&str>> = Vec::new();
    for row in printed.lines() {
        let of_disk = ["left\t", "right\t", "directory\t", "file\t"].iter().any(|word| row.starts_with(word));
        match lines.last_mut() {
            Some(line) if of_disk => line.push(row),
            _ => lines.push(vec![row]),
        }
    }
    lines
}

/// Generates the scripts without a driver and runs each a second time: no panic, the same replies, and the disk keeps its rules; true
/// if so.
pub fn alone(count: u64, seed: u64) -> bool {
    let (begun, mut lines) = (Instant::now(), 0);
    for seed in seed..seed + count {
        let run = panic::catch_unwind(|| {
            let script = script_of(seed);
            (script.lines.len(), disk_rules::broken(&script))
        });
        match run {
            Ok((length, None)) => lines += length,
            Ok((_, Some(broken))) => {
                println!("seed {seed}, {broken}");
                return false;
            }
            Err(_) => {
                println!("seed {seed}: the oracle panicked");
                return false;
            }
        }
    }
    let seconds = begun.elapsed().as_secs_f64();
    println!(
        "{count} scripts, {lines} lines, each run twice: no panic, no difference, the disk's rules kept, {seconds:.1} s"
    );
    true
}

/// The scripts of the cases: every `NAME.in` of the directory.
fn inputs(directory: &Path) -> io::Result<Vec<PathBuf>> {
    let found = fs::read_dir(directory)
        .map_err(|error| io::Error::other(format!("no cases in {}: {error}; see --cases", directory.display())))?;
    let mut inputs: Vec<_> = found.map(|entry| Ok(entry?.path())).collect::<io::Result<_>>()?;
    inputs.retain(|path| path.extension().is_some_and(|extension| extension == "in"));
    inputs.sort();
    Ok(inputs)
}

/// The oracle on each case: its replies are `NAME.out`, and with the disk `NAME.disk` where there is one; true if all come out.
pub fn cases(directory: &Path) -> io::Result<bool> {
    let inputs = inputs(directory)?;
    let mut wrong = 0;
    for input in &inputs {
        let script = fs::read(input)?;
        let run = panic::catch_unwind(AssertUnwindSafe(|| (answers(&script), with_disk(&script))));
        let (replies, disk) = run.unwrap_or_default();
        let disk_wanted = fs::read(input.with_extension("disk")).unwrap_or(disk.clone().into_bytes());
        if fs::read(input.with_extension("out"))? != replies.as_bytes() || disk_wanted != disk.as_bytes() {
            println!("{}: not as expected", input.display());
            wrong += 1;
        }
    }
    println!("{} cases, {wrong} not as expected", inputs.len());
    Ok(wrong == 0)
}

/// The driver on each case: its replies are `NAME.out`, or with the disk `NAME.disk`, the oracle's where there is none; true if all come
/// out.
pub fn cases_with_driver(directory: &Path, command: &str, printed: Printed) -> io::Result<bool> {
    let driver = Driver::new(command);
    let inputs = inputs(directory)?;
    let mut wrong = 0;
    for input in &inputs {
        let script = fs::read(input)?;
        let wanted = match printed {
            Printed::Replies => fs::read(input.with_extension("out"))?,
            Printed::Disks => {
                fs::read(input.with_extension("disk")).unwrap_or_else(|_| with_disk(&script).into_bytes())
            }
        };
        if driver.answers(&script)? != wanted {
            println!("{}: not as expected", input.display());
            wrong += 1;
        }
    }
    println!("{} cases through the driver, {wrong} not as expected", inputs.len());
    Ok(wrong == 0)
}

/// As `oracle --disk` prints it.
fn with_disk(script: &[u8]) -> String {
    let mut oracle = Oracle::new();
    let lines = script.split_inclusive(|byte| *byte == b'\n').map(|line| line.strip_suffix(b"\n").unwrap_or(line));
    let reply = |(index, line)| {
        let reply = oracle.answer(line);
        format!("{}\t{reply}\n{}", index + 1, oracle.disk())
    };
    lines.enumerate().map(reply).collect()
}
