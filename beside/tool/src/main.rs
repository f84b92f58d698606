//! The program `beside`: its command line.

use std::{
    io::{self, Write},
    path::PathBuf,
    process::ExitCode,
};

use beside::{
    Script,
    compare::{self, Printed},
    coverage, promise,
};

const USAGE: &str = "usage:
  beside gen SEED LINES                            prints a script
  beside compare N [--seed S] [--driver COMMAND]   the cases and N scripts through the driver, compared with the oracle;
           [--cases DIRECTORY] [--disks]           without a driver, through the oracle, the scripts twice; with --disks the
                                                   driver prints the disk after each reply, as `oracle --disk` does
  beside coverage N [--seed S]                     how often each answer comes in N scripts
  beside promise N [--seed S]                      N scripts through the oracle, reads and waits beside the promise";

struct Options {
    seed: u64,
    driver: Option<String>,
    cases: PathBuf,
    printed: Printed,
}

impl Options {
    fn parse(mut words: impl Iterator<Item = String>) -> Option<Self> {
        let mut options = Self { seed: 1, driver: None, cases: PathBuf::from("cases"), printed: Printed::Replies };
        while let Some(word) = words.next() {
            if word == "--disks" {
                options.printed = Printed::Disks;
                continue;
            }
            let value = words.next()?;
            match word.as_str() {
                "--seed" => options.seed = value.parse().ok()?,
                "--driver" => options.driver = Some(value),
                "--cases" => options.cases = PathBuf::from(value),
                _ => return None,
            }
        }
        Some(options)
    }
}

fn run() -> io::Result<Option<bool>> {
    let mut words = std::env::args().skip(1);
    let (Some(command), Some(Ok(number))) = (words.next(), words.next().map(|word| word.parse::<u64>())) else {
        return Ok(None);
    };
    if command == "gen" {
        let Some(Ok(lines)) = words.next().map(|word| word.parse()) else {
            return Ok(None);
        };
        io::stdout().write_all(&Script::generate(number, lines).text())?;
        return Ok(Some(true));
    }
    let Some(options) = Options::parse(words) else {
        return Ok(None);
    };
    Ok(match (command.as_str(), options.driver, options.printed) {
        ("promise", None, Printed::Replies) => Some(promise::tried(number, options.seed)),
        ("coverage", None, Printed::Replies) => Some(coverage::print(number, options.seed)),
        ("compare", Some(driver), printed) => {
            let cases = compare::cases_with_driver(&options.cases, &driver, printed)?;
            Some(compare::with_driver(number, options.seed, &driver, printed)? && cases)
        }
        ("compare", None, Printed::Replies) => {
            Some(compare::cases(&options.cases)? && compare::alone(number, options.seed))
        }
        _ => None,
    })
}

fn main() -> io::Result<ExitCode> {
    Ok(match run()? {
        Some(true) => ExitCode::SUCCESS,
        Some(false) => ExitCode::FAILURE,
        None => {
            eprintln!("{USAGE}");
            ExitCode::from(2)
        }
    })
}
