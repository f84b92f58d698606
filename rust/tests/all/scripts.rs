//! The recorded scripts of `beside/`: its cases, with the disk after each line where that was recorded, and its sample.

use crate::script;
use std::{
    fs,
    path::{Path, PathBuf},
};

fn beside(what: &str) -> PathBuf {
    Path::new(env!("CARGO_MANIFEST_DIR")).join("../beside").join(what)
}

/// Says the first line that differs, not all of them.
fn same(name: &str, said: &str, recorded: &str) {
    let different = said.lines().zip(recorded.lines()).find(|(said, recorded)| said != recorded);
    assert!(different.is_none(), "{name}: {different:?}");
    assert_eq!(said.lines().count(), recorded.lines().count(), "{name}: how many lines");
}

#[test]
fn the_cases() {
    let (mut cases, mut disks) = (0, 0);
    for entry in fs::read_dir(beside("cases")).unwrap() {
        let case = entry.unwrap().path();
        if case.extension().is_none_or(|extension| extension != "in") {
            continue;
        }
        let (name, script) = (case.display().to_string(), fs::read(&case).unwrap());
        same(&name, &script::run(&script, false).text, &fs::read_to_string(case.with_extension("out")).unwrap());
        cases += 1;
        if let Ok(disk) = fs::read_to_string(case.with_extension("disk")) {
            same(&name, &script::run(&script, true).text, &disk);
            disks += 1;
        }
    }
    assert!(cases >= 50 && disks >= 20, "{cases} cases, {disks} disks");
}

#[test]
fn the_sample() {
    let script = fs::read(beside("sample/script.in")).unwrap();
    let replies = script::run(&script, false);
    same("sample", &replies.text, &fs::read_to_string(beside("sample/script.out")).unwrap());
    let lines = replies.text.lines().count() as u64;
    assert!(replies.not_asked * 10 < lines, "{} of {lines} lines did not reach the store", replies.not_asked);
}
