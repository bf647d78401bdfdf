//! Compares the C calls of libstation.a with the reference, on packages made
//! here (always the same ones) and on those in tests/data.
//!
//!     compare DATA-FOLDER REPORT-FILE [FAMILY]
//!     compare ask PACKAGE STRUCTURE TAG TYPE [ELEMENT]
//!     compare read PACKAGE EDITION BUFFER-LENGTH
//!     compare write REPORT-FILE BUFFER-LENGTH
//!     compare digest FILE BUFFER-LENGTH
//!     compare versions LEFT RIGHT
//!     compare versions REPORT-FILE
//!     compare meets PACKAGE NAME VERSION
//!     compare digests library|reference|makers FILE...
//!     compare messages FOLDER
//!     compare messages FILE COUNT SEED
//!
//! In LEFT, RIGHT, NAME and VERSION \xNN is the byte NN in hex.
//! The reading is compared if `--cfg reading` is set.

mod bench;
#[cfg(reading)]
mod content;
mod damage;
mod digest;
mod families;
mod fence;
mod gaps;
#[cfg(reading)]
mod lines;
mod maker;
mod questions;
mod quoted;
mod random;
#[cfg(reading)]
mod reading;
mod real;
mod repeats;
mod shapes;
mod tags;
mod versions;
mod writing;

use std::collections::BTreeMap;
use std::path::{Path, PathBuf};
use std::time::Instant;

use bench::{show, Bench, Question};
use random::Random;

/// Every answer that the calls have.
#[rustfmt::skip]
const NUMBERS: &[u32] = if cfg!(reading) {
    &[
        0, 1, 2, 3, 4, 5, 6, 7, 8, 9, 10, 11, 12, 13, 14, 15, 16, 17, 18, 19, 20, 21, 22, 23, 24, 25, 26,
        27, 28, 32, 33, 34,
    ]
} else {
    &[0, 2, 3, 4, 5, 6, 7, 8, 9, 10, 11, 12, 13, 25, 26, 28, 32, 33, 34]
};
/// Those of the writer.
const WRITING: [u32; 4] = [0, 32, 33, 34];
/// Those of the digest call.
const DIGEST: [u32; 2] = [0, 34];
/// Those on requirements, success apart: 2 to 13, 25 and 28.
const REQUIREMENTS: [u32; 14] = [2, 3, 4, 5, 6, 7, 8, 9, 10, 11, 12, 13, 25, 28];
const LEAST_COMPARISONS: usize = 100_000;

fn main() {
    let words: Vec<String> = std::env::args().skip(1).collect();
    match &words[..] {
        [ask, package, numbers @ ..] if ask == "ask" => one(package, numbers),
        #[cfg(reading)]
        [read, package, edition, room] if read == "read" => {
            let package = std::fs::read(package).unwrap();
            reading::show(&package, edition.parse().unwrap(), room.parse().unwrap());
        }
        [write, report, room] if write == "write" => {
            writing::show(&std::fs::read(report).unwrap(), room.parse().unwrap());
        }
        [digest, message, room] if digest == "digest" => {
            digest::show(&std::fs::read(message).unwrap(), room.parse().unwrap());
        }
        [versions, words @ ..] if versions == "versions" => versions::show(words),
        [meets, package, name, version] if meets == "meets" => {
            versions::show_meets(&std::fs::read(package).unwrap(), name, version);
        }
        [digests, by, files @ ..] if digests == "digests" => digest::print(by, files),
        [messages, folder] if messages == "messages" => digest::messages(Path::new(folder)),
        [messages, file, count, seed] if messages == "messages" => {
            let (count, seed) = (count.parse().unwrap(), seed.parse().unwrap());
            digest::many(Path::new(file), count, seed);
        }
        [data, report] => all(Path::new(data), PathBuf::from(report)),
        [data, report, family] => {
            let mut bench = Bench::new(PathBuf::from(report), Some(family.clone()));
            run(&mut bench, Path::new(data));
            assert!(bench.packages > 0, "no family {family:?}");
        }
        _ => panic!("compare DATA-FOLDER REPORT-FILE [FAMILY]"),
    }
}

fn one(package: &str, numbers: &[String]) {
    let numbers: Vec<u32> = numbers.iter().map(|word| word.parse().unwrap()).collect();
    let question = Question {
        structure: numbers[0],
        tag: numbers[1],
        ty: numbers[2],
        element: numbers.get(3).copied(),
    };
    show(&std::fs::read(package).unwrap(), question);
}

/// Runs the families; the answer is how many lines of rpm's were compared.
fn run(bench: &mut Bench, data: &Path) -> usize {
    let mut lines = 0;
    if bench.begins("what rpm reads") {
        lines = real::as_rpm_reads(bench, data);
    }
    for (seed, (name, family)) in families::ALL.iter().enumerate() {
        if bench.begins(name) {
            family(bench, &mut Random::new(seed as u64));
        }
    }
    if bench.begins("packages of other writers") {
        real::asked_and_damaged(bench, &mut Random::new(99), data);
    }
    #[cfg(reading)]
    reading::all(bench, data);
    writing::all(bench);
    digest::all(bench);
    if bench.begins("digests that rpm wrote") {
        real::stated_digests(bench, data);
    }
    versions::all(bench, data);
    lines
}

fn all(data: &Path, report: PathBuf) {
    let begun = Instant::now();
    let mut bench = Bench::new(report, None);
    let lines = run(&mut bench, data);

    let seconds = begun.elapsed().as_secs_f64();
    println!(
        "compare: {} answers on {} packages and lists agree, {lines} of them with rpm ({seconds:.1} s)",
        bench.comparisons, bench.packages
    );
    by_number("answers", NUMBERS, &bench.numbers);
    by_number("writings", &WRITING, &bench.writings);
    by_number("digests", &DIGEST, &bench.digests);
    let [older, same, newer] = bench.versions;
    by_name(
        "versions",
        &[("older", older), ("same", same), ("newer", newer)],
    );
    let met = |number, place| *bench.requirements.get(&(number, place)).unwrap_or(&0);
    by_name("requirements", &[("yes", met(0, 1)), ("no", met(0, 0))]);
    by_number(
        "requirements refused",
        &REQUIREMENTS,
        &bench.refused_requirements(),
    );
    for reason in writing::REASONS {
        let count = bench.reasons.get(reason).unwrap_or(&0);
        println!("compare: lists refused with 32, {reason}: {count}");
        assert!(*count > 0, "no list was refused for it");
    }
    assert!(bench.comparisons >= LEAST_COMPARISONS, "too few cases");
}

/// How often each word was the answer; each must have been.
fn by_name(what: &str, counts: &[(&str, usize)]) {
    let shown: Vec<String> = counts
        .iter()
        .map(|(name, count)| format!("{name}: {count}"))
        .collect();
    println!("compare: {what}: {}", shown.join(", "));
    assert!(
        counts.iter().all(|&(_, count)| count > 0),
        "an answer never came up"
    );
}

/// How often each number was the answer; each must have been.
fn by_number(what: &str, all: &[u32], numbers: &BTreeMap<u32, usize>) {
    let count = |number| numbers.get(number).unwrap_or(&0);
    let counts: Vec<String> = all
        .iter()
        .map(|number| format!("{number}: {}", count(number)))
        .collect();
    println!("compare: {what} by number: {}", counts.join(", "));
    let missing = all.iter().find(|number| *count(number) == 0);
    assert!(missing.is_none(), "no case gave the number {missing:?}");
}
