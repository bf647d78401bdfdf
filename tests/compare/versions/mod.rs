//! `station_compare` and `station_meets` against the reference, and against what the maker
//! of texts and packages knows.

pub mod desk;
mod families;
mod meets;
pub mod requirements;
pub mod texts;
mod vectors;

use std::path::Path;

use crate::bench::Bench;
use crate::quoted;
use crate::random::Random;
use crate::real;
use desk::{Desk, Memory};
use texts::Text;

/// Runs the families. The vectors are in a folder beside the data's.
pub fn all(bench: &mut Bench, data: &Path) {
    let memory = &mut Memory::new();
    let mut desk = Desk { bench, memory };
    if desk.bench.begins("version vectors") {
        let file = data.with_file_name("vectors").join("versions.txt");
        held_to(&mut desk, &std::fs::read_to_string(file).expect("vectors"));
    }
    let families = families::ALL.iter().chain(&meets::ALL);
    for (seed, (name, family)) in families.enumerate() {
        if desk.bench.begins(name) {
            family(&mut desk, &mut Random::new(500 + seed as u64));
        }
    }
    if desk.bench.begins("requirements of other writers") {
        for file in real::files(data) {
            let package = std::fs::read(file).unwrap();
            meets::of_other_writers(&mut desk, &mut Random::new(599), &package);
        }
    }
}

/// The least number of vectors.
const VECTORS: usize = 100;

/// Each vector, both ways round.
fn held_to(desk: &mut Desk, file: &str) {
    let vectors = vectors::all(file);
    assert!(vectors.len() >= VECTORS, "too few vectors");
    for vector in vectors {
        let [left, right] = [&vector.left, &vector.right].map(|text| Text::of(text));
        assert!(left.order(&right) == vector.order, "the makers' order");
        desk.pair(&left, &right);
    }
}

/// Shows how two texts, as words or as a report's file has them, compare.
pub fn show(words: &[String]) {
    match words {
        [file] => {
            let file = std::fs::read(file).unwrap();
            let [left, right] = desk::of_file(&file);
            desk::show(left, right);
        }
        [left, right] => {
            let [left, right] = [left, right].map(|word| quoted::unquoted(word).expect("a text"));
            desk::show(&left, &right);
        }
        _ => panic!("compare versions REPORT-FILE or LEFT RIGHT"),
    }
}

/// Shows whether a version meets what a package requires of a name.
pub fn show_meets(package: &[u8], name: &str, version: &str) {
    let [name, version] = [name, version].map(|word| quoted::unquoted(word).expect("a text"));
    desk::show_meets(package, &name, &version);
}
