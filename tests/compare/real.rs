//! The packages in tests/data, which other writers made.

use std::ops::Range;
use std::path::{Path, PathBuf};

use crate::bench::{Answer, Bench, Question};
use crate::digest;
use crate::families::change;
use crate::maker::S;
use crate::questions::ask_record;
use crate::random::Random;

/// A line of expected.txt: FILE STRUCTURE TAG TYPE ELEMENT HEX, with "-" as
/// element for a whole entry.
struct Line {
    file: String,
    question: Question,
    bytes: Vec<u8>,
}

impl Line {
    fn parse(line: &str) -> Option<Line> {
        let words: Vec<&str> = line.split(' ').collect();
        let [file, structure, tag, ty, element, hex] = words[..] else {
            return None;
        };
        let element = match element {
            "-" => None,
            number => Some(number.parse().ok()?),
        };
        Some(Line {
            file: file.to_string(),
            question: Question {
                structure: structure.parse().ok()?,
                tag: tag.parse().ok()?,
                ty: ty.parse().ok()?,
                element,
            },
            bytes: unhex(hex)?,
        })
    }
}

fn unhex(hex: &str) -> Option<Vec<u8>> {
    (0..hex.len())
        .step_by(2)
        .map(|at| u8::from_str_radix(hex.get(at..at + 2)?, 16).ok())
        .collect()
}

/// The library must show the very bytes that rpm reads (expected.txt).
pub fn as_rpm_reads(bench: &mut Bench, data: &Path) -> usize {
    let text = std::fs::read_to_string(data.join("expected.txt")).expect("expected.txt");
    let mut package = Vec::new();
    let mut open = String::new();
    let mut lines = 0;
    for line in text.lines().filter(|line| !line.starts_with('#')) {
        let Line {
            file,
            question,
            bytes,
        } = Line::parse(line).unwrap_or_else(|| panic!("expected.txt: {line}"));
        if file != open {
            package = std::fs::read(data.join(&file)).expect("package in tests/data");
            bench.package(&package);
            open = file;
        }
        let Question {
            structure, tag, ty, ..
        } = question;
        let part = match question.element {
            None => reference::find(&package, structure, tag, ty),
            Some(n) => reference::find_element(&package, structure, tag, ty, n),
        };
        let part = part.unwrap_or_else(|refusal| panic!("{line}: {refusal:?}"));
        assert!(
            package[part.clone()] == bytes,
            "other bytes than rpm: {line}"
        );
        bench.ask(question, Some(Answer::new(0, part.start)));
        lines += 1;
    }
    lines
}

/// The packages in tests/data.
pub fn files(data: &Path) -> Vec<PathBuf> {
    let entries = std::fs::read_dir(data).expect("tests/data");
    let mut files: Vec<PathBuf> = entries.map(|entry| entry.unwrap().path()).collect();
    files.retain(|file| file.extension().is_some_and(|end| end == "rpm"));
    files.sort();
    assert!(!files.is_empty(), "no package in tests/data");
    files
}

/// What rpm put into the signature's 1004 is the digest of the bytes from H on.
pub fn stated_digests(bench: &mut Bench, data: &Path) {
    let memory = &mut digest::Memory::new();
    let mut desk = digest::Desk { bench, memory };
    for file in files(data) {
        let package = std::fs::read(file).unwrap();
        let opened = reference::sound(&package).expect("a package");
        let stated = reference::find(&package, 0, 1004, 7).expect("a digest");
        let known = package[stated].try_into().expect("16 bytes");
        desk.bench.package(&package[opened.header_start..]);
        for room in 0..=40 {
            desk.digest(room, known);
        }
    }
}

/// Every record, then the packages with bytes in their gaps, changed and cut off.
pub fn asked_and_damaged(bench: &mut Bench, random: &mut Random, data: &Path) {
    let mut gaps_seen = 0;
    for file in files(data) {
        let right = std::fs::read(file).unwrap();
        let records = records(&right);
        bench.package(&right);
        for &(structure, record) in &records {
            ask_record(bench, random, &right, structure, record);
        }
        for (bytes, number, place) in gaps(&right) {
            bench.package(&bytes);
            for &(structure, record) in [&records[0], &records[records.len() - 1]] {
                let known = Answer::new(number, place);
                ask_known(bench, &right, structure, record, known);
            }
            gaps_seen += usize::from(number == 28);
        }
        for round in 0..600 {
            let mut bytes = right.clone();
            if round % 3 == 0 {
                bytes.truncate(random.below(right.len()));
            } else {
                change(random, &mut bytes[..right.len() * 3 / 4]);
            }
            bench.package(&bytes);
            let (structure, record) = random.pick(&records);
            ask_record(bench, random, &right, structure, record);
        }
    }
    assert!(gaps_seen > 0, "no package in tests/data has a gap");
}

fn number(bytes: &[u8], at: usize) -> usize {
    u32::from_be_bytes(bytes[at..at + 4].try_into().unwrap()) as usize
}

/// From the signature's end to H.
fn gap(bytes: &[u8]) -> Range<usize> {
    let end = S + 16 + 16 * number(bytes, S + 8) + number(bytes, S + 12);
    end..end.next_multiple_of(8)
}

/// Structure and file offset of every index record, right or wrong.
fn records(bytes: &[u8]) -> Vec<(u32, usize)> {
    let mut places = Vec::new();
    for (structure, start) in [(0, S), (1, gap(bytes).end)] {
        let count = number(bytes, start + 8);
        places.extend((0..count).map(|n| (structure, start + 16 + 16 * n)));
    }
    places
}

/// Asks for the entry of a record, and for its first element.
fn ask_known(bench: &mut Bench, bytes: &[u8], structure: u32, record: usize, known: Answer) {
    let question = Question {
        structure,
        tag: number(bytes, record) as u32,
        ty: number(bytes, record + 4) as u32,
        element: Some(0),
    };
    bench.ask_both(question, Some(known));
}

/// A right package with stray bytes in its gap and cut off there, and what each must give.
pub fn gaps(right: &[u8]) -> Vec<(Vec<u8>, u32, usize)> {
    let gap = gap(right);
    let mut made = Vec::new();
    for length in gap.start..=gap.end {
        made.push((right[..length].to_vec(), 5, gap.end));
    }
    for at in gap.clone() {
        for value in [1, 0x80, 0xFF] {
            let mut bytes = right.to_vec();
            bytes[at] = value;
            for length in at + 1..=gap.end {
                made.push((bytes[..length].to_vec(), 28, at));
            }
            made.push((bytes.clone(), 28, at));
            // The first of several.
            bytes[at..gap.end].fill(value);
            made.push((bytes, 28, at));
        }
    }
    made
}
