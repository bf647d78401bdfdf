//! The target: one input, put before the library and the reference.

use std::path::PathBuf;

use crate::bench::{Answer, Bench};
use crate::digest;
use crate::given;
use crate::input::{self, Asked};
use crate::maker::{md5::md5, S};
use crate::questions::ask_record;
use crate::random::Random;
use crate::reading::demand3::{self, EDITIONS};
use crate::reading::desk::{Desk, DOSE};
use crate::required;
use crate::versions::desk::{Desk as VersionDesk, Memory as VersionMemory};
use crate::versions::texts::Text;
use crate::writing::desk::{Desk as WritingDesk, Memory};
use crate::writing::lists::Lent;
use crate::writing::round_trip::round_trip;

/// Room for any book's doses.
const ROOM: usize = 585 * DOSE;
/// How long one input may take, in seconds.
const LIMIT: u32 = 20;

/// Entries times bytes of a package that goes the round trip, at most.
const ROUND_TRIP: usize = 1 << 18;

/// Who answered: a reading at each edition, at another, a look-up, a writing, a digest, a
/// requirement (1 if it is met, 0 if not), a comparison of versions.
#[rustfmt::skip]
pub const ASKED: [&str; 9] = [
    "edition 1", "edition 2", "edition 3", "other editions", "look-ups", "writings", "digests",
    "requirements", "versions",
];
const OTHER_EDITION: usize = EDITIONS.len();
const LOOK_UP: usize = 4;
const WRITING: usize = 5;
const DIGEST: usize = 6;
const REQUIREMENT: usize = 7;
const VERSION: usize = 8;
const NUMBERS: usize = 35;
const PLACES: usize = 256;
/// How many sorts of answer are told apart.
pub const SORTS: usize = ASKED.len() * NUMBERS * PLACES;

pub struct Target {
    desk: Desk<'static>,
    memory: Memory,
    digests: digest::Memory,
    versions: VersionMemory,
    /// How many packages were written, read and written again.
    round_trips: usize,
    /// How often each number was the answer, by who answered.
    pub numbers: [[usize; NUMBERS]; ASKED.len()],
    /// The sorts of answer that the last input got; not those of writings, digests and
    /// versions.
    pub sorts: Vec<usize>,
}

/// Answers of one sort have the same number, and places that are much alike: near
/// ones for 5 to 13, as far from H for 28, single ones where places say more.
fn sort(who: usize, answer: Answer) -> usize {
    let place = answer.place() as usize;
    let place = match answer.number() {
        _ if who == LOOK_UP || who == REQUIREMENT => 0,
        3 => 0,
        5..=13 => place / 128,
        14..=18 | 27 => place % 251,
        28 => place % 8,
        _ => place,
    };
    (who * NUMBERS + answer.number() as usize) * PLACES + place.min(PLACES - 1)
}

impl Target {
    /// `report` is where a package that makes a difference is written; `run` names
    /// the run in the report.
    pub fn new(report: PathBuf, run: String) -> Target {
        demand3::try_out();
        // They live as long as the program.
        let bench = Box::leak(Box::new(Bench::new(report, None)));
        bench.begins(Box::leak(run.into_boxed_str()));
        Target {
            desk: Desk::new(bench),
            memory: Memory::new(),
            digests: digest::Memory::new(),
            versions: VersionMemory::new(),
            round_trips: 0,
            numbers: [[0; NUMBERS]; ASKED.len()],
            sorts: Vec::new(),
        }
    }

    /// Reads at each edition with room and with the asked buffer, and at the
    /// asked edition; asks for the package's digest; looks up what is asked and what stands in
    /// the index, and what is required; writes what the input gives.
    /// A difference ends the program.
    pub fn run(&mut self, bytes: &[u8]) -> [Answer; EDITIONS.len()] {
        let asked = Asked::of(bytes);
        let package = input::package(bytes);
        self.sorts.clear();
        self.desk.bench.limit(LIMIT);
        self.desk.bench.counting = true;
        self.desk.bench.package(&package);

        let answers = self.desk.each(ROOM, None);
        self.note_each(answers);
        let accepted = answers.iter().filter(|answer| answer.number() == 0);
        let doses = accepted.map(|answer| answer.place()).max().unwrap_or(1);
        let room = asked.room(DOSE * doses as usize);
        let again = self.desk.each(room, None);
        self.note_each(again);
        if !EDITIONS.contains(&asked.edition) {
            let read = self.desk.read(asked.edition, room, None);
            self.note(OTHER_EDITION, read.answer);
        }

        self.digest(&asked, &package);

        let answer = self.desk.bench.ask_both(asked.question, None);
        self.note(LOOK_UP, answer);
        let mut random = Random::new(asked.seed);
        for (structure, start) in starts(&package) {
            if let Some(record) = any_record(&mut random, &package, start) {
                let bench = &mut self.desk.bench;
                let answer = ask_record(bench, &mut random, &package, structure, record);
                self.note(LOOK_UP, answer);
            }
        }
        self.requirements(&package);
        self.write_all(&asked, &package);
        answers
    }

    /// The package's digest, in a buffer of a length near 16.
    fn digest(&mut self, asked: &Asked, package: &[u8]) {
        let bench = &mut *self.desk.bench;
        let memory = &mut self.digests;
        let mut desk = digest::Desk { bench, memory };
        let answer = desk.digest(asked.room(16), md5(package));
        self.note(DIGEST, answer);
    }

    /// Asks for a required name with the version beside it and with another, and for another
    /// name; compares versions.
    fn requirements(&mut self, package: &[u8]) {
        let random = &mut Random::new(input::sum(package));
        let asked = required::of_package(package, random);
        let bench = &mut *self.desk.bench;
        let memory = &mut self.versions;
        let mut desk = VersionDesk { bench, memory };
        let met = [
            desk.meets(&asked.name, &asked.version, None),
            desk.meets(&asked.name, &asked.other_version, None),
            desk.meets(&asked.other_name, &asked.version, None),
        ];
        desk.bench.counting = false;
        let [version, other, third] =
            [&asked.version, &asked.other_version, &asked.third].map(|text| Text::of(text));
        let orders = [desk.pair(&version, &other), desk.against(&version, &third)];
        for answer in met {
            let counted = match answer.number() {
                0 => Answer::new(answer.place(), 0),
                _ => answer,
            };
            self.note(REQUIREMENT, counted);
        }
        for order in orders {
            self.note(VERSION, Answer::new(order, 0));
        }
    }

    /// Writes the lists of a package, the same with one thing otherwise, and others.
    fn write_all(&mut self, asked: &Asked, package: &[u8]) {
        self.desk.bench.counting = false;
        let random = &mut Random::new(input::sum(package));
        let lists = given::of_package(package);
        let length = self.write(asked, random, &lists.lent());
        let lent = given::otherwise(lists.clone(), random);
        self.write(asked, random, &lent);
        let lent = match random.below(32) {
            0 => given::many(lists, random),
            1 | 2 => given::large(lists, length, random),
            _ => given::slices(package, lists.name, random),
        };
        self.write(asked, random, &lent);
    }

    /// Writes into no buffer, which says how long the package is, and into the asked
    /// one. What is written is read; half of it goes the round trip.
    fn write(&mut self, asked: &Asked, random: &mut Random, lent: &Lent) -> usize {
        let bench = &mut *self.desk.bench;
        let memory = &mut self.memory;
        let mut desk = WritingDesk { bench, memory };
        desk.lend(lent);
        let (first, _) = desk.write(0, None);
        let length = first.place() as usize;
        let (second, buffer) = desk.write(asked.room(length), None);
        if first.number() == 34 && random.one_in(2) {
            let lists = given::lists(lent);
            let entries: usize = lists.entries.iter().map(Vec::len).sum();
            if entries * length <= ROUND_TRIP {
                round_trip(&mut desk, random, &lists);
                self.round_trips += 1;
            }
        }
        if second.number() == 0 {
            self.read_written(&buffer[..length]);
        }
        self.note(WRITING, first);
        self.note(WRITING, second);
        length
    }

    /// A written package passes checks 2 to 13, 16, 27 and 28.
    fn read_written(&mut self, package: &[u8]) {
        self.desk.bench.package(package);
        for answer in self.desk.each(ROOM, None) {
            if matches!(answer.number(), 2..=13 | 16 | 27 | 28) {
                let difference = format!("library {answer}: what it wrote");
                self.desk.bench.fail(&difference);
            }
        }
    }

    fn note(&mut self, who: usize, answer: Answer) {
        self.numbers[who][answer.number() as usize] += 1;
        if who < WRITING || who == REQUIREMENT {
            self.sorts.push(sort(who, answer));
        }
    }

    fn note_each(&mut self, answers: [Answer; EDITIONS.len()]) {
        for (who, answer) in answers.into_iter().enumerate() {
            self.note(who, answer);
        }
    }

    /// Counts answers anew.
    pub fn forget(&mut self) {
        self.numbers = [[0; NUMBERS]; ASKED.len()];
        self.round_trips = 0;
    }

    /// Single answers that were compared.
    pub fn comparisons(&self) -> usize {
        self.desk.bench.comparisons
    }

    /// How often each number came up; a line for each of `ASKED`.
    pub fn summary(&self) -> String {
        let mut lines = String::new();
        for (who, numbers) in ASKED.iter().zip(&self.numbers) {
            let seen = numbers.iter().enumerate().filter(|(_, &count)| count > 0);
            let seen: Vec<String> = seen.map(|(n, count)| format!("{n}: {count}")).collect();
            lines += &format!("fuzz: answers, {who}: {}\n", seen.join(", "));
        }
        let writings: usize = self.numbers[WRITING].iter().sum();
        let trips = self.round_trips;
        lines + &format!("fuzz: {writings} answers to writings, {trips} round trips\n")
    }
}

fn number(bytes: &[u8], at: usize) -> usize {
    let four = bytes.get(at..at + 4).unwrap_or(&[0; 4]);
    u32::from_be_bytes(four.try_into().unwrap()) as usize
}

/// The numbers of the two structures, and where they start.
fn starts(package: &[u8]) -> [(u32, usize); 2] {
    let end = S + 16 + 16 * number(package, S + 8) + number(package, S + 12);
    [(0, S), (1, end.next_multiple_of(8))]
}

/// The place of one of a structure's index records.
fn any_record(random: &mut Random, package: &[u8], start: usize) -> Option<usize> {
    let nindex = number(package, start + 8).min(512);
    let record = start + 16 + 16 * random.below(nindex.max(1));
    (record + 16 <= package.len()).then_some(record)
}
