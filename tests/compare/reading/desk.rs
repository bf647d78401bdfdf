//! Reads packages with the library and the reference, and compares answers and
//! dose buffers.

use std::collections::BTreeMap;

use reference::reading::read_for_c;

use super::demand3::{self, Case, Read, EDITIONS};
use crate::bench::{Answer, Bench};
use crate::fence::Fence;
use crate::random::Random;

extern "C" {
    fn station_read(
        edition: u32,
        package: *const u8,
        package_len: usize,
        doses: *mut u8,
        doses_len: usize,
    ) -> u64;
}

/// What a package must give: its doses, oxide, milligrams, lot, or number and place.
pub type Outcome = Result<Vec<[u32; 3]>, (u32, u32)>;

/// At each edition.
pub type Outcomes = [Outcome; EDITIONS.len()];

/// Bytes of a dose in the buffer.
pub const DOSE: usize = 12;

/// Bytes before the dose buffer, which must stay.
const BEFORE: usize = 64;

pub struct Desk<'a> {
    pub bench: &'a mut Bench,
    fence: Fence,
    /// What buffers hold beforehand.
    noise: Vec<u8>,
    readings: usize,
    /// How often two editions had to do with each other in each way.
    pub cases: BTreeMap<(u32, u32, Case), usize>,
    /// A word on the next case, for the report.
    pub note: &'static str,
}

/// Answer and buffer that an outcome means for a buffer that holds this.
fn with_buffer(outcome: &Outcome, before: &[u8]) -> (Answer, Vec<u8>) {
    let mut buffer = before.to_vec();
    let answer = match outcome {
        Err((number, place)) => Answer::new(*number, *place as usize),
        Ok(doses) if buffer.len() / 4 < 3 * doses.len() => Answer::new(24, 3 * doses.len()),
        Ok(doses) => {
            for (four, number) in buffer.chunks_exact_mut(4).zip(doses.iter().flatten()) {
                four.copy_from_slice(&number.to_be_bytes());
            }
            Answer::new(0, doses.len())
        }
    };
    (answer, buffer)
}

impl<'a> Desk<'a> {
    pub fn new(bench: &'a mut Bench) -> Desk<'a> {
        Desk {
            bench,
            fence: Fence::new(),
            noise: Random::new(7).bytes(1 << 19),
            readings: 0,
            cases: BTreeMap::new(),
            note: "no note",
        }
    }

    /// Reads with a buffer of `room` bytes that ends at a page that faults.
    pub fn read(&mut self, edition: u32, room: usize, known: Option<&Outcome>) -> Read {
        self.bench.asks("read", vec![edition.into(), room as u64]);
        let shift = self.readings % 251;
        let lent = &self.noise[shift..shift + BEFORE + room];
        let before = &lent[BEFORE..];

        let mut buffer = before.to_vec();
        let reference = Answer(read_for_c(edition, self.bench.bytes(), &mut buffer));

        let memory = self.fence.last(BEFORE + room);
        memory.copy_from_slice(lent);
        let doses = memory[BEFORE..].as_mut_ptr();
        let length = self.bench.bytes().len();
        let answer = Answer(unsafe { station_read(edition, self.bench.lent, length, doses, room) });
        let (front, after) = memory.split_at(BEFORE);

        let mut wrong = Vec::new();
        if answer != reference {
            wrong.push("answer");
        }
        if after != buffer {
            wrong.push("buffer");
        }
        if answer.number() != 0 && after != before {
            wrong.push("buffer changed by a refusal");
        }
        if front != &lent[..BEFORE] {
            wrong.push("bytes before the buffer");
        }
        let known = known.map(|outcome| with_buffer(outcome, before));
        if let Some((known, buffer)) = &known {
            if *known != answer || buffer != after {
                wrong.push("not what is known");
            }
        }
        if !wrong.is_empty() {
            let known = known.map_or(String::new(), |(known, _)| format!(", known {known}"));
            self.bench.fail(&format!(
                "library {answer}, reference {reference}{known} ({})",
                wrong.join(", ")
            ));
        }
        self.readings += 1;
        self.bench.agree(answer);
        Read {
            edition,
            answer,
            buffer: after.to_vec(),
        }
    }

    /// Reads at each edition, and gives the answers; demand 3 must hold of every two.
    pub fn each(&mut self, room: usize, known: Option<&Outcomes>) -> [Answer; EDITIONS.len()] {
        let shift = self.readings;
        let reads = EDITIONS.map(|edition| {
            // The buffers hold the same beforehand.
            self.readings = shift;
            self.read(
                edition,
                room,
                known.map(|known| &known[edition as usize - 1]),
            )
        });
        let package = self.bench.bytes();
        let book = || &package[reference::find(package, 1, 20001, 7).expect("a book")];
        for [earlier, later] in demand3::pairs(&reads) {
            let Some(case) = demand3::case(earlier, later, book) else {
                self.bench.fail(&format!(
                    "library {} at edition {}, {} at edition {}: demand 3",
                    earlier.answer, earlier.edition, later.answer, later.edition
                ));
            };
            let pair = (earlier.edition, later.edition, case);
            *self.cases.entry(pair).or_default() += 1;
        }
        reads.map(|read| read.answer)
    }

    /// A package and what it must give: read with room, and with any buffer.
    pub fn case(&mut self, random: &mut Random, package: &[u8], known: &Outcomes) {
        self.bench.package(package);
        self.bench
            .note(std::mem::replace(&mut self.note, "no note"));
        let doses = match &known[EDITIONS.len() - 1] {
            Ok(doses) => doses.len(),
            Err(_) => 1,
        };
        let needed = DOSE * doses;
        self.each(needed + random.below(16), Some(known));
        let room = match random.below(5) {
            0 => random.below(needed + 16),
            1 => needed.saturating_sub(1 + random.below(13)),
            2 => needed,
            // Two numbers a dose.
            3 => needed / 3 * 2,
            _ => random.below(7500),
        };
        self.each(room, Some(known));
    }

    /// A package of which nothing is known.
    pub fn unknown(&mut self, random: &mut Random, package: &[u8]) {
        self.bench.package(package);
        let room = random.pick(&[0, 8, 11, 12, 13, 120, 7020, 7040]);
        self.each(room, None);
    }
}

/// Shows both readings, to look into a difference.
pub fn show(package: &[u8], edition: u32, room: usize) {
    let before: Vec<u8> = vec![0xA5; room];
    let mut buffer = before.clone();
    let answer = Answer(read_for_c(edition, package, &mut buffer));
    println!("reference {answer}: {}", numbers(&buffer));

    let lent = Fence::new().lend(package);
    let mut fence = Fence::new();
    let memory = fence.last(room);
    memory.copy_from_slice(&before);
    let doses = memory.as_mut_ptr();
    let answer = Answer(unsafe { station_read(edition, lent, package.len(), doses, room) });
    println!("library   {answer}: {}", numbers(memory));
}

/// The buffer's numbers, up to the last that isn't as it was.
fn numbers(buffer: &[u8]) -> String {
    let mut fours: Vec<&[u8]> = buffer.chunks(4).collect();
    while fours
        .last()
        .is_some_and(|four| four.iter().all(|&byte| byte == 0xA5))
    {
        fours.pop();
    }
    let number = |four: &&[u8]| match <[u8; 4]>::try_from(*four) {
        Ok(four) => u32::from_be_bytes(four).to_string(),
        Err(_) => format!("{four:?}"),
    };
    fours.iter().map(number).collect::<Vec<_>>().join(" ")
}
