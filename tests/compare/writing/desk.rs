//! Writes packages with the library and the reference, and compares answers and buffers.

use reference::writer::{write_for_c, List};

use super::lists::{data, numbers, Lent, HEADER, NAME, SIGNATURE};
use crate::bench::{Answer, Bench};
use crate::fence::Fence;
use crate::random::Random;

extern "C" {
    fn station_write(
        name: *const u8,
        name_len: usize,
        signature: *const u8,
        signature_len: usize,
        signature_data: *const u8,
        signature_data_len: usize,
        header: *const u8,
        header_len: usize,
        header_data: *const u8,
        header_data_len: usize,
        package: *mut u8,
        package_len: usize,
    ) -> u64;
}

/// What must come of a writing: this package, if it is not too large and has room, or 32
/// for this reason.
pub type Outcome = Result<Vec<u8>, &'static str>;

const LIMIT: usize = 65_536;
/// Bytes before the buffer, which must stay.
const BEFORE: usize = 64;

/// An answer, and what the buffer holds then.
pub type Written = (Answer, Vec<u8>);

/// What an outcome means for a buffer that holds this.
fn with_buffer(outcome: &Outcome, before: &[u8]) -> Written {
    let mut buffer = before.to_vec();
    let answer = match outcome {
        Err(_) => Answer::new(32, 0),
        Ok(package) if package.len() > LIMIT => Answer::new(33, 0),
        Ok(package) if package.len() > buffer.len() => Answer::new(34, package.len()),
        Ok(package) => {
            buffer[..package.len()].copy_from_slice(package);
            Answer::new(0, package.len())
        }
    };
    (answer, buffer)
}

fn by_reference(lent: &Lent, buffer: &mut [u8]) -> Answer {
    let list = |structure| List {
        entries: &lent.0[numbers(structure)],
        data: &lent.0[data(structure)],
    };
    let name = &lent.0[NAME];
    Answer(write_for_c(name, list(SIGNATURE), list(HEADER), buffer))
}

/// Each part of what is lent, read-only before a page that faults; so is the buffer,
/// which can be written.
struct Fences {
    parts: [Fence; 5],
    buffer: Fence,
}

impl Fences {
    fn new() -> Fences {
        Fences {
            parts: [0; 5].map(|_| Fence::new()),
            buffer: Fence::new(),
        }
    }

    fn lend(&self, lent: &Lent) -> [(*const u8, usize); 5] {
        std::array::from_fn(|part| {
            let bytes = &lent.0[part];
            (self.parts[part].lend(bytes), bytes.len())
        })
    }
}

fn by_library(parts: &[(*const u8, usize); 5], buffer: &mut [u8]) -> Answer {
    let [name, signature, signature_data, header, header_data] = *parts;
    Answer(unsafe {
        station_write(
            name.0,
            name.1,
            signature.0,
            signature.1,
            signature_data.0,
            signature_data.1,
            header.0,
            header.1,
            header_data.0,
            header_data.1,
            buffer.as_mut_ptr(),
            buffer.len(),
        )
    })
}

/// What is lent, and where buffers are.
pub struct Memory {
    fences: Fences,
    lent: Lent,
    parts: [(*const u8, usize); 5],
    /// What buffers hold beforehand; no byte is zero.
    noise: Vec<u8>,
    writings: usize,
}

impl Memory {
    pub fn new() -> Memory {
        let mut random = Random::new(8);
        let fences = Fences::new();
        let lent = Lent::default();
        Memory {
            parts: fences.lend(&lent),
            fences,
            lent,
            noise: (0..1 << 18).map(|_| random.nonzero_byte()).collect(),
            writings: 0,
        }
    }
}

pub struct Desk<'a> {
    pub bench: &'a mut Bench,
    pub memory: &'a mut Memory,
}

impl Desk<'_> {
    /// What the next writings are made from.
    pub fn lend(&mut self, lent: &Lent) {
        self.bench.case(&lent.to_file());
        self.memory.parts = self.memory.fences.lend(lent);
        self.memory.lent = lent.clone();
    }

    /// Writes into a buffer of `room` bytes that ends at a page that faults.
    pub fn write(&mut self, room: usize, known: Option<&Outcome>) -> Written {
        self.bench.asks("write", vec![room as u64]);
        let memory = &mut *self.memory;
        let shift = memory.writings % 251;
        let around = &memory.noise[shift..shift + BEFORE + room];
        let before = &around[BEFORE..];

        let mut reference = before.to_vec();
        let answer = by_reference(&memory.lent, &mut reference);
        let reference = (answer, reference);

        let fenced = memory.fences.buffer.last(BEFORE + room);
        fenced.copy_from_slice(around);
        let answer = by_library(&memory.parts, &mut fenced[BEFORE..]);
        let (front, after) = fenced.split_at(BEFORE);

        let mut wrong = Vec::new();
        if answer != reference.0 {
            wrong.push("answer");
        }
        if after != reference.1 {
            wrong.push("buffer");
        }
        if answer.number() != 0 && after != before {
            wrong.push("buffer changed by a refusal");
        }
        if front != &around[..BEFORE] {
            wrong.push("bytes before the buffer");
        }
        let known = known.map(|outcome| with_buffer(outcome, before));
        if let Some((known, buffer)) = &known {
            if *known != answer || buffer != after {
                wrong.push("not what is known");
            }
        }
        if !wrong.is_empty() {
            let known = known.map_or(String::new(), |(known, _)| format!(", known {known}"));
            let (reference, wrong) = (reference.0, wrong.join(", "));
            self.bench.fail(&format!(
                "library {answer}, reference {reference}{known} ({wrong})"
            ));
        }
        memory.writings += 1;
        self.bench.agree_writing(answer);
        (answer, after.to_vec())
    }

    /// What must come of these: written with room, and into any buffer.
    pub fn case(&mut self, random: &mut Random, lent: &Lent, known: &Outcome) {
        self.lend(lent);
        if let Err(reason) = known {
            self.bench.note(reason);
        }
        let needed = match known {
            Ok(package) => package.len().min(LIMIT),
            Err(_) => 201 + random.below(300),
        };
        self.write(needed + random.below(40), Some(known));
        let room = match random.below(6) {
            0 => 0,
            1 => needed,
            2 => needed - 1 - random.below(9),
            3 => LIMIT + random.below(9),
            _ => random.below(needed),
        };
        self.write(room, Some(known));
        if let Err(reason) = known {
            self.bench.because(reason);
        }
    }

    /// Lists of which nothing is known.
    pub fn unknown(&mut self, random: &mut Random, lent: &Lent) {
        self.lend(lent);
        let room = random.pick(&[0, 169, 200, 201, 400, 2000]);
        self.write(room, None);
    }
}

/// Shows both writings, to look into a difference.
pub fn show(lent: &Lent, room: usize) {
    println!("name \"{}\"", lent.0[NAME].escape_ascii());
    for (structure, title) in [(SIGNATURE, "signature"), (HEADER, "header")] {
        let (list, data) = (&lent.0[numbers(structure)], &lent.0[data(structure)]);
        println!("{title}: {} bytes, {} of data", list.len(), data.len());
        for numbers in list.chunks_exact(16) {
            let [tag, ty, count, size] =
                [0, 4, 8, 12].map(|at| u32::from_be_bytes(numbers[at..at + 4].try_into().unwrap()));
            println!("  tag {tag}, type {ty}, count {count}, size {size}");
        }
    }
    let mut reference = vec![0xA5; room];
    println!("reference {}", by_reference(lent, &mut reference));
    let mut fences = Fences::new();
    let parts = fences.lend(lent);
    let library = fences.buffer.last(room);
    library.fill(0xA5);
    println!("library   {}", by_library(&parts, library));
    let differ = |at: &usize| reference[*at] != library[*at];
    match (0..room).find(differ) {
        Some(at) => println!(
            "the buffers differ at {at}: {:02X} and {:02X}",
            reference[at], library[at]
        ),
        None => println!("the buffers are equal"),
    }
}
