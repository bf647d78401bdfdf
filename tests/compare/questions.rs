//! What is asked of a package.

use crate::bench::{Answer, Bench, Question};
use crate::random::Random;
use crate::shapes::{Known, Shape, LAWFUL};

/// Values for any field: around limits, and where 32 bits end.
#[rustfmt::skip]
pub const EXTREMES: [u32; 36] = [
    0, 1, 2, 3, 4, 5, 6, 7, 8, 9, 10, 15, 16, 17, 255, 256, 257, 511, 512, 513,
    65_535, 65_536, 65_537, 1 << 28, 1 << 29, 1 << 30, (1 << 30) + 1,
    (1 << 31) - 1, 1 << 31, (1 << 31) + 1,
    u32::MAX - 16, u32::MAX - 7, u32::MAX - 3, u32::MAX - 2, u32::MAX - 1, u32::MAX,
];

pub fn question(entry: &Known, element: u32) -> Question {
    Question {
        structure: entry.structure,
        tag: entry.tag,
        ty: entry.ty,
        element: Some(element),
    }
}

/// All that can be asked of an entry of a right package.
pub fn ask_entry(bench: &mut Bench, random: &mut Random, entry: &Known) {
    let Known {
        structure,
        ref elements,
        ..
    } = *entry;
    let count = elements.len() as u32;
    let none = Some(Answer::new(25, 0));
    let beyond = Some(Answer::new(26, 0));
    let any = random.below(elements.len()) as u32;
    for element in [0, any, count - 1] {
        let place = elements[element as usize];
        bench.ask(question(entry, element), Some(Answer::new(0, place)));
    }
    let extreme = random.pick(&EXTREMES).max(count);
    for element in [count, count + 1, extreme, u32::MAX] {
        bench.ask(question(entry, element), beyond);
    }
    let first = question(entry, 0);
    let numbers = match structure {
        0 => [0; 4],
        _ => [1, 2, 1 << 31, u32::MAX],
    };
    for structure in numbers {
        let asked = Question { structure, ..first };
        bench.ask_both(asked, Some(Answer::new(0, elements[0])));
    }
    for ty in (0..11).chain([entry.ty + 256, entry.ty | 1 << 31, u32::MAX]) {
        if ty != entry.ty && random.one_in(3) {
            bench.ask_both(Question { ty, ..first }, none);
        }
    }
    let structure = structure ^ 1;
    bench.ask_both(Question { structure, ..first }, None);
}

/// Tags that the package may or may not have.
pub fn ask_tags(bench: &mut Bench, random: &mut Random) {
    for structure in [0, 1, random.number()] {
        let tag = random.pick(&[0, 1, 62, 1000, 1001, 20_001, 1 << 31, u32::MAX]);
        let ty = random.pick(&LAWFUL);
        let element = Some(random.below(3) as u32);
        let question = Question {
            structure,
            tag,
            ty,
            element,
        };
        bench.ask_both(question, None);
    }
}

/// A refused package: any question gets the same answer.
pub fn ask_refused(
    bench: &mut Bench,
    random: &mut Random,
    shape: &Shape,
    number: u32,
    place: usize,
) {
    let entry = &shape.known[random.below(shape.known.len())];
    let element = random.below(entry.elements.len() + 1) as u32;
    bench.ask_both(question(entry, element), Some(Answer::new(number, place)));
}

/// A package that may be right: a few entries, nothing known.
pub fn ask_some(bench: &mut Bench, random: &mut Random, shape: &Shape) {
    for _ in 0..2 {
        let entry = &shape.known[random.below(shape.known.len())];
        let element = random.below(entry.elements.len() + 1) as u32;
        bench.ask_both(question(entry, element), None);
    }
}

/// Asks for the tag and type that stand in a record, right or wrong.
pub fn ask_record(
    bench: &mut Bench,
    random: &mut Random,
    bytes: &[u8],
    structure: u32,
    record: usize,
) -> Answer {
    let number = |at: usize| u32::from_be_bytes(bytes[at..at + 4].try_into().unwrap());
    let (tag, ty, count) = (number(record), number(record + 4), number(record + 12));
    let elements = [0, count.wrapping_sub(1), count, random.number()];
    let element = Some(random.pick(&elements));
    let question = Question {
        structure,
        tag,
        ty,
        element,
    };
    bench.ask_both(question, None)
}
