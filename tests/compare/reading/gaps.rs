//! The gap before the header of packages that are accepted otherwise: check 28.

use super::accepted::content;
use super::books::Book;
use super::damage;
use super::desk::Desk;
use super::families::{any, refused};
use super::written::{lists, write};
use crate::content::{bin, Content, SIGNATURE};
use crate::damage as structures;
use crate::random::Random;
use crate::writing::desk::Memory;

pub fn gaps(desk: &mut Desk, random: &mut Random) {
    for length in 0..8 {
        for _ in 0..2 {
            let (content, book) = with_gap(random, length, |random| Book::right(random, 60));
            strays(desk, random, &content, &book);
            every_cut(desk, random, &content, &book);
            rooms(desk, random, &content);
            other_structures(desk, random, &content);
        }
        other_contents(desk, random, length);
    }
    least_gaps(desk, random);
}

/// A content whose package has a gap of so many bytes, with such a book.
fn with_gap(
    random: &mut Random,
    length: usize,
    book: impl Fn(&mut Random) -> Book,
) -> (Content, Book) {
    loop {
        let book = book(random);
        let content = content(random, &book);
        if content.package().gap_place().len() == length {
            return (content, book);
        }
    }
}

/// Each byte alone, two, all: the first decides. With zero bytes alone it is accepted.
fn strays(desk: &mut Desk, random: &mut Random, content: &Content, book: &Book) {
    desk.case(random, &content.bytes(), &book.known);
    let gap = content.package().gap_place();
    for at in 0..gap.len() {
        for value in [1, 0x80, 0xFF, random.nonzero_byte()] {
            for behind in [0, 1, random.byte(), 0xFF] {
                let mut content = content.clone();
                content.gap[at] = value;
                content.gap[at + 1..].fill(behind);
                desk.case(random, &content.bytes(), &refused(28, gap.start + at));
            }
        }
    }
}

/// Cut at each byte around the gap, with and without stray bytes.
fn every_cut(desk: &mut Desk, random: &mut Random, content: &Content, book: &Book) {
    let gap = content.package().gap_place();
    let mut contents = vec![content.clone()];
    for at in 0..gap.len() {
        for behind in [0, random.nonzero_byte()] {
            let mut content = content.clone();
            content.gap[at] = random.nonzero_byte();
            content.gap[at + 1..].fill(behind);
            contents.push(content);
        }
    }
    for content in contents {
        let package = content.package();
        let bytes = package.bytes();
        for length in (gap.start - 4..gap.end + 20).chain([bytes.len() - 1, bytes.len()]) {
            let known = match structures::cut(&package, length) {
                Some((number, place)) => refused(number, place),
                None if length < bytes.len() => refused(16, 1000),
                None => book.known.clone(),
            };
            desk.case(random, &bytes[..length], &known);
        }
    }
}

/// Buffers of any length stay as they are; an edition that isn't goes before.
fn rooms(desk: &mut Desk, random: &mut Random, content: &Content) {
    let gap = content.package().gap_place();
    for at in 0..gap.len() {
        let mut content = content.clone();
        content.gap[at] = random.nonzero_byte();
        desk.bench.package(&content.bytes());
        for room in (0..28).chain([4680, 7019, 7020, 7021, 9999, 65_536, 1 << 18]) {
            desk.each(room, Some(&refused(28, gap.start + at)));
        }
        for edition in [0, 4, 257, 1 << 31, u32::MAX] {
            desk.read(edition, 120, Some(&Err((1, 0))));
        }
    }
}

/// A stray byte together with damages of checks 2, 4 and 6 to 13.
fn other_structures(desk: &mut Desk, random: &mut Random, content: &Content) {
    let package = content.package();
    let gap = package.gap_place();
    if gap.is_empty() {
        return;
    }
    for damage in structures::all(&package, random) {
        if damage.number == 28 || !random.one_in(4) {
            continue;
        }
        let at = random.below(gap.len());
        let mut stray = package.clone();
        stray.gap[at] = random.nonzero_byte();
        let mut bytes = stray.bytes();
        damage.apply(&mut bytes);
        desk.note = damage.what;
        let known = match damage.place < gap.start {
            true => refused(damage.number, damage.place),
            false => refused(28, gap.start + at),
        };
        desk.case(random, &bytes, &known);
    }
    let mut stray = package;
    stray.gap[0] = random.nonzero_byte();
    let mut bytes = stray.bytes();
    for (size, known) in [(65_536, refused(28, gap.start)), (65_537, refused(2, 0))] {
        bytes.resize(size, 0);
        desk.case(random, &bytes, &known);
    }
}

/// A stray byte together with each damage of checks 14 to 18, 23 and 27, and with a wrong
/// book: 28 goes before.
fn other_contents(desk: &mut Desk, random: &mut Random, round: usize) {
    let book = |random: &mut Random| {
        let mut book = Book::right(random, 60);
        match round {
            0 => book.record(0x80, &[]),
            1 => book.record(0x02, &[7]),
            2 => book.record(0x86, &[0; 6]),
            3 => {
                book = Book::of(&[(0, &[0; 4096])]);
                book.known = refused(19, 20_001);
            }
            _ => {}
        }
        book
    };
    let (right, book) = with_gap(random, 1 + round % 7, book);
    desk.case(random, &right.bytes(), &book.known);
    for damage in damage::all(&right, random) {
        let mut content = right.clone();
        damage.apply(&mut content);
        content.gap = [0; 7].map(|_| random.byte() * (random.below(3) as u8).min(1));
        // In another signature the gap may be another.
        let Some(place) = content.package().stray() else {
            continue;
        };
        desk.note = damage.what;
        desk.case(random, &content.bytes(), &refused(28, place));
    }
}

/// The least package behind signatures of 72 lengths: every bit of each byte of the gap.
fn least_gaps(desk: &mut Desk, random: &mut Random) {
    for size in 1..=72 {
        let (_, book) = any(random);
        let mut content = Content::least(&book.bytes, book.weight());
        content.put(SIGNATURE, bin(1002, &random.bytes(size)));
        // Three records, 20 bytes of store before the last one's data.
        let end = 96 + 16 + 48 + 20 + size;
        desk.case(random, &content.bytes(), &book.known);
        for at in 0..end.wrapping_neg() % 8 {
            for bit in 0..8 {
                content.gap = [0; 7];
                content.gap[at] = 1 << bit;
                desk.case(random, &content.bytes(), &refused(28, end + at));
            }
        }
    }
}

/// What the library writes has zero bytes before H, and is refused with any other; cut there
/// it has no header.
pub fn written_gaps(desk: &mut Desk, random: &mut Random) {
    let memory = &mut Memory::new();
    for size in 1..=40 {
        let (mut content, book) = any(random);
        content.put(SIGNATURE, bin(1002, &random.bytes(size)));
        let lists = lists(random, &content);
        let package = write(desk, memory, &lists);
        desk.case(random, &package, &book.known);
        let gap = lists.parts().gap_place();
        for at in gap.clone() {
            for value in [1, 0x80, 0xFF, random.nonzero_byte()] {
                let mut bytes = package.clone();
                bytes[at] = value;
                desk.case(random, &bytes, &refused(28, at));
                desk.case(random, &bytes[..at + 1], &refused(28, at));
                desk.case(random, &bytes[..at], &refused(5, gap.end));
                bytes[at..gap.end].fill(value);
                desk.case(random, &bytes, &refused(28, at));
            }
        }
    }
}
