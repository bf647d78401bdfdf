//! Lots, and books that some editions read and others don't.

use super::accepted::content;
use super::books::{dose, right_dose, with_lot, Book};
use super::damage;
use super::desk::{Desk, DOSE};
use super::families::read_book;
use crate::content::Content;
use crate::questions::EXTREMES;
use crate::random::Random;

const PLAIN: u8 = 0x86;
const TOLERATED: u8 = 0x98;
const WITH_LOT: u8 = 0xAA;

pub fn lots(desk: &mut Desk, random: &mut Random) {
    every_lot(desk, random);
    lots_in_a_row(desk, random);
    orders_of_kinds(desk, random);
    lots_like_records(desk, random);
    records_like_lots(desk, random);
    places(desk, random);
    short_bodies(desk, random);
    rooms(desk, random);
}

/// A right record of a weighed kind; what is free in it is random.
fn weighed(random: &mut Random, book: &mut Book, kind: u8) {
    let (oxide, milligrams) = right_dose(random);
    let free = usize::from(kind % 16) - 6;
    let body = [dose(oxide, milligrams), random.bytes(free)].concat();
    book.record(kind, &body);
}

/// Extreme lots, each byte alone, each bit alone, bytes that all differ.
fn every_lot(desk: &mut Desk, random: &mut Random) {
    let mut lots = EXTREMES.to_vec();
    lots.extend([
        0,
        1,
        0x0102_0304,
        0x0403_0201,
        0xF1E2_D3C4,
        u32::MAX - 1,
        u32::MAX,
    ]);
    lots.extend((0..32).map(|bit| 1 << bit));
    lots.extend((0..4).map(|byte| 0xFF << (8 * byte)));
    lots.extend((0..100).map(|_| random.number()));
    for lot in lots {
        for (oxide, milligrams) in [(27, 1250), (1, 1), (999, 5_000_000), right_dose(random)] {
            let book = Book::of(&[(WITH_LOT, &with_lot(oxide, milligrams, lot))]);
            read_book(desk, random, &book);
        }
    }
}

/// Up to 372 records, each with a lot of its own, of one oxide or of many.
fn lots_in_a_row(desk: &mut Desk, random: &mut Random) {
    for count in (1..20).chain([100, 255, 256, 257, 371, 372]) {
        for round in 0..3 {
            let mut book = Book::new();
            for n in 0..count {
                let body = match round {
                    0 => with_lot(27, 1250, 0x0A0B_0C00 + n),
                    1 => with_lot(1 + n, 5_000_000 - n, u32::MAX - n),
                    _ => with_lot(27, 1 + n, random.number()),
                };
                book.record(WITH_LOT, &body);
            }
            read_book(desk, random, &book);
        }
    }
}

/// Up to five weighed records in every order of kinds, with remarks between them or not:
/// each has its own lot, or 0.
fn orders_of_kinds(desk: &mut Desk, random: &mut Random) {
    let kinds = [PLAIN, TOLERATED, WITH_LOT];
    for length in 1..=5 {
        for number in 0..3usize.pow(length) {
            for remarks in [false, true] {
                let mut book = Book::new();
                for at in 0..length {
                    if remarks && random.one_in(2) {
                        book.right_record(random, &[]);
                    }
                    weighed(random, &mut book, kinds[number / 3usize.pow(at) % 3]);
                }
                read_book(desk, random, &book);
            }
        }
    }
}

/// Lots whose bytes could be records, with what they would need behind them.
fn lots_like_records(desk: &mut Desk, random: &mut Random) {
    let fronts: [[u8; 4]; 10] = [
        [0x86, 0, 27, 0],
        [0, 0x86, 0, 27],
        [0, 0, 0, 0x86],
        [0x98, 0, 27, 0],
        [0xAA, 0, 27, 0],
        [0, 0, 0, 0xAA],
        [0x80, 0x80, 0x80, 0x80],
        [0x02, 0, 7, 0x80],
        [0x03, 0, 0, 0],
        [0x0F, 0x7F, 0xFF, 0x96],
    ];
    for lot in fronts {
        let lot = u32::from_be_bytes(lot);
        for kind in [
            None,
            Some(PLAIN),
            Some(TOLERATED),
            Some(WITH_LOT),
            Some(0x00),
        ] {
            for front in [&[][..], &[0x00], &[0x02, 0, 7]] {
                let mut book = Book::new();
                if let [kind, body @ ..] = front {
                    book.record(*kind, body);
                }
                book.record(WITH_LOT, &with_lot(27, 1250, lot));
                match kind {
                    Some(0x00) => book.record(0x00, &[]),
                    Some(kind) => weighed(random, &mut book, kind),
                    None => {}
                }
                read_book(desk, random, &book);
            }
        }
    }
}

/// Remarks, tolerances, and what stands behind a dose: none of it is a lot.
fn records_like_lots(desk: &mut Desk, random: &mut Random) {
    let lot = with_lot(27, 1250, 0x0102_0304);
    let inside = [&[WITH_LOT][..], &lot, &[WITH_LOT; 4]].concat();
    for free in [[0xAA, 0xAA], [0x01, 0x02], [0xFF, 0xFF], [0, 0]] {
        let tolerated = [&dose(27, 1250)[..], &free].concat();
        let records: [(u8, &[u8]); 4] = [
            (TOLERATED, &tolerated),
            (0x7F, &inside[..15]),
            (PLAIN, &dose(1, 1)),
            (0x14, &lot[6..]),
        ];
        for first in records {
            for second in records {
                read_book(desk, random, &Book::of(&[first, second]));
                read_book(desk, random, &Book::of(&[first, (WITH_LOT, &lot), second]));
                read_book(desk, random, &Book::of(&[(WITH_LOT, &lot), first, second]));
            }
        }
    }
}

/// A lot at many places of a book, up to its last bytes.
fn places(desk: &mut Desk, random: &mut Random) {
    for place in (0..20)
        .chain(250..260)
        .chain([1000, 2047, 2048, 4084, 4085])
    {
        let mut book = Book::new();
        for _ in 0..place {
            book.record(0, &[]);
        }
        weighed(random, &mut book, WITH_LOT);
        read_book(desk, random, &book);
        let content = content(random, &book);
        desk.case(random, &content.bytes(), &book.known);
    }
}

/// Bodies of every length below 10, alone and behind others.
fn short_bodies(desk: &mut Desk, random: &mut Random) {
    let body = with_lot(27, 1250, random.number());
    for kind in [None, Some(PLAIN), Some(TOLERATED), Some(WITH_LOT)] {
        for length in 0..body.len() {
            let mut book = Book::new();
            if let Some(kind) = kind {
                weighed(random, &mut book, kind);
            }
            book.record(WITH_LOT, &body[..length]);
            read_book(desk, random, &book);
        }
    }
}

/// Buffers of every length up to what is needed, and some bytes more.
fn rooms(desk: &mut Desk, random: &mut Random) {
    for doses in 0..8 {
        for _ in 0..3 {
            let mut book = Book::of(&[(0x02, &[0, 7])]);
            for _ in 0..doses {
                let kind = random.pick(&[PLAIN, TOLERATED, WITH_LOT, WITH_LOT]);
                weighed(random, &mut book, kind);
            }
            let content = Content::least(&book.bytes, book.weight());
            desk.bench.package(&content.bytes());
            for room in 0..DOSE * (doses + 2) {
                desk.each(room, Some(&book.known));
            }
        }
    }
}

/// Kinds that no edition knows; some differ from a known one in one bit.
const UNKNOWN: [u8; 10] = [0x80, 0x8A, 0x96, 0xA6, 0xA8, 0xAB, 0xBA, 0xEA, 0xFA, 0xFF];

/// A book of these weighed kinds, in any order, with remarks.
fn of_kinds(random: &mut Random, kinds: &[u8]) -> Book {
    let mut book = Book::new();
    let mut kinds = kinds.to_vec();
    random.shuffle(&mut kinds);
    for kind in kinds {
        if random.one_in(2) {
            book.right_record(random, &[]);
        }
        match UNKNOWN.contains(&kind) {
            true => book.record(kind, &random.bytes(usize::from(kind % 16))),
            false => weighed(random, &mut book, kind),
        }
    }
    book.record(0, &[]);
    book
}

/// Books of every set of weighed kinds, some with a wrong record before, between or behind.
fn mixed_books(random: &mut Random) -> Vec<Book> {
    let mut books = Vec::new();
    for set in 0..8 {
        let known = [PLAIN, TOLERATED, WITH_LOT];
        let kinds: Vec<u8> = (0..3)
            .filter(|n| set >> n & 1 == 1)
            .map(|n| known[n])
            .collect();
        books.push(of_kinds(random, &kinds));
        let twice = [&kinds[..], &kinds].concat();
        books.push(of_kinds(random, &twice));
        for kind in UNKNOWN {
            books.push(of_kinds(random, &[&kinds[..], &[kind]].concat()));
        }
        for kind in known {
            for wrong in [[0, 1], [1000, 1], [1, 0], [1, 5_000_001]] {
                let free = usize::from(kind % 16) - 6;
                let body = [dose(wrong[0], wrong[1]), random.bytes(free)].concat();
                let mut book = of_kinds(random, &kinds);
                book.record(kind, &body);
                let behind = random.pick(&known);
                weighed(random, &mut book, behind);
                books.push(book);
            }
            let mut book = of_kinds(random, &kinds);
            book.record(kind, &random.bytes(usize::from(kind % 16) - 1));
            books.push(book);
        }
    }
    books
}

/// Each such book with its batch weight right, absent, of every other type and count and of
/// other sums, alone and together with other damages; with any room.
pub fn two_editions(desk: &mut Desk, random: &mut Random) {
    for book in mixed_books(random) {
        let right = content(random, &book);
        desk.case(random, &right.bytes(), &book.known);
        let all = damage::all(&right, random);
        let (of_weight, others): (Vec<_>, Vec<_>) =
            all.into_iter().partition(|damage| damage.is_of_weight());
        for damage in &of_weight {
            let mut content = right.clone();
            damage.apply(&mut content);
            desk.note = damage.what;
            let known = damage::outcome(&book, &content, &[damage]);
            desk.case(random, &content.bytes(), &known);
            let other = &others[random.below(others.len())];
            if damage.beside(other) {
                other.apply(&mut content);
                desk.note = other.what;
                let known = damage::outcome(&book, &content, &[damage, other]);
                desk.case(random, &content.bytes(), &known);
            }
        }
        for _ in 0..20 {
            let damage = &others[random.below(others.len())];
            let mut content = right.clone();
            damage.apply(&mut content);
            desk.note = damage.what;
            let known = damage::outcome(&book, &content, &[damage]);
            desk.case(random, &content.bytes(), &known);
        }
    }
}
