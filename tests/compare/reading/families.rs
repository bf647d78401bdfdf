//! The cases of the reading, family by family.

use std::path::Path;

use super::accepted::{content, fill};
use super::books::{dose, length, right_dose, with_lot, Book};
use super::damage;
use super::demand3::EDITIONS;
use super::desk::{Desk, Outcomes, DOSE};
use super::digests::digests;
use super::gaps::{gaps, written_gaps};
use super::locales::locales;
use super::lots::{lots, two_editions};
use super::repeats::repeats;
use super::written::written;
use crate::content::{bin, words, Content, HEADER, SIGNATURE};
use crate::damage as structures;
use crate::families::change;
use crate::fence::ROOM;
use crate::maker::repair_digest;
use crate::questions::EXTREMES;
use crate::random::Random;
use crate::real;

/// All families with their names, in the order in which they run.
pub const ALL: [(&str, fn(&mut Desk, &mut Random)); 24] = [
    ("accepted packages", accepted),
    ("accepted packages of many records", many_records),
    ("sizes of accepted packages", sizes),
    ("editions", editions),
    ("dose buffers", rooms),
    ("one damage to an accepted package", each_damage),
    ("two damages to an accepted package", pairs_of_damages),
    ("damaged in structure and content", damaged_twice),
    ("damaged structures", damaged_structures),
    ("cut packages", cuts),
    ("kinds", kinds),
    ("oxides and milligrams", wrong_records),
    ("lengths of books", book_lengths),
    ("random books", any_books),
    ("changed bytes", changed_bytes),
    ("extreme words", extreme_fields),
    ("locales", locales),
    ("digests of packages", digests),
    ("books that were written", written),
    ("repeated tags of accepted packages", repeats),
    ("gaps of accepted packages", gaps),
    ("gaps of written packages", written_gaps),
    ("lots", lots),
    ("two editions", two_editions),
];

#[rustfmt::skip]
const OTHER_EDITIONS: [u32; 24] = [
    0, 4, 5, 6, 7, 8, 255, 256, 257, 258, 259, 65_536, 65_537, 65_538, 65_539, 1 << 24, (1 << 24) + 3,
    (1 << 31) - 1, 1 << 31, (1 << 31) + 1, (1 << 31) + 2, (1 << 31) + 3, u32::MAX - 1, u32::MAX,
];

/// An accepted content of any shape, and its book.
pub fn any(random: &mut Random) -> (Content, Book) {
    let most = random.pick(&[16, 30, 30, 120, 400]);
    let book = Book::right(random, most);
    (content(random, &book), book)
}

/// All editions refuse alike.
pub fn refused(number: u32, place: usize) -> Outcomes {
    [(); EDITIONS.len()].map(|_| Err((number, place as u32)))
}

fn accepted(desk: &mut Desk, random: &mut Random) {
    for _ in 0..6000 {
        let (content, book) = any(random);
        desk.case(random, &content.bytes(), &book.known);
    }
}

fn many_records(desk: &mut Desk, random: &mut Random) {
    for records in [64, 127, 128, 129, 255, 256, 257, 511, 512] {
        for [signature, header] in [[0, records], [records, 0], [records, records]] {
            let (mut content, book) = any(random);
            fill(random, &mut content, SIGNATURE, signature);
            fill(random, &mut content, HEADER, header);
            content.layout = random.next();
            desk.case(random, &content.bytes(), &book.known);
            let damages = damage::all(&content, random);
            for _ in 0..30 {
                let damage = &damages[random.below(damages.len())];
                let mut content = content.clone();
                damage.apply(&mut content);
                // Where it adds records, 512 may be passed.
                if content.items.iter().all(|items| items.len() <= 512) {
                    let known = damage::outcome(&book, &content, &[damage]);
                    desk.case(random, &content.bytes(), &known);
                }
            }
        }
    }
    for structure in [SIGNATURE, HEADER] {
        let (mut content, _) = any(random);
        fill(random, &mut content, structure, 513);
        let (start, _) = content.package().structures()[structure];
        desk.case(random, &content.bytes(), &refused(7, start + 8));
    }
}

/// Payloads up to the largest package, and over it.
fn sizes(desk: &mut Desk, random: &mut Random) {
    for size in [65_535, 65_536, 65_537, 65_540, 131_072, ROOM] {
        let (mut content, book) = any(random);
        let rest = size - content.bytes().len();
        content.payload.resize(content.payload.len() + rest, 7);
        let package = content.bytes();
        assert!(package.len() == size);
        if size <= 65_536 {
            desk.case(random, &package, &book.known);
        } else {
            desk.case(random, &package, &refused(2, 0));
        }
    }
}

/// Editions that aren't: 1 at 0, whatever the package.
fn editions(desk: &mut Desk, random: &mut Random) {
    let one = Err((1, 0));
    for _ in 0..100 {
        let (content, _) = any(random);
        let mut package = content.bytes();
        match random.below(6) {
            0 => change(random, &mut package),
            1 => package.truncate(random.below(200)),
            2 => package.resize(65_537, 0),
            3 => package.clear(),
            _ => {}
        }
        desk.bench.package(&package);
        for edition in OTHER_EDITIONS.into_iter().chain([random.number().max(4)]) {
            let room = random.below(300);
            desk.read(edition, room, Some(&one));
        }
    }
}

/// Every buffer length around what is needed, and much more.
fn rooms(desk: &mut Desk, random: &mut Random) {
    for round in 0..120 {
        let doses = match round {
            0..=9 => round,
            10..=15 => 585 - (round - 10),
            _ => random.below(40),
        };
        let mut book = Book::new();
        let plain = round % 3 != 0;
        while book.latest().as_ref().unwrap().len() < doses {
            let (oxide, milligrams) = right_dose(random);
            match random.below(3) {
                0 if !plain && doses < 400 => {
                    book.record(0x98, &[&dose(oxide, milligrams)[..], b"to"].concat())
                }
                1 if !plain && doses < 300 => {
                    book.record(0xAA, &with_lot(oxide, milligrams, random.number()))
                }
                _ => book.record(0x86, &dose(oxide, milligrams)),
            }
        }
        book.record(0, &[]);
        let content = content(random, &book);
        desk.bench.package(&content.bytes());
        let needed = DOSE * doses;
        for room in needed.saturating_sub(13)..needed + 14 {
            desk.each(room, Some(&book.known));
        }
        // 65,536 bytes and 65,536 numbers: the low 16 bits of the length are zero.
        let large = [
            4 * doses,
            8 * doses,
            8 * doses + 4,
            16 * doses,
            needed / 2,
            2 * needed,
            2 * needed + 1,
            9999,
            65_536,
            100_000,
            1 << 18,
        ];
        for room in (0..13).chain(large) {
            desk.each(room, Some(&book.known));
        }
    }
}

fn each_damage(desk: &mut Desk, random: &mut Random) {
    for _ in 0..30 {
        let (right, book) = any(random);
        for damage in damage::all(&right, random) {
            let mut content = right.clone();
            damage.apply(&mut content);
            let known = damage::outcome(&book, &content, &[&damage]);
            desk.note = damage.what;
            desk.case(random, &content.bytes(), &known);
        }
    }
}

/// Two damages, of neighbouring rules or of any two, and perhaps a wrong book: the
/// first check decides.
fn pairs_of_damages(desk: &mut Desk, random: &mut Random) {
    for round in 0..40 {
        let mut book = match round % 4 {
            0 => any_book(random),
            _ => Book::right(random, 60),
        };
        if round % 4 == 1 {
            book = Book::of(&[(0x80, &[0; 5000])]);
            book.known = refused(19, 20_001);
        }
        let right = content(random, &book);
        let rules = damage::by_rule(damage::all(&right, random));
        for (at, one) in rules.iter().enumerate() {
            for (beyond, other) in rules[at + 1..].iter().enumerate() {
                let lines = one[0].is_of_a_line() || other[0].is_of_a_line();
                if lines && beyond > 0 && !random.one_in(40) {
                    continue;
                }
                let one = &one[random.below(one.len())];
                let other = &other[random.below(other.len())];
                if one.beside(other) {
                    let mut content = right.clone();
                    one.apply(&mut content);
                    other.apply(&mut content);
                    let known = damage::outcome(&book, &content, &[one, other]);
                    desk.note = one.what;
                    desk.case(random, &content.bytes(), &known);
                }
            }
        }
    }
}

/// Checks 2 to 13 and 28 go before those on contents.
fn damaged_twice(desk: &mut Desk, random: &mut Random) {
    for _ in 0..100 {
        let (mut content, _) = any(random);
        let damages = damage::all(&content, random);
        damages[random.below(damages.len())].apply(&mut content);
        let package = content.package();
        let lower = structures::all(&package, random);
        for _ in 0..30 {
            let damage = &lower[random.below(lower.len())];
            let mut bytes = package.bytes();
            damage.apply(&mut bytes);
            desk.case(random, &bytes, &refused(damage.number, damage.place));
        }
    }
}

/// Checks 4, 6 to 13 and 28 on packages that are accepted otherwise.
fn damaged_structures(desk: &mut Desk, random: &mut Random) {
    for _ in 0..12 {
        let (content, _) = any(random);
        let package = content.package();
        let right = package.bytes();
        for damage in structures::all(&package, random) {
            let mut bytes = right.clone();
            damage.apply(&mut bytes);
            desk.note = damage.what;
            desk.case(random, &bytes, &refused(damage.number, damage.place));
        }
    }
}

/// Cut at every length: checks 3, 5, 8, and 16 in the payload.
fn cuts(desk: &mut Desk, random: &mut Random) {
    for _ in 0..3 {
        let (content, book) = any(random);
        let package = content.package();
        let right = package.bytes();
        for length in 0..=right.len() {
            let known = match structures::cut(&package, length) {
                Some((number, place)) => refused(number, place),
                None if length < right.len() => refused(16, 1000),
                None => book.known.clone(),
            };
            desk.case(random, &right[..length], &known);
        }
    }
}

/// A package with this book and its weight, and what it must give.
pub fn read_book(desk: &mut Desk, random: &mut Random, book: &Book) {
    let content = Content::least(&book.bytes, book.weight());
    desk.case(random, &content.bytes(), &book.known);
}

/// Every kind byte, with a body of every length around its own, alone and
/// behind other records.
fn kinds(desk: &mut Desk, random: &mut Random) {
    let (page, date) = ([0, 7], [1, 2, 3, 4]);
    let cobalt = dose(27, 1250);
    let lot = with_lot(27, 1250, 0x0102_0304);
    let fronts: [&[(u8, &[u8])]; 5] = [
        &[],
        &[(0x02, &page)],
        &[(0x14, &date), (0x86, &cobalt)],
        &[(0x00, &[])],
        &[(0xAA, &lot)],
    ];
    for front in fronts {
        for kind in 0..=255 {
            let with_dose = |mut body: Vec<u8>| {
                if body.len() >= 6 {
                    body[..6].copy_from_slice(&cobalt);
                }
                body
            };
            let body = with_dose(random.bytes(length(kind)));
            for cut in 0..body.len() {
                let mut book = Book::of(front);
                book.record(kind, &body[..cut]);
                read_book(desk, random, &book);
            }
            // What else stands in a body is free.
            for byte in [0x00, 0xFF] {
                let mut book = Book::of(front);
                book.record(kind, &with_dose(vec![byte; length(kind)]));
                read_book(desk, random, &book);
            }
            for after in [
                None,
                Some(0x00),
                Some(0x86),
                Some(0xAA),
                Some(0x80),
                Some(0x02),
            ] {
                let mut book = Book::of(front);
                book.record(kind, &body);
                match after {
                    Some(0x86) => book.record(0x86, &cobalt),
                    Some(0xAA) => book.record(0xAA, &lot),
                    Some(kind) => book.record(kind, &[]),
                    None => {}
                }
                read_book(desk, random, &book);
            }
        }
    }
}

/// Oxides and milligrams around their limits, at every record of a book.
fn wrong_records(desk: &mut Desk, random: &mut Random) {
    let oxides = [0, 1, 255, 256, 999, 1000, 1001, 1024, 1255, 32_768, 65_535];
    #[rustfmt::skip]
    let milligrams = [
        0, 1, 256, 65_536, 4_999_999, 5_000_000, 5_000_001, 5_000_256, 1 << 24,
        (1 << 24) + 1, (1 << 31) - 1, 1 << 31, (1 << 31) + 1, u32::MAX - 1, u32::MAX,
    ];
    for kind in [0x86, 0x98, 0xAA] {
        for oxide in oxides {
            for milligrams in milligrams {
                let mut book = Book::new();
                for _ in 0..random.below(5) {
                    book.right_record(random, &[0x86]);
                }
                let mut body = dose(oxide, milligrams);
                body.extend(random.bytes(length(kind) - 6));
                book.record(kind, &body);
                read_book(desk, random, &book);
                book.right_record(random, &[0x86]);
                read_book(desk, random, &book);
            }
        }
    }
}

/// Books around 4,096 bytes, and larger; the largest sums.
fn book_lengths(desk: &mut Desk, random: &mut Random) {
    let most = dose(999, 5_000_000);
    for size in [
        4000, 4094, 4095, 4096, 4097, 4098, 4103, 5000, 8192, 40_000, 60_000,
    ] {
        for round in 0..7 {
            let mut book = Book::new();
            while book.bytes.len() + 17 <= size {
                match round {
                    0 => book.record(0x86, &most),
                    1 => book.record(0, &[]),
                    2 => book.record(0x98, &[&most[..], &[0, 0]].concat()),
                    6 => book.record(0xAA, &with_lot(999, 5_000_000, u32::MAX)),
                    _ => book.right_record(random, &[0x86]),
                }
            }
            // The rest is one remark, or a wrong end.
            let rest = size - book.bytes.len();
            match round {
                5 => book.record(0x80, &vec![0; rest - 1]),
                _ => book.record(rest as u8 - 1, &vec![0; rest - 1]),
            }
            if size > 4096 {
                book.known = refused(19, 20_001);
            }
            read_book(desk, random, &book);
            let other = content(random, &book);
            if other.bytes().len() <= 65_536 {
                desk.case(random, &other.bytes(), &book.known);
            }
        }
    }
}

/// A book of any records, right or wrong, with an end anywhere.
fn any_book(random: &mut Random) -> Book {
    let mut book = Book::new();
    for _ in 0..random.below(12) {
        match random.below(12) {
            0 => {
                let kind = random.byte() | 128;
                let body = random.bytes(length(kind));
                book.record(kind, &body);
            }
            1 => {
                let oxide = random.pick(&[0, 1, 999, 1000]);
                let milligrams = random.pick(&[0, 1, 5_000_000, 5_000_001]);
                let kind = random.pick(&[0x86, 0x98, 0xAA]);
                let mut body = dose(oxide, milligrams);
                body.extend(random.bytes(length(kind) - 6));
                book.record(kind, &body);
            }
            _ => book.right_record(random, &[0x86, 0x86, 0x98, 0xAA]),
        }
    }
    if book.bytes.is_empty() || random.one_in(4) {
        let kind = random.byte();
        let body = random.below(length(kind) + 1);
        book.record(kind, &random.bytes(body));
    }
    book
}

fn any_books(desk: &mut Desk, random: &mut Random) {
    for _ in 0..10_000 {
        let book = any_book(random);
        let mut content = Content::least(&book.bytes, book.weight());
        // Without its weight right, editions 2 and 3 stop at 23.
        let mut known = book.known.clone();
        if random.one_in(4) {
            let weight = random.pick(&EXTREMES);
            content.put(HEADER, words(20_002, &[weight]));
            if weight != book.weight() {
                for known in known[1..].iter_mut().filter(|known| known.is_ok()) {
                    *known = Err((23, 20_002));
                }
            }
        }
        desk.case(random, &content.bytes(), &known);
    }
    // Bytes alone, nothing known.
    for _ in 0..10_000 {
        let size = 1 + random.below(20);
        let mut bytes = random.bytes(size);
        for byte in &mut bytes {
            if random.one_in(2) {
                *byte = random.pick(&[0x00, 0x02, 0x86, 0x14, 0x98, 0xAA, 0x01]);
            }
        }
        let content = Content::least(&bytes, random.pick(&EXTREMES));
        desk.unknown(random, &content.bytes());
    }
}

/// Puts the digest right three times in four, so that later checks are reached.
fn maybe_repair(random: &mut Random, bytes: &mut [u8]) {
    if !random.one_in(4) {
        repair_digest(bytes);
    }
}

/// Accepted packages with some bytes changed; items of other packages put in.
fn changed_bytes(desk: &mut Desk, random: &mut Random) {
    for _ in 0..800 {
        let (right, _) = any(random);
        let bytes = right.bytes();
        for _ in 0..12 {
            let mut bytes = bytes.clone();
            change(random, &mut bytes);
            maybe_repair(random, &mut bytes);
            desk.unknown(random, &bytes);
        }
        let damages = damage::all(&right, random);
        for _ in 0..12 {
            let mut content = right.clone();
            for _ in 0..2 + random.below(4) {
                damages[random.below(damages.len())].apply(&mut content);
            }
            let book = any_book(random);
            if random.one_in(3) {
                content.put(HEADER, bin(20_001, &book.bytes));
            }
            desk.unknown(random, &content.bytes());
        }
    }
}

/// Extreme numbers in each word of an accepted package.
fn extreme_fields(desk: &mut Desk, random: &mut Random) {
    for _ in 0..6 {
        let (content, _) = any(random);
        let right = content.bytes();
        for at in (96..right.len() - 4).step_by(4) {
            for value in EXTREMES {
                if random.one_in(4) {
                    let mut bytes = right.clone();
                    bytes[at..at + 4].copy_from_slice(&value.to_be_bytes());
                    maybe_repair(random, &mut bytes);
                    desk.unknown(random, &bytes);
                }
            }
        }
    }
}

/// The packages in tests/data, whole and with bytes changed.
pub fn other_writers(desk: &mut Desk, random: &mut Random, data: &Path) {
    for file in real::files(data) {
        let name = file.file_name().and_then(|name| name.to_str()).unwrap();
        let known = match name {
            name if name.starts_with("rb-") => refused(14, 20_001),
            _ => [(); EDITIONS.len()].map(|_| Ok(vec![[27, 1250, 0]])),
        };
        let right = std::fs::read(&file).unwrap();
        desk.case(random, &right, &known);
        let mut turned = right.clone();
        turned[right.len() - 1] ^= 1;
        let other = match known[0] {
            Ok(_) => refused(27, 1004),
            Err(_) => known.clone(),
        };
        desk.case(random, &turned, &other);
        for (bytes, number, place) in real::gaps(&right) {
            desk.case(random, &bytes, &refused(number, place));
        }
        for round in 0..1500 {
            let mut bytes = right.clone();
            if round % 3 == 0 {
                bytes.truncate(random.below(right.len()));
            } else {
                change(random, &mut bytes);
            }
            maybe_repair(random, &mut bytes);
            desk.unknown(random, &bytes);
        }
    }
}
