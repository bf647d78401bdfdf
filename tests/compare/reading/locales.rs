//! Translated strings and their locales: the last group of check 17, and check 10 in the
//! signature.

use super::accepted::{content, item, NO_LINE};
use super::books::Book;
use super::damage::{self, TRANSLATED};
use super::desk::{Desk, Outcomes};
use super::families::refused;
use crate::content::{strings, Content, Item, HEADER, SIGNATURE};
use crate::random::Random;
use crate::shapes::LAWFUL;

pub fn locales(desk: &mut Desk, random: &mut Random) {
    counts(desk, random);
    many_strings(desk, random);
    index_orders(desk, random);
    no_locales(desk, random);
    of_signature(desk, random);
    no_strings(desk, random);
    batch_weight(desk, random);
    other_checks(desk, random);
}

fn no_doses() -> Outcomes {
    Book::new().known
}

fn tags() -> impl Iterator<Item = u32> {
    TRANSLATED.into_iter().chain(NO_LINE).chain([1012])
}

/// The least content with so many locales.
fn with_locales(random: &mut Random, count: usize) -> Content {
    let mut content = Content::least(&[0], 0);
    let seed = random.next();
    content.layout = random.pick(&[0, seed]);
    content.put(HEADER, item(random, 100, 8, count));
    content
}

/// What comes of a content in which these tags have more strings than there are locales.
fn known(content: &Content, over: &[u32]) -> Outcomes {
    let header = content.package().header;
    let mut tags = header.records.iter().map(|record| record[0]);
    match tags.find(|tag| over.contains(tag)) {
        Some(first) => refused(17, first as usize),
        None => no_doses(),
    }
}

/// 1 to 5 locales, each tag with fewer strings, as many, and more.
fn counts(desk: &mut Desk, random: &mut Random) {
    for locales in 1..=5 {
        for tag in tags() {
            for strings in 1..=locales + 2 {
                let mut content = with_locales(random, locales);
                content.put(HEADER, item(random, tag, 9, strings));
                let over: &[u32] = if strings > locales { &[tag] } else { &[] };
                let known = known(&content, over);
                desk.case(random, &content.bytes(), &known);
                // A string array has no locales.
                if !TRANSLATED.contains(&tag) {
                    content.put(HEADER, item(random, tag, 8, strings));
                    desk.case(random, &content.bytes(), &no_doses());
                }
            }
        }
    }
}

/// Numbers that differ above their low bits.
fn many_strings(desk: &mut Desk, random: &mut Random) {
    let empty = |tag, ty, count| strings(tag, ty, &vec![""; count]);
    for (locales, strings) in [
        (1, 128),
        (1, 256),
        (1, 257),
        (255, 256),
        (256, 1),
        (256, 256),
        (256, 257),
        (257, 256),
        (1, 32_769),
        (1, 60_000),
        (30_000, 29_999),
        (30_000, 30_000),
        (30_000, 30_001),
        (60_000, 1),
    ] {
        for tag in [1004, 1016, 5000] {
            let mut content = with_locales(random, 1);
            content.put(HEADER, empty(100, 8, locales));
            content.put(HEADER, empty(tag, 9, strings));
            let over: &[u32] = if strings > locales { &[tag] } else { &[] };
            let known = known(&content, over);
            desk.case(random, &content.bytes(), &known);
        }
    }
}

/// Several tags, some with too many strings, in an index of any order: the first that has
/// too many is the place.
fn index_orders(desk: &mut Desk, random: &mut Random) {
    for round in 0..600 {
        let locales = 1 + random.below(5);
        let mut content = with_locales(random, locales);
        content.layout = 0;
        let mut tags = NO_LINE.to_vec();
        random.shuffle(&mut tags);
        tags.truncate(2 + random.below(5));
        tags.extend(TRANSLATED);
        let mut over = Vec::new();
        for tag in tags {
            let strings = match random.below(3) {
                0 => {
                    over.push(tag);
                    locales + 1 + random.below(2)
                }
                _ => 1 + random.below(locales),
            };
            content.put(HEADER, item(random, tag, 9, strings));
        }
        let header = &mut content.items[HEADER];
        match round % 4 {
            0 => header.sort_by_key(|item| item.tag),
            1 => header.sort_by_key(|item| !item.tag),
            _ => random.shuffle(header),
        }
        let known = known(&content, &over);
        desk.case(random, &content.bytes(), &known);
    }
}

/// Tag 100 absent, or of another type: 14 and 15 go before.
fn no_locales(desk: &mut Desk, random: &mut Random) {
    for tag in tags() {
        for strings in 1..=3 {
            let mut content = with_locales(random, 1);
            content.put(HEADER, item(random, tag, 9, strings));
            content.remove(HEADER, 100);
            desk.case(random, &content.bytes(), &refused(14, 100));
            for ty in LAWFUL.into_iter().filter(|&ty| ty != 8) {
                let count = if ty == 6 { 1 } else { 1 + random.below(4) };
                content.put(HEADER, item(random, 100, ty, count));
                desk.case(random, &content.bytes(), &refused(15, 100));
            }
        }
    }
}

/// The file offset of a tag's index record.
fn record(content: &Content, structure: usize, tag: u32) -> usize {
    let package = content.package();
    let (start, found) = package.structures()[structure];
    let mut tags = found.records.iter().map(|record| record[0]);
    start + 16 + 16 * tags.position(|other| other == tag).expect("a record")
}

/// One string in the signature, whatever the locales; several are check 10, before
/// whatever is wrong in the header.
fn of_signature(desk: &mut Desk, random: &mut Random) {
    for locales in 1..=5 {
        for tag in NO_LINE.into_iter().chain([1016, 1118, 20_001]) {
            let mut content = with_locales(random, locales);
            content.put(SIGNATURE, item(random, tag, 9, 1));
            desk.case(random, &content.bytes(), &no_doses());
            let wrong = item(random, 1004, 9, locales + 1);
            for several in [2, locales.max(2), locales + 1, 257] {
                content.put(SIGNATURE, item(random, tag, 9, several));
                if random.one_in(3) {
                    content.put(HEADER, wrong.clone());
                }
                let place = record(&content, SIGNATURE, tag);
                desk.case(random, &content.bytes(), &refused(10, place));
            }
        }
        // A tag with a line: 15, where its count is 1.
        let mut content = with_locales(random, locales);
        content.put(SIGNATURE, item(random, 1010, 9, 1));
        desk.case(random, &content.bytes(), &refused(15, 1010));
        content.put(SIGNATURE, item(random, 1010, 9, 2));
        let place = record(&content, SIGNATURE, 1010);
        desk.case(random, &content.bytes(), &refused(10, place));
    }
}

/// Count 0 in either structure.
fn no_strings(desk: &mut Desk, random: &mut Random) {
    for structure in [SIGNATURE, HEADER] {
        for tag in NO_LINE.into_iter().chain(TRANSLATED) {
            let mut content = with_locales(random, 2);
            let empty = Item {
                count: 0,
                ..item(random, tag, 9, 1)
            };
            content.put(structure, empty);
            let place = record(&content, structure, tag);
            desk.case(random, &content.bytes(), &refused(10, place));
        }
    }
}

/// Edition 1 has no line for 20002: as a translated string it has its locales.
fn batch_weight(desk: &mut Desk, random: &mut Random) {
    for locales in 1..=5 {
        for strings in 1..=7 {
            for beside in [None, Some(locales), Some(locales + 1)] {
                let mut content = with_locales(random, locales);
                content.put(HEADER, item(random, 20_002, 9, strings));
                let mut over = Vec::new();
                if strings > locales {
                    over.push(20_002);
                }
                if let Some(count) = beside {
                    content.put(HEADER, item(random, 1016, 9, count));
                    if count > locales {
                        over.push(1016);
                    }
                }
                let mut known = known(&content, &over);
                known[1..].fill(Err((15, 20_002)));
                desk.case(random, &content.bytes(), &known);
            }
        }
    }
}

/// Too many strings together with each other damage, and with a wrong book.
fn other_checks(desk: &mut Desk, random: &mut Random) {
    for round in 0..6 {
        let mut book = Book::right(random, 60);
        match round {
            0 => book.record(0x80, &[]),
            1 => book.record(0x02, &[7]),
            2 => book.record(0x86, &[0; 6]),
            3 => {
                book = Book::of(&[(0, &[0; 4096])]);
                book.known = refused(19, 20_001);
            }
            _ => {}
        }
        let right = content(random, &book);
        let (of_locales, others): (Vec<_>, Vec<_>) = damage::all(&right, random)
            .into_iter()
            .partition(|damage| damage.is_of_locales());
        for damage in &of_locales {
            let mut content = right.clone();
            damage.apply(&mut content);
            let known = damage::outcome(&book, &content, &[damage]);
            desk.case(random, &content.bytes(), &known);
        }
        for other in &others {
            let damage = &of_locales[random.below(of_locales.len())];
            if damage.beside(other) {
                let mut content = right.clone();
                damage.apply(&mut content);
                other.apply(&mut content);
                desk.note = other.what;
                let known = damage::outcome(&book, &content, &[damage, other]);
                desk.case(random, &content.bytes(), &known);
            }
        }
    }
}
