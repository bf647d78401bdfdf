//! Changes inputs: single bytes, fields, entries and books. What a change breaks
//! elsewhere is mostly repaired, so that the later checks are reached.

use reference::book;
use reference::catalogue::{Line, HEADER, SIGNATURE};

use crate::entries::{any_data, any_text, data, extent, pack, position, put, put_line};
use crate::entries::{set_data, set_number};
use crate::input::{self, ASKED, FILL, ROOM};
use crate::maker::{is_single, repair_digest, Package, Structure, S};
use crate::questions::EXTREMES;
use crate::random::Random;

/// Tags of which all, or none, go together.
const GROUPS: [&[u32]; 12] = [
    &[1005, 1011],
    &[1002, 1012],
    &[1023, 1085],
    &[1024, 1086],
    &[1025, 1087],
    &[1026, 1088],
    &[1027],
    &[1048, 1049, 1050],
    &[1047, 1112, 1113],
    &[1053, 1054, 1055],
    &[1090, 1114, 1115],
    &[1080, 1081, 1082],
];
/// Tags of one count for each file.
const FILE_TAGS: [u32; 15] = [
    1028, 1030, 1033, 1034, 1035, 1036, 1037, 1039, 1040, 1045, 1095, 1096, 1097, 1116, 1117,
];
#[rustfmt::skip]
const KINDS: [u8; 14] = [
    0x02, 0x86, 0x86, 0x86, 0x14, 0x98, 0x98, 0xAA, 0xAA, 0x00, 0x80, 0x96, 0xBA, 0x7F,
];
const OXIDES: [u16; 8] = [0, 1, 2, 27, 998, 999, 1000, 0xFFFF];
#[rustfmt::skip]
const MILLIGRAMS: [u32; 9] = [
    0, 1, 1250, 65_536, 4_999_999, 5_000_000, 5_000_001, 1 << 31, u32::MAX,
];
#[rustfmt::skip]
const EDITIONS: [u32; 12] = [
    0, 4, 5, 257, 258, 259, 65_537, 65_539, 1 << 31, (1 << 31) + 1, (1 << 31) + 3, u32::MAX,
];

/// Changes an input in one to three ways; `most` is how long it may get.
pub fn change(input: &mut Vec<u8>, random: &mut Random, most: usize) {
    for _ in 0..random.pick(&[1, 1, 2, 3]) {
        match input::parts(&input::package(input)) {
            Some(mut package) if !random.one_in(8) => {
                change_parts(&mut package, random);
                repair(&mut package, random, most);
                *input = input::of_package(package.bytes());
            }
            _ => {
                change_bytes(input, random);
                if !random.one_in(4) {
                    put_digest(input);
                }
            }
        }
    }
    if random.one_in(2) {
        ask_otherwise(input, random);
    }
    input.truncate(most);
}

/// Puts entries of another input into this one.
pub fn cross(input: &mut Vec<u8>, other: &[u8], random: &mut Random, most: usize) {
    let parts = |input: &[u8]| input::parts(&input::package(input));
    let (Some(mut package), Some(other)) = (parts(input), parts(other)) else {
        return change(input, random, most);
    };
    for _ in 0..1 + random.below(4) {
        let (to, from) = match random.one_in(4) {
            true => (&mut package.signature, &other.signature),
            false => (&mut package.header, &other.header),
        };
        let record = random.pick(&from.records);
        if let Some(extent) = extent(from, record) {
            put(to, record[0], record[1], record[3], &from.store[extent]);
        }
    }
    repair(&mut package, random, most);
    *input = input::of_package(package.bytes());
    input.truncate(most);
}

// ---- What is asked ----

fn ask_otherwise(input: &mut [u8], random: &mut Random) {
    if input.len() < S {
        return;
    }
    let edition = random.pick(&EDITIONS).to_be_bytes();
    let room = random.below(0x1_0000) as u16;
    let fill = match random.below(16) {
        0 => (0x1_0002 - random.below(4)).saturating_sub(input.len()),
        1 => random.below(5000),
        _ => 0,
    };
    match random.below(8) {
        0 => input[ASKED..ROOM].copy_from_slice(&edition),
        1 => input[FILL..FILL + 2].copy_from_slice(&(fill as u16).to_be_bytes()),
        2..=5 => input[ROOM..FILL].copy_from_slice(&room.to_be_bytes()),
        _ => input[FILL + 2..S].copy_from_slice(&random.next().to_be_bytes()),
    }
}

// ---- Bytes and fields ----

fn set_word(input: &mut [u8], at: usize, number: u32) {
    if let Some(four) = input.get_mut(at..at + 4) {
        four.copy_from_slice(&number.to_be_bytes());
    }
}

fn word(input: &[u8], at: usize) -> u32 {
    let four = input.get(at..at + 4).unwrap_or(&[0; 4]);
    u32::from_be_bytes(four.try_into().unwrap())
}

/// A number near this one, or with the same low bits, or an extreme one.
pub fn near(random: &mut Random, number: u32) -> u32 {
    match random.below(5) {
        0 => random.pick(&EXTREMES),
        3 => number.wrapping_add(random.pick(&[1 << 8, 1 << 16, 1 << 24])),
        1 => number.wrapping_sub(1 + random.below(4) as u32),
        2 => number.wrapping_add(1 + random.below(4) as u32),
        _ => number ^ 1 << random.below(32),
    }
}

/// Where the header should start.
fn header_start(input: &[u8]) -> usize {
    let end = S as u64 + 16 + 16 * u64::from(word(input, S + 8)) + u64::from(word(input, S + 12));
    end.next_multiple_of(8) as usize
}

/// A byte that may stand before the header: zero, one bit, all bits.
fn stray_byte(random: &mut Random) -> u8 {
    let bit = 1 << random.below(8);
    random.pick(&[0, bit, bit, 0xFF])
}

/// Another byte before the header, or an end around there.
fn change_before_header(input: &mut Vec<u8>, random: &mut Random) {
    let h = header_start(input);
    let at = h - 1 - random.below(8);
    if let (Some(byte), false) = (input.get_mut(at), random.one_in(4)) {
        *byte = stray_byte(random);
    }
    if random.one_in(2) {
        input.truncate(h + 4 - random.below(12));
    }
}

fn change_bytes(input: &mut Vec<u8>, random: &mut Random) {
    if input.is_empty() {
        *input = random.bytes(S);
    }
    let len = input.len();
    let at = random.below(len);
    let some = (1 + random.below(16)).min(len - at);
    match random.below(11) {
        0 => input[at] ^= 1 << random.below(8),
        1 => input[at] = random.byte(),
        2 => {
            let at = at & !3;
            let number = near(random, word(input, at));
            set_word(input, at, number);
        }
        3 => {
            let from = random.below(len - some + 1);
            input.copy_within(from..from + some, at);
        }
        4 => drop(input.drain(at..at + some)),
        5 => drop(input.splice(at..at, random.bytes(some))),
        6 => input.truncate(at),
        7 => {
            let field = random.pick(&[0, 3, 4, 5, 6, 7, 10, 76, 77, 78, 79]);
            if field < len {
                input[field] = random.pick(&[0, 1, 2, 3, 4, 5, 6, 255]);
            }
        }
        8 => change_before_header(input, random),
        _ => change_head(input, random),
    }
}

/// Changes one of a structure's first 16 bytes, or a field of its index.
fn change_head(input: &mut [u8], random: &mut Random) {
    let header = header_start(input);
    let start = random.pick(&[S, header, header]);
    let nindex = word(input, start + 8).clamp(1, 512) as usize;
    let field = match random.below(3) {
        0 => start + 4 * random.below(2),
        1 => start + 8 + 4 * random.below(2),
        _ => start + 16 + 4 * random.below(4 * nindex),
    };
    let number = near(random, word(input, field));
    set_word(input, field, number);
}

// ---- Entries ----

/// One of the structures, with its number and its lines.
fn either<'a>(
    package: &'a mut Package,
    random: &mut Random,
) -> (usize, &'a mut Structure, &'static [Line]) {
    match random.one_in(4) {
        true => (0, &mut package.signature, &SIGNATURE),
        false => (1, &mut package.header, &HEADER),
    }
}

fn change_parts(package: &mut Package, random: &mut Random) {
    let files = position(&package.header, 1028).map_or(1, |at| package.header.records[at][3]);
    let files = files.clamp(1, 8);
    // Stray bytes of an earlier change would hide this one.
    if !random.one_in(4) {
        package.gap = [0; 7];
    }
    match random.below(21) {
        0..=3 => change_book(&mut package.header, random),
        4 | 5 => change_group(package, random),
        6 => change_files(&mut package.header, random),
        7 => change_text(&mut package.header, random),
        8 => change_rest(package, random),
        9 => change_locales(&mut package.header, random),
        19 => change_gap(package, random),
        20 => change_requirements(&mut package.header, random),
        n => {
            let (number, structure, lines) = either(package, random);
            match n {
                10 | 11 => change_field(structure, lines, random),
                12 | 13 => change_data(structure, number, random),
                14 | 15 => {
                    let any = 1 + random.below(3) as u32;
                    let count = random.pick(&[any, files]);
                    let line = random_line(lines, random);
                    put_line(structure, random, &line, count);
                }
                _ => change_index(structure, random),
            }
        }
    }
}

fn random_line(lines: &[Line], random: &mut Random) -> Line {
    lines[random.below(lines.len())]
}

/// Another number in one field of a record.
fn change_field(structure: &mut Structure, lines: &[Line], random: &mut Random) {
    let other = random.pick(&structure.records);
    let store = structure.store.len() as u32;
    let at = random.below(structure.records.len());
    let record = &mut structure.records[at];
    let field = random.below(4);
    record[field] = match (field, random.below(3)) {
        (0, 0) => random_line(lines, random).tag,
        (1, 0 | 1) => random.below(12) as u32,
        (2, 0) => store.wrapping_sub(random.below(6) as u32),
        (_, 1) => other[field],
        _ => near(random, record[field]),
    };
}

/// Other data for a record, in its place or a new one.
fn change_data(structure: &mut Structure, number: usize, random: &mut Random) {
    let at = random.below(structure.records.len());
    let record = structure.records[at];
    let Some(extent) = extent(structure, record) else {
        return;
    };
    let place = extent.start + random.below(extent.len());
    match random.below(4) {
        0 => structure.store[place] = random.pick(&[0, 1, b'/', 255]),
        1 => structure.store[place] ^= 1 << random.below(8),
        2 if matches!(record[1], 6 | 8 | 9) => {
            let texts: Vec<u8> = (0..record[3]).flat_map(|_| any_text(random)).collect();
            set_data(structure, at, record[1], record[3], &texts);
        }
        _ => {
            let count = match is_single(number, record[1]) && !random.one_in(8) {
                true => 1,
                false => random
                    .pick(&[record[3] - 1, record[3], record[3] + 1])
                    .clamp(1, 64),
            };
            let data = any_data(random, record[0], record[1], count);
            set_data(structure, at, record[1], count, &data);
        }
    }
}

/// A record less, one more, two that change places, all in another order, a tag that another
/// record gets.
fn change_index(structure: &mut Structure, random: &mut Random) {
    let len = structure.records.len();
    let (one, two) = (random.below(len), random.below(len));
    match random.below(8) {
        0 => structure.records.swap(one, two),
        1 | 2 => {
            let mut record = structure.records[one];
            let any = random.number();
            record[0] = random.pick(&[record[0], record[0].wrapping_add(1), 20_003, any]);
            structure.records.insert(two, record);
        }
        3 => reorder(&mut structure.records, |record| record[0], random),
        4 => structure.records[one][0] = structure.records[two][0],
        _ if len > 1 => drop(structure.records.remove(one)),
        _ => {}
    }
}

/// Tags that rise, or fall, or rise but for one; or only one taken elsewhere.
pub fn reorder<T>(list: &mut [T], tag: impl Fn(&T) -> u32, random: &mut Random) {
    let (one, two) = (random.below(list.len()), random.below(list.len()));
    let way = random.below(4);
    if way < 3 {
        list.sort_by_key(tag);
    }
    match way {
        0 => {}
        1 => list.reverse(),
        _ if one < two => list[one..=two].rotate_left(1),
        _ => list[two..=one].rotate_right(1),
    }
}

/// A group as it should be, or without one of its tags, or with another count.
fn change_group(package: &mut Package, random: &mut Random) {
    let group = random.below(GROUPS.len());
    let (structure, lines) = match group {
        0 | 1 => (&mut package.signature, &SIGNATURE[..]),
        _ => (&mut package.header, &HEADER[..]),
    };
    let count = 1 + random.below(3) as u32;
    for &tag in GROUPS[group] {
        let line = lines.iter().find(|line| line.tag == tag);
        match random.below(8) {
            0 => structure.records.retain(|record| record[0] != tag),
            1 => put_line(structure, random, line.expect("a line"), count % 3 + 1),
            2 => {}
            _ => put_line(structure, random, line.expect("a line"), count),
        }
    }
    if structure.records.is_empty() {
        put(structure, 1000, 4, 1, &[0; 4]);
    }
}

/// Names, versions and flags of one count; sometimes one of them of another count or type.
fn change_requirements(header: &mut Structure, random: &mut Random) {
    let count = random.pick(&[1, 2, 3, 5, 5, 260]);
    for (tag, ty) in [(1048, 4), (1049, 8), (1050, 8)] {
        let (ty, count) = match random.below(32) {
            0 => (random.pick(&[2, 3, 7, 9]), count),
            1 => (ty, count + random.pick(&[1, 256])),
            _ => (ty, count),
        };
        put(header, tag, ty, count, &any_data(random, tag, ty, count));
    }
}

/// Texts for a tag that check 18 looks at.
fn change_text(header: &mut Structure, random: &mut Random) {
    let tag = random.pick(&[1021, 1085, 1086, 1087, 1088, 1118, 1118]);
    let (ty, count) = match tag {
        1118 => (8, 1 + random.below(3) as u32),
        _ => (6, 1),
    };
    let texts: Vec<u8> = (0..count).flat_map(|_| any_text(random)).collect();
    put(header, tag, ty, count, &texts);
}

/// Another number of files, with names in one form or the other.
fn change_files(header: &mut Structure, random: &mut Random) {
    let files = 1 + random.below(4) as u32;
    let old = random.one_in(3);
    let line = |tag: u32| HEADER.iter().find(|line| line.tag == tag).expect("a line");
    for tag in FILE_TAGS {
        if !random.one_in(64) && (tag != 1045 || random.one_in(2)) {
            put_line(header, random, line(tag), files);
        }
    }
    if old {
        put_line(header, random, line(1027), files);
        header
            .records
            .retain(|record| !(1116..=1118).contains(&record[0]));
    } else {
        let folders = 1 + random.below(2) as u32;
        put_line(header, random, line(1118), folders);
        header.records.retain(|record| record[0] != 1027);
    }
}

/// Another number of locales, and strings for some of them, or for one more.
fn change_locales(header: &mut Structure, random: &mut Random) {
    // Sometimes 256 more: the low bits are those of a small number.
    let many = random.pick(&[0, 0, 0, 0, 0, 0, 0, 256]);
    let locales = 1 + random.below(5) as u32 + many * random.below(2) as u32;
    let mut texts = |tag, ty, count, random: &mut Random| {
        let data = any_data(random, tag, ty, count);
        put(header, tag, ty, count, &data);
    };
    if !random.one_in(4) {
        texts(100, 8, locales, random);
    }
    let other = random.pick(&[99, 5000, 20_003, u32::MAX]);
    for tag in [1004, 1005, 1016, other] {
        let some = 1 + random.below(locales as usize) as u32;
        let count = random.pick(&[some, some, locales, locales + 1, some + many]);
        if random.one_in(2) {
            texts(tag, 9, count, random);
        }
    }
}

/// Another length of the gap, stray bytes there: one, two or all.
fn change_gap(package: &mut Package, random: &mut Random) {
    let more = random.below(8);
    package.signature.store.extend(random.bytes(more));
    let length = package.gap_place().len().max(1);
    let [one, two] = [0; 2].map(|_| random.below(length));
    match random.below(4) {
        0 => package.gap = [0; 7].map(|_| random.byte()),
        1 => {
            package.gap[one] = random.byte();
            package.gap[two] = 0u8.wrapping_sub(package.gap[one]);
        }
        _ => package.gap[one] = stray_byte(random),
    }
}

/// What stands outside the entries.
fn change_rest(package: &mut Package, random: &mut Random) {
    let count = random.below(24);
    match random.below(5) {
        0 => package.payload = random.bytes(count),
        1 => package.signature.store.extend(random.bytes(count)),
        2 => package.header.store.extend(random.bytes(count)),
        3 => {
            let store = &mut package.header.store;
            store.resize(store.len() + random.below(60_000), 0);
        }
        _ => {
            let store = &mut package.header.store;
            store.truncate(store.len().saturating_sub(1 + count / 4));
        }
    }
}

// ---- The book ----

/// A record of a kind: a body with a dose in it for weighed ones.
fn book_record(random: &mut Random, kind: u8) -> Vec<u8> {
    let mut record = vec![kind];
    record.extend(random.bytes(usize::from(kind % 16)));
    if kind >= 128 && record.len() >= 7 {
        let (oxide, milligrams) = match random.one_in(4) {
            true => (random.pick(&OXIDES), random.pick(&MILLIGRAMS)),
            false => (
                1 + random.below(999) as u16,
                1 + random.below(5_000_000) as u32,
            ),
        };
        record[1..3].copy_from_slice(&oxide.to_be_bytes());
        record[3..7].copy_from_slice(&milligrams.to_be_bytes());
    }
    record
}

fn change_book(header: &mut Structure, random: &mut Random) {
    let Some(old) = data(header, 20001) else {
        return put(header, 20001, 7, 3, &[2, 0, 7]);
    };
    let mut records: Vec<Vec<u8>> = Vec::new();
    let mut rest = old;
    while let Some(kind) = rest.first() {
        let (record, behind) = rest.split_at(rest.len().min(1 + usize::from(kind % 16)));
        records.push(record.to_vec());
        rest = behind;
    }
    let at = random.below(records.len());
    let kind = match random.one_in(4) {
        true => random.byte(),
        false => random.pick(&KINDS),
    };
    match random.below(8) {
        0 | 1 => records.insert(at, book_record(random, kind)),
        2 => records.push(book_record(random, kind)),
        3 => records[at] = book_record(random, kind),
        4 => records[at][0] = kind,
        5 if records.len() > 1 => drop(records.remove(at)),
        6 => {
            let byte = random.below(records[at].len());
            records[at][byte] = random.pick(&[0, 1, 255]);
        }
        _ => {
            let last = records.last_mut().expect("no book is empty");
            last.pop();
        }
    }
    let mut book = records.concat();
    if book.is_empty() {
        book.push(kind);
    }
    match random.below(128) {
        // Around the limit of 4,096 bytes.
        0 => book.resize(4094 + random.below(5), 0),
        // Many doses, of the largest sum.
        1 => book = [0x86, 0, 1, 0, 0x4C, 0x4B, 0x40].repeat(random.pick(&[200, 430, 585])),
        // Many lots.
        2 => {
            let count = random.pick(&[5, 256, 372]);
            book = (0..count).flat_map(|_| book_record(random, 0xAA)).collect();
        }
        _ => {}
    }
    put(header, 20001, 7, book.len() as u32, &book);
}

// ---- Repairs ----

/// A locale for each translated string.
fn repair_locales(header: &mut Structure, random: &mut Random) {
    let translated = header.records.iter().filter(|record| record[1] == 9);
    let most = translated.map(|record| record[3]).max().unwrap_or(0);
    let own = position(header, 100).map(|at| header.records[at]);
    if own.is_some_and(|own| own[1] == 8 && own[3] < most) && most <= 64 {
        put(header, 100, 8, most, &any_data(random, 100, 8, most));
    }
}

/// Puts the right digest into an input's 1004, where it has one.
pub fn put_digest(input: &mut [u8]) {
    let mut package = input::package(input);
    repair_digest(&mut package);
    let length = input.len();
    input.copy_from_slice(&package[..length]);
}

/// Makes 1000 the length from H on, 20002 the sum of the doses and 1004 the digest, in most
/// cases, and often the locales enough.
fn repair(package: &mut Package, random: &mut Random, most: usize) {
    if random.one_in(2) {
        repair_locales(&mut package.header, random);
    }
    if package.bytes().len() > most || random.one_in(64) {
        pack(&mut package.signature);
        pack(&mut package.header);
    }
    let book = data(&package.header, 20001).unwrap_or(&[]);
    if let Ok(doses) = book::doses(3, book) {
        let sum = book::sum(&doses) as u32;
        let weight = match random.below(16) {
            0 => near(random, sum),
            _ => sum,
        };
        set_number(&mut package.header, 20002, weight);
    }
    if !random.one_in(32) {
        let size = package.header.size() + package.payload.len();
        set_number(&mut package.signature, 1000, size as u32);
    }
    match random.below(32) {
        0 => {}
        1 => package.put_digest(1 << random.below(128)),
        _ => package.put_digest(0),
    }
}
