//! One damage for each check and place, with the answer it must get.

use crate::maker::{is_single, size_of, Package, Structure, S};
use crate::random::Random;

pub struct Damage {
    pub what: &'static str,
    /// The answer, by construction.
    pub number: u32,
    pub place: usize,
    /// Bytes to write over a right package, and where.
    pub writes: Vec<(usize, Vec<u8>)>,
}

impl Damage {
    pub fn apply(&self, bytes: &mut [u8]) {
        for (at, new) in &self.writes {
            bytes[*at..at + new.len()].copy_from_slice(new);
        }
    }

    /// The answer if both are done, where they write different bytes. Places
    /// rise in the order of the checks, numbers within one record.
    pub fn first_of(&self, other: &Damage) -> Option<(u32, usize)> {
        let overlap = |(a, x): &(usize, Vec<u8>), (b, y): &(usize, Vec<u8>)| {
            *a < b + y.len() && *b < a + x.len()
        };
        let clash = |write| other.writes.iter().any(|theirs| overlap(write, theirs));
        if self.writes.iter().any(clash) {
            return None;
        }
        let first = (self.place, self.number).min((other.place, other.number));
        Some((first.1, first.0))
    }
}

/// Collects damages.
struct List(Vec<Damage>);

impl List {
    fn bytes(&mut self, what: &'static str, number: u32, place: usize, at: usize, new: Vec<u8>) {
        self.0.push(Damage {
            what,
            number,
            place,
            writes: vec![(at, new)],
        });
    }

    /// The numbers in a row, all of which matter to the answer.
    fn words(&mut self, what: &'static str, number: u32, place: usize, at: usize, new: &[u32]) {
        let new = new.iter().flat_map(|word| word.to_be_bytes()).collect();
        self.bytes(what, number, place, at, new);
    }

    /// One damage for each of the numbers.
    fn numbers(&mut self, what: &'static str, number: u32, place: usize, at: usize, new: &[u32]) {
        for &word in new {
            self.words(what, number, place, at, &[word]);
        }
    }
}

/// Every damage that leaves the length: checks 4, 6 to 13 and 28.
pub fn all(package: &Package, random: &mut Random) -> Vec<Damage> {
    let bytes = package.bytes();
    let mut list = List(Vec::new());
    lead(&mut list, &bytes, random);
    for (number, (start, structure)) in package.structures().into_iter().enumerate() {
        if number == 1 {
            gap(&mut list, package, random);
        }
        header_record(&mut list, &bytes, start, structure, random);
        for position in 0..structure.records.len() {
            index_record(&mut list, number, start, structure, position, random);
        }
    }
    list.0
}

/// Each byte of each lead field that is not free.
fn lead(list: &mut List, bytes: &[u8], random: &mut Random) {
    for (field, length) in [(0, 4), (4, 1), (5, 1), (6, 2), (76, 2), (78, 2)] {
        for at in field..field + length {
            let wrong = bytes[at] ^ random.nonzero_byte();
            list.bytes("lead field", 4, field, at, vec![wrong]);
        }
    }
    let name = (0..66).map(|_| random.nonzero_byte()).collect();
    list.bytes("name without zero", 4, 10, 10, name);
}

/// A stray byte at each place of the gap.
fn gap(list: &mut List, package: &Package, random: &mut Random) {
    for at in package.gap_place() {
        for byte in [1, 0x80, random.nonzero_byte()] {
            list.bytes("stray byte", 28, at, at, vec![byte]);
        }
    }
}

fn header_record(
    list: &mut List,
    bytes: &[u8],
    start: usize,
    structure: &Structure,
    random: &mut Random,
) {
    for at in 0..8 {
        let wrong = bytes[start + at] ^ random.nonzero_byte();
        list.bytes(
            "magic or reserved",
            6,
            start + at / 4 * 4,
            start + at,
            vec![wrong],
        );
    }
    list.bytes("magic and reserved", 6, start, start, vec![0xFF; 8]);

    // 2^28 and 2^28 + 1 times 16 wrap to 0 and 16.
    let wrong = [0, 513, 1 << 28, (1 << 28) + 1, 1 << 31, u32::MAX];
    list.numbers("nindex", 7, start + 8, start + 8, &wrong);

    let nindex = structure.records.len();
    let store = start + 16 + 16 * nindex;
    let room = bytes.len() - store;
    let wrong = [
        room as u32 + 1,
        1 << 31,
        u32::MAX,
        (store as u32).wrapping_neg(), // the structure's end wraps to 0
        (16 + 16 * nindex as u32).wrapping_neg(), // its size wraps to 0
    ];
    list.numbers("hsize", 8, start + 12, start + 12, &wrong);
    let more = nindex + (room - structure.store.len()) / 16 + 1;
    if more <= 512 {
        list.numbers(
            "nindex past the end",
            8,
            start + 12,
            start + 8,
            &[more as u32],
        );
    }
}

fn index_record(
    list: &mut List,
    number: usize,
    start: usize,
    structure: &Structure,
    position: usize,
    random: &mut Random,
) {
    let place = start + 16 + 16 * position;
    let (tag_at, type_at, offset_at, count_at) = (place, place + 4, place + 8, place + 12);
    let [_, ty, offset, count] = structure.records[position];
    let store = structure.store.len() as u32;

    // 256 and 65,536 more: the low bits still look lawful.
    let wrong = [
        0,
        5,
        10,
        11,
        255,
        ty + 256,
        ty + 65_536,
        ty | 1 << 31,
        u32::MAX,
    ];
    list.numbers("type", 9, place, type_at, &wrong);

    list.numbers("count 0", 10, place, count_at, &[0]);
    if is_single(number, ty) {
        for count in [2, 257, 65_537, (1 << 31) + 1, u32::MAX] {
            list.words("count not 1", 10, place, type_at, &[ty, offset, count]);
        }
    } else if size_of(ty).is_none() && count > 1 {
        for single in [6, 9].into_iter().filter(|&ty| is_single(number, ty)) {
            let new = [single, offset, count];
            list.words("type of one string", 10, place, type_at, &new);
        }
    }

    if offset % 4 != 0 {
        list.words("int32 at an odd place", 11, place, type_at, &[4, offset]);
    }
    if offset % 2 != 0 {
        list.words("int16 at an odd place", 11, place, type_at, &[3, offset]);
    }

    match size_of(ty) {
        Some(size) => {
            let size = size as u32;
            for step in 1..size {
                let wrong = [offset + step, 0u32.wrapping_sub(step)];
                list.numbers("alignment", 11, place, offset_at, &wrong);
            }
            let over = (store - offset) / size + 1;
            list.numbers("one element over", 12, place, count_at, &[over, u32::MAX]);
            if size > 1 {
                // The product wraps to 0 and to one element.
                let wrap = 1 << (32 - size.trailing_zeros());
                list.numbers("product over 2^32", 12, place, count_at, &[wrap, wrap + 1]);
            }
            let wrong = [
                store.next_multiple_of(size),
                1 << 31,
                0u32.wrapping_sub(size), // with one element the sum wraps to 0
            ];
            list.numbers("offset past the store", 12, place, offset_at, &wrong);
        }
        None => {
            let wrong = [store, store + 1, 1 << 31, u32::MAX];
            list.numbers("string past the store", 12, place, offset_at, &wrong);
            if !is_single(number, ty) {
                let from = &structure.store[offset as usize..];
                let zeros = from.iter().filter(|&&byte| byte == 0).count() as u32;
                let wrong = [zeros + 1, 65_537, 1 << 31, u32::MAX];
                list.numbers("one string over", 12, place, count_at, &wrong);
            }
        }
    }

    if position > 0 {
        for earlier in [0, position - 1, random.below(position)] {
            let tag = structure.records[earlier][0];
            list.numbers("tag of an earlier record", 13, place, tag_at, &[tag]);
        }
    }
}

/// What a package, right but perhaps for its gap, becomes when only its first `length` bytes
/// are left: checks 3, 5, 8 and 28, or `None` where it is right.
pub fn cut(package: &Package, length: usize) -> Option<(u32, usize)> {
    let h = package.h();
    if length < S {
        Some((3, length))
    } else if length < S + 16 {
        Some((5, S))
    } else if length < S + package.signature.size() {
        Some((8, S + 12))
    } else if let Some(place) = package.stray().filter(|&place| place < length) {
        Some((28, place))
    } else if length < h + 16 {
        Some((5, h))
    } else if length < h + package.header.size() {
        Some((8, h + 12))
    } else {
        None
    }
}

/// Where parts of a package meet: the cuts worth trying, each ± 1.
pub fn boundaries(package: &Package) -> Vec<usize> {
    let mut places = vec![0, S, package.bytes().len()];
    for (start, structure) in package.structures() {
        let index = start + 16;
        let store = index + 16 * structure.records.len();
        places.extend([
            start,
            start + 4,
            start + 8,
            start + 12,
            start + structure.size(),
        ]);
        places.extend((index..=store).step_by(16));
        places.extend(
            structure
                .records
                .iter()
                .map(|record| store + record[2] as usize),
        );
    }
    places.sort_unstable();
    places.dedup();
    places
}
