//! The cases that are made here, family by family.

use crate::bench::{Answer, Bench, Question};
use crate::damage;
use crate::fence::ROOM;
use crate::gaps::gaps;
use crate::maker::{is_single, lead, size_of, Entry, Package, Structure, S};
use crate::questions::*;
use crate::random::Random;
use crate::repeats::repeats;
use crate::shapes::{shape, Known, Plan, Shape, LAWFUL};

/// All families with their names, in the order in which they run.
pub const ALL: [(&str, fn(&mut Bench, &mut Random)); 13] = [
    ("right packages", right_packages),
    ("many records", many_records),
    ("sizes", sizes),
    ("one damage", damages),
    ("two damages", pairs_of_damages),
    ("cuts", cuts),
    ("lost zero bytes", lost_zero_bytes),
    ("extreme fields", extreme_fields),
    ("random records", soup),
    ("random bytes", noise),
    ("translated strings", translated),
    ("repeated tags of an index", repeats),
    ("gaps", gaps),
];

pub fn small(random: &mut Random) -> Shape {
    let plan = Plan::small(random);
    shape(random, &plan)
}

fn right_packages(bench: &mut Bench, random: &mut Random) {
    for _ in 0..600 {
        let shape = small(random);
        bench.package(&shape.package.bytes());
        for entry in &shape.known {
            ask_entry(bench, random, entry);
        }
        ask_tags(bench, random);
    }
}

fn many_records(bench: &mut Bench, random: &mut Random) {
    for count in [1, 2, 15, 16, 17, 64, 127, 128, 255, 256, 257, 511, 512] {
        for records in [[count, 3], [2, count], [count, count]] {
            let plan = Plan {
                records,
                most_elements: 3,
                payload: random.below(9),
            };
            let shape = shape(random, &plan);
            let bytes = shape.package.bytes();
            bench.package(&bytes);
            let last = shape.known.len() - 1;
            for at in [0, records[0] - 1, records[0], last, random.below(last + 1)] {
                ask_entry(bench, random, &shape.known[at]);
            }
            let damages = damage::all(&shape.package, random);
            for _ in 0..40 {
                let damage = &damages[random.below(damages.len())];
                let mut bytes = bytes.clone();
                damage.apply(&mut bytes);
                bench.package(&bytes);
                bench.note(damage.what);
                ask_refused(bench, random, &shape, damage.number, damage.place);
            }
        }
    }
    // One record too many, all else right.
    for records in [[513, 1], [1, 513], [600, 600]] {
        let plan = Plan {
            records,
            most_elements: 1,
            payload: 0,
        };
        let shape = shape(random, &plan);
        let wrong = if records[0] > 512 { 0 } else { 1 };
        let (start, _) = shape.package.structures()[wrong];
        bench.package(&shape.package.bytes());
        ask_refused(bench, random, &shape, 7, start + 8);
    }
}

/// Packages at and over the largest size, and entries that fill them.
fn sizes(bench: &mut Bench, random: &mut Random) {
    let limit = 65_536;
    for size in [65_535, limit, 65_537, 65_540, 70_000, 131_072, ROOM] {
        let mut shape = small(random);
        let rest = size - shape.package.bytes().len();
        let payload = shape.package.payload.len();
        shape.package.payload.resize(payload + rest, 7);
        let mut bytes = shape.package.bytes();
        bench.package(&bytes);
        if size <= limit {
            ask_entry(bench, random, &shape.known[0]);
        } else {
            ask_refused(bench, random, &shape, 2, 0);
            // 2 goes before all others.
            bytes[0] ^= 1;
            bench.package(&bytes);
            ask_refused(bench, random, &shape, 2, 0);
        }
    }
    for ty in LAWFUL {
        for size in [limit, limit + 1] {
            let (package, entry) = one_large_entry(ty, size);
            bench.package(&package);
            if size == limit {
                ask_entry(bench, random, &entry);
            } else {
                bench.ask_both(question(&entry, 0), Some(Answer::new(2, 0)));
            }
        }
    }
}

/// A package of exactly `size` bytes, almost all of them one header entry.
fn one_large_entry(ty: u32, size: usize) -> (Vec<u8>, Known) {
    let tag = 20_001;
    let signature = Structure::of(&[Entry::new(1000, 4, &[&[0; 4]])]);
    let mut package = Package::of(signature, Structure::default());
    let place = package.h() + 32;
    let room = size - place;
    let each = match (ty, size_of(ty)) {
        (_, Some(each)) => each,
        (6, None) => room,
        (_, None) => 3,
    };
    let mut element = vec![b'x'; each];
    if size_of(ty).is_none() {
        element[each - 1] = 0;
    }
    let elements = vec![element; room / each];
    package.header.put(&Entry { tag, ty, elements }, 0);
    let mut bytes = package.bytes();
    bytes.resize(size, 1);
    let known = Known {
        structure: 1,
        tag,
        ty,
        elements: (0..room / each).map(|n| place + n * each).collect(),
    };
    (bytes, known)
}

/// Each damage of each check, one at a time.
fn damages(bench: &mut Bench, random: &mut Random) {
    for _ in 0..100 {
        let shape = small(random);
        let right = shape.package.bytes();
        for damage in damage::all(&shape.package, random) {
            let mut bytes = right.clone();
            damage.apply(&mut bytes);
            bench.package(&bytes);
            bench.note(damage.what);
            ask_refused(bench, random, &shape, damage.number, damage.place);
        }
    }
}

/// Two damages, neighbours or any two: the first check that fails decides.
fn pairs_of_damages(bench: &mut Bench, random: &mut Random) {
    for _ in 0..100 {
        let shape = small(random);
        let right = shape.package.bytes();
        let damages = damage::all(&shape.package, random);
        let mut pairs: Vec<[usize; 2]> = (1..damages.len()).map(|at| [at - 1, at]).collect();
        pairs.extend((0..200).map(|_| [0; 2].map(|_| random.below(damages.len()))));
        for [one, other] in pairs {
            let (one, other) = (&damages[one], &damages[other]);
            let Some((number, place)) = one.first_of(other) else {
                continue;
            };
            let mut bytes = right.clone();
            one.apply(&mut bytes);
            other.apply(&mut bytes);
            bench.package(&bytes);
            ask_refused(bench, random, &shape, number, place);
        }
    }
}

/// Small packages cut at every length, large ones around their boundaries.
fn cuts(bench: &mut Bench, random: &mut Random) {
    for round in 0..24 {
        let shape = if round < 20 {
            small(random)
        } else {
            let plan = Plan {
                records: [40, 200],
                most_elements: 9,
                payload: 100,
            };
            shape(random, &plan)
        };
        let right = shape.package.bytes();
        let lengths: Vec<usize> = if round < 20 {
            (0..=right.len()).collect()
        } else {
            let around = |at: usize| [at.saturating_sub(1), at, (at + 1).min(right.len())];
            let boundaries = damage::boundaries(&shape.package);
            boundaries.into_iter().flat_map(around).collect()
        };
        for length in lengths {
            bench.package(&right[..length]);
            match damage::cut(&shape.package, length) {
                Some((number, place)) => ask_refused(bench, random, &shape, number, place),
                None => ask_some(bench, random, &shape),
            }
        }
    }
}

/// Each zero byte of a store lost, then all of the store's last ones.
fn lost_zero_bytes(bench: &mut Bench, random: &mut Random) {
    for _ in 0..100 {
        let shape = small(random);
        let right = shape.package.bytes();
        for (start, structure) in shape.package.structures() {
            let end = start + structure.size();
            for at in end - structure.store.len()..end {
                if right[at] != 0 {
                    continue;
                }
                let mut bytes = right.clone();
                bytes[at] = b'x';
                bench.package(&bytes);
                ask_some(bench, random, &shape);
                bytes[at..end].fill(b'x');
                bench.package(&bytes);
                ask_some(bench, random, &shape);
            }
        }
    }
}

/// Extreme numbers in every field of header and index records, one or two at a time.
fn extreme_fields(bench: &mut Bench, random: &mut Random) {
    for _ in 0..30 {
        let shape = small(random);
        let right = shape.package.bytes();
        for (number, (start, structure)) in shape.package.structures().into_iter().enumerate() {
            let size = structure.store.len() as u32;
            let near = [size - 1, size, size + 1, size / 4, size / 4 + 1];
            let fields = start + 8..start + 16 + 16 * structure.records.len();
            for field in fields.clone().step_by(4) {
                for value in EXTREMES.into_iter().chain(near) {
                    let mut bytes = right.clone();
                    bytes[field..field + 4].copy_from_slice(&value.to_be_bytes());
                    if random.one_in(4) {
                        let other = fields.start + 4 * random.below(fields.len() / 4);
                        let value = random.pick(&EXTREMES);
                        bytes[other..other + 4].copy_from_slice(&value.to_be_bytes());
                    }
                    bench.package(&bytes);
                    if field < start + 16 {
                        ask_some(bench, random, &shape);
                    } else {
                        let record = field - (field - start) % 16;
                        ask_record(bench, random, &bytes, number as u32, record);
                    }
                }
            }
        }
    }
}

/// Small structures of random records over few bytes: often right, wrong in any way.
fn soup(bench: &mut Bench, random: &mut Random) {
    for _ in 0..30_000 {
        let signature = match random.below(3) {
            0 => random_structure(random, 0),
            _ => Structure::of(&[Entry::new(1000, 4, &[&[0; 4]])]),
        };
        let package = Package::of(signature, random_structure(random, 1));
        let bytes = package.bytes();
        bench.package(&bytes);
        for (number, (start, structure)) in package.structures().into_iter().enumerate() {
            let record = start + 16 + 16 * random.below(structure.records.len());
            ask_record(bench, random, &bytes, number as u32, record);
        }
    }
}

fn random_structure(random: &mut Random, number: usize) -> Structure {
    let size = random.below(20);
    let store = (0..size).map(|_| random.pick(&[0, 0, b'a'])).collect();
    let record = |random: &mut Random| {
        let ty = match random.below(20) {
            0 => random.below(12) as u32,
            _ => random.pick(&LAWFUL),
        };
        let count = match is_single(number, ty) && !random.one_in(20) {
            true => 1,
            false => 1 + random.below(3) as u32,
        };
        let align = size_of(ty).unwrap_or(1);
        let mut offset = random.below(size + 1) / align * align;
        if random.one_in(20) {
            offset += 1;
        }
        let count = count - u32::from(random.one_in(30));
        [random.below(9) as u32, ty, offset as u32, count]
    };
    let records = (0..1 + random.below(4)).map(|_| record(random)).collect();
    Structure { records, store }
}

/// Strings of type 9: 1 to 5, one for each locale number, in the header; one in the
/// signature.
fn translated(bench: &mut Bench, random: &mut Random) {
    for count in 1..=5 {
        for structure in [0, 1] {
            for _ in 0..6 {
                some_strings(bench, random, structure, count);
            }
        }
    }
    // A number that has the low bits of another.
    for count in [256, 257, 300, 513] {
        some_strings(bench, random, 1, count);
    }
}

/// Strings of type 9 between two other entries.
fn some_strings(bench: &mut Bench, random: &mut Random, structure: usize, count: usize) {
    let texts: Vec<Vec<u8>> = (0..count)
        .map(|n| [vec![b'x'; (n + random.below(3)) % 4], vec![0]].concat())
        .collect();
    let tag = random.pick(&[0, 7, 100, 1004, 1005, 1016, 5000, u32::MAX]);
    let other = Structure::of(&[Entry::new(1000, 4, &[&[0; 4]])]);
    let mut own = other.clone();
    let before = vec![b"ab\0".to_vec(); 2];
    // No zero byte behind them.
    let behind = vec![vec![1]; 3];
    for (tag, ty, elements) in [(8, 8, before), (tag, 9, texts), (9, 7, behind)] {
        own.put(&Entry { tag, ty, elements }, 0);
    }
    let [_, _, offset, _] = own.records[2];
    let mut package = Package::of(other.clone(), other);
    match structure {
        0 => package.signature = own,
        _ => package.header = own,
    }
    let (start, own) = package.structures()[structure];
    let record = start + 16 + 2 * 16;
    let store = start + 16 + 16 * own.records.len();
    let first = store + offset as usize;
    let bytes = package.bytes();
    let question = |element| Question {
        structure: structure as u32,
        tag,
        ty: 9,
        element: Some(element),
    };
    bench.package(&bytes);
    if is_single(structure, 9) && count > 1 {
        bench.ask_both(question(0), Some(Answer::new(10, record)));
        return;
    }

    let mut elements = Vec::new();
    let mut place = first;
    for element in 0..count {
        bench.ask(question(element as u32), Some(Answer::new(0, place)));
        elements.push(place);
        let zero = bytes[place..].iter().position(|&byte| byte == 0);
        place += zero.unwrap() + 1;
    }
    for element in EXTREMES.into_iter().filter(|&n| n >= count as u32) {
        bench.ask(question(element), Some(Answer::new(26, 0)));
    }
    let known = Known {
        structure: structure as u32,
        tag,
        ty: 9,
        elements,
    };
    ask_entry(bench, random, &known);

    let more = if is_single(structure, 9) { 10 } else { 12 };
    for (count, number) in [(0, 10), (count as u32 + 1, more), (u32::MAX, more)] {
        let mut bytes = bytes.clone();
        bytes[record + 12..record + 16].copy_from_slice(&count.to_be_bytes());
        bench.package(&bytes);
        bench.ask_both(question(0), Some(Answer::new(number, record)));
    }
    // A zero byte lost, the last one or another: there are fewer strings.
    for element in [count - 1, count / 2, 0] {
        let end = known.elements.get(element + 1).copied().unwrap_or(place);
        let mut bytes = bytes.clone();
        bytes[end - 1] = b'x';
        bench.package(&bytes);
        bench.ask_both(question(0), Some(Answer::new(12, record)));
    }
}

/// Random bytes, alone or behind a right beginning; right packages with some bytes changed.
fn noise(bench: &mut Bench, random: &mut Random) {
    for round in 0..20_000 {
        let length = random.below(400);
        let shape = small(random);
        let mut bytes = shape.package.bytes();
        match round % 5 {
            0 => bytes = random.bytes(length),
            1 => {
                bytes = lead().to_vec();
                bytes.extend(random.bytes(length));
            }
            2 => {
                bytes.truncate(S + 16 + random.below(40));
                bytes.extend(random.bytes(length));
            }
            3 => change(random, &mut bytes),
            _ => {
                // Some bytes lost: all behind them shifts.
                let at = random.below(bytes.len());
                let part = bytes.split_off(at);
                let skip = random.below(part.len().min(20) + 1);
                bytes.extend(&part[skip..]);
            }
        }
        bench.package(&bytes);
        ask_some(bench, random, &shape);
    }
}

/// Changes one to four bytes.
pub fn change(random: &mut Random, bytes: &mut [u8]) {
    for _ in 0..1 + random.below(4) {
        let at = random.below(bytes.len());
        let values = [0, 1, 0xFF, bytes[at] ^ 1, random.byte()];
        bytes[at] = random.pick(&values);
    }
}
