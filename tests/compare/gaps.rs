//! The gap between the signature's end and H: check 28.

use crate::bench::{Answer, Bench, Question};
use crate::damage;
use crate::families::small;
use crate::maker::{Entry, Package, Structure, S};
use crate::questions::{ask_entry, question};
use crate::random::Random;
use crate::shapes::{shape, Plan, Shape};

pub fn gaps(bench: &mut Bench, random: &mut Random) {
    for length in 0..8 {
        every_value(bench, length);
        every_set(bench, random, length);
        signatures_last_byte(bench, length);
        headers_first_bytes(bench, random, length);
        header_elsewhere(bench, length);
        cuts(bench, random, length);
        for _ in 0..4 {
            let shape = with_gap(random, length);
            strays(bench, random, &shape);
            every_cut(bench, random, &shape);
            other_damages(bench, random, &shape);
        }
    }
    many_records(bench, random);
    places(bench, random);
}

// ---- A package of which every place is known ----

/// H.
const H: usize = 160;

/// A package with a gap of so many bytes before 160. 1000 is at 144 in the signature and at
/// 192 in the header; the signature's last entry fills it up.
fn plain(length: usize) -> Package {
    let number = Entry::new(1000, 4, &[&[0; 4]]);
    let filler = Entry::new(1002, 7, &vec![&[7][..]; 12 - length]);
    let signature = Structure::of(&[number.clone(), filler]);
    Package::of(signature, Structure::of(&[number]))
}

/// Where its gap begins.
fn end(length: usize) -> usize {
    H - length
}

/// Looks up 1000 in both structures, whole and its element: each gets this refusal, or is
/// found.
fn ask(bench: &mut Bench, refusal: Option<(u32, usize)>) {
    for (structure, found) in [(0, 144), (1, 192), (u32::MAX, 192)] {
        let question = Question {
            structure,
            tag: 1000,
            ty: 4,
            element: Some(0),
        };
        let (number, place) = refusal.unwrap_or((0, found));
        bench.ask_both(question, Some(Answer::new(number, place)));
    }
}

/// Each byte of the gap alone, with each value.
fn every_value(bench: &mut Bench, length: usize) {
    let right = plain(length);
    bench.package(&right.bytes());
    ask(bench, None);
    for at in 0..length {
        for value in 1..=255 {
            let mut package = right.clone();
            package.gap[at] = value;
            bench.package(&package.bytes());
            ask(bench, Some((28, end(length) + at)));
        }
    }
}

/// Each set of the gap's bytes, two of them or all among others: the first decides. In one
/// round their sum is 256.
fn every_set(bench: &mut Bench, random: &mut Random, length: usize) {
    for set in 1..1 << length {
        let those: Vec<usize> = (0..length).filter(|at| set >> at & 1 == 1).collect();
        for round in 0..5 {
            let mut package = plain(length);
            for &at in &those {
                package.gap[at] = match round {
                    0 | 4 => 1,
                    1 => 0x80,
                    2 => 0xFF,
                    _ => random.nonzero_byte(),
                };
            }
            if round == 4 && those.len() > 1 {
                package.gap[those[0]] = 0u8.wrapping_sub(those.len() as u8 - 1);
            }
            bench.package(&package.bytes());
            ask(bench, Some((28, end(length) + those[0])));
        }
    }
}

/// The byte before the gap is the signature's: it may be anything.
fn signatures_last_byte(bench: &mut Bench, length: usize) {
    for value in 0..=255 {
        let mut package = plain(length);
        *package.signature.store.last_mut().expect("a store") = value;
        bench.package(&package.bytes());
        ask(bench, None);
        if length > 0 {
            package.gap[length - 1] = value.max(1);
            bench.package(&package.bytes());
            ask(bench, Some((28, H - 1)));
        }
    }
}

/// The bytes behind the gap are the header's: 6, and 28 if the gap has a stray byte too.
fn headers_first_bytes(bench: &mut Bench, random: &mut Random, length: usize) {
    let right = plain(length).bytes();
    for at in 0..8 {
        for value in [0, 1, 0x80, 0xFF, random.byte()] {
            let mut bytes = right.clone();
            if bytes[H + at] == value {
                continue;
            }
            bytes[H + at] = value;
            bench.package(&bytes);
            ask(bench, Some((6, H + at / 4 * 4)));
            if length > 0 {
                bytes[H - 1] = random.nonzero_byte();
                bench.package(&bytes);
                ask(bench, Some((28, H - 1)));
            }
        }
    }
}

/// The header right behind the signature, and 8 bytes too late.
fn header_elsewhere(bench: &mut Bench, length: usize) {
    let package = plain(length);
    let bytes = package.bytes();
    let early = [&bytes[..end(length)], &bytes[H..]].concat();
    bench.package(&early);
    ask(bench, (length > 0).then_some((28, end(length))));
    let late = [&bytes[..H], &[0; 8], &bytes[H..]].concat();
    bench.package(&late);
    ask(bench, Some((6, H)));
}

/// Cut at each byte of the gap and right behind it: what is left of the gap counts.
fn cuts(bench: &mut Bench, random: &mut Random, length: usize) {
    for cut in end(length)..H + 16 {
        bench.package(&plain(length).bytes()[..cut]);
        ask(bench, Some((5, H)));
        for at in 0..length {
            for value in [1, 0x80, 0xFF, random.nonzero_byte()] {
                let mut package = plain(length);
                package.gap[at] = value;
                let place = end(length) + at;
                bench.package(&package.bytes()[..cut]);
                ask(bench, Some(if place < cut { (28, place) } else { (5, H) }));
                package.gap[at..].fill(value);
                bench.package(&package.bytes()[..cut]);
                ask(bench, Some(if place < cut { (28, place) } else { (5, H) }));
            }
        }
    }
}

// ---- Packages of any shape ----

/// A right package whose gap has so many bytes.
fn with_gap(random: &mut Random, length: usize) -> Shape {
    loop {
        let shape = small(random);
        if shape.package.gap_place().len() == length {
            return shape;
        }
    }
}

/// Looks up an entry of each structure: refused, whatever it is.
fn ask_refused(bench: &mut Bench, random: &mut Random, shape: &Shape, number: u32, place: usize) {
    for structure in [0, 1] {
        let own = shape.known.iter().filter(|one| one.structure == structure);
        let own: Vec<_> = own.collect();
        let entry = own[random.below(own.len())];
        let element = random.below(entry.elements.len() + 1) as u32;
        let known = Answer::new(number, place);
        bench.ask_both(question(entry, element), Some(known));
    }
}

/// Each byte alone, two, all; none.
fn strays(bench: &mut Bench, random: &mut Random, shape: &Shape) {
    bench.package(&shape.package.bytes());
    for entry in &shape.known {
        ask_entry(bench, random, entry);
    }
    for at in 0..shape.package.gap_place().len() {
        for value in [1, 0x80, 0xFF, random.nonzero_byte()] {
            for behind in [0, random.byte(), 0xFF] {
                let mut package = shape.package.clone();
                package.gap[at] = value;
                package.gap[at + 1..].fill(behind);
                bench.package(&package.bytes());
                let place = package.gap_place().start + at;
                ask_refused(bench, random, shape, 28, place);
            }
        }
    }
}

/// Cut at every length, with a stray byte: before the gap's start others decide.
fn every_cut(bench: &mut Bench, random: &mut Random, shape: &Shape) {
    let length = shape.package.gap_place().len();
    if length == 0 {
        return;
    }
    let mut package = shape.package.clone();
    package.gap[random.below(length)] = random.nonzero_byte();
    let bytes = package.bytes();
    for length in 0..=bytes.len() {
        let (number, place) = damage::cut(&package, length).expect("a stray byte");
        bench.package(&bytes[..length]);
        ask_refused(bench, random, shape, number, place);
    }
}

/// A stray byte together with each other damage: that of lead or signature goes before, that
/// of the header comes behind.
fn other_damages(bench: &mut Bench, random: &mut Random, shape: &Shape) {
    let gap = shape.package.gap_place();
    if gap.is_empty() {
        return;
    }
    for damage in damage::all(&shape.package, random) {
        if damage.number == 28 {
            continue;
        }
        let at = random.below(gap.len());
        let mut package = shape.package.clone();
        package.gap[at] = random.nonzero_byte();
        let mut bytes = package.bytes();
        damage.apply(&mut bytes);
        bench.package(&bytes);
        bench.note(damage.what);
        let (number, place) = match damage.place < gap.start {
            true => (damage.number, damage.place),
            false => (28, gap.start + at),
        };
        ask_refused(bench, random, shape, number, place);
    }
    // 2 goes before all others.
    let mut package = shape.package.clone();
    package.gap[0] = random.nonzero_byte();
    let mut bytes = package.bytes();
    for (size, number, place) in [(65_536, 28, gap.start), (65_537, 2, 0), (131_072, 2, 0)] {
        bytes.resize(size, 0);
        bench.package(&bytes);
        ask_refused(bench, random, shape, number, place);
    }
}

/// Gaps behind up to 512 records, and before them.
fn many_records(bench: &mut Bench, random: &mut Random) {
    for count in [16, 64, 128, 255, 256, 257, 300, 511, 512] {
        for records in [[count, 2], [2, count], [count, count]] {
            for _ in 0..3 {
                let plan = Plan {
                    records,
                    most_elements: 2,
                    payload: random.below(9),
                };
                let shape = shape(random, &plan);
                for (at, place) in shape.package.gap_place().enumerate() {
                    let mut package = shape.package.clone();
                    package.gap[at] = random.nonzero_byte();
                    bench.package(&package.bytes());
                    ask_refused(bench, random, &shape, 28, place);
                }
            }
        }
    }
}

/// Signatures that end anywhere up to the largest package: places of more than 8 and 15 bits,
/// and an H where no header fits.
fn places(bench: &mut Bench, random: &mut Random) {
    let limit = 65_536;
    let small = (250..266).chain(4090..4106);
    let large = (32_760..32_776).chain(65_490..limit + 1);
    for end in small.chain(large) {
        let own = Entry::new(1002, 7, &vec![&[7][..]; end - S - 32]);
        let signature = Structure::of(&[own]);
        let header = Structure::of(&[Entry::new(1000, 4, &[&[0; 4]])]);
        let right = Package::of(signature, header);
        let (gap, h) = (right.gap_place(), right.h());
        let question = |structure, tag, ty| Question {
            structure,
            tag,
            ty,
            element: Some(0),
        };
        let questions = [
            (question(0, 1002, 7), S + 32),
            (question(1, 1000, 4), h + 32),
        ];
        let mut case = |bytes: &[u8], refusal: Option<(u32, usize)>| {
            bench.package(bytes);
            for (question, found) in questions {
                let (number, place) = refusal.unwrap_or((0, found));
                bench.ask_both(question, Some(Answer::new(number, place)));
            }
        };
        let over = right.bytes().len() > limit;
        case(&right.bytes(), over.then_some((2, 0)));
        case(&right.bytes()[..h], Some((5, h)));
        for (at, place) in gap.enumerate() {
            let mut package = right.clone();
            package.gap[at] = random.nonzero_byte();
            let bytes = package.bytes();
            case(&bytes, Some(if over { (2, 0) } else { (28, place) }));
            case(&bytes[..h], Some((28, place)));
            case(&bytes[..place + 1], Some((28, place)));
            case(&bytes[..place], Some((5, h)));
        }
    }
}
