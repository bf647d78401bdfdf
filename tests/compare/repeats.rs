//! Repeated tags in indexes of every order: records that are sound but for their tags.

use crate::bench::{Answer, Bench, Question};
use crate::maker::{Package, Structure};
use crate::random::Random;
use crate::shapes::LAWFUL;
use crate::tags::{self, Order, Repeat};

/// A package of two structures whose tags are all different.
struct Made {
    package: Package,
    bytes: Vec<u8>,
    asked: usize,
}

/// Records of these tags and any type, each with four zero bytes.
fn structure(random: &mut Random, tags: &[u32]) -> Structure {
    let record = |(at, &tag)| [tag, random.pick(&LAWFUL), 4 * at as u32, 1];
    Structure {
        records: tags.iter().enumerate().map(record).collect(),
        store: vec![0; 4 * tags.len()],
    }
}

/// A record that fails a check, whatever its tag.
struct Broken {
    structure: usize,
    at: usize,
    check: u32,
}

impl Made {
    fn new(random: &mut Random, tags: [&[u32]; 2]) -> Made {
        let [signature, header] = tags.map(|tags| structure(random, tags));
        let package = Package::of(signature, header);
        let bytes = package.bytes();
        Made {
            package,
            bytes,
            asked: 0,
        }
    }

    /// The tags in one structure, one record in the other.
    fn one(random: &mut Random, structure: usize, tags: &[u32]) -> Made {
        let other = [tags[0]];
        match structure {
            0 => Made::new(random, [tags, &other]),
            _ => Made::new(random, [&other, tags]),
        }
    }

    /// Where a record is.
    fn place(&self, structure: usize, at: usize) -> usize {
        let (start, _) = self.package.structures()[structure];
        start + 16 + 16 * at
    }

    fn question(&self, structure: usize, at: usize, element: Option<u32>) -> Question {
        let (_, own) = self.package.structures()[structure];
        let [tag, ty, ..] = own.records[at];
        Question {
            structure: structure as u32,
            tag,
            ty,
            element,
        }
    }

    /// All tags different: the first, the last and any other record of each structure is found.
    fn right(&self, bench: &mut Bench, random: &mut Random, note: &'static str) {
        bench.package(&self.bytes);
        bench.note(note);
        for (structure, (_, own)) in self.package.structures().into_iter().enumerate() {
            let count = own.records.len();
            for at in [0, count - 1, random.below(count)] {
                let data = self.place(structure, count) + 4 * at;
                let question = self.question(structure, at, Some(0));
                bench.ask_both(question, Some(Answer::new(0, data)));
            }
        }
    }

    /// Refused, with these tags repeated and a record broken: one look-up, of an entry or of
    /// an element.
    fn wrong(
        &mut self,
        bench: &mut Bench,
        note: &'static str,
        repeats: &[(usize, &Repeat)],
        broken: Option<&Broken>,
    ) {
        let mut bytes = self.bytes.clone();
        let mut put = |at: usize, number: u32| {
            bytes[at..at + 4].copy_from_slice(&number.to_be_bytes());
        };
        let mut refusals = Vec::new();
        for &(structure, repeat) in repeats {
            let (_, own) = self.package.structures()[structure];
            for &[at, from] in &repeat.gets {
                put(self.place(structure, at), own.records[from][0]);
            }
            refusals.push((self.place(structure, repeat.first), 13));
        }
        if let Some(&Broken {
            structure,
            at,
            check,
        }) = broken
        {
            let (_, own) = self.package.structures()[structure];
            let [_, ty, offset, _] = own.records[at];
            let left = own.store.len() as u32 - offset;
            let place = self.place(structure, at);
            let numbers = match check {
                9 => [5, offset, 1],
                10 => [ty, offset, 0],
                11 => [4, offset + 2, 1],
                _ => [7, offset, left + 1],
            };
            for (n, number) in numbers.into_iter().enumerate() {
                put(place + 4 + 4 * n, number);
            }
            refusals.push((place, check));
        }
        // Places rise in the order of the checks, numbers within one record.
        let (place, number) = refusals.into_iter().min().expect("something wrong");
        bench.package(&bytes);
        bench.note(note);
        self.asked += 1;
        let element = (self.asked % 2 == 0).then_some(0);
        let structure = self.asked / 2 % 2;
        let question = self.question(structure, 0, element);
        bench.ask(question, Some(Answer::new(number, place)));
    }
}

pub fn repeats(bench: &mut Bench, random: &mut Random) {
    for order in tags::all() {
        for structure in [0, 1] {
            small(bench, random, structure, order);
        }
        both_structures(bench, random, order);
        beside_others(bench, random, order);
        behind_others(bench, random, order);
    }
    for structure in [0, 1] {
        for order in tags::all() {
            large(bench, random, structure, order);
        }
        for order in tags::PLAIN {
            every_distance(bench, random, structure, order);
        }
    }
}

/// 1 to 9 records: every pair, some with another pair, some of three.
fn small(bench: &mut Bench, random: &mut Random, structure: usize, (note, order): Order) {
    for count in 1..=9 {
        let tags = order(random, count);
        let mut made = Made::one(random, structure, &tags);
        made.right(bench, random, note);
        for repeat in tags::pairs(count) {
            made.wrong(bench, note, &[(structure, &repeat)], None);
        }
        for _ in 0..6 {
            for repeat in tags::several(random, count) {
                made.wrong(bench, note, &[(structure, &repeat)], None);
            }
        }
    }
}

/// Up to 512 records: some pairs.
fn large(bench: &mut Bench, random: &mut Random, structure: usize, (note, order): Order) {
    for count in [16, 17, 33, 64, 130, 255, 256, 257, 300, 511, 512] {
        let tags = order(random, count);
        let mut made = Made::one(random, structure, &tags);
        made.right(bench, random, note);
        for [earlier, later] in [[0, count - 1], [0, 1], [count - 2, count - 1]] {
            for repeat in tags::pair(earlier, later) {
                made.wrong(bench, note, &[(structure, &repeat)], None);
            }
        }
        for _ in 0..10 {
            let repeat = tags::any_pair(random, count);
            made.wrong(bench, note, &[(structure, &repeat)], None);
        }
        for repeat in tags::several(random, count) {
            made.wrong(bench, note, &[(structure, &repeat)], None);
        }
    }
}

/// 512 records, the first and another, another and the last.
fn every_distance(bench: &mut Bench, random: &mut Random, structure: usize, (note, order): Order) {
    let tags = order(random, 512);
    let mut made = Made::one(random, structure, &tags);
    for repeat in tags::distances(512) {
        made.wrong(bench, note, &[(structure, &repeat)], None);
    }
}

/// The same tags in both structures, which is no repeat; repeats in both: the signature's
/// counts.
fn both_structures(bench: &mut Bench, random: &mut Random, (note, order): Order) {
    for count in [2, 3, 9, 64, 512] {
        let tags = order(random, count);
        let mut made = Made::new(random, [&tags, &tags]);
        made.right(bench, random, note);
        for _ in 0..6 {
            let [one, other] = [0; 2].map(|_| tags::any_pair(random, count));
            made.wrong(bench, note, &[(0, &one), (1, &other)], None);
        }
    }
}

/// A record that fails one of checks 9 to 12 before, at and behind the one that repeats a tag.
fn beside_others(bench: &mut Bench, random: &mut Random, (note, order): Order) {
    for count in [2, 3, 4, 5, 8, 40, 512] {
        let tags = order(random, count);
        let mut made = Made::new(random, [&tags, &tags]);
        for structure in [0, 1] {
            let repeat = tags::any_pair(random, count);
            let near = repeat.first.saturating_sub(1)..repeat.first + 2;
            let any = random.below(count);
            for at in near.chain([0, any, count - 1]).filter(|&at| at < count) {
                for check in 9..=12 {
                    let broken = Broken {
                        structure,
                        at,
                        check,
                    };
                    made.wrong(bench, note, &[(structure, &repeat)], Some(&broken));
                }
            }
            // In the other structure.
            let broken = Broken {
                structure: 1 - structure,
                at: any,
                check: 9 + random.below(4) as u32,
            };
            made.wrong(bench, note, &[(structure, &repeat)], Some(&broken));
        }
    }
}

/// Repeated tags in a structure that fails check 7 or 8, or is cut off.
fn behind_others(bench: &mut Bench, random: &mut Random, (note, order): Order) {
    for count in [2, 9, 512] {
        let tags = order(random, count);
        for structure in [0, 1] {
            let repeat = tags::any_pair(random, count);
            let mut made = Made::one(random, structure, &tags);
            let (start, own) = made.package.structures()[structure];
            let (index, end) = (start + 16, start + own.size());
            for [at, from] in repeat.gets {
                let tag = own.records[from][0].to_be_bytes();
                made.bytes[index + 16 * at..][..4].copy_from_slice(&tag);
            }
            let question = made.question(structure, 0, Some(0));
            for (field, check, number) in [
                (8, 7, 0),
                (8, 7, 513),
                (8, 7, u32::MAX),
                (12, 8, 1 << 20),
                (12, 8, u32::MAX),
            ] {
                let place = start + field;
                let mut bytes = made.bytes.clone();
                bytes[place..place + 4].copy_from_slice(&number.to_be_bytes());
                bench.package(&bytes);
                bench.note(note);
                bench.ask_both(question, Some(Answer::new(check, place)));
            }
            let any = random.below(end - index);
            for length in [index, index + 16 * repeat.first, index + any, end - 1] {
                bench.package(&made.bytes[..length]);
                bench.note(note);
                bench.ask_both(question, Some(Answer::new(8, start + 12)));
            }
        }
    }
}
