//! Right packages of many shapes, with what is known of their entries.

use crate::maker::{is_single, lead, size_of, Entry, Package, Structure};
use crate::random::Random;

pub const LAWFUL: [u32; 8] = [1, 2, 3, 4, 6, 7, 8, 9];

/// An entry of a right package: where its elements are in the file, by construction.
#[derive(Clone, Debug)]
pub struct Known {
    pub structure: u32,
    pub tag: u32,
    pub ty: u32,
    pub elements: Vec<usize>,
}

pub struct Shape {
    pub package: Package,
    pub known: Vec<Known>,
}

/// How large a shape gets.
pub struct Plan {
    pub records: [usize; 2],
    pub most_elements: usize,
    pub payload: usize,
}

impl Plan {
    pub fn small(random: &mut Random) -> Plan {
        Plan {
            records: [1 + random.below(6), 1 + random.below(10)],
            most_elements: 1 + random.below(7),
            payload: random.below(40),
        }
    }
}

/// A record and the store offsets of its elements.
type Placed = ([u32; 4], Vec<usize>);

pub fn shape(random: &mut Random, plan: &Plan) -> Shape {
    let (signature, in_signature) = structure(random, plan, 0);
    let (header, in_header) = structure(random, plan, 1);
    let package = Package {
        lead: free_lead(random),
        signature,
        gap: [0; 7],
        header,
        payload: random.bytes(plan.payload),
    };
    let mut known = Vec::new();
    for (number, placed) in [in_signature, in_header].iter().enumerate() {
        let (start, structure) = package.structures()[number];
        let store = start + 16 + 16 * structure.records.len();
        known.extend(placed.iter().map(|(record, starts)| Known {
            structure: number as u32,
            tag: record[0],
            ty: record[1],
            elements: starts.iter().map(|start| store + start).collect(),
        }));
    }
    Shape { package, known }
}

/// A right lead whose free bytes are anything.
pub fn free_lead(random: &mut Random) -> [u8; 96] {
    let mut bytes = lead();
    let name = random.below(66);
    for at in (8..10 + name).chain(11 + name..76).chain(80..96) {
        bytes[at] = random.nonzero_byte();
    }
    bytes[10 + name] = 0;
    bytes
}

fn structure(random: &mut Random, plan: &Plan, number: usize) -> (Structure, Vec<Placed>) {
    let mut structure = Structure::default();
    let mut placed: Vec<Placed> = Vec::new();
    for tag in tags(random, plan.records[number]) {
        let shared = if random.one_in(4) {
            shared(random, &structure.store, &placed, tag, number)
        } else {
            None
        };
        placed.push(shared.unwrap_or_else(|| {
            let ty = random.pick(&LAWFUL);
            let count = match is_single(number, ty) {
                true => 1,
                false => 1 + random.below(plan.most_elements),
            };
            fresh(random, &mut structure, tag, ty, count)
        }));
    }
    let slack = random.below(4);
    structure.store.extend(random.bytes(slack));
    random.shuffle(&mut placed);
    structure.records = placed.iter().map(|(record, _)| *record).collect();
    (structure, placed)
}

/// Different tags: near 1000, small, or extreme.
fn tags(random: &mut Random, count: usize) -> Vec<u32> {
    let mut tags = vec![0, 1, 62, 63, 100, 1 << 31, u32::MAX, 1000 + (1 << 16)];
    tags.extend(1000..1000 + count as u32);
    random.shuffle(&mut tags);
    tags.truncate(count);
    tags
}

fn string(random: &mut Random) -> Vec<u8> {
    let length = random.below(8);
    let mut string: Vec<u8> = (0..length).map(|_| random.nonzero_byte()).collect();
    string.push(0);
    string
}

/// An entry with data of its own, some filler before it.
fn fresh(
    random: &mut Random,
    structure: &mut Structure,
    tag: u32,
    ty: u32,
    count: usize,
) -> Placed {
    let element = |random: &mut Random| match size_of(ty) {
        Some(size) => random.bytes(size),
        None => string(random),
    };
    let elements: Vec<Vec<u8>> = (0..count).map(|_| element(random)).collect();
    let filler = random.below(3);
    structure.store.extend(random.bytes(filler));
    let entry = Entry { tag, ty, elements };
    structure.put(&entry, random.byte());
    let record = structure.records[structure.records.len() - 1];
    let mut at = record[2] as usize;
    let mut starts = Vec::new();
    for element in &entry.elements {
        starts.push(at);
        at += element.len();
    }
    (record, starts)
}

/// An entry over bytes that another entry holds, if they suit.
fn shared(
    random: &mut Random,
    store: &[u8],
    placed: &[Placed],
    tag: u32,
    number: usize,
) -> Option<Placed> {
    if placed.is_empty() {
        return None;
    }
    let (record, starts) = &placed[random.below(placed.len())];
    let [_, ty, offset, count] = *record;
    let first = offset as usize;
    match size_of(ty) {
        // The same strings, or the tail of the last one.
        None if random.one_in(2) => {
            let other = random.pick(&[6, 8, 9]);
            let ty = match is_single(number, other) {
                true if count > 1 => ty,
                _ => other,
            };
            Some(([tag, ty, offset, count], starts.clone()))
        }
        None => {
            let last = starts[starts.len() - 1];
            let length = store[last..].iter().position(|&byte| byte == 0)?;
            let tail = last + random.below(length + 1);
            Some(([tag, random.pick(&[6, 8, 9]), tail as u32, 1], vec![tail]))
        }
        // Numbers seen as single bytes.
        Some(size) => {
            let bytes = size * count as usize;
            let record = [tag, random.pick(&[1, 2, 7]), offset, bytes as u32];
            Some((record, (first..first + bytes).collect()))
        }
    }
}
