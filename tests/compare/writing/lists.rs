//! Lists of entries, right ones and their parts as they are lent, and the package that
//! must be written from them.

use crate::maker::md5::md5;
use crate::maker::{is_single, lead, size_of, Package, Structure};
use crate::random::Random;
use crate::shapes::LAWFUL;

pub const SIGNATURE: usize = 0;
pub const HEADER: usize = 1;

/// An entry of a list. In a right one the size is the data's.
#[derive(Clone, Debug)]
pub struct Entry {
    pub tag: u32,
    pub ty: u32,
    pub count: u32,
    pub size: u32,
    pub data: Vec<u8>,
}

impl Entry {
    pub fn new(tag: u32, ty: u32, count: u32, data: Vec<u8>) -> Entry {
        Entry {
            tag,
            ty,
            count,
            size: data.len() as u32,
            data,
        }
    }

    pub fn bin(tag: u32, data: Vec<u8>) -> Entry {
        Entry::new(tag, 7, data.len() as u32, data)
    }

    /// Other data, with the size that it has.
    pub fn set_data(&mut self, data: Vec<u8>) {
        self.size = data.len() as u32;
        self.data = data;
    }
}

/// A name, and the entries of signature and header.
#[derive(Clone, Debug)]
pub struct Lists {
    pub name: Vec<u8>,
    pub entries: [Vec<Entry>; 2],
}

impl Lists {
    pub fn lent(&self) -> Lent {
        let mut lent = Lent::default();
        lent.0[0] = self.name.clone();
        for (structure, entries) in self.entries.iter().enumerate() {
            lent.set(structure, entries);
        }
        lent
    }

    /// The package that must be written, if the lists are right.
    pub fn package(&self) -> Vec<u8> {
        self.parts().bytes()
    }

    /// The same in its parts.
    pub fn parts(&self) -> Package {
        let header = structure(&self.entries[HEADER]);
        let mut signature = own(header.bytes());
        signature.extend(self.entries[SIGNATURE].iter().cloned());
        let mut package = Package::of(structure(&signature), header);
        package.lead = lead();
        package.lead[10..76].fill(0);
        package.lead[10..10 + self.name.len()].copy_from_slice(&self.name);
        package
    }

    /// The writer's own entries for these lists.
    pub fn own(&self) -> Vec<Entry> {
        own(structure(&self.entries[HEADER]).bytes())
    }
}

/// Tags of the writer's own entries, the first of the signature.
pub const OWN: [u32; 2] = [1000, 1004];

/// The writer's own entries for a package that has these bytes from H on: how many they are,
/// and their digest.
fn own(from_h: Vec<u8>) -> Vec<Entry> {
    let size = from_h.len() as u32;
    vec![
        Entry::new(OWN[0], 4, 1, size.to_be_bytes().to_vec()),
        Entry::bin(OWN[1], md5(&from_h).to_vec()),
    ]
}

/// Data packed in list order, with zero bytes for alignment.
fn structure(entries: &[Entry]) -> Structure {
    let mut structure = Structure::default();
    for entry in entries {
        let align = size_of(entry.ty).unwrap_or(1);
        let offset = structure.store.len().next_multiple_of(align);
        structure.store.resize(offset, 0);
        structure.store.extend(&entry.data);
        let record = [entry.tag, entry.ty, offset as u32, entry.count];
        structure.records.push(record);
    }
    structure
}

/// What is lent: the name, the signature's numbers and data, the header's.
#[derive(Clone, Debug, Default, PartialEq)]
pub struct Lent(pub [Vec<u8>; 5]);

pub const NAME: usize = 0;

/// The part that has a list's numbers.
pub fn numbers(structure: usize) -> usize {
    1 + 2 * structure
}

/// The part that has a list's data.
pub fn data(structure: usize) -> usize {
    2 + 2 * structure
}

impl Lent {
    fn set(&mut self, structure: usize, entries: &[Entry]) {
        let number = |entry: &Entry| [entry.tag, entry.ty, entry.count, entry.size];
        let all = entries.iter().flat_map(number).flat_map(u32::to_be_bytes);
        self.0[numbers(structure)] = all.collect();
        let all = entries.iter().flat_map(|entry| &entry.data);
        self.0[data(structure)] = all.copied().collect();
    }

    /// The same with another's list.
    pub fn with_list(&self, structure: usize, other: &Lent) -> Lent {
        let mut lent = self.clone();
        for part in [numbers(structure), data(structure)] {
            lent.0[part] = other.0[part].clone();
        }
        lent
    }

    /// As a file: each part behind its length, eight bytes.
    pub fn to_file(&self) -> Vec<u8> {
        let mut file = Vec::new();
        for part in &self.0 {
            file.extend((part.len() as u64).to_be_bytes());
            file.extend(part);
        }
        file
    }

    pub fn of_file(mut file: &[u8]) -> Lent {
        Lent([0; 5].map(|_| {
            let (length, rest) = file.split_first_chunk::<8>().expect("a length");
            let (part, rest) = rest.split_at(u64::from_be_bytes(*length) as usize);
            file = rest;
            part.to_vec()
        }))
    }
}

// ---- Right lists ----

pub fn name(random: &mut Random) -> Vec<u8> {
    let length = random.pick(&[1, 2, 4, 8, 20, 64, 65]);
    (0..length).map(|_| random.nonzero_byte()).collect()
}

/// Data of a type: numbers with zero bytes among them, or strings.
pub fn some_data(random: &mut Random, ty: u32, count: usize) -> Vec<u8> {
    match size_of(ty) {
        Some(size) => {
            let byte = |random: &mut Random| random.byte() * (random.below(4) as u8).min(1);
            (0..size * count).map(|_| byte(random)).collect()
        }
        None => (0..count).flat_map(|_| string(random)).collect(),
    }
}

fn string(random: &mut Random) -> Vec<u8> {
    let length = random.below(8);
    let mut string: Vec<u8> = (0..length).map(|_| random.nonzero_byte()).collect();
    string.push(0);
    string
}

/// An entry of any type, or of this one, that is right in the structure.
pub fn entry(
    random: &mut Random,
    structure: usize,
    tag: u32,
    ty: Option<u32>,
    most: usize,
) -> Entry {
    let ty = ty.unwrap_or_else(|| random.pick(&LAWFUL));
    let count = match is_single(structure, ty) {
        true => 1,
        false => 1 + random.below(most),
    };
    Entry::new(tag, ty, count as u32, some_data(random, ty, count))
}

/// Different tags, rising or in any order: around 1000, small, extreme. The signature's
/// don't have the writer's own.
fn tags(random: &mut Random, structure: usize, count: usize) -> Vec<u32> {
    let mut tags = vec![0, 1, 62, 63, 100, 999, 1 << 31, u32::MAX, 1000 + (1 << 16)];
    tags.extend(1000..1002 + count as u32);
    if structure == SIGNATURE {
        tags.retain(|tag| !OWN.contains(tag));
    }
    random.shuffle(&mut tags);
    tags.truncate(count);
    if random.one_in(3) {
        tags.sort();
    }
    tags
}

pub fn list(random: &mut Random, structure: usize, count: usize, most: usize) -> Vec<Entry> {
    let tags = tags(random, structure, count);
    tags.into_iter()
        .map(|tag| entry(random, structure, tag, None, most))
        .collect()
}

/// Right lists of so many entries.
pub fn lists(random: &mut Random, counts: [usize; 2], most: usize) -> Lists {
    Lists {
        name: name(random),
        entries: [SIGNATURE, HEADER]
            .map(|structure| list(random, structure, counts[structure], most)),
    }
}

pub fn small(random: &mut Random) -> Lists {
    let counts = [random.below(5), 1 + random.below(7)];
    let most = 1 + random.below(6);
    lists(random, counts, most)
}
