//! Packages that require things, and what the maker knows of them.

use std::cmp::Ordering;

use super::texts::Text;
use crate::bench::Answer;
use crate::maker::{Entry, Package, Structure};
use crate::random::Random;
use crate::shapes::free_lead;

pub const FLAGS: u32 = 1048;
pub const NAMES: u32 = 1049;
pub const VERSIONS: u32 = 1050;

/// The answer where nothing is required of the name.
pub const NONE: (u32, usize) = (25, 0);

/// A required name.
#[derive(Clone, Debug)]
pub struct Required {
    pub name: Vec<u8>,
    pub version: Vec<u8>,
    pub flags: u32,
}

impl Required {
    pub fn new(name: &[u8], version: &[u8], flags: u32) -> Required {
        Required {
            name: name.to_vec(),
            version: version.to_vec(),
            flags,
        }
    }

    /// The relations that are flagged; one of them suffices, and where there is none any
    /// version will do.
    fn is_met_by(&self, given: &Text) -> bool {
        let order = given.order(&Text::of(&self.version));
        let relations = [
            (0x02, Ordering::Less),
            (0x04, Ordering::Greater),
            (0x08, Ordering::Equal),
        ];
        let flagged = relations.iter().filter(|(bit, _)| self.flags & bit != 0);
        let flagged: Vec<Ordering> = flagged.map(|&(_, relation)| relation).collect();
        flagged.is_empty() || flagged.contains(&order)
    }
}

/// What a right package with these requirements must answer.
pub fn answer(all: &[Required], name: &[u8], given: &Text) -> Answer {
    let required = all.iter().find(|required| required.name == name);
    let (number, place) =
        required.map_or(NONE, |required| (0, usize::from(required.is_met_by(given))));
    Answer::new(number, place)
}

fn strings(tag: u32, texts: &[&[u8]]) -> Entry {
    let elements = texts.iter().map(|text| [text, &[0][..]].concat()).collect();
    Entry {
        tag,
        ty: 8,
        elements,
    }
}

/// The flags, the names and the versions.
pub fn entries(all: &[Required]) -> [Entry; 3] {
    let flags = all.iter().map(|one| one.flags.to_be_bytes().to_vec());
    let names: Vec<&[u8]> = all.iter().map(|one| &one.name[..]).collect();
    let versions: Vec<&[u8]> = all.iter().map(|one| &one.version[..]).collect();
    let flags = Entry {
        tag: FLAGS,
        ty: 4,
        elements: flags.collect(),
    };
    [flags, strings(NAMES, &names), strings(VERSIONS, &versions)]
}

/// Entries of other tags.
pub fn others(random: &mut Random, count: usize) -> Vec<Entry> {
    let tags = (1000..FLAGS).chain(1051..2000).step_by(7);
    let one = |tag| match tag % 3 {
        0 => Entry::new(tag, 6, &[b"1.0\0"]),
        1 => Entry::new(tag, 4, &[&[0, 0, 0, 2], &[0, 0, 0, 8]]),
        _ => Entry::new(tag, 7, &[&[7], &[0], &[9]]),
    };
    let mut others: Vec<Entry> = tags.map(one).collect();
    random.shuffle(&mut others);
    others.truncate(count);
    others
}

/// A structure with data and records in any order.
pub fn structure(random: &mut Random, mut entries: Vec<Entry>) -> Structure {
    random.shuffle(&mut entries);
    let mut structure = Structure::default();
    for entry in &entries {
        let filler = random.below(3);
        structure.store.extend(random.bytes(filler));
        structure.put(entry, random.byte());
    }
    random.shuffle(&mut structure.records);
    structure
}

/// A right package whose header has these entries and some others.
pub fn package(random: &mut Random, entries: &[Entry]) -> Package {
    let few = 1 + random.below(3);
    let more = random.below(5) + usize::from(entries.is_empty());
    let signature = others(random, few);
    let header = [entries, &others(random, more)].concat();
    let signature = structure(random, signature);
    let header = structure(random, header);
    let payload = random.below(9);
    Package {
        lead: free_lead(random),
        payload: random.bytes(payload),
        ..Package::of(signature, header)
    }
}

/// A text of no zero byte.
pub fn name(random: &mut Random) -> Vec<u8> {
    let usual: [&[u8]; 8] = [
        b"glass",
        b"glaz",
        b"glaze",
        b"g",
        b"",
        b"libc.so.6(GLIBC_2.4)(64bit)",
        b"/bin/sh",
        b"verre \xE9maill\xE9",
    ];
    match random.below(3) {
        0 => (0..random.below(9))
            .map(|_| random.nonzero_byte())
            .collect(),
        _ => random.pick(&usual).to_vec(),
    }
}

/// A text of no zero byte from one of any bytes.
pub fn without_zeros(mut text: Vec<u8>) -> Vec<u8> {
    for byte in &mut text {
        *byte = if *byte == 0 { b'.' } else { *byte };
    }
    text
}

/// Flags: mostly the relations, often with other bits.
pub fn flags(random: &mut Random) -> u32 {
    let relations = random.below(16) as u32;
    match random.below(4) {
        0 => random.number(),
        1 => relations | random.number() & !0xFF,
        _ => relations,
    }
}
