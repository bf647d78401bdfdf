//! What a package holds, as lists of items, and the least that is accepted.

use std::ops::Range;

use super::maker::{lead, size_of, Package, Structure};
use super::random::Random;

pub const SIGNATURE: usize = 0;
pub const HEADER: usize = 1;

/// An entry: its data is as type and count say.
#[derive(Clone, Debug)]
pub struct Item {
    pub tag: u32,
    pub ty: u32,
    pub count: u32,
    pub data: Vec<u8>,
}

pub fn bin(tag: u32, data: &[u8]) -> Item {
    let count = data.len() as u32;
    let data = data.to_vec();
    Item {
        tag,
        ty: 7,
        count,
        data,
    }
}

pub fn shorts(tag: u32, numbers: &[u16]) -> Item {
    Item {
        tag,
        ty: 3,
        count: numbers.len() as u32,
        data: numbers.iter().flat_map(|n| n.to_be_bytes()).collect(),
    }
}

pub fn words(tag: u32, numbers: &[u32]) -> Item {
    Item {
        tag,
        ty: 4,
        count: numbers.len() as u32,
        data: numbers.iter().flat_map(|n| n.to_be_bytes()).collect(),
    }
}

/// A string array; type 6 or 9 for a single string.
pub fn strings<T: AsRef<[u8]>>(tag: u32, ty: u32, texts: &[T]) -> Item {
    let mut data = Vec::new();
    for text in texts {
        data.extend(text.as_ref());
        data.push(0);
    }
    Item {
        tag,
        ty,
        count: texts.len() as u32,
        data,
    }
}

#[derive(Clone, Debug)]
pub struct Content {
    pub lead: [u8; 96],
    /// The signature's and the header's, in the order of their data.
    pub items: [Vec<Item>; 2],
    /// How far 1000 is from length − H.
    pub size_off: u32,
    /// The bits in which 1004 is not the digest.
    pub digest_off: u128,
    /// What stands before the header, as `Package` has it.
    pub gap: [u8; 7],
    pub payload: Vec<u8>,
    /// 0: records in list order, data packed. Other numbers: each its own layout.
    pub layout: u64,
}

impl Content {
    /// One file, one provide, one require, nothing optional.
    pub fn least(book: &[u8], weight: u32) -> Content {
        let signature = vec![words(1000, &[0]), bin(1004, &[0; 16])];
        let header = vec![
            strings(100, 8, &["C"]),
            strings(1000, 6, &["book"]),
            strings(1001, 6, &["1"]),
            strings(1002, 6, &["1"]),
            strings(1004, 9, &["A book"]),
            strings(1005, 9, &["A book."]),
            words(1009, &[0]),
            strings(1014, 6, &["none"]),
            strings(1016, 9, &["Books"]),
            strings(1021, 6, &["linux"]),
            strings(1022, 6, &["noarch"]),
            words(1028, &[0]),
            shorts(1030, &[0o100644]),
            shorts(1033, &[0]),
            words(1034, &[0]),
            strings(1035, 8, &[""]),
            strings(1036, 8, &[""]),
            words(1037, &[64]),
            strings(1039, 8, &["root"]),
            strings(1040, 8, &["root"]),
            strings(1047, 8, &["book"]),
            words(1048, &[0]),
            strings(1049, 8, &["glass"]),
            strings(1050, 8, &[""]),
            words(1095, &[1]),
            words(1096, &[1]),
            strings(1097, 8, &[""]),
            words(1112, &[8]),
            strings(1113, 8, &["1-1"]),
            words(1116, &[0]),
            strings(1117, 8, &["book"]),
            strings(1118, 8, &["/srv/"]),
            strings(1124, 6, &["cpio"]),
            strings(1125, 6, &["gzip"]),
            strings(1126, 6, &["9"]),
            bin(20001, book),
            words(20002, &[weight]),
        ];
        Content {
            lead: lead(),
            items: [signature, header],
            size_off: 0,
            digest_off: 0,
            gap: [0; 7],
            payload: Vec::new(),
            layout: 0,
        }
    }

    pub fn get(&self, structure: usize, tag: u32) -> Option<&Item> {
        self.items[structure].iter().find(|item| item.tag == tag)
    }

    /// Adds an item, or puts it in the place of the one of that tag.
    pub fn put(&mut self, structure: usize, item: Item) {
        let items = &mut self.items[structure];
        match items.iter_mut().find(|old| old.tag == item.tag) {
            Some(old) => *old = item,
            None => items.push(item),
        }
    }

    pub fn remove(&mut self, structure: usize, tag: u32) {
        self.items[structure].retain(|item| item.tag != tag);
    }

    pub fn package(&self) -> Package {
        let mut signature = lay_out(&self.items[SIGNATURE], self.layout, &WRITTEN_LATER);
        let header = lay_out(&self.items[HEADER], self.layout.rotate_left(32), &[]);
        let right = header.size() + self.payload.len();
        let size = self.size_off.wrapping_add(right as u32);
        for &[tag, ty, offset, _] in &signature.records {
            if tag == 1000 && ty == 4 {
                let at = offset as usize;
                signature.store[at..at + 4].copy_from_slice(&size.to_be_bytes());
            }
        }
        let mut package = Package {
            lead: self.lead,
            signature,
            gap: self.gap,
            header,
            payload: self.payload.clone(),
        };
        package.put_digest(self.digest_off);
        package
    }

    pub fn bytes(&self) -> Vec<u8> {
        self.package().bytes()
    }
}

/// Tags of the signature whose data is written when all else is laid out.
const WRITTEN_LATER: [u32; 2] = [1000, 1004];

/// Other layouts have filler before data, data that is shared, records in any order. The
/// data of the tags in `own` isn't shared.
fn lay_out(items: &[Item], layout: u64, own: &[u32]) -> Structure {
    let mut random = Random::new(layout);
    let mut free = |n| layout != 0 && random.one_in(n);
    let mut structure = Structure::default();
    let store = &mut structure.store;
    let mut kept: Vec<Range<usize>> = Vec::new();
    for item in items {
        let align = size_of(item.ty).unwrap_or(1);
        let is_own = own.contains(&item.tag);
        let shared = if free(3) && !is_own {
            let size = item.data.len();
            (0..store.len()).step_by(align).find(|&at| {
                let apart = |part: &Range<usize>| part.end <= at || at + size <= part.start;
                store[at..].starts_with(&item.data) && kept.iter().all(apart)
            })
        } else {
            None
        };
        let offset = shared.unwrap_or_else(|| {
            let filler = if free(4) { 3 } else { 0 };
            let offset = (store.len() + filler).next_multiple_of(align);
            store.resize(offset, 0x2F);
            store.extend(&item.data);
            offset
        });
        if is_own {
            kept.push(offset..store.len());
        }
        structure
            .records
            .push([item.tag, item.ty, offset as u32, item.count]);
    }
    if layout != 0 {
        structure
            .store
            .resize(structure.store.len() + random.below(4), 0);
        random.shuffle(&mut structure.records);
    }
    structure
}
