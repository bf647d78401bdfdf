//! Makes packages from lists of entries.

use std::ops::Range;

#[path = "md5.rs"]
pub mod md5;

/// The size of a type's elements; `None` for strings.
pub fn size_of(ty: u32) -> Option<usize> {
    match ty {
        3 => Some(2),
        4 => Some(4),
        6 | 8 | 9 => None,
        _ => Some(1),
    }
}

/// Whether an entry of that type has one string and never several: type 6, and type 9 in
/// the signature (0).
pub fn is_single(structure: usize, ty: u32) -> bool {
    ty == 6 || (ty == 9 && structure == 0)
}

/// An entry to put into a structure. Strings carry their zero byte.
#[derive(Clone, Debug)]
pub struct Entry {
    pub tag: u32,
    pub ty: u32,
    pub elements: Vec<Vec<u8>>,
}

impl Entry {
    pub fn new(tag: u32, ty: u32, elements: &[&[u8]]) -> Entry {
        let elements = elements.iter().map(|element| element.to_vec()).collect();
        Entry { tag, ty, elements }
    }
}

/// A structure's index records and store.
#[derive(Clone, Debug, Default)]
pub struct Structure {
    pub records: Vec<[u32; 4]>,
    pub store: Vec<u8>,
}

impl Structure {
    /// Data packed in list order, with zero bytes for alignment.
    pub fn of(entries: &[Entry]) -> Structure {
        let mut structure = Structure::default();
        for entry in entries {
            structure.put(entry, 0);
        }
        structure
    }

    /// Adds an entry at the store's end; `filler` fills up to its alignment.
    pub fn put(&mut self, entry: &Entry, filler: u8) {
        let align = size_of(entry.ty).unwrap_or(1);
        let offset = self.store.len().next_multiple_of(align);
        self.store.resize(offset, filler);
        self.store.extend(entry.elements.concat());
        let count = entry.elements.len() as u32;
        self.records
            .push([entry.tag, entry.ty, offset as u32, count]);
    }

    pub fn size(&self) -> usize {
        16 + 16 * self.records.len() + self.store.len()
    }

    pub fn bytes(&self) -> Vec<u8> {
        let mut out = Vec::new();
        self.write(&mut out);
        out
    }

    fn write(&self, out: &mut Vec<u8>) {
        out.extend([0x8E, 0xAD, 0xE8, 0x01, 0, 0, 0, 0]);
        out.extend((self.records.len() as u32).to_be_bytes());
        out.extend((self.store.len() as u32).to_be_bytes());
        for number in self.records.iter().flatten() {
            out.extend(number.to_be_bytes());
        }
        out.extend(&self.store);
    }
}

#[derive(Clone, Debug)]
pub struct Package {
    pub lead: [u8; 96],
    pub signature: Structure,
    /// What stands between the signature and the header: as many of these bytes, from the
    /// first on, as there are.
    pub gap: [u8; 7],
    pub header: Structure,
    pub payload: Vec<u8>,
}

/// Where the signature starts.
pub const S: usize = 96;

/// A lead with a short name; its free bytes are zero.
pub fn lead() -> [u8; 96] {
    let mut lead = [0; 96];
    lead[0..5].copy_from_slice(&[0xED, 0xAB, 0xEE, 0xDB, 3]);
    lead[10..14].copy_from_slice(b"book");
    lead[77] = 1;
    lead[79] = 5;
    lead
}

/// Writes the right digest into a package's 1004, if it has both structures' places and a
/// 1004 with room for it in the signature.
pub fn repair_digest(bytes: &mut [u8]) -> Option<()> {
    let number = |at: usize| {
        let four = bytes.get(at..at + 4)?;
        Some(u32::from_be_bytes(four.try_into().unwrap()) as usize)
    };
    let (nindex, hsize) = (number(S + 8)?, number(S + 12)?);
    let store = S + 16 + 16 * nindex;
    let end = store + hsize;
    let digest = md5::md5(bytes.get(end.next_multiple_of(8)..)?);
    let mut records = (S + 16..store).step_by(16);
    let record = records.find(|&at| number(at) == Some(1004))?;
    let at = store + number(record + 8)?;
    let place = bytes.get_mut(at..at + 16)?;
    if at + 16 <= end {
        place.copy_from_slice(&digest);
    }
    Some(())
}

impl Package {
    pub fn of(signature: Structure, header: Structure) -> Package {
        Package {
            lead: lead(),
            signature,
            gap: [0; 7],
            header,
            payload: Vec::new(),
        }
    }

    /// H, where the header starts.
    pub fn h(&self) -> usize {
        (S + self.signature.size()).next_multiple_of(8)
    }

    /// From the signature's end to H.
    pub fn gap_place(&self) -> Range<usize> {
        S + self.signature.size()..self.h()
    }

    /// The first byte of the gap that isn't zero, if there is one: the place of 28.
    pub fn stray(&self) -> Option<usize> {
        let mut bytes = self.gap_place().zip(self.gap);
        bytes.find(|&(_, byte)| byte != 0).map(|(place, _)| place)
    }

    /// The bytes from H to the end.
    pub fn from_h(&self) -> Vec<u8> {
        let mut out = self.header.bytes();
        out.extend(&self.payload);
        out
    }

    /// Writes the digest of the bytes from H into the signature's 1004, with these bits
    /// turned over; where 1004 isn't bin of 16 bytes, nothing.
    pub fn put_digest(&mut self, turned: u128) {
        let right = u128::from_be_bytes(md5::md5(&self.from_h()));
        let stated = (right ^ turned).to_be_bytes();
        let Structure { records, store } = &mut self.signature;
        let Some(record) = records.iter().find(|record| record[0] == 1004) else {
            return;
        };
        let at = record[2] as usize;
        if (record[1], record[3]) == (7, 16) && at + 16 <= store.len() {
            store[at..at + 16].copy_from_slice(&stated);
        }
    }

    /// Both structures, each with its start.
    pub fn structures(&self) -> [(usize, &Structure); 2] {
        [(S, &self.signature), (self.h(), &self.header)]
    }

    pub fn bytes(&self) -> Vec<u8> {
        let mut out = self.lead.to_vec();
        self.signature.write(&mut out);
        out.extend(&self.gap[..self.gap_place().len()]);
        out.extend(self.from_h());
        out
    }
}
