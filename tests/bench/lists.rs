//! Lists of entries to write: those that a package has.

use reference::writer::{write, List};
use reference::Structure;

use crate::maker::size_of;

/// A name, and for each structure the entries' numbers and their data.
#[derive(Default)]
pub struct Lists {
    pub name: Vec<u8>,
    pub signature: [Vec<u8>; 2],
    pub header: [Vec<u8>; 2],
}

impl Lists {
    /// The entries of a package in the order of its index, without the signature's 1000 and 1004.
    pub fn of(package: &[u8]) -> Lists {
        let opened = reference::sound(package).unwrap();
        Lists {
            name: b"book-1-1".to_vec(),
            signature: list(package, 96, opened.signature, &[1000, 1004]),
            header: list(package, opened.header_start, opened.header, &[]),
        }
    }

    /// The package that the reference writes.
    pub fn package(&self) -> Vec<u8> {
        let [signature, header] = [&self.signature, &self.header].map(lent);
        let mut buffer = vec![0; 65_536];
        let length = write(&self.name, signature, header, &mut buffer).unwrap();
        buffer.truncate(length as usize);
        buffer
    }
}

pub fn lent([entries, data]: &[Vec<u8>; 2]) -> List<'_> {
    List { entries, data }
}

/// The entries of the structure that starts there, without some.
fn list(package: &[u8], start: usize, structure: Structure, without: &[u32]) -> [Vec<u8>; 2] {
    let store = start + 16 + 16 * structure.nindex();
    let [mut entries, mut data] = [Vec::new(), Vec::new()];
    for record in structure.records() {
        if without.contains(&record.tag) {
            continue;
        }
        let from = &package[store + record.offset as usize..];
        let count = record.count as usize;
        let length = match size_of(record.ty) {
            Some(size) => size * count,
            None => from
                .split_inclusive(|&byte| byte == 0)
                .take(count)
                .map(<[u8]>::len)
                .sum(),
        };
        for number in [record.tag, record.ty, record.count, length as u32] {
            entries.extend(number.to_be_bytes());
        }
        data.extend(&from[..length]);
    }
    [entries, data]
}
