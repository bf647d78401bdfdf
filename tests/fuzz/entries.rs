//! Entries of a structure: their data, and new data for them.

use reference::catalogue::{Count, Line};

use crate::maker::{size_of, Structure};
use crate::random::Random;

/// Texts that check 18 looks at, and near misses.
#[rustfmt::skip]
const TEXTS: [&[u8]; 14] = [
    b"linux", b"linux", b"linu", b"linuxx", b"Linux", b"/bin/sh", b"/bin/sh", b"/bin/s",
    b"/bin/sh/", b"/", b"/a/", b"a", b"", b"/srv/books/",
];

/// Versions: the same in two spellings, long numbers, none.
#[rustfmt::skip]
const VERSIONS: [&[u8]; 14] = [
    b"1.0", b"1_00", b"1", b"1.a", b"1.1", b"1.10", b"1.9", b"2a", b"2.0-1", b"rc1", b"",
    b"18446744073709551616", b"0000000000000000000000000001.0", b"9.\xE9.Z",
];

/// Where a record's data stands in the store, as far as its numbers make sense.
pub fn extent(structure: &Structure, record: [u32; 4]) -> Option<std::ops::Range<usize>> {
    let [_, ty, offset, count] = record.map(|number| number as usize);
    let end = match size_of(ty as u32) {
        Some(size) => offset + size * count,
        None => {
            let bytes = structure.store.iter().enumerate().skip(offset);
            let mut zeros = bytes.filter(|(_, &byte)| byte == 0);
            zeros.nth(count.checked_sub(1)?)?.0 + 1
        }
    };
    (offset < end && end <= structure.store.len()).then_some(offset..end)
}

pub fn position(structure: &Structure, tag: u32) -> Option<usize> {
    let mut records = structure.records.iter();
    records.position(|record| record[0] == tag)
}

/// A tag's data.
pub fn data(structure: &Structure, tag: u32) -> Option<&[u8]> {
    let record = structure.records[position(structure, tag)?];
    Some(&structure.store[extent(structure, record)?])
}

/// Puts a number where an entry's first one stands.
pub fn set_number(structure: &mut Structure, tag: u32, number: u32) {
    let Some(position) = position(structure, tag) else {
        return;
    };
    let offset = structure.records[position][2] as usize;
    if let Some(four) = structure.store.get_mut(offset..offset.saturating_add(4)) {
        four.copy_from_slice(&number.to_be_bytes());
    }
}

/// Gives a record other data, at the store's end.
pub fn set_data(structure: &mut Structure, position: usize, ty: u32, count: u32, data: &[u8]) {
    let align = size_of(ty).unwrap_or(1);
    let offset = structure.store.len().next_multiple_of(align);
    structure.store.resize(offset, 0);
    structure.store.extend(data);
    let tag = structure.records[position][0];
    structure.records[position] = [tag, ty, offset as u32, count];
}

/// Gives a tag's record other data; adds the record where there is none.
pub fn put(structure: &mut Structure, tag: u32, ty: u32, count: u32, data: &[u8]) {
    let position = position(structure, tag).unwrap_or_else(|| {
        structure.records.push([tag, ty, 0, count]);
        structure.records.len() - 1
    });
    set_data(structure, position, ty, count, data);
}

/// An entry as a catalogue line has it; `count` is for a line that takes any.
pub fn put_line(structure: &mut Structure, random: &mut Random, line: &Line, count: u32) {
    let count = match line.count {
        Count::Exactly(exact) => exact,
        Count::Any => count,
    };
    let data = any_data(random, line.tag, line.ty, count);
    put(structure, line.tag, line.ty, count, &data);
}

/// Data of a type and a count; texts are right where a rule asks for one.
pub fn any_data(random: &mut Random, tag: u32, ty: u32, count: u32) -> Vec<u8> {
    let mut data = Vec::new();
    for _ in 0..count {
        match size_of(ty) {
            Some(4) if tag == 1116 => data.extend([0, 0, 0, random.pick(&[0, 0, 0, 1])]),
            Some(4) if tag == 1048 && !random.one_in(4) => {
                data.extend([0, 0, 0, random.below(16) as u8]);
            }
            Some(size) => data.extend(random.bytes(size)),
            None => {
                data.extend(match tag {
                    1021 => &b"linux"[..],
                    1085..=1088 => b"/bin/sh",
                    1118 => random.pick(&[&b"/"[..], b"/a/"]),
                    1050 => random.pick(&VERSIONS),
                    _ => random.pick(&TEXTS),
                });
                data.push(0);
            }
        }
    }
    data
}

/// Any of the texts, with its zero byte.
pub fn any_text(random: &mut Random) -> Vec<u8> {
    let mut text = random.pick(&TEXTS).to_vec();
    text.push(0);
    text
}

/// Leaves out what no record has for its data.
pub fn pack(structure: &mut Structure) {
    let old = structure.clone();
    structure.store.clear();
    for (position, record) in old.records.iter().enumerate() {
        if let Some(extent) = extent(&old, *record) {
            let data = &old.store[extent];
            set_data(structure, position, record[1], record[3], data);
        }
    }
}
