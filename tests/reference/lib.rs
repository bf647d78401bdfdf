//! The rules of document 01, as document 02 amends them, a second time, in ordinary Rust.
//!
//! Written from the papers alone, to be compared with the proved library.
//! The order is the paper's: here lead, header structure, checks 2 to 13 and 28, and
//! look-ups; then catalogue.rs, contents.rs (groups and texts), digest.rs (RFC 1321),
//! book.rs, and reading.rs, where all checks come together; last writer.rs, version.rs and
//! requirement.rs (document 02).
//! Each check stands as `check(NUMBER, what must hold, place)`.

use std::ops::Range;

pub mod book;
pub mod catalogue;
mod contents;
pub mod digest;
pub mod reading;
pub mod requirement;
pub mod version;
pub mod writer;

#[cfg(test)]
mod digest_samples;
#[cfg(test)]
mod reading_samples;
#[cfg(test)]
mod samples;
#[cfg(test)]
mod version_samples;
#[cfg(test)]
mod writer_samples;

// 32-bit numbers are added and multiplied as `usize`; nothing wraps.
const _: () = assert!(usize::BITS == 64);

// ---- Numbers and places ----

/// The first check that failed: its number and its place in the table.
#[derive(Clone, Copy, Debug, PartialEq, Eq)]
pub struct Refusal {
    pub number: u32,
    pub place: u32,
}

pub type Checked<T> = Result<T, Refusal>;

fn check(number: u32, holds: bool, place: usize) -> Checked<()> {
    if holds {
        Ok(())
    } else {
        Err(Refusal {
            number,
            place: place as u32,
        })
    }
}

impl Refusal {
    /// What C gets: number × 2^32 + place.
    fn packed(self) -> u64 {
        (u64::from(self.number) << 32) + u64::from(self.place)
    }
}

/// What C gets for a look-up.
pub fn answer(found: &Checked<Range<usize>>) -> u64 {
    match found {
        Ok(part) => part.start as u64,
        Err(refusal) => refusal.packed(),
    }
}

fn be16(bytes: &[u8], at: usize) -> u16 {
    u16::from_be_bytes(bytes[at..at + 2].try_into().unwrap())
}

fn be32(bytes: &[u8], at: usize) -> u32 {
    u32::from_be_bytes(bytes[at..at + 4].try_into().unwrap())
}

// ---- Lead ----

pub const MAX_PACKAGE: usize = 65_536;
pub const LEAD_SIZE: usize = 96;

fn check_lead(lead: &[u8]) -> Checked<()> {
    check(4, lead[0..4] == [0xED, 0xAB, 0xEE, 0xDB], 0)?;
    check(4, lead[4] == 3, 4)?;
    check(4, lead[5] == 0, 5)?;
    check(4, lead[6..8] == [0, 0], 6)?;
    check(4, lead[10..76].contains(&0), 10)?;
    check(4, lead[76..78] == [0, 1], 76)?;
    check(4, lead[78..80] == [0, 5], 78)
}

// ---- Header structure ----

pub const HEADER_RECORD_SIZE: usize = 16;
pub const INDEX_RECORD_SIZE: usize = 16;
pub const MAX_NINDEX: usize = 512;

/// Which of the two structures.
#[derive(Clone, Copy, Debug, PartialEq, Eq)]
pub enum Part {
    Signature,
    Header,
}

/// A header structure's index and store, with their file offsets.
#[derive(Clone, Copy, Debug)]
pub struct Structure<'a> {
    index_place: usize,
    index: &'a [u8],
    store_place: usize,
    store: &'a [u8],
}

/// One index record.
#[derive(Clone, Copy, Debug, PartialEq, Eq)]
pub struct Record {
    pub tag: u32,
    pub ty: u32,
    pub offset: u32,
    pub count: u32,
}

/// How the elements of a type lie in a store.
enum Elements {
    /// Each has this size; it is the alignment too.
    Sized(usize),
    /// Each runs to its zero byte.
    Strings,
}

const INT16: u32 = 3;
const INT32: u32 = 4;
const STRING: u32 = 6;
const BIN: u32 = 7;
const STRING_ARRAY: u32 = 8;
const TRANSLATED_STRING: u32 = 9;

fn elements(ty: u32) -> Option<Elements> {
    match ty {
        1 | 2 | BIN => Some(Elements::Sized(1)),
        INT16 => Some(Elements::Sized(2)),
        INT32 => Some(Elements::Sized(4)),
        STRING | STRING_ARRAY | TRANSLATED_STRING => Some(Elements::Strings),
        _ => None,
    }
}

/// Where `count` strings in a row from `start` end, if they all do.
fn strings_end(store: &[u8], start: usize, count: usize) -> Option<usize> {
    let mut end = start;
    for _ in 0..count {
        let rest = store.get(end..)?;
        end += rest.iter().position(|&byte| byte == 0)? + 1;
    }
    Some(end)
}

impl Record {
    fn read(bytes: &[u8]) -> Record {
        Record {
            tag: be32(bytes, 0),
            ty: be32(bytes, 4),
            offset: be32(bytes, 8),
            count: be32(bytes, 12),
        }
    }

    /// A translated string of the header has a string for each locale.
    fn count_is_right(&self, part: Part) -> bool {
        match (self.ty, part) {
            (STRING, _) | (TRANSLATED_STRING, Part::Signature) => self.count == 1,
            _ => self.count >= 1,
        }
    }

    fn is_aligned(&self) -> bool {
        match elements(self.ty) {
            Some(Elements::Sized(size)) => self.offset as usize % size == 0,
            _ => true,
        }
    }

    /// The data's part of the store, if the store holds it all.
    fn data(&self, store: &[u8]) -> Option<Range<usize>> {
        self.run(store, 0, self.count as usize)
    }

    /// The part of the store that holds `count` elements after the first `skipped`.
    fn run(&self, store: &[u8], skipped: usize, count: usize) -> Option<Range<usize>> {
        let offset = self.offset as usize;
        match elements(self.ty)? {
            Elements::Sized(size) => {
                let start = offset + size * skipped;
                let end = start + size * count;
                (end <= store.len()).then_some(start..end)
            }
            Elements::Strings => {
                let start = strings_end(store, offset, skipped)?;
                let end = strings_end(store, start, count)?;
                Some(start..end)
            }
        }
    }
}

impl<'a> Structure<'a> {
    /// Checks 5 to 13 on the structure that starts at `start`.
    fn read(package: &'a [u8], start: usize, part: Part) -> Checked<Structure<'a>> {
        let index_place = start + HEADER_RECORD_SIZE;
        check(5, index_place <= package.len(), start)?;
        let magic = &package[start..start + 4];
        let reserved = &package[start + 4..start + 8];
        check(6, magic == [0x8E, 0xAD, 0xE8, 0x01], start)?;
        check(6, reserved == [0, 0, 0, 0], start + 4)?;
        let nindex = be32(package, start + 8) as usize;
        let hsize = be32(package, start + 12) as usize;
        check(7, (1..=MAX_NINDEX).contains(&nindex), start + 8)?;
        let store_place = index_place + INDEX_RECORD_SIZE * nindex;
        let end = store_place + hsize;
        check(8, end <= package.len(), start + 12)?;

        let structure = Structure {
            index_place,
            index: &package[index_place..store_place],
            store_place,
            store: &package[store_place..end],
        };
        for (position, record) in structure.records().enumerate() {
            let place = structure.record_place(position);
            check(9, elements(record.ty).is_some(), place)?;
            check(10, record.count_is_right(part), place)?;
            check(11, record.is_aligned(), place)?;
            check(12, record.data(structure.store).is_some(), place)?;
            let mut earlier = structure.records().take(position);
            check(13, earlier.all(|other| other.tag != record.tag), place)?;
        }
        Ok(structure)
    }

    pub fn nindex(&self) -> usize {
        self.index.len() / INDEX_RECORD_SIZE
    }

    pub fn records(&self) -> impl Iterator<Item = Record> + 'a {
        self.index.chunks_exact(INDEX_RECORD_SIZE).map(Record::read)
    }

    fn record_place(&self, position: usize) -> usize {
        self.index_place + INDEX_RECORD_SIZE * position
    }

    /// The file offset behind the store.
    pub fn end(&self) -> usize {
        self.store_place + self.store.len()
    }

    fn record(&self, tag: u32, ty: u32) -> Option<Record> {
        self.records()
            .find(|record| record.tag == tag && record.ty == ty)
    }

    /// The record of a tag, whatever its type.
    fn tagged(&self, tag: u32) -> Option<Record> {
        self.records().find(|record| record.tag == tag)
    }

    /// A part of the store as a part of the package.
    fn in_file(&self, part: Range<usize>) -> Range<usize> {
        self.store_place + part.start..self.store_place + part.end
    }

    /// The strings of a record that passed check 12, each with its zero byte.
    fn strings(&self, record: Record) -> impl Iterator<Item = &'a [u8]> {
        self.store[record.offset as usize..]
            .split_inclusive(|&byte| byte == 0)
            .take(record.count as usize)
    }

    /// The data of a record that passed check 12.
    fn data(&self, record: Record) -> &'a [u8] {
        let part = record.data(self.store).expect("check 12 passed");
        &self.store[part]
    }

    /// The numbers of an int32 record that passed check 12.
    fn numbers(&self, record: Record) -> impl Iterator<Item = u32> + 'a {
        self.data(record).chunks_exact(4).map(|four| be32(four, 0))
    }
}

// ---- Checks 2 to 13 and 28 ----

/// Check 28 on the bytes from the signature's end to H, or to the package's end.
fn check_gap(package: &[u8], signature_end: usize, header_start: usize) -> Checked<()> {
    for place in signature_end..header_start.min(package.len()) {
        check(28, package[place] == 0, place)?;
    }
    Ok(())
}

/// A package whose size, lead, structures and gap are sound.
#[derive(Clone, Copy, Debug)]
pub struct Opened<'a> {
    pub signature: Structure<'a>,
    pub header: Structure<'a>,
    /// H, the header's start.
    pub header_start: usize,
    /// The payload's start.
    pub payload: usize,
}

pub fn sound(package: &[u8]) -> Checked<Opened<'_>> {
    check(2, package.len() <= MAX_PACKAGE, 0)?;
    check(3, package.len() >= LEAD_SIZE, package.len())?;
    check_lead(&package[..LEAD_SIZE])?;
    let signature = Structure::read(package, LEAD_SIZE, Part::Signature)?;
    let header_start = signature.end().next_multiple_of(8);
    check_gap(package, signature.end(), header_start)?;
    let header = Structure::read(package, header_start, Part::Header)?;
    Ok(Opened {
        signature,
        header,
        header_start,
        payload: header.end(),
    })
}

impl<'a> Opened<'a> {
    /// 0 is the signature, any other number the header.
    fn structure(&self, number: u32) -> Structure<'a> {
        if number == 0 {
            self.signature
        } else {
            self.header
        }
    }
}

// ---- Look-ups ----

/// Checks 2 to 13 and 28, then 25: the record of that tag and type, and its structure.
fn look_up(package: &[u8], structure: u32, tag: u32, ty: u32) -> Checked<(Structure<'_>, Record)> {
    let structure = sound(package)?.structure(structure);
    match structure.record(tag, ty) {
        Some(record) => Ok((structure, record)),
        None => Err(Refusal {
            number: 25,
            place: 0,
        }),
    }
}

/// The part of the package that is the entry's data.
pub fn find(package: &[u8], structure: u32, tag: u32, ty: u32) -> Checked<Range<usize>> {
    let (structure, record) = look_up(package, structure, tag, ty)?;
    let data = record.data(structure.store).expect("check 12 passed");
    Ok(structure.in_file(data))
}

/// The part of the package that is one element, a string with its zero byte.
pub fn find_element(
    package: &[u8],
    structure: u32,
    tag: u32,
    ty: u32,
    element: u32,
) -> Checked<Range<usize>> {
    let (structure, record) = look_up(package, structure, tag, ty)?;
    check(26, element < record.count, 0)?;
    let part = record.run(structure.store, element as usize, 1);
    Ok(structure.in_file(part.expect("check 12 passed")))
}

/// A required name: which of how many it is, and its version with the zero byte.
struct Required<'a> {
    position: usize,
    count: u32,
    version: &'a [u8],
}

impl<'a> Structure<'a> {
    /// The first 1049 string that equals `name`, and the 1050 string beside it.
    fn required(&self, name: &[u8]) -> Option<Required<'a>> {
        let names = self.record(1049, STRING_ARRAY)?;
        let versions = self.record(1050, STRING_ARRAY)?;
        if names.count != versions.count {
            return None;
        }
        let position = self
            .strings(names)
            .position(|string| string.strip_suffix(&[0]) == Some(name))?;
        Some(Required {
            position,
            count: names.count,
            version: self.strings(versions).nth(position)?,
        })
    }
}

/// The version that the header requires of `name`, with its zero byte; empty where there is
/// none.
pub fn required_version<'a>(package: &'a [u8], name: &[u8]) -> &'a [u8] {
    let opened = sound(package).ok();
    let required = opened.and_then(|opened| opened.header.required(name));
    required.map_or(&[], |required| required.version)
}

// ---- Index walk ----

/// One step's answer: number and place, the record's four numbers, the next position.
#[derive(Clone, Copy, Debug, PartialEq, Eq)]
pub struct Step {
    pub number: u32,
    pub place: u32,
    pub numbers: [u32; 4],
    pub next: u32,
}

pub fn step(package: &[u8], structure: u32, position: u32) -> Step {
    match record_at(package, structure, position) {
        Ok((place, record)) => Step {
            number: 0,
            place: place as u32,
            numbers: [record.tag, record.ty, record.offset, record.count],
            next: position + 1,
        },
        Err(refusal) => Step {
            number: refusal.number,
            place: refusal.place,
            numbers: [0; 4],
            next: position,
        },
    }
}

fn record_at(package: &[u8], structure: u32, position: u32) -> Checked<(usize, Record)> {
    let structure = sound(package)?.structure(structure);
    let position = position as usize;
    check(26, position < structure.nindex(), 0)?;
    let place = structure.record_place(position);
    Ok((place, Record::read(&package[place..])))
}
