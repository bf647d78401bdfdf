//! The writer: a package from a name and two lists of entries (checks 32 to 34).

use super::digest::{md5, DIGEST_SIZE};
use super::{
    be32, check, elements, Checked, Elements, Part, Record, BIN, HEADER_RECORD_SIZE,
    INDEX_RECORD_SIZE, INT32, LEAD_SIZE, MAX_NINDEX, MAX_PACKAGE,
};

/// Bytes of an entry in a list: tag, type, count, size of its data.
pub const ENTRY_SIZE: usize = 16;
pub const MAX_NAME: usize = 65;
/// The signature's first entry, the writer's own: the length less H.
const SIGSIZE: Record = Record {
    tag: 1000,
    ty: INT32,
    offset: 0,
    count: 1,
};
/// Its second, the writer's own: the MD5 of the bytes from H on.
const SIGMD5: Record = Record {
    tag: 1004,
    ty: BIN,
    offset: 0,
    count: DIGEST_SIZE as u32,
};

/// A list of entries as it is lent: their numbers, and their data in a row.
#[derive(Clone, Copy, Debug)]
pub struct List<'a> {
    pub entries: &'a [u8],
    pub data: &'a [u8],
}

/// A structure to be written: index records, each with its data, and the store's size.
#[derive(Default)]
struct Layout<'a> {
    entries: Vec<(Record, &'a [u8])>,
    hsize: usize,
}

/// Type and count are lawful there, and the data is exactly what they say.
fn check_entry(record: &Record, part: Part, data: &[u8]) -> Checked<()> {
    check(32, elements(record.ty).is_some(), 0)?;
    check(32, record.count_is_right(part), 0)?;
    let count = record.count as usize;
    let right = match elements(record.ty) {
        Some(Elements::Sized(size)) => data.len() == size * count,
        _ => data.ends_with(&[0]) && zeros(data) == count,
    };
    check(32, right, 0)
}

fn zeros(data: &[u8]) -> usize {
    data.iter().filter(|&&byte| byte == 0).count()
}

impl<'a> Layout<'a> {
    /// Puts an entry behind the others: at the store's end, after bytes for alignment.
    fn put(&mut self, record: Record, data: &'a [u8]) {
        let align = match elements(record.ty) {
            Some(Elements::Sized(size)) => size,
            _ => 1,
        };
        let place = self.hsize.next_multiple_of(align);
        let offset = place as u32;
        self.entries.push((Record { offset, ..record }, data));
        self.hsize = place + data.len();
    }

    /// Puts a list's entries behind those that are there, which count as its own.
    fn put_list(&mut self, list: List<'a>, part: Part) -> Checked<()> {
        check(32, list.entries.len() % ENTRY_SIZE == 0, 0)?;
        let nindex = self.entries.len() + list.entries.len() / ENTRY_SIZE;
        check(32, (1..=MAX_NINDEX).contains(&nindex), 0)?;
        self.entries.reserve_exact(nindex);
        let mut rest = list.data;
        for numbers in list.entries.chunks_exact(ENTRY_SIZE) {
            let size = be32(numbers, 12) as usize;
            check(32, size <= rest.len(), 0)?;
            let (data, behind) = rest.split_at(size);
            rest = behind;

            let record = Record {
                tag: be32(numbers, 0),
                ty: be32(numbers, 4),
                offset: 0,
                count: be32(numbers, 8),
            };
            check_entry(&record, part, data)?;
            let repeats = |(earlier, _): &(Record, _)| earlier.tag == record.tag;
            check(32, !self.entries.iter().any(repeats), 0)?;
            self.put(record, data);
        }
        check(32, rest.is_empty(), 0)
    }

    /// Gives an entry other data of the same size.
    fn set(&mut self, tag: u32, data: &'a [u8]) {
        for (record, old) in &mut self.entries {
            if record.tag == tag {
                *old = data;
            }
        }
    }

    fn size(&self) -> usize {
        HEADER_RECORD_SIZE + INDEX_RECORD_SIZE * self.entries.len() + self.hsize
    }

    /// Writes the structure over zero bytes.
    fn write(&self, structure: &mut [u8]) {
        let (header, rest) = structure.split_at_mut(HEADER_RECORD_SIZE);
        let (index, store) = rest.split_at_mut(INDEX_RECORD_SIZE * self.entries.len());
        let nindex = self.entries.len() as u32;
        put_numbers(header, [0x8EAD_E801, 0, nindex, self.hsize as u32]);
        let places = index.chunks_exact_mut(INDEX_RECORD_SIZE);
        for (place, (record, data)) in places.zip(&self.entries) {
            put_numbers(place, [record.tag, record.ty, record.offset, record.count]);
            store[record.offset as usize..][..data.len()].copy_from_slice(data);
        }
    }
}

fn put_numbers(bytes: &mut [u8], numbers: [u32; 4]) {
    for (four, number) in bytes.chunks_exact_mut(4).zip(numbers) {
        four.copy_from_slice(&number.to_be_bytes());
    }
}

/// Writes the lead over zero bytes.
fn write_lead(lead: &mut [u8], name: &[u8]) {
    lead[..6].copy_from_slice(&[0xED, 0xAB, 0xEE, 0xDB, 3, 0]);
    lead[10..10 + name.len()].copy_from_slice(name);
    lead[76..80].copy_from_slice(&[0, 1, 0, 5]);
}

/// Writes the package at the buffer's front; the answer is its length. A refusal leaves
/// the buffer as it was.
pub fn write(name: &[u8], signature: List, header: List, buffer: &mut [u8]) -> Checked<u32> {
    check(32, (1..=MAX_NAME).contains(&name.len()), 0)?;
    check(32, !name.contains(&0), 0)?;
    let mut second = Layout::default();
    second.put_list(header, Part::Header)?;
    // From H to the end there is the header alone.
    let size = (second.size() as u32).to_be_bytes();
    let mut first = Layout::default();
    first.put(SIGSIZE, &size);
    first.put(SIGMD5, &[0; DIGEST_SIZE]);
    first.put_list(signature, Part::Signature)?;

    let first_end = LEAD_SIZE + first.size();
    let header_start = first_end.next_multiple_of(8);
    let length = header_start + second.size();
    check(33, length <= MAX_PACKAGE, 0)?;
    check(34, length <= buffer.len(), length)?;

    let package = &mut buffer[..length];
    package.fill(0);
    write_lead(&mut package[..LEAD_SIZE], name);
    second.write(&mut package[header_start..]);
    let digest = md5(&package[header_start..]);
    first.set(SIGMD5.tag, &digest);
    first.write(&mut package[LEAD_SIZE..first_end]);
    Ok(length as u32)
}

/// For C: the answer is number × 2^32 + place.
pub fn write_for_c(name: &[u8], signature: List, header: List, buffer: &mut [u8]) -> u64 {
    match write(name, signature, header, buffer) {
        Ok(length) => u64::from(length),
        Err(refusal) => refusal.packed(),
    }
}
