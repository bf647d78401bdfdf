//! What an input gives to write: name and lists of its package, the same with one thing
//! otherwise, lists around the limits, and any of its bytes as lists.

use crate::change::{near, reorder};
use crate::entries::extent;
use crate::input;
use crate::maker::Structure;
use crate::random::Random;
use crate::writing::lists::{data, numbers, Entry, Lent, Lists, HEADER, NAME, OWN, SIGNATURE};

const LIMIT: usize = 65_536;
/// Bytes of data that are taken for one list, at most.
const MOST_DATA: usize = 1 << 17;

/// Name and entries of a package, as far as it has them; the signature's 1000 and 1004 are
/// left out.
pub fn of_package(package: &[u8]) -> Lists {
    let name = package.iter().skip(10).take(66);
    let name = name.take_while(|&&byte| byte != 0).copied().collect();
    let entries = input::parts(package).map_or_else(Default::default, |parts| {
        [entries(&parts.signature), entries(&parts.header)]
    });
    let mut lists = Lists { name, entries };
    lists.entries[SIGNATURE].retain(|entry| !OWN.contains(&entry.tag));
    lists
}

/// Each index record with its data; with none where the store does not hold it.
fn entries(structure: &Structure) -> Vec<Entry> {
    let mut left = MOST_DATA;
    let entry = |&record: &[u32; 4]| {
        let data = extent(structure, record).map_or(&[][..], |extent| &structure.store[extent]);
        left = left.checked_sub(data.len())?;
        let [tag, ty, _, count] = record;
        Some(Entry::new(tag, ty, count, data.to_vec()))
    };
    structure.records.iter().map_while(entry).collect()
}

/// The lists of what can be written.
pub fn lists(lent: &Lent) -> Lists {
    Lists {
        name: lent.0[NAME].clone(),
        entries: [SIGNATURE, HEADER]
            .map(|structure| list(&lent.0[numbers(structure)], &lent.0[data(structure)])),
    }
}

fn list(numbers: &[u8], mut data: &[u8]) -> Vec<Entry> {
    let entry = |bytes: &[u8]| {
        let number = |at: usize| u32::from_be_bytes(bytes[at..at + 4].try_into().unwrap());
        let (own, behind) = data.split_at(number(12) as usize);
        data = behind;
        Entry::new(number(0), number(4), number(8), own.to_vec())
    };
    numbers.chunks_exact(16).map(entry).collect()
}

// ---- One thing otherwise ----

pub fn otherwise(mut lists: Lists, random: &mut Random) -> Lent {
    let structure = random.pick(&[SIGNATURE, HEADER, HEADER]);
    let entries = &mut lists.entries[structure];
    match random.below(8) {
        0 => change_name(&mut lists.name, random),
        1 | 2 => change_list(entries, random),
        3 => {
            let mut lent = lists.lent();
            let part = random.pick(&[numbers(structure), data(structure)]);
            change_length(&mut lent.0[part], random);
            return lent;
        }
        _ if entries.is_empty() => {}
        4 => change_sizes(entries, random),
        _ => change_entry(entries, random),
    }
    lists.lent()
}

fn change_name(name: &mut Vec<u8>, random: &mut Random) {
    let length = random.pick(&[0, 1, 2, 64, 65, 66, 67, 255, 256, 257, 300]);
    name.resize(length, b'x');
    if length > 0 && random.one_in(3) {
        let any = random.below(length);
        name[random.pick(&[0, any, length - 1])] = 0;
    }
}

/// An entry less or one more, two that change places, all in another order and perhaps a tag
/// that another entry gets, none.
fn change_list(entries: &mut Vec<Entry>, random: &mut Random) {
    let len = entries.len();
    let (one, two) = (random.below(len.max(1)), random.below(len + 1));
    match random.below(8) {
        0 => entries.clear(),
        1 => entries.insert(two, Entry::new(1000, 4, 1, vec![0; 4])),
        2 => entries.insert(two, Entry::bin(1004, vec![0; 16])),
        _ if len == 0 => {}
        3 => entries.insert(two, entries[one].clone()),
        4 => drop(entries.remove(one)),
        5 => entries.swap(one, two % len),
        n => {
            reorder(entries, |entry| entry.tag, random);
            if n == 6 {
                entries[one].tag = entries[two % len].tag;
            }
        }
    }
}

/// A few bytes more or less of a part as it is lent.
fn change_length(part: &mut Vec<u8>, random: &mut Random) {
    let some = random.pick(&[1, 2, 4, 8, 15, 16]);
    match random.one_in(2) {
        true => part.resize(part.len() + some, 0),
        false => part.truncate(part.len().saturating_sub(some)),
    }
}

/// A size that gets what another loses.
fn change_sizes(entries: &mut [Entry], random: &mut Random) {
    let by = random.pick(&[1, 2, 4, 1 << 16, 1 << 31]);
    let (one, two) = (random.below(entries.len()), random.below(entries.len()));
    entries[one].size = entries[one].size.wrapping_add(by);
    entries[two].size = entries[two].size.wrapping_sub(by);
}

/// One number of an entry, or its data.
fn change_entry(entries: &mut [Entry], random: &mut Random) {
    let other = entries[random.below(entries.len())].tag;
    let at = random.below(entries.len());
    let entry = &mut entries[at];
    let (len, any) = (entry.data.len(), random.below(12) as u32);
    match random.below(7) {
        0 => entry.tag = random.pick(&[other, 1000, 1004, other ^ 1 << 16, entry.tag ^ 1]),
        1 => entry.ty = [any, near(random, entry.ty)][random.below(2)],
        2 => entry.count = near(random, entry.count),
        3 => entry.size = near(random, entry.size),
        4 if len > 0 => entry.data[random.below(len)] = random.pick(&[0, 1]),
        // A string more, or one less.
        5 if matches!(entry.ty, 6 | 8 | 9) => {
            let mut data = std::mem::take(&mut entry.data);
            match random.one_in(3) {
                true => drop(data.pop()),
                false => data.push(0),
            }
            entry.count = data.iter().filter(|&&byte| byte == 0).count() as u32;
            entry.set_data(data);
        }
        _ => {
            let mut data = std::mem::take(&mut entry.data);
            change_length(&mut data, random);
            entry.set_data(data);
        }
    }
}

// ---- Around the limits ----

/// One entry more, so that a package of `length` bytes gets to about 65,536.
pub fn large(mut lists: Lists, length: usize, random: &mut Random) -> Lent {
    let size = (LIMIT - 18 + random.below(5)).saturating_sub(length);
    let (tag, ty) = (random.number(), random.pick(&[1, 2, 7, 8]));
    let entry = Entry::new(tag, ty, size as u32, vec![0; size]);
    lists.entries[random.pick(&[SIGNATURE, HEADER])].push(entry);
    lists.lent()
}

/// A list of about 512 entries, their tags in any order, perhaps one of them twice.
pub fn many(mut lists: Lists, random: &mut Random) -> Lent {
    let entries = &mut lists.entries[random.pick(&[SIGNATURE, HEADER])];
    let (count, tag) = (509 + random.below(5), random.number());
    let entry = |n| Entry::new(tag.wrapping_add(n as u32), 2, 1, vec![0]);
    entries.extend((entries.len()..count).map(entry));
    if random.one_in(2) {
        reorder(entries, |entry| entry.tag, random);
    }
    if random.one_in(4) {
        entries[random.below(count)].tag = entries[random.below(count)].tag;
    }
    lists.lent()
}

// ---- Any bytes ----

/// Parts of the package as lists and data.
pub fn slices(package: &[u8], name: Vec<u8>, random: &mut Random) -> Lent {
    let mut part = || {
        let start = 4 * random.below(package.len() / 4 + 1);
        let any = random.below(80);
        let length = random.pick(&[0, 0, 16, 16, 32, 48, any]);
        package[start..].iter().take(length).copied().collect()
    };
    Lent([name, part(), part(), part(), part()])
}
