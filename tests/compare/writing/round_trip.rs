//! Round trips through the C calls: what was written is found again, entry for entry,
//! and written again, byte for byte.

use super::desk::Desk;
use super::lists::{lists, small, Entry, Lists, OWN, SIGNATURE};
use crate::bench::{Answer, Question};
use crate::maker::{size_of, S};
use crate::random::Random;

pub fn round_trips(desk: &mut Desk, random: &mut Random) {
    for _ in 0..4000 {
        let lists = small(random);
        round_trip(desk, random, &lists);
    }
    for counts in [[60, 100], [510, 1], [0, 512], [200, 300]] {
        let lists = lists(random, counts, 4);
        round_trip(desk, random, &lists);
    }
}

/// Right lists are written, read and written again.
pub fn round_trip(desk: &mut Desk, random: &mut Random, given: &Lists) {
    let package = write(desk, random, given);
    let read = read(&package).unwrap_or_else(|| desk.bench.fail("no package"));
    let mut right = given.clone();
    right.entries[SIGNATURE].splice(0..0, given.own());
    if right.lent() != read.lent() {
        desk.bench.fail("the index does not have what was given");
    }
    find_all(desk, &package, &right);

    let mut again = read;
    again.entries[SIGNATURE].drain(..OWN.len());
    if write(desk, random, &again) != package {
        desk.bench.fail("what was read is written otherwise");
    }
}

/// The package that is written.
fn write(desk: &mut Desk, random: &mut Random, lists: &Lists) -> Vec<u8> {
    let known = Ok(lists.package());
    desk.lend(&lists.lent());
    let room = lists.package().len() + random.below(20);
    let (answer, mut buffer) = desk.write(room, Some(&known));
    buffer.truncate(answer.place() as usize);
    buffer
}

/// Every entry is found where its bytes are; no other is. So checks 2 to 13 and 28 pass.
fn find_all(desk: &mut Desk, package: &[u8], lists: &Lists) {
    desk.bench.package(package);
    for (structure, entries) in lists.entries.iter().enumerate() {
        for entry in entries {
            find(desk, package, structure as u32, entry);
        }
    }
}

fn find(desk: &mut Desk, package: &[u8], structure: u32, entry: &Entry) {
    let question = Question {
        structure,
        tag: entry.tag,
        ty: entry.ty,
        element: None,
    };
    let answer = desk.bench.ask(question, None);
    let place = answer.place() as usize;
    let shown = package.get(place..place + entry.data.len());
    if answer.number() != 0 || shown != Some(&entry.data) {
        desk.bench.fail(&format!("library {answer}: not the data"));
    }
    let ty = entry.ty % 9 + 1;
    let none = Some(Answer::new(25, 0));
    desk.bench.ask(Question { ty, ..question }, none);
}

// ---- Reading the index ----

fn number(package: &[u8], at: usize) -> Option<u32> {
    let four = package.get(at..at + 4)?;
    Some(u32::from_be_bytes(four.try_into().unwrap()))
}

/// The size of the structure at this place.
fn structure_size(package: &[u8], start: usize) -> usize {
    let [nindex, hsize] = [8, 12].map(|at| number(package, start + at).unwrap_or(0) as usize);
    16 + 16 * nindex + hsize
}

/// Name and entries of a package, which ends with its header.
fn read(package: &[u8]) -> Option<Lists> {
    let name = package.get(10..76)?.split(|&byte| byte == 0).next()?;
    let (signature, end) = read_structure(package, S)?;
    let (header, end) = read_structure(package, end.next_multiple_of(8))?;
    let lists = Lists {
        name: name.to_vec(),
        entries: [signature, header],
    };
    (end == package.len()).then_some(lists)
}

/// The entries of a structure, and where it ends.
fn read_structure(package: &[u8], start: usize) -> Option<(Vec<Entry>, usize)> {
    let nindex = number(package, start + 8)? as usize;
    let end = start + structure_size(package, start);
    let store = package.get(start + 16 + 16 * nindex..end)?;
    let mut entries = Vec::new();
    for position in 0..nindex {
        let at = start + 16 + 16 * position;
        let [tag, ty, offset, count] = [0, 4, 8, 12].map(|field| number(package, at + field));
        let (ty, count) = (ty?, count?);
        let data = data(store.get(offset? as usize..)?, ty, count as usize)?;
        entries.push(Entry::new(tag?, ty, count, data.to_vec()));
    }
    Some((entries, end))
}

/// The front of these bytes that is an entry's data.
fn data(bytes: &[u8], ty: u32, count: usize) -> Option<&[u8]> {
    let size = match size_of(ty) {
        Some(size) => size * count,
        None => {
            let strings = bytes.split_inclusive(|&byte| byte == 0).take(count);
            strings.map(<[u8]>::len).sum()
        }
    };
    bytes.get(..size)
}
