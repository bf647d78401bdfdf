//! Books that `station_write` wrote, read again: they pass check 27.

use super::desk::Desk;
use super::families::{any, refused};
use crate::content::{Content, Item, HEADER, SIGNATURE};
use crate::random::Random;
use crate::writing::desk::{Desk as WritingDesk, Memory};
use crate::writing::lists::{name, Entry, Lists, OWN};

pub fn written(desk: &mut Desk, random: &mut Random) {
    let memory = &mut Memory::new();
    for _ in 0..400 {
        let (content, book) = any(random);
        let lists = lists(random, &content);
        let package = write(desk, memory, &lists);
        desk.case(random, &package, &book.known);

        let mut wrong = package.clone();
        let place = reference::find(&package, 1, 20_001, 7)
            .expect("a book")
            .start;
        wrong[place] ^= 1 << random.below(8);
        desk.case(random, &wrong, &refused(27, 1004));
        // With a payload, which the writer doesn't write, 16 goes before.
        let longer = [&package[..], &[0]].concat();
        desk.case(random, &longer, &refused(16, 1000));
    }
}

/// What there is to write of a content.
pub fn lists(random: &mut Random, content: &Content) -> Lists {
    let entry = |item: &Item| Entry::new(item.tag, item.ty, item.count, item.data.clone());
    let mut entries = [SIGNATURE, HEADER].map(|structure| {
        let items = content.items[structure].iter();
        items.map(entry).collect::<Vec<_>>()
    });
    entries[SIGNATURE].retain(|entry| !OWN.contains(&entry.tag));
    Lists {
        name: name(random),
        entries,
    }
}

/// The package that is written, which must be the known one.
pub fn write(desk: &mut Desk, memory: &mut Memory, lists: &Lists) -> Vec<u8> {
    let bench = &mut *desk.bench;
    let mut writer = WritingDesk { bench, memory };
    writer.lend(&lists.lent());
    let package = lists.package();
    let known = Ok(package.clone());
    writer.write(package.len(), Some(&known)).1
}
