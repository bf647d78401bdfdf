//! Accepted packages with indexes in every order, and with repeated tags.

use super::accepted::fill;
use super::desk::Desk;
use super::families::{any, refused};
use crate::content::{HEADER, SIGNATURE};
use crate::maker::{Package, Structure};
use crate::random::Random;
use crate::tags::{self, Order, Repeat};

/// Records in the order in which its tags would stand.
fn arrange(random: &mut Random, structure: &mut Structure, (_, order): Order) {
    structure.records.sort();
    let tags = order(random, structure.records.len());
    let mut places: Vec<usize> = (0..tags.len()).collect();
    places.sort_by_key(|&at| tags[at]);
    let rising = structure.records.clone();
    for (record, at) in rising.into_iter().zip(places) {
        structure.records[at] = record;
    }
}

fn refuse(
    desk: &mut Desk,
    random: &mut Random,
    right: &Package,
    structure: usize,
    repeat: &Repeat,
) {
    let (start, own) = right.structures()[structure];
    let place = |at: usize| start + 16 + 16 * at;
    let mut bytes = right.bytes();
    for &[at, from] in &repeat.gets {
        let tag = own.records[from][0].to_be_bytes();
        bytes[place(at)..place(at) + 4].copy_from_slice(&tag);
    }
    desk.case(random, &bytes, &refused(13, place(repeat.first)));
}

/// As many records as there are, or 512; the digest is right.
pub fn repeats(desk: &mut Desk, random: &mut Random) {
    for records in [0, 0, 512] {
        for order in tags::all() {
            let (mut content, book) = any(random);
            for structure in [SIGNATURE, HEADER] {
                fill(random, &mut content, structure, records);
            }
            let mut package = content.package();
            arrange(random, &mut package.signature, order);
            arrange(random, &mut package.header, order);
            package.put_digest(0);
            desk.note = order.0;
            desk.case(random, &package.bytes(), &book.known);
            for structure in [SIGNATURE, HEADER] {
                let count = package.structures()[structure].1.records.len();
                for repeat in tags::distances(count) {
                    if records == 0 || random.one_in(64) {
                        desk.note = order.0;
                        refuse(desk, random, &package, structure, &repeat);
                    }
                }
                for repeat in tags::several(random, count) {
                    desk.note = order.0;
                    refuse(desk, random, &package, structure, &repeat);
                }
            }
        }
    }
}
