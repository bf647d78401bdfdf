//! Repeated tags in lists of every order: entries that are right but for their tags.

use super::desk::Desk;
use super::lists::*;
use super::wrong;
use crate::random::Random;
use crate::tags::{self, Order, Repeat};

/// Right lists, one of them in an order.
struct Made {
    lists: Lists,
    structure: usize,
    lent: Lent,
}

impl Made {
    fn new(random: &mut Random, structure: usize, tags: &[u32]) -> Made {
        let mut lists = lists(random, [1 - structure, 1], 1);
        lists.entries[structure] = tags
            .iter()
            .map(|&tag| entry(random, structure, tag, None, 1))
            .collect();
        let lent = lists.lent();
        Made {
            lists,
            structure,
            lent,
        }
    }

    /// The list's tag at a position.
    fn tag(&self, at: usize) -> u32 {
        self.lists.entries[self.structure][at].tag
    }

    fn right(&self, desk: &mut Desk, random: &mut Random) {
        desk.case(random, &self.lent, &Ok(self.lists.package()));
    }

    /// The same lists with other tags at these positions: written, or refused for a reason.
    fn with(
        &self,
        desk: &mut Desk,
        random: &mut Random,
        gets: &[(usize, u32)],
        reason: Option<&'static str>,
    ) {
        let mut lent = self.lent.clone();
        let list = &mut lent.0[numbers(self.structure)];
        for &(at, tag) in gets {
            list[16 * at..16 * at + 4].copy_from_slice(&tag.to_be_bytes());
        }
        let Some(reason) = reason else {
            let mut lists = self.lists.clone();
            for &(at, tag) in gets {
                lists.entries[self.structure][at].tag = tag;
            }
            desk.case(random, &lent, &Ok(lists.package()));
            return;
        };
        desk.lend(&lent);
        desk.bench.note(reason);
        let room = random.pick(&[0, 1, 200, 400]);
        desk.write(room, Some(&Err(reason)));
        desk.bench.because(reason);
    }

    fn repeated(&self, desk: &mut Desk, random: &mut Random, repeat: &Repeat) {
        let gets = repeat.gets.iter();
        let gets: Vec<(usize, u32)> = gets.map(|&[at, from]| (at, self.tag(from))).collect();
        self.with(desk, random, &gets, Some(wrong::REPEATED));
    }

    /// The writer's own tag at a position: refused in the signature only.
    fn own(&self, desk: &mut Desk, random: &mut Random, own: usize, at: usize) {
        let reason = [wrong::OWN_1000, wrong::OWN_1004][own];
        let reason = (self.structure == SIGNATURE).then_some(reason);
        self.with(desk, random, &[(at, OWN[own])], reason);
    }

    /// 1000 and 1004 as first and last, in either order, and twice the same.
    fn own_around(&self, desk: &mut Desk, random: &mut Random, last: usize) {
        let refused = |reason| (self.structure == SIGNATURE).then_some(reason);
        for [one, other] in [OWN, [OWN[1], OWN[0]]] {
            let gets = [(0, one), (last, other)];
            self.with(desk, random, &gets, refused(wrong::OWN_BOTH));
            let gets = [(0, one), (last, one)];
            self.with(desk, random, &gets, Some(wrong::REPEATED));
        }
    }
}

pub fn repeats(desk: &mut Desk, random: &mut Random) {
    for order in tags::all() {
        for structure in [SIGNATURE, HEADER] {
            small(desk, random, structure, order);
            too_large(desk, random, structure, order);
        }
    }
    for structure in [SIGNATURE, HEADER] {
        for order in tags::all() {
            large(desk, random, structure, order);
        }
        for order in tags::PLAIN {
            every_distance(desk, random, structure, order);
        }
    }
}

/// The most that a list can have.
fn most(structure: usize) -> usize {
    [512 - OWN.len(), 512][structure]
}

/// 1 to 9 entries: every pair, some with another pair, some of three; 1000 and 1004 at each
/// place.
fn small(desk: &mut Desk, random: &mut Random, structure: usize, (_, order): Order) {
    for count in 1..=9 {
        let tags = order(random, count);
        let made = Made::new(random, structure, &tags);
        made.right(desk, random);
        for repeat in tags::pairs(count) {
            made.repeated(desk, random, &repeat);
        }
        for _ in 0..3 {
            for repeat in tags::several(random, count) {
                made.repeated(desk, random, &repeat);
            }
        }
        for at in 0..count {
            made.own(desk, random, 0, at);
            made.own(desk, random, 1, at);
        }
        if count > 1 {
            made.own_around(desk, random, count - 1);
        }
    }
}

/// Up to 512 entries: some pairs, 1000 and 1004 as first and last.
fn large(desk: &mut Desk, random: &mut Random, structure: usize, (_, order): Order) {
    for count in [16, 64, 256, 300, most(structure)] {
        let tags = order(random, count);
        let made = Made::new(random, structure, &tags);
        made.right(desk, random);
        for [earlier, later] in [[0, count - 1], [0, 1], [count - 2, count - 1]] {
            for repeat in tags::pair(earlier, later) {
                made.repeated(desk, random, &repeat);
            }
        }
        for _ in 0..10 {
            let repeat = tags::any_pair(random, count);
            made.repeated(desk, random, &repeat);
        }
        for repeat in tags::several(random, count) {
            made.repeated(desk, random, &repeat);
        }
        for own in [0, 1] {
            made.own(desk, random, own, 0);
            made.own(desk, random, own, count - 1);
        }
        made.own_around(desk, random, count - 1);
    }
}

/// As many entries as there can be: the first and another, another and the last; 1000 and 1004
/// at each place of the signature.
fn every_distance(desk: &mut Desk, random: &mut Random, structure: usize, (_, order): Order) {
    let count = most(structure);
    let tags = order(random, count);
    let made = Made::new(random, structure, &tags);
    for repeat in tags::distances(count) {
        made.repeated(desk, random, &repeat);
    }
    if structure == SIGNATURE {
        for at in 0..count {
            made.own(desk, random, 0, at);
            made.own(desk, random, 1, at);
        }
    }
}

/// One entry has more data than a package: 33, and 32 where a tag is repeated.
fn too_large(desk: &mut Desk, random: &mut Random, structure: usize, (_, order): Order) {
    let count = 9;
    let tags = order(random, count);
    let mut made = Made::new(random, structure, &tags);
    let at = random.below(count);
    let tag = made.tag(at);
    made.lists.entries[structure][at] = Entry::bin(tag, vec![1; 65_536]);
    made.lent = made.lists.lent();
    made.right(desk, random);
    for _ in 0..4 {
        let repeat = tags::any_pair(random, count);
        made.repeated(desk, random, &repeat);
    }
}
