//! The cases of the writer, family by family.

use super::desk::{Desk, Outcome};
use super::lists::*;
use super::repeats::repeats;
use super::round_trip::{round_trip, round_trips};
use super::wrong;
use crate::fence::ROOM;
use crate::maker::{is_single, size_of};
use crate::questions::EXTREMES;
use crate::random::Random;
use crate::shapes::LAWFUL;

/// All families with their names, in the order in which they run.
pub const ALL: [(&str, fn(&mut Desk, &mut Random)); 16] = [
    ("written packages", written),
    ("types and alignments", alignments),
    ("numbers of entries", many_entries),
    ("sizes of written packages", sizes),
    ("buffers to write to", rooms),
    ("names", names),
    ("one wrong thing to write", each_wrong),
    ("two wrong things to write", pairs_of_wrongs),
    ("repeated tags", repeated_tags),
    ("extreme numbers in lists", extreme_numbers),
    ("changed lists", changed),
    ("random lists", any_lists),
    ("random bytes as lists", noise),
    ("round trips", round_trips),
    ("translated strings to write", translated),
    ("repeated tags of lists", repeats),
];

const LIMIT: usize = 65_536;

fn right(desk: &mut Desk, random: &mut Random, lists: &Lists) {
    desk.case(random, &lists.lent(), &Ok(lists.package()));
}

fn written(desk: &mut Desk, random: &mut Random) {
    for _ in 0..4000 {
        let lists = small(random);
        right(desk, random, &lists);
    }
    for _ in 0..200 {
        let counts = [random.below(60), 1 + random.below(100)];
        let lists = lists(random, counts, 30);
        right(desk, random, &lists);
    }
}

/// Each type behind each alignment, with each alignment behind it.
fn alignments(desk: &mut Desk, random: &mut Random) {
    for structure in [SIGNATURE, HEADER] {
        for before in 0..5 {
            for ty in LAWFUL {
                for behind in [3, 4, 6, 7] {
                    let mut lists = small(random);
                    let mut list = Vec::new();
                    if before > 0 {
                        list.push(Entry::bin(1, random.bytes(before)));
                    }
                    list.push(entry(random, structure, 2, Some(ty), 5));
                    list.push(entry(random, structure, 3, Some(behind), 3));
                    lists.entries[structure] = list;
                    right(desk, random, &lists);
                }
            }
        }
    }
}

/// Up to 512 in each structure, the signature's with 1000 and 1004; and more.
fn many_entries(desk: &mut Desk, random: &mut Random) {
    for count in [1, 2, 15, 16, 17, 64, 127, 128, 255, 256, 257, 508, 509, 510] {
        for counts in [
            [count, 1],
            [0, count],
            [count, count],
            [count - 1, count + 1],
            [count, count + 2],
        ] {
            let lists = lists(random, counts, 3);
            right(desk, random, &lists);
        }
    }
    let least = lists(random, [0, 1], 1);
    right(desk, random, &least);
    // One entry too many, and more; no data is too much.
    for count in [511, 512, 513, 514, 600, 1024, 4096, ROOM / 16 - 2] {
        let signature = lists(random, [count, 1], 1);
        let known = Err(wrong::TOO_MANY_IN_SIGNATURE);
        desk.case(random, &signature.lent(), &known);
        let header = lists(random, [1, count + 2], 1);
        let known = Err(wrong::TOO_MANY_IN_HEADER);
        desk.case(random, &header.lent(), &known);
    }
}

/// Lists whose package has exactly `size` bytes: most of them in one entry, the last ones
/// in the header's last entry.
fn lists_of_size(random: &mut Random, structure: usize, ty: u32, size: usize) -> Lists {
    let mut lists = small(random);
    let most = size - lists.package().len() - 200;
    let data = match (ty, size_of(ty)) {
        (_, Some(each)) => random.bytes(most / each * each),
        (_, None) if is_single(structure, ty) => [vec![b'x'; most - 1], vec![0]].concat(),
        (_, None) => b"xy\0".repeat(most / 3),
    };
    let count = match (ty, size_of(ty)) {
        (_, Some(each)) => data.len() / each,
        (_, None) if is_single(structure, ty) => 1,
        (_, None) => data.len() / 3,
    };
    let large = Entry::new(20_001, ty, count as u32, data);
    let at = random.below(lists.entries[structure].len() + 1);
    lists.entries[structure].insert(at, large);
    lists.entries[HEADER].push(Entry::bin(20_002, vec![5]));
    let less = size - lists.package().len();
    lists.entries[HEADER].pop();
    lists.entries[HEADER].push(Entry::bin(20_002, vec![5; 1 + less]));
    lists
}

/// Packages at and over the limit, by either structure and any type. 33 goes before 34,
/// and 32 before 33.
fn sizes(desk: &mut Desk, random: &mut Random) {
    for size in [
        LIMIT - 8,
        LIMIT - 1,
        LIMIT,
        LIMIT + 1,
        LIMIT + 8,
        70_000,
        131_073,
    ] {
        for structure in [SIGNATURE, HEADER] {
            for ty in LAWFUL {
                let lists = lists_of_size(random, structure, ty, size);
                let known = Ok(lists.package());
                assert!(lists.package().len() == size);
                desk.case(random, &lists.lent(), &known);
                for room in [0, 1, LIMIT - 1, LIMIT, LIMIT + 1, size - 1, size, size + 1] {
                    desk.write(room, Some(&known));
                }
            }
        }
    }
    for size in [(1 << 17) + 1, 1 << 19, ROOM] {
        for structure in [SIGNATURE, HEADER] {
            let lists = lists_of_size(random, structure, 7, size - 16_000);
            right(desk, random, &lists);
        }
    }
    for structure in [SIGNATURE, HEADER] {
        let large = lists_of_size(random, structure, 7, 70_000);
        for wrong in wrong::names(&large, random) {
            desk.case(random, &wrong.lent, &Err(wrong.reason));
        }
        for wrong in wrong::all(&small(random), random) {
            if wrong.structure != Some(structure) {
                let lent = wrong.lent.with_list(structure, &large.lent());
                desk.case(random, &lent, &Err(wrong.reason));
            }
        }
    }
}

/// Every buffer length up to what is needed, and much more.
fn rooms(desk: &mut Desk, random: &mut Random) {
    for round in 0..40 {
        let lists = match round {
            0 => lists(random, [0, 1], 1),
            _ => small(random),
        };
        let package = lists.package();
        let needed = package.len();
        let known: Outcome = Ok(package);
        desk.lend(&lists.lent());
        for room in 0..needed + 30 {
            desk.write(room, Some(&known));
        }
        for room in [
            1 << 12,
            LIMIT - 1,
            LIMIT,
            LIMIT + 1,
            LIMIT + needed,
            1 << 17,
        ] {
            desk.write(room, Some(&known));
        }
    }
}

fn names(desk: &mut Desk, random: &mut Random) {
    for length in 1..=65 {
        for fill in [b'n', 1, 0x7F, 0x80, 0xFF, random.nonzero_byte()] {
            let mut lists = small(random);
            lists.name = vec![fill; length];
            right(desk, random, &lists);
        }
        // A zero byte at each place.
        for at in 0..length {
            let mut lists = small(random);
            lists.name = (0..length).map(|_| random.nonzero_byte()).collect();
            lists.name[at] = 0;
            desk.case(random, &lists.lent(), &Err(wrong::ZERO_IN_NAME));
        }
    }
    for _ in 0..30 {
        for wrong in wrong::names(&small(random), random) {
            desk.case(random, &wrong.lent, &Err(wrong.reason));
        }
    }
}

fn each_wrong(desk: &mut Desk, random: &mut Random) {
    for _ in 0..80 {
        for wrong in wrong::all(&small(random), random) {
            desk.case(random, &wrong.lent, &Err(wrong.reason));
        }
    }
    // In the last of many entries.
    for _ in 0..3 {
        let lists = lists(random, [50, 60], 3);
        let wrongs = wrong::all(&lists, random);
        for _ in 0..400 {
            let wrong = &wrongs[random.below(wrongs.len())];
            desk.case(random, &wrong.lent, &Err(wrong.reason));
        }
    }
}

/// The signature wrong, the header wrong, and sometimes the name.
fn pairs_of_wrongs(desk: &mut Desk, random: &mut Random) {
    for _ in 0..20 {
        let lists = small(random);
        let wrongs = wrong::all(&lists, random);
        let names = wrong::names(&lists, random);
        for _ in 0..200 {
            let mut both = [0; 2].map(|_| random.below(wrongs.len()));
            both.sort();
            let [one, other] = both.map(|at| &wrongs[at]);
            if one.structure == other.structure {
                continue;
            }
            let mut lent = one.lent.with_list(HEADER, &other.lent);
            if random.one_in(4) {
                lent.0[NAME] = names[random.below(names.len())].lent.0[NAME].clone();
            }
            desk.case(random, &lent, &Err(one.reason));
        }
    }
}

/// Any two entries of long lists; tags that differ in one bit don't repeat, nor does a
/// tag of the other structure.
fn repeated_tags(desk: &mut Desk, random: &mut Random) {
    for count in [2, 3, 8, 64, 510, 512] {
        for structure in [SIGNATURE, HEADER] {
            let most = [512 - OWN.len(), 512][structure];
            let count = most.min(count);
            let mut right_lists = lists(random, [1, 1], 1);
            right_lists.entries[structure] = (0..count as u32)
                .map(|n| entry(random, structure, 2000 + n, Some(7), 1))
                .collect();
            right(desk, random, &right_lists);
            for round in 0..60 {
                let mut pair = match round {
                    0 => [0, count - 1],
                    1 => [0, 1],
                    2 => [count - 2, count - 1],
                    _ => [0; 2].map(|_| random.below(count)),
                };
                pair.sort();
                let [earlier, later] = pair;
                let mut lists = right_lists.clone();
                let list = &mut lists.entries[structure];
                if earlier == later {
                    // A bit that no tag has.
                    list[later].tag ^= 1 << (11 + random.below(21));
                    right(desk, random, &lists);
                } else {
                    list[later].tag = list[earlier].tag;
                    desk.case(random, &lists.lent(), &Err(wrong::REPEATED));
                }
            }
        }
    }
    for _ in 0..50 {
        let mut lists = small(random);
        lists.entries[HEADER] = lists.entries[SIGNATURE].clone();
        for tag in OWN {
            lists.entries[HEADER].push(entry(random, HEADER, tag, None, 2));
        }
        right(desk, random, &lists);
    }
}

/// Extreme numbers in each field of each entry; of a tag it is known what comes of it.
fn extreme_numbers(desk: &mut Desk, random: &mut Random) {
    for _ in 0..25 {
        let lists = small(random);
        for structure in [SIGNATURE, HEADER] {
            for at in 0..lists.entries[structure].len() {
                for number in EXTREMES.into_iter().chain(999..=1005) {
                    extreme_tag(desk, random, &lists, structure, at, number);
                    for field in 1..4 {
                        let mut lent = lists.lent();
                        let place = 16 * at + 4 * field;
                        let list = &mut lent.0[numbers(structure)];
                        list[place..place + 4].copy_from_slice(&number.to_be_bytes());
                        desk.unknown(random, &lent);
                    }
                }
            }
        }
    }
}

fn extreme_tag(
    desk: &mut Desk,
    random: &mut Random,
    lists: &Lists,
    structure: usize,
    at: usize,
    tag: u32,
) {
    let mut lists = lists.clone();
    lists.entries[structure][at].tag = tag;
    let same = |entry: &&Entry| entry.tag == tag;
    let known = if structure == SIGNATURE && OWN.contains(&tag) {
        Err([wrong::OWN_1000, wrong::OWN_1004][usize::from(tag == 1004)])
    } else if lists.entries[structure].iter().filter(same).count() > 1 {
        Err(wrong::REPEATED)
    } else {
        Ok(lists.package())
    };
    desk.case(random, &lists.lent(), &known);
}

/// Changes some bytes, cuts a part off, or makes it longer.
fn changed(desk: &mut Desk, random: &mut Random) {
    for _ in 0..40_000 {
        let mut lent = small(random).lent();
        for _ in 0..1 + random.below(2) {
            let part = &mut lent.0[random.below(5)];
            let more = random.below(20);
            match random.below(6) {
                0 => part.truncate(random.below(part.len() + 1)),
                1 => part.extend(random.bytes(more)),
                _ if part.is_empty() => part.push(random.byte()),
                _ => {
                    let at = random.below(part.len());
                    let values = [0, 1, 0xFF, part[at] ^ 1, random.byte()];
                    part[at] = random.pick(&values);
                }
            }
        }
        desk.unknown(random, &lent);
    }
}

/// Entries of any small numbers, mostly lawful.
fn any_lists(desk: &mut Desk, random: &mut Random) {
    for _ in 0..60_000 {
        let mut lists = small(random);
        for structure in [SIGNATURE, HEADER] {
            let count = random.below(4) + usize::from(structure == HEADER);
            let entries = (0..count).map(|_| any_entry(random, structure));
            lists.entries[structure] = entries.collect();
        }
        desk.unknown(random, &lists.lent());
    }
}

fn any_entry(random: &mut Random, structure: usize) -> Entry {
    let tag = match random.below(40) {
        0 => random.pick(&OWN),
        _ => 990 + random.below(20) as u32,
    };
    let ty = match random.below(20) {
        0 => random.below(12) as u32,
        _ => random.pick(&LAWFUL),
    };
    let count = match is_single(structure, ty) && !random.one_in(10) {
        true => 1,
        false => 1 + random.below(3) as u32,
    };
    let mut entry = Entry::new(tag, ty, count, some_data(random, ty, count as usize));
    match random.below(30) {
        0 => entry.count = random.below(4) as u32,
        1 => entry.size = random.below(9) as u32,
        2 => {
            let length = random.below(9);
            entry.set_data(random.bytes(length));
        }
        _ => {}
    }
    entry
}

/// Random bytes, alone or as part of a right list.
fn noise(desk: &mut Desk, random: &mut Random) {
    for round in 0..6000 {
        let mut lent = small(random).lent();
        for part in &mut lent.0 {
            if round % 2 == 0 || random.one_in(4) {
                let any = random.below(100);
                let length = random.pick(&[0, 1, 16, 32, 48, any]);
                *part = random.bytes(length);
            }
        }
        desk.unknown(random, &lent);
    }
}

/// Type 9 of each count in each list: several strings in the header, one in the signature.
fn translated(desk: &mut Desk, random: &mut Random) {
    for structure in [SIGNATURE, HEADER] {
        for count in (0..=5).chain([255, 256, 257, 1000]) {
            for at in [0, 1, 3] {
                let mut lists = lists(random, [3, 3], 3);
                let tag = random.pick(&[100, 1004, 1005, 1016, 30_000, u32::MAX]);
                let data = some_data(random, 9, count);
                for list in &mut lists.entries {
                    list.retain(|entry| entry.tag != tag);
                }
                let list = &mut lists.entries[structure];
                let new = Entry::new(tag, 9, count as u32, data);
                list.insert(at.min(list.len()), new);
                let known = match count {
                    _ if structure == SIGNATURE && tag == 1004 => Err(wrong::OWN_1004),
                    0 => Err(wrong::COUNT_0),
                    1 => Ok(lists.package()),
                    _ if structure == SIGNATURE => Err(wrong::TRANSLATIONS_IN_SIGNATURE),
                    _ => Ok(lists.package()),
                };
                desk.case(random, &lists.lent(), &known);
                if known.is_ok() {
                    round_trip(desk, random, &lists);
                }
            }
        }
    }
}
