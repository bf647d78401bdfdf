//! Lists and names that are wrong in one way, each with its reason for 32.

use super::lists::{data, numbers, Entry, Lent, Lists, HEADER, OWN, SIGNATURE};
use crate::maker::{is_single, size_of};
use crate::random::Random;

/// Every reason for 32; each must come up.
pub const REASONS: [&str; 23] = [
    TYPE,
    COUNT_0,
    COUNT_NOT_1,
    TRANSLATIONS_IN_SIGNATURE,
    REPEATED,
    BYTES_MISSING,
    BYTES_OVER,
    NO_LAST_ZERO,
    BEHIND_LAST_ZERO,
    STRINGS_MISSING,
    STRINGS_OVER,
    NO_ENTRY,
    TOO_MANY_IN_HEADER,
    TOO_MANY_IN_SIGNATURE,
    EMPTY_NAME,
    LONG_NAME,
    ZERO_IN_NAME,
    OWN_1000,
    OWN_1004,
    OWN_BOTH,
    LIST_LENGTH,
    SIZE_PAST_END,
    LEFT_OVER,
];

pub const TYPE: &str = "type (check 9)";
pub const COUNT_0: &str = "count 0 (check 10)";
pub const COUNT_NOT_1: &str = "count not 1 for 6 (check 10)";
pub const TRANSLATIONS_IN_SIGNATURE: &str = "count not 1 for 9 in the signature (check 10)";
pub const REPEATED: &str = "tag of an earlier entry (check 13)";
pub const BYTES_MISSING: &str = "fewer bytes than size times count";
pub const BYTES_OVER: &str = "more bytes than size times count";
pub const NO_LAST_ZERO: &str = "last string without its zero byte";
pub const BEHIND_LAST_ZERO: &str = "bytes behind the last zero byte";
pub const STRINGS_MISSING: &str = "fewer strings than the count";
pub const STRINGS_OVER: &str = "more strings than the count";
pub const NO_ENTRY: &str = "no entry in the header (check 7)";
pub const TOO_MANY_IN_HEADER: &str = "over 512 in the header (check 7)";
pub const TOO_MANY_IN_SIGNATURE: &str = "over 512 in the signature, with 1000 and 1004 (check 7)";
pub const EMPTY_NAME: &str = "empty name";
pub const LONG_NAME: &str = "name over 65 bytes";
pub const ZERO_IN_NAME: &str = "zero byte in the name";
pub const OWN_1000: &str = "1000 in the caller's signature";
pub const OWN_1004: &str = "1004 in the caller's signature";
pub const OWN_BOTH: &str = "1000 and 1004 in the caller's signature";
pub const LIST_LENGTH: &str = "list's length no multiple of 16";
pub const SIZE_PAST_END: &str = "size past the data's end";
pub const LEFT_OVER: &str = "data that belongs to no entry";

/// Wrong in this way.
pub struct Wrong {
    pub reason: &'static str,
    /// The structure whose list is wrong; `None` for the name.
    pub structure: Option<usize>,
    pub lent: Lent,
}

/// Collects what is wrong in one list.
struct Makes<'a> {
    right: &'a Lists,
    structure: usize,
    made: Vec<Wrong>,
}

impl Makes<'_> {
    fn push(&mut self, reason: &'static str, lent: Lent) {
        self.made.push(Wrong {
            reason,
            structure: Some(self.structure),
            lent,
        });
    }

    /// The list's entries changed.
    fn list(&mut self, reason: &'static str, change: impl FnOnce(&mut Vec<Entry>)) {
        let mut lists = self.right.clone();
        change(&mut lists.entries[self.structure]);
        self.push(reason, lists.lent());
    }

    /// One entry changed.
    fn entry(&mut self, reason: &'static str, at: usize, change: impl FnOnce(&mut Entry)) {
        self.list(reason, |entries| change(&mut entries[at]));
    }

    fn counts(&mut self, reason: &'static str, at: usize, counts: &[u32]) {
        for &count in counts {
            self.entry(reason, at, |entry| entry.count = count);
        }
    }

    fn with_data(&mut self, reason: &'static str, at: usize, count: u32, data: &[u8]) {
        self.entry(reason, at, |entry| {
            entry.count = count;
            entry.set_data(data.to_vec());
        });
    }

    /// The parts as they are lent changed.
    fn lent(&mut self, reason: &'static str, change: impl FnOnce(&mut Vec<u8>, &mut Vec<u8>)) {
        let mut lent = self.right.lent();
        let mut list = std::mem::take(&mut lent.0[numbers(self.structure)]);
        let mut behind = std::mem::take(&mut lent.0[data(self.structure)]);
        change(&mut list, &mut behind);
        lent.0[numbers(self.structure)] = list;
        lent.0[data(self.structure)] = behind;
        self.push(reason, lent);
    }
}

/// Every way to be wrong that small lists have, the name's apart.
pub fn all(right: &Lists, random: &mut Random) -> Vec<Wrong> {
    let mut made = Vec::new();
    for structure in [SIGNATURE, HEADER] {
        let mut makes = Makes {
            right,
            structure,
            made,
        };
        for at in 0..right.entries[structure].len() {
            one_entry(&mut makes, at);
            tags(&mut makes, at, random);
        }
        list_form(&mut makes, random);
        made = makes.made;
    }
    made
}

/// Type, count and data of one entry.
fn one_entry(makes: &mut Makes, at: usize) {
    let Entry {
        ty, count, data, ..
    } = makes.right.entries[makes.structure][at].clone();
    // 256 and 65,536 more: the low bits still look lawful.
    let types = [
        0,
        5,
        10,
        11,
        255,
        ty + 256,
        ty + 65_536,
        ty | 1 << 31,
        u32::MAX,
    ];
    for wrong in types {
        makes.entry(TYPE, at, |entry| entry.ty = wrong);
    }
    makes.counts(COUNT_0, at, &[0]);
    makes.with_data(COUNT_0, at, 0, &[]);
    match size_of(ty) {
        Some(size) => numbers_data(makes, at, count, &data, size),
        None => strings_data(makes, at, ty, count, &data),
    }
}

/// Counts and data of an entry of numbers that don't go together.
fn numbers_data(makes: &mut Makes, at: usize, count: u32, data: &[u8], size: usize) {
    // The largest, and those whose product is the right one in 32 bits.
    let wrap = (1u64 << 32) / size as u64;
    makes.counts(BYTES_MISSING, at, &[count + 1, 1 << 31, u32::MAX]);
    if size > 1 {
        makes.counts(BYTES_MISSING, at, &[count + wrap as u32]);
        makes.with_data(BYTES_MISSING, at, wrap as u32, &[]);
    }
    if count > 1 {
        makes.counts(BYTES_OVER, at, &[count - 1]);
    }
    makes.with_data(BYTES_MISSING, at, count, &data[..data.len() - 1]);
    makes.with_data(BYTES_MISSING, at, count, &[]);
    for more in 1..=size {
        makes.with_data(BYTES_OVER, at, count, &[data, &vec![0; more]].concat());
    }
}

/// Types that have one string, and what they are refused for.
const SINGLE: [(u32, &str); 2] = [(6, COUNT_NOT_1), (9, TRANSLATIONS_IN_SIGNATURE)];

/// Counts and data of an entry of strings that don't go together.
fn strings_data(makes: &mut Makes, at: usize, ty: u32, count: u32, data: &[u8]) {
    let last = data.len() - 1;
    let mut open = data.to_vec();
    open[last] = b'x';
    makes.with_data(NO_LAST_ZERO, at, count, &open);
    makes.with_data(BEHIND_LAST_ZERO, at, count, &[data, b"x"].concat());
    makes.with_data(STRINGS_MISSING, at, count, &[]);
    makes.with_data(STRINGS_OVER, at, count, &[data, b"\0"].concat());
    makes.with_data(STRINGS_OVER, at, count, &[data, b"xy\0"].concat());
    if last > 0 && data[last - 1] != 0 {
        makes.with_data(NO_LAST_ZERO, at, count, &data[..last]);
    }
    if !is_single(makes.structure, ty) {
        let many = [count + 1, count + 256, count + 65_536, 1 << 31, u32::MAX];
        makes.counts(STRINGS_MISSING, at, &many);
        if count > 1 {
            makes.counts(STRINGS_OVER, at, &[count - 1]);
            let first = data.iter().position(|&byte| byte == 0).unwrap();
            makes.with_data(STRINGS_MISSING, at, count, &data[first + 1..]);
            // The same strings, in a type that has one.
            for (single, reason) in SINGLE {
                if is_single(makes.structure, single) {
                    makes.entry(reason, at, |entry| entry.ty = single);
                }
            }
        }
    } else {
        let (_, reason) = SINGLE[usize::from(ty == 9)];
        makes.counts(reason, at, &[2, 257, 65_537, (1 << 31) + 1, u32::MAX]);
        makes.with_data(reason, at, 2, &[data, b"\0"].concat());
    }
}

/// The tag of an earlier entry; 1000 and 1004.
fn tags(makes: &mut Makes, at: usize, random: &mut Random) {
    let entries = &makes.right.entries[makes.structure];
    if at > 0 {
        for earlier in [0, at - 1, random.below(at)] {
            let tag = entries[earlier].tag;
            makes.entry(REPEATED, at, |entry| entry.tag = tag);
            let whole = entries[earlier].clone();
            makes.list(REPEATED, |entries| entries.insert(at, whole));
        }
    }
    if makes.structure == SIGNATURE {
        makes.entry(OWN_1000, at, |entry| entry.tag = 1000);
        makes.entry(OWN_1004, at, |entry| entry.tag = 1004);
    }
}

/// Lists that are no lists.
fn list_form(makes: &mut Makes, random: &mut Random) {
    let entries = makes.right.entries[makes.structure].clone();
    for more in 1..16 {
        let byte = random.byte();
        makes.lent(LIST_LENGTH, |list, _| list.resize(list.len() + more, byte));
    }
    for more in [1, 2, 15, 16, 100] {
        let byte = random.byte();
        makes.lent(LEFT_OVER, |_, data| data.resize(data.len() + more, byte));
    }
    let Some(last) = entries.last().cloned() else {
        return;
    };
    let count = entries.len();
    for less in 1..16 {
        makes.lent(LIST_LENGTH, |list, data| {
            list.truncate(16 * count - less);
            data.truncate(data.len() - last.data.len());
        });
    }
    if count > 1 || makes.structure == SIGNATURE {
        makes.lent(LEFT_OVER, |list, _| list.truncate(16 * (count - 1)));
    }
    // Entries that are right in themselves, with data that is not all there.
    for less in [1, 2, last.data.len()] {
        let less = less.min(last.data.len());
        makes.lent(SIZE_PAST_END, |_, data| data.truncate(data.len() - less));
    }
    for at in 0..count {
        sizes(makes, at, &entries[at], random);
    }
    if makes.structure == SIGNATURE {
        own_entries(makes);
    } else {
        makes.list(NO_ENTRY, |entries| entries.clear());
    }
}

/// The writer's own entries as they would be written: each alone and both, in front, at the
/// end and apart; 1004 of another count.
fn own_entries(makes: &mut Makes) {
    let own = makes.right.own();
    for (entry, reason) in own.iter().zip([OWN_1000, OWN_1004]) {
        makes.list(reason, |entries| entries.insert(0, entry.clone()));
        makes.list(reason, |entries| entries.push(entry.clone()));
    }
    for count in [1, 15, 17] {
        let other = Entry::bin(OWN[1], vec![0; count]);
        makes.list(OWN_1004, |entries| entries.push(other));
    }
    let [size, digest] = [0, 1].map(|at: usize| own[at].clone());
    for [first, second] in [[&size, &digest], [&digest, &size]] {
        let both = [first.clone(), second.clone()];
        makes.list(OWN_BOTH, |entries| drop(entries.splice(0..0, both)));
        makes.list(OWN_BOTH, |entries| {
            entries.insert(0, first.clone());
            entries.push(second.clone());
        });
    }
}

/// Sizes past the data's end; with bin the count is the size, so that no other rule is
/// broken. In the last ones the sum of the sizes is the data's length in 32 bits.
fn sizes(makes: &mut Makes, at: usize, entry: &Entry, random: &mut Random) {
    let left: usize = makes.right.entries[makes.structure][at..]
        .iter()
        .map(|entry| entry.data.len())
        .sum();
    let left = left as u32;
    for size in [left + 1, left + 256, 65_536, 1 << 31, u32::MAX] {
        makes.entry(SIZE_PAST_END, at, |entry| {
            (entry.ty, entry.count, entry.size) = (7, size, size);
        });
        makes.entry(SIZE_PAST_END, at, |entry| entry.size = size);
    }
    if at > 0 {
        let more = random.pick(&[1, 16, 1 << 16, 1 << 31]);
        makes.list(SIZE_PAST_END, |entries| {
            let own = entry.size;
            let before = entries[at - 1].size;
            let sizes = [
                before.wrapping_sub(more + before),
                own.wrapping_add(more + before),
            ];
            for (entry, size) in entries[at - 1..].iter_mut().zip(sizes) {
                (entry.ty, entry.count, entry.size) = (7, size, size);
            }
        });
    }
}

/// Wrong names.
pub fn names(right: &Lists, random: &mut Random) -> Vec<Wrong> {
    let mut made = Vec::new();
    let mut push = |reason, name: Vec<u8>| {
        let lists = Lists {
            name,
            ..right.clone()
        };
        made.push(Wrong {
            reason,
            structure: None,
            lent: lists.lent(),
        });
    };
    push(EMPTY_NAME, Vec::new());
    for length in [66, 67, 68, 76, 96, 256 + 20, 65_536 + 20, 1 << 18] {
        push(LONG_NAME, vec![random.nonzero_byte(); length]);
    }
    // Its last byte zero: a name of 66 bytes that would fit the field.
    for length in (1..=66).step_by(1 + random.below(5)) {
        let at = random.below(length);
        for at in [0, at, length - 1] {
            let mut name = vec![random.nonzero_byte(); length];
            name[at] = 0;
            push(ZERO_IN_NAME, name);
        }
    }
    made
}
