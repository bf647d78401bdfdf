//! Accepted packages of any number of header records.

use reference::catalogue::{self, Count, Line, Status};
use reference::reading;

use crate::content::*;
use crate::maker::size_of;
use crate::random::Random;

/// The order of the header's records and of their data, by their tags.
#[derive(Clone, Copy)]
pub enum Order {
    Rising,
    Falling,
    Shuffled,
    /// Shuffled; the tags that have no line are any numbers.
    Scattered,
    /// Falling; the tags that have no line share their lowest 12 bits, so that a repeated one is
    /// searched for among all before.
    Slow,
}

pub const ORDERS: [(Order, &str); 3] = [
    (Order::Rising, "rising tags"),
    (Order::Falling, "falling tags"),
    (Order::Shuffled, "shuffled tags"),
];
pub const SCATTERED: (Order, &str) = (Order::Scattered, "scattered tags");
pub const SLOW: (Order, &str) = (Order::Slow, "tags made to be slow");

/// How much the entries hold.
#[derive(Clone, Copy)]
pub struct Plan {
    pub files: usize,
    pub requires: usize,
    pub doses: usize,
    /// One-byte remarks, where the book has no doses.
    pub remarks: usize,
    pub book: bool,
}

pub const USUAL: Plan = Plan {
    files: 8,
    requires: 6,
    doses: 24,
    remarks: 0,
    book: true,
};

const LOCALES: usize = 1;
const DIRECTORIES: usize = 3;
const PROVIDES: usize = 2;
/// Conflicts, obsoletes and changes.
const OTHERS: usize = 2;

/// The header records of `Content::least`.
const LEAST_RECORDS: usize = 37;

/// Lines that may be absent; those that need one another stand together.
#[rustfmt::skip]
const OPTIONAL: [&[u32]; 22] = [
    &[63], &[1006], &[1007], &[1010], &[1011], &[1020], &[1044], &[1045], &[1046], &[1064], &[1094],
    &[1122], &[1123], &[1131], &[1132], &[1080, 1081, 1082], &[1023, 1085], &[1024, 1086],
    &[1025, 1087], &[1026, 1088], &[1053, 1054, 1055], &[1090, 1114, 1115],
];

/// A tag that no package has: it has no line, and free tags that are not scattered leave it out.
pub const ABSENT: u32 = FREE + 1;

const FREE: u32 = 10_000;

/// So many tags that have no line. Unless scattered they rise, and librpm doesn't know them.
fn free(order: Order, number: usize) -> Vec<u32> {
    let rising = |step| (0..number as u32).map(move |position| FREE + step * position);
    match order {
        Order::Rising | Order::Falling | Order::Shuffled => rising(7).collect(),
        Order::Slow => rising(1 << 12).collect(),
        Order::Scattered => {
            let mut random = Random::new(number as u64);
            let mut tags = Vec::new();
            while tags.len() < number {
                let tag = random.number();
                let has_line = catalogue::HEADER.iter().any(|line| line.tag == tag);
                if !has_line && !tags.contains(&tag) {
                    tags.push(tag);
                }
            }
            tags
        }
    }
}

/// A type and a count for a tag that has no line.
fn kind(position: usize) -> (u32, usize) {
    let ty = [6, 4, 8, 7, 3, 9, 1, 2][position % 8];
    let count = match ty {
        6 => 1,
        9 => LOCALES,
        _ => 1 + position % 4,
    };
    (ty, count)
}

fn count(plan: &Plan, line: &Line) -> usize {
    match (line.count, line.tag) {
        (Count::Exactly(count), _) => count as usize,
        (_, 1118) => DIRECTORIES,
        (_, 1028..=1045 | 1095..=1097 | 1116 | 1117) => plan.files,
        (_, 1048..=1050) => plan.requires,
        (_, 1047 | 1112 | 1113) => PROVIDES,
        (_, 100) => LOCALES,
        _ if line.ty == 9 => LOCALES,
        (_, 1002 | 1005 | 1011 | 1012) => 152,
        _ => OTHERS,
    }
}

fn text(tag: u32, position: usize) -> String {
    match tag {
        1021 => "linux".to_string(),
        1085..=1088 => "/bin/sh".to_string(),
        1118 => format!("/srv/books/{position}/"),
        _ => format!("text {position} of {tag}"),
    }
}

/// Right data for a tag.
fn item(tag: u32, ty: u32, count: usize) -> Item {
    match size_of(ty) {
        None => {
            let texts: Vec<String> = (0..count).map(|position| text(tag, position)).collect();
            strings(tag, ty, &texts)
        }
        Some(4) => {
            let number = |position| (position % DIRECTORIES) as u32;
            words(tag, &(0..count).map(number).collect::<Vec<_>>())
        }
        Some(size) => Item {
            tag,
            ty,
            count: count as u32,
            data: (0..size * count).map(|byte| byte as u8).collect(),
        },
    }
}

/// A book of doses, with pages between them where it is not long, and its weight.
fn book(plan: &Plan) -> (Vec<u8>, u32) {
    let doses = plan.doses;
    let mut bytes = vec![0x30; plan.remarks];
    let mut weight = 0;
    for position in 0..doses {
        if position % 4 == 0 && doses < 400 {
            bytes.extend([0x02, 0, position as u8]);
        }
        let milligrams = 1250 + position as u32;
        bytes.push(0x86);
        bytes.extend((1 + position as u16 % 999).to_be_bytes());
        bytes.extend(milligrams.to_be_bytes());
        weight += milligrams;
    }
    (bytes, weight)
}

/// Optional lines for a header of so many records: up to three of four records
/// beyond the least.
fn optional(records: usize) -> Vec<u32> {
    let most = (records - LEAST_RECORDS) * 3 / 4;
    let mut tags = Vec::new();
    for group in OPTIONAL {
        if tags.len() + group.len() <= most {
            tags.extend(group);
        }
    }
    tags
}

/// What rpm's writers put into 62 and 63, the regions: where the index starts, counted back
/// from the index's end.
fn region(tag: u32, records: usize) -> Item {
    let back = (16 * records as u32).wrapping_neg();
    bin(tag, &[tag, 7, back, 16].map(u32::to_be_bytes).concat())
}

/// An accepted package of at least 37 header records: the least, optional lines, and
/// tags that have no line. The signature has every line but the
/// header's region. A region stands as rpm's writers
/// put it: first in the index, last in the store. Without a book the package is refused.
pub fn accepted(records: usize, order: Order, plan: &Plan) -> Vec<u8> {
    let (bytes, weight) = book(plan);
    let mut content = Content::least(&bytes, weight);
    if !plan.book {
        content.remove(HEADER, catalogue::BOOK);
    }
    let extra = optional(records);
    for line in &catalogue::HEADER {
        let present = content.get(HEADER, line.tag).is_some() || extra.contains(&line.tag);
        if present && line.tag < catalogue::BOOK {
            content.put(HEADER, item(line.tag, line.ty, count(plan, line)));
        }
    }
    for line in &catalogue::SIGNATURE {
        if line.status != Status::Required && line.tag != 63 {
            content.put(SIGNATURE, item(line.tag, line.ty, count(plan, line)));
        }
    }
    let tags = free(order, records - content.items[HEADER].len());
    for (position, tag) in tags.into_iter().enumerate() {
        let (ty, count) = kind(position);
        content.put(HEADER, item(tag, ty, count));
    }
    for items in &mut content.items {
        items.sort_by_key(|item| item.tag);
    }
    let header = &mut content.items[HEADER];
    match order {
        Order::Rising => {}
        Order::Falling | Order::Slow => header.reverse(),
        Order::Shuffled | Order::Scattered => Random::new(records as u64).shuffle(header),
    }
    for (items, tag) in content.items.iter_mut().zip([62, 63]) {
        if let Some(at) = items.iter().position(|item| item.tag == tag) {
            items.remove(at);
            items.push(region(tag, items.len() + 1));
        }
    }
    content.payload = vec![0x55; 64];
    let mut package = content.package();
    for structure in [&mut package.signature, &mut package.header] {
        if structure
            .records
            .last()
            .is_some_and(|record| record[0] < 100)
        {
            structure.records.rotate_right(1);
        }
    }
    package.put_digest(0);
    let bytes = package.bytes();
    assert_eq!(reading::read(2, &bytes, &mut [0; 8192]).is_ok(), plan.book);
    bytes
}
