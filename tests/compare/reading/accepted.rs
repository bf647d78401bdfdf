//! Contents of many shapes that each edition accepts, if it accepts the book.

use super::books::Book;
use crate::content::*;
use crate::lines::{self, Line};
use crate::maker::{is_single, size_of};
use crate::random::Random;
use crate::shapes::{free_lead, LAWFUL};

/// How often things occur in a content.
struct Plan {
    locales: usize,
    files: usize,
    directories: usize,
    /// Provides, requires, conflicts, obsoletes, changes: 0 where absent.
    led: [usize; 5],
    old_names: bool,
    /// Each scriptlet: absent, with its program, the program alone.
    scripts: [usize; 4],
}

impl Plan {
    fn any(random: &mut Random) -> Plan {
        let most = if random.one_in(20) { 70 } else { 5 };
        let mut some = |least| random.below(most + 1).max(least);
        Plan {
            locales: some(1),
            files: some(1),
            directories: some(1),
            led: [some(1), some(1), some(0), some(0), some(0)],
            old_names: random.one_in(3),
            scripts: [0; 4].map(|_| random.below(3)),
        }
    }

    /// A header line's count; 0 where it is absent.
    fn count(&self, random: &mut Random, line: &Line) -> usize {
        match line.tag {
            100 => self.locales,
            1004 | 1005 | 1016 => 1 + random.below(self.locales),
            1027 if self.old_names => self.files,
            1116 | 1117 if !self.old_names => self.files,
            1118 if !self.old_names => self.directories,
            1027 | 1116..=1118 => 0,
            1028 | 1030 | 1033..=1037 | 1039 | 1040 | 1095..=1097 => self.files,
            1045 => self.files * random.below(2),
            1047 | 1112 | 1113 => self.led[0],
            1048..=1050 => self.led[1],
            1053..=1055 => self.led[2],
            1090 | 1114 | 1115 => self.led[3],
            1080..=1082 => self.led[4],
            1023..=1026 => usize::from(self.scripts[line.tag as usize - 1023] == 1),
            1085..=1088 => usize::from(self.scripts[line.tag as usize - 1085] != 0),
            _ if !line.required && random.one_in(2) => 0,
            _ => any_count(random, line),
        }
    }
}

/// A count that the line takes, whatever the locales.
pub fn any_count(random: &mut Random, line: &Line) -> usize {
    match line.count {
        Some(count) => count as usize,
        None if line.ty == 7 => random.pick(&[1, 2, 16, 65, 152]),
        None => 1 + random.below(4),
    }
}

fn string(random: &mut Random) -> Vec<u8> {
    let length = random.below(7);
    (0..length).map(|_| random.nonzero_byte()).collect()
}

/// Any data of that type.
pub fn item(random: &mut Random, tag: u32, ty: u32, count: usize) -> Item {
    match size_of(ty) {
        None => {
            let texts: Vec<Vec<u8>> = (0..count).map(|_| string(random)).collect();
            strings(tag, ty, &texts)
        }
        Some(size) => Item {
            tag,
            ty,
            count: count as u32,
            data: random.bytes(size * count),
        },
    }
}

/// Right data of that count for a header line.
pub fn right_item(random: &mut Random, line: &Line, count: usize, directories: usize) -> Item {
    let tag = line.tag;
    match tag {
        1021 => strings(tag, 6, &["linux"]),
        1085..=1088 => strings(tag, 6, &["/bin/sh"]),
        1116 => {
            let index = |_| random.below(directories) as u32;
            words(tag, &(0..count).map(index).collect::<Vec<_>>())
        }
        1118 => {
            let name = |_| [&string(random)[..], b"/"].concat();
            strings(tag, 8, &(0..count).map(name).collect::<Vec<_>>())
        }
        _ => item(random, tag, line.ty, count),
    }
}

/// Tags that have no line: anything lawful may stand there.
#[rustfmt::skip]
pub const NO_LINE: [u32; 24] = [
    0, 1, 61, 64, 99, 101, 269, 273, 999, 1003, 1008, 1013, 1029, 1031, 1038, 1119, 1133,
    5000, 20_000, 20_003, 65_536 + 1000, 1 << 31, (1 << 31) + 20_001, u32::MAX,
];

/// A right count for a tag that has no line.
fn free_count(random: &mut Random, content: &Content, structure: usize, ty: u32) -> usize {
    match ty {
        _ if is_single(structure, ty) => 1,
        9 => 1 + random.below(locales(content)),
        _ => 1 + random.below(4),
    }
}

/// How many locales a content has.
pub fn locales(content: &Content) -> usize {
    content
        .get(HEADER, 100)
        .map_or(0, |item| item.count as usize)
}

/// Adds lawful entries under tags that have no line.
pub fn add_free(random: &mut Random, content: &mut Content, structure: usize, count: usize) {
    for _ in 0..count {
        let tag = match structure {
            // Lines of the header only.
            SIGNATURE if random.one_in(3) => random.pick(&[1001, 1021, 1028, 1118, 20_001, 20_002]),
            HEADER if random.one_in(9) => 1012,
            _ => random.pick(&NO_LINE),
        };
        let ty = random.pick(&LAWFUL);
        let count = free_count(random, content, structure, ty);
        let item = item(random, tag, ty, count);
        content.put(structure, item);
    }
}

/// A content with this book: optional tags in and out, groups, names in both forms.
pub fn content(random: &mut Random, book: &Book) -> Content {
    let plan = Plan::any(random);
    let mut header = Vec::new();
    for line in lines::HEADER.iter() {
        let count = plan.count(random, line);
        if count > 0 {
            header.push(right_item(random, line, count, plan.directories));
        }
    }
    let mut signature = vec![words(1000, &[0])];
    for line in lines::SIGNATURE.iter() {
        let present = line.required || random.one_in(2);
        if present && line.tag != 1000 {
            let count = any_count(random, line);
            signature.push(item(random, line.tag, line.ty, count));
        }
    }
    for (tag, needed) in [(1011, 1005), (1012, 1002)] {
        if signature.iter().all(|item| item.tag != needed) {
            signature.retain(|item| item.tag != tag);
        }
    }
    let payload = random.below(40);
    let seed = random.next();
    let mut content = Content {
        lead: free_lead(random),
        items: [signature, header],
        size_off: 0,
        digest_off: 0,
        gap: [0; 7],
        payload: random.bytes(payload),
        layout: random.pick(&[0, seed]),
    };
    content.put(HEADER, bin(20_001, &book.bytes));
    content.put(HEADER, words(20_002, &[book.weight()]));
    for structure in [SIGNATURE, HEADER] {
        if random.one_in(2) {
            let count = random.below(4);
            add_free(random, &mut content, structure, count);
        }
    }
    content
}

/// Fills a structure with entries under tags that have no line.
pub fn fill(random: &mut Random, content: &mut Content, structure: usize, records: usize) {
    let mut tag = 30_000;
    while content.items[structure].len() < records {
        let ty = random.pick(&LAWFUL);
        let count = match ty {
            9 => free_count(random, content, structure, ty),
            _ => 1,
        };
        content.items[structure].push(item(random, tag, ty, count));
        tag += 1 + random.below(3) as u32;
    }
}
