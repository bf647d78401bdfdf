//! Groups (check 17) and texts (check 18), sentence by sentence.

use super::{check, Checked, Opened, Record, Structure, TRANSLATED_STRING};

impl Structure<'_> {
    fn has(&self, tag: u32) -> bool {
        self.tagged(tag).is_some()
    }

    fn count(&self, tag: u32) -> Option<u32> {
        self.tagged(tag).map(|record| record.count)
    }
}

// ---- Groups ----

/// Counted by 1028, each where present.
const FILE_TAGS: [u32; 12] = [
    1030, 1033, 1034, 1035, 1036, 1037, 1039, 1040, 1045, 1095, 1096, 1097,
];
/// A leader and its two others.
const LED: [(u32, [u32; 2]); 5] = [
    (1049, [1048, 1050]),
    (1047, [1112, 1113]),
    (1054, [1053, 1055]),
    (1090, [1114, 1115]),
    (1081, [1080, 1082]),
];

/// Within a group of named tags they rise, so the lowest one comes first.
pub(super) fn check_groups(package: &Opened) -> Checked<()> {
    let Opened {
        signature, header, ..
    } = package;
    check_needs(signature, 1011, 1005)?;
    check_needs(signature, 1012, 1002)?;
    for script in 1023..=1026 {
        check_needs(header, script, script - 1023 + 1085)?;
    }
    let files = header.count(1028);
    for tag in FILE_TAGS {
        let right = !header.has(tag) || header.count(tag) == files;
        check(17, right, tag as usize)?;
    }
    check_names(header, files)?;
    for (leader, others) in LED {
        check_led(header, leader, others)?;
    }
    check_locales(header)
}

fn check_needs(structure: &Structure, tag: u32, needed: u32) -> Checked<()> {
    let right = !structure.has(tag) || structure.has(needed);
    check(17, right, needed as usize)
}

/// File names: 1027, or 1116 to 1118.
fn check_names(header: &Structure, files: Option<u32>) -> Checked<()> {
    if header.has(1027) {
        let alone = (1116..=1118).all(|tag| !header.has(tag));
        return check(17, header.count(1027) == files && alone, 1027);
    }
    for tag in 1116..=1118 {
        check(17, header.has(tag), tag as usize)?;
    }
    for tag in 1116..=1117 {
        check(17, header.count(tag) == files, tag as usize)?;
    }
    Ok(())
}

/// All or none present, counts equal to the leader's.
fn check_led(header: &Structure, leader: u32, others: [u32; 2]) -> Checked<()> {
    let mut members = [leader, others[0], others[1]];
    members.sort();
    let any = members.iter().any(|&tag| header.has(tag));
    for tag in members {
        check(17, header.has(tag) || !any, tag as usize)?;
    }
    for tag in others {
        check(17, header.count(tag) == header.count(leader), tag as usize)?;
    }
    Ok(())
}

/// No more strings than tag 100 has locales; the first in index order that has more.
fn check_locales(header: &Structure) -> Checked<()> {
    let locales = header.count(100);
    let translated = |record: &Record| record.ty == TRANSLATED_STRING;
    for record in header.records().filter(translated) {
        check(17, Some(record.count) <= locales, record.tag as usize)?;
    }
    Ok(())
}

// ---- Texts ----

/// Where present: all strings, all numbers.
pub(super) fn check_texts(header: &Structure) -> Checked<()> {
    check(18, is_text(header, 1021, b"linux\0"), 1021)?;
    for tag in 1085..=1088 {
        check(18, is_text(header, tag, b"/bin/sh\0"), tag as usize)?;
    }
    if let (Some(indexes), Some(names)) = (header.tagged(1116), header.tagged(1118)) {
        let inside = header.numbers(indexes).all(|index| index < names.count);
        check(18, inside, 1116)?;
        let ended = header.strings(names).all(|name| name.ends_with(b"/\0"));
        check(18, ended, 1118)?;
    }
    Ok(())
}

/// The text, or no such tag.
fn is_text(header: &Structure, tag: u32, text: &[u8]) -> bool {
    match header.tagged(tag) {
        Some(record) => header.data(record) == text,
        None => true,
    }
}
