"""Faults in lib.rs: size, lead, structures (checks 2 to 13) and look-ups."""

MAJOR = "    check(4, lead[4] == 3, 4)?;\n"
MINOR = "    check(4, lead[5] == 0, 5)?;\n"
NAME = "    check(4, lead[10..76].contains(&0), 10)?;\n"
SYSTEM = "    check(4, lead[76..78] == [0, 1], 76)?;\n"
MAGIC = "        check(6, magic == [0x8E, 0xAD, 0xE8, 0x01], start)?;\n"
RESERVED = "        check(6, reserved == [0, 0, 0, 0], start + 4)?;\n"
CHECK_7 = "        check(7, (1..=MAX_NINDEX).contains(&nindex), start + 8)?;\n"
STORE = (
    "        let store_place = index_place + INDEX_RECORD_SIZE * nindex;\n"
    "        let end = store_place + hsize;\n"
)
CHECK_8 = "        check(8, end <= package.len(), start + 12)?;\n"
RECORDS = "        for (position, record) in structure.records().enumerate() {\n"
CHECK_9 = "            check(9, elements(record.ty).is_some(), place)?;\n"
ONE_STRING = "(STRING, _) | (TRANSLATED_STRING, Part::Signature) => self.count == 1"
CHECK_26 = "    check(26, element < record.count, 0)?;\n"
CHECK_12 = "            check(12, record.data(structure.store).is_some(), place)?;\n"
SEARCH = (
    "            let mut earlier = structure.records().take(position);\n"
    "            check(13, earlier.all(|other| other.tag != record.tag), place)?;\n"
)
# All tags of the index, those before, how many rise in front, and whether the tag is above all before.
TAGS = (
    "            let tags: Vec<u32> = structure.records().map(|one| one.tag).collect();\n"
    "            let (tag, before) = (record.tag, &tags[..position]);\n"
    "            let front = (1..nindex).find(|&n| tags[n] <= tags[n - 1]).unwrap_or(nindex);\n"
    "            let above = before.iter().all(|&one| one < tag);\n"
)
ANY = "before.contains(&tag)"
# Each record's place that repeats a tag.
REPEATED = "(0..nindex).filter(|&n| tags[..n].contains(&tags[n])).map(|n| structure.record_place(n))"


def search(holds, place="place"):
    """Another search for a repeated tag."""
    return TAGS + f"            check(13, {holds}, {place})?;\n"


def flagged(those):
    """A search that is made where one of those before has the tag's lowest 12 bits."""
    return search(f"above || !before.iter().enumerate().any(|(n, &one)| {{ let _ = n; {those} }}) || !{ANY}")


# Check ("package": no check's), what is wrong, the right text (found once), the wrong text.
FAULTS = [
    (2, "limit one too low", "package.len() <= MAX_PACKAGE", "package.len() < MAX_PACKAGE"),
    (2, "limit one too high", "MAX_PACKAGE: usize = 65_536", "MAX_PACKAGE: usize = 65_537"),
    (3, "place 0",
     "package.len() >= LEAD_SIZE, package.len())", "package.len() >= LEAD_SIZE, 0)"),
    (3, "97 bytes asked", "package.len() >= LEAD_SIZE", "package.len() > LEAD_SIZE"),
    (4, "magic of three bytes",
     "lead[0..4] == [0xED, 0xAB, 0xEE, 0xDB]", "lead[0..3] == [0xED, 0xAB, 0xEE]"),
    (4, "major not tested", "lead[4] == 3", "true"),
    (4, "minor not tested", "lead[5] == 0", "true"),
    (4, "type's place", "lead[6..8] == [0, 0], 6", "lead[6..8] == [0, 0], 7"),
    (4, "name's last byte not seen", "lead[10..76]", "lead[10..75]"),
    (4, "name one byte too long", "lead[10..76]", "lead[10..77]"),
    (4, "system's high byte", "lead[76..78] == [0, 1]", "lead[77] == 1"),
    (4, "signature type at least 5",
     "lead[78..80] == [0, 5]", "lead[78] == 0 && lead[79] >= 5"),
    (4, "minor before major", MAJOR + MINOR, MINOR + MAJOR),
    (4, "system before name", NAME + SYSTEM, SYSTEM + NAME),
    (5, "17 bytes asked",
     "check(5, index_place <= package.len()", "check(5, index_place < package.len()"),
    (5, "place is the length",
     "index_place <= package.len(), start)",
     "index_place <= package.len(), start.min(package.len()))"),
    (6, "reserved not tested", "reserved == [0, 0, 0, 0]", "true"),
    (6, "reserved's place",
     "check(6, reserved == [0, 0, 0, 0], start + 4)",
     "check(6, reserved == [0, 0, 0, 0], start)"),
    (6, "version byte not tested",
     "magic == [0x8E, 0xAD, 0xE8, 0x01]", "magic[..3] == [0x8E, 0xAD, 0xE8]"),
    (6, "reserved before magic", MAGIC + RESERVED, RESERVED + MAGIC),
    (7, "513 allowed", "MAX_NINDEX: usize = 512", "MAX_NINDEX: usize = 513"),
    (7, "512 refused", "MAX_NINDEX: usize = 512", "MAX_NINDEX: usize = 511"),
    (7, "0 allowed", "check(7, (1..=MAX_NINDEX)", "check(7, (0..=MAX_NINDEX)"),
    (7, "after 8", CHECK_7 + STORE + CHECK_8, STORE + CHECK_8 + CHECK_7),
    (8, "a byte of payload asked",
     "check(8, end <= package.len()", "check(8, end < package.len()"),
    (8, "end in 32 bits",
     "let end = store_place + hsize;", "let end = (store_place + hsize) as u32 as usize;"),
    (9, "type 5 allowed",
     "INT32 => Some(Elements::Sized(4)),", "INT32 | 5 => Some(Elements::Sized(4)),"),
    (9, "type 10 allowed",
     "STRING | STRING_ARRAY | TRANSLATED_STRING => Some", "6 | 8 | 9 | 10 => Some"),
    (9, "type of 8 bits",
     "    match ty {\n        1 | 2", "    match ty & 255 {\n        1 | 2"),
    (9, "char refused", "        1 | 2 | BIN =>", "        2 | BIN =>"),
    (9, "of all records first", RECORDS,
     RECORDS + "            let place = structure.record_place(position);\n" + CHECK_9
     + "        }\n" + RECORDS),
    (10, "count 0 allowed", "_ => self.count >= 1", "_ => true"),
    (10, "type 9 of any count in the signature", ONE_STRING, "(STRING, _) => self.count == 1"),
    (10, "type 9 of two in the signature", ONE_STRING, ONE_STRING + " || (self.ty, self.count) == (9, 2)"),
    (10, "type 9 held to 1 in the header",
     ONE_STRING, "(STRING | TRANSLATED_STRING, _) => self.count == 1"),
    (10, "type 9's rules exchanged", ONE_STRING, ONE_STRING.replace("Signature", "Header")),
    (10, "type 9 of none in the header",
     ONE_STRING, "(TRANSLATED_STRING, Part::Header) => true,\n            " + ONE_STRING),
    (10, "single strings of none", ONE_STRING, ONE_STRING.replace("==", "<=")),
    (10, "type 6 of any count",
     ONE_STRING, "(TRANSLATED_STRING, Part::Signature) => self.count == 1"),
    (10, "type 6 of any count in the header",
     ONE_STRING, "(STRING | TRANSLATED_STRING, Part::Signature) => self.count == 1"),
    (10, "type 8 held to 1", ONE_STRING, "(STRING_ARRAY, _) | " + ONE_STRING),
    (10, "type 8 held to 1 in the signature",
     ONE_STRING, "(STRING_ARRAY, Part::Signature) | " + ONE_STRING),
    (11, "not tested", "self.offset as usize % size == 0", "true"),
    (11, "int32 to 2",
     "self.offset as usize % size == 0", "self.offset as usize % size.min(2) == 0"),
    (11, "after 12",
     "check(11, record.is_aligned(), place)?;\n"
     "            check(12, record.data(structure.store).is_some(), place)?;",
     "check(12, record.data(structure.store).is_some(), place)?;\n"
     "            check(11, record.is_aligned(), place)?;"),
    (12, "product in 32 bits",
     "let end = start + size * count;",
     "let end = start + (size as u32).wrapping_mul(count as u32) as usize;"),
    (12, "sum in 32 bits",
     "let end = start + size * count;",
     "let end = (start + size * count) as u32 as usize;"),
    (12, "offset tested only",
     "(end <= store.len()).then_some", "(start < store.len()).then_some"),
    (12, "end before the store's",
     "(end <= store.len()).then_some", "(end < store.len()).then_some"),
    (12, "last zero not asked",
     "position(|&byte| byte == 0)? + 1",
     "position(|&byte| byte == 0).unwrap_or(rest.len()) + 1"),
    (12, "strings may end in the file",
     "record.data(structure.store).is_some()",
     "record.data(&package[store_place..]).is_some()"),
    (12, "one string less",
     "let end = strings_end(store, start, count)?;",
     "let end = strings_end(store, start, count.max(2) - 1)?;"),
    (12, "type 9 is its first string",
     "self.run(store, 0, self.count as usize)",
     "self.run(store, 0, if self.ty == 9 { 1 } else { self.count as usize })"),
    (13, "not tested", "earlier.all(|other| other.tag != record.tag)", "true"),
    (13, "only the record before",
     "structure.records().take(position);",
     "structure.records().take(position).skip(position.saturating_sub(1));"),
    (13, "first record missed",
     "structure.records().take(position);", "structure.records().take(position).skip(1);"),
    (13, "same type as well",
     "other.tag != record.tag)", "other.tag != record.tag || other.ty != record.ty)"),
    (13, "place of the next record",
     "earlier.all(|other| other.tag != record.tag), place)",
     "earlier.all(|other| other.tag != record.tag), place + 16)"),
    (13, "before 9", CHECK_9,
     "            let mut before = structure.records().take(position);\n"
     "            check(13, before.all(|other| other.tag != record.tag), place)?;\n" + CHECK_9),
    (13, "rise of the first two trusted", SEARCH, search(f"nindex > 1 && tags[0] < tags[1] || !{ANY}")),
    (13, "last tag above the first trusted", SEARCH, search(f"tags[0] < tags[nindex - 1] || !{ANY}")),
    (13, "rise over the record before trusted", SEARCH,
     search(f"position > 0 && tags[position - 1] < tag || !{ANY}")),
    (13, "only the highest before", SEARCH, search("before.iter().max() != Some(&tag)")),
    (13, "highest of the rising front", SEARCH, search(f"tags[front - 1] < tag || !{ANY}")),
    (13, "highest of 16 bits", SEARCH, search(f"before.iter().all(|&one| one & 0xFFFF < tag) || !{ANY}")),
    (13, "rise of signed numbers trusted over the highest", SEARCH,
     search(f"before.iter().max().is_some_and(|&most| (most as i32) < tag as i32) || !{ANY}")),
    (13, "last record not tested", SEARCH, search(f"position + 1 == nindex || !{ANY}")),
    (13, "last of 512 not tested", SEARCH, search(f"position == 511 || !{ANY}")),
    (13, "even distances only", SEARCH, search("!before.iter().rev().skip(1).step_by(2).any(|&one| one == tag)")),
    (13, "odd distances only", SEARCH, search("!before.iter().rev().step_by(2).any(|&one| one == tag)")),
    (13, "only within 256 records", SEARCH, search("!before.iter().rev().take(256).any(|&one| one == tag)")),
    (13, "only within 510 records", SEARCH, search("!before.iter().rev().take(510).any(|&one| one == tag)")),
    (13, "equal neighbours allowed", SEARCH, search("!before.iter().rev().skip(1).any(|&one| one == tag)")),
    (13, "lowest 8 bits compared", SEARCH, search("!before.iter().any(|&one| one as u8 == tag as u8)")),
    (13, "lowest 12 bits compared", SEARCH, search("!before.iter().any(|&one| (one ^ tag) & 0xFFF == 0)")),
    (13, "flag taken for a repeat", SEARCH,
     search("above || !before.iter().any(|&one| (one ^ tag) & 0xFFF == 0)")),
    (13, "lowest 16 bits compared", SEARCH, search("!before.iter().any(|&one| one as u16 == tag as u16)")),
    (13, "lowest 31 bits compared", SEARCH, search("!before.iter().any(|&one| one << 1 == tag << 1)")),
    (13, "upper 24 bits compared", SEARCH, search("!before.iter().any(|&one| one >> 8 == tag >> 8)")),
    (13, "rising front not flagged", SEARCH, flagged("n >= front && (one ^ tag) & 0xFFF == 0")),
    (13, "first record not flagged", SEARCH, flagged("n > 0 && (one ^ tag) & 0xFFF == 0")),
    (13, "front's last record not flagged", SEARCH, flagged("n + 1 != front && (one ^ tag) & 0xFFF == 0")),
    (13, "new highest tags not flagged", SEARCH,
     flagged("(n < front || tags[..n].iter().any(|&other| other > one)) && (one ^ tag) & 0xFFF == 0")),
    (13, "lower tags not flagged", SEARCH,
     flagged("tags[..n].iter().all(|&other| other < one) && (one ^ tag) & 0xFFF == 0")),
    (13, "flags set by 11 bits", SEARCH, flagged("one & 0x7FF == tag & 0xFFF")),
    (13, "last byte taken for a repeat where tags don't rise", SEARCH,
     search("above || !before.iter().any(|&one| one as u8 == tag as u8)")),
    (13, "search ends at a higher tag", SEARCH,
     search("!before.iter().take_while(|&&one| one <= tag).any(|&one| one == tag)")),
    (13, "search back ends at a lower tag", SEARCH,
     search("!before.iter().rev().take_while(|&&one| one >= tag).any(|&one| one == tag)")),
    (13, "search as if sorted", SEARCH, search("before.binary_search(&tag).is_err()")),
    (13, "first of the same last byte decides", SEARCH,
     search("before.iter().find(|&&one| one as u8 == tag as u8) != Some(&tag)")),
    (13, "first of the same last byte of four decides", SEARCH,
     search("!before.chunks(4).any(|four| four.iter().find(|&&one| one as u8 == tag as u8) == Some(&tag))")),
    (13, "last of four not compared", SEARCH,
     search("!before.chunks(4).any(|four| four.iter().take(3).any(|&one| one == tag))")),
    (13, "rest behind the fours not compared", SEARCH,
     search("!before[..position / 4 * 4].contains(&tag)")),
    (13, "fours behind the rest not compared", SEARCH,
     search("!before[..position % 4].contains(&tag)")),
    (13, "tag 0 may repeat", SEARCH, search(f"tag == 0 || !{ANY}")),
    (13, "tag 0 never new", SEARCH, search(f"(tag != 0 || above) && !{ANY}")),
    (13, "tag 0 refused as first", SEARCH, search(f"(position, tag) != (0, 0) && !{ANY}")),
    (13, "largest tag may repeat", SEARCH, search(f"tag == u32::MAX || !{ANY}")),
    (13, "tags from 2^31 may repeat", SEARCH, search(f"tag >= 1 << 31 || !{ANY}")),
    (13, "not tested in the signature", SEARCH, search(f"part == Part::Signature || !{ANY}")),
    (13, "not tested in the header", SEARCH, search(f"part == Part::Header || !{ANY}")),
    (13, "place of the earlier record", SEARCH,
     search(f"!{ANY}", "before.iter().position(|&one| one == tag).map_or(place, |n| structure.record_place(n))")),
    (13, "place of the last that repeats", SEARCH, search(f"!{ANY}", f"{REPEATED}.last().unwrap_or(place)")),
    (13, "two of one tag allowed", SEARCH, search("before.iter().filter(|&&one| one == tag).count() < 2")),
    (13, "before 12", CHECK_12 + SEARCH, SEARCH + CHECK_12),
    (13, "of all records first", RECORDS,
     RECORDS + "            let place = structure.record_place(position);\n" + SEARCH + "        }\n" + RECORDS),
    (13, "of all records last", SEARCH + "        }\n",
     "        }\n" + RECORDS + "            let place = structure.record_place(position);\n" + SEARCH + "        }\n"),
    (13, "of the next record first", CHECK_9,
     "            let next = structure.records().nth(position + 1).map(|next| next.tag);\n"
     "            let mut so_far = structure.records().take(position + 1);\n"
     "            check(13, so_far.all(|one| Some(one.tag) != next), place + 16)?;\n" + CHECK_9),
    (25, "type ignored", "record.tag == tag && record.ty == ty", "record.tag == tag"),
    (25, "tag ignored", "record.tag == tag && record.ty == ty", "record.ty == ty"),
    (25, "first record not seen",
     "        self.records()\n            .find(",
     "        self.records().skip(1)\n            .find("),
    (25, "place is the tag",
     "number: 25,\n            place: 0,", "number: 25,\n            place: tag,"),
    (25, "translated string for string array",
     "record.tag == tag && record.ty == ty",
     "record.tag == tag && (record.ty == ty || (record.ty, ty) == (9, 8))"),
    (26, "one too many",
     "check(26, element < record.count, 0)", "check(26, element <= record.count, 0)"),
    (26, "place is the count",
     "element < record.count, 0)", "element < record.count, record.count as usize)"),
    (26, "last refused", "element < record.count, 0)", "element + 1 < record.count, 0)"),
    (26, "numbers of 16 bits",
     "check(26, element < record.count, 0)",
     "check(26, (element as u16) < record.count as u16, 0)"),
    (26, "one locale only", CHECK_26, CHECK_26 + "    check(26, ty != 9 || element == 0, 0)?;\n"),
    (26, "first locale for one that lacks", CHECK_26,
     "    let element = if ty == 9 && element >= record.count { 0 } else { element };\n" + CHECK_26),
    (26, "last locale for one that lacks", CHECK_26,
     "    let element = if ty == 9 { element.min(record.count - 1) } else { element };\n" + CHECK_26),
    ("package", "whole store shown",
     "let start = offset + size * skipped;",
     "let start = offset * skipped.min(1) + size * skipped;"),
    ("package", "elements of one byte", "offset + size * skipped", "offset + skipped"),
    ("package", "next string shown",
     "strings_end(store, offset, skipped)?",
     "strings_end(store, offset, skipped + usize::from(count == 1 && skipped > 1))?"),
    ("package", "first translation shown",
     "record.run(structure.store, element as usize, 1)",
     "record.run(structure.store, if ty == 9 { 0 } else { element as usize }, 1)"),
    ("package", "place in the store", "self.store_place + part.start..", "part.start.."),
    ("package", "places of 15 bits",
     "self.store_place + part.start..", "(self.store_place + part.start) % 32_768.."),
    ("package", "only 1 is the header", "if number == 0 {", "if number != 1 {"),
    ("package", "H not rounded up", "signature.end().next_multiple_of(8)", "signature.end()"),
    ("package", "H a multiple of 4",
     "signature.end().next_multiple_of(8)", "signature.end().next_multiple_of(4)"),
    ("package", "always some padding",
     "signature.end().next_multiple_of(8)", "(signature.end() + 1).next_multiple_of(8)"),
    ("package", "signature stands alone",
     "let structure = sound(package)?.structure(structure);\n    match",
     "let opened = if structure == 0 { Structure::read(package, 96, Part::Signature)? } else { sound(package)?.header };\n"
     "    let structure = opened;\n"
     "    match"),
    ("package", "refuses everything",
     "check(2, package.len() <= MAX_PACKAGE, 0)", "check(2, false, 0)"),
    ("package", "reads one byte more",
     "    check_lead(",
     "    std::hint::black_box(unsafe { std::ptr::read_volatile(package.as_ptr().add(package.len())) });\n"
     "    check_lead("),
    ("package", "writes into the package",
     "    check_lead(",
     "    unsafe { std::ptr::write_volatile(package.as_ptr().cast_mut(), 0xED) };\n"
     "    check_lead("),
]
