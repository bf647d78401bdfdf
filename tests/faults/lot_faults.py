"""Faults in lots (`lot`) and in what edition 3 keeps and adds (`edition3`)."""

# As in package_faults.py. Texts are those of catalogue.rs, book.rs and reading.rs.
from gap_faults import in_reading
from reading_faults import (
    CHECK_1, CHECK_16, CHECK_22, CHECK_24, COUNT_C, END, GROUPS, HEADER_LINES, NEEDED, NUMBERS, RECORD, TEXTS,
    WRITE_C,
)

LOT = "if kind == WITH_LOT { be32(body, 6) } else { 0 }"
MILLIGRAMS = "            milligrams: be32(body, 2),\n            lot: " + LOT + ",\n"
NUMBERS_OF_BODY = "            oxide: be16(body, 0),\n" + MILLIGRAMS
PUSH = "            doses.push(dose);\n"
DOSES_END = "        place = end;\n    }\n    Ok(doses)\n"
BODY_END = "        let end = body + usize::from(kind % 16);\n"
OF_BODY = "            let dose = Dose::of(kind, &book[body..end]);\n"
BODY = BODY_END + RECORD + END + "        if is_weighed(kind) {\n" + OF_BODY
IS_RIGHT = "check(22, dose.is_right(), place)"
IS_KNOWN = "known == kind && since <= edition"
LINE_EXISTS = "self.tag != BATCH_WEIGHT || edition >= 2"
AGREES = "let agrees = record.ty == line.ty && line.count.allows(record.count);"
HAS_WEIGHT = "    if edition >= 2 {\n"
SUM = "u64::from(dose.milligrams)"
NUMBERS_DOC = (
    "    Ok(doses)\n}\n\n"
    "/// The number of a required int32 line of count 1.\n"
    "fn number(structure: &Structure, tag: u32) -> u32 {\n"
    '    let record = structure.tagged(tag).expect("check 14 passed");\n'
    '    structure.numbers(record).next().expect("check 15 passed")\n'
    "}\n\n"
    "/// Oxide, milligrams, lot of each dose.\n"
    "fn numbers(doses: &[Dose]) -> impl Iterator<Item = u32> + '_ {\n"
    "    doses\n        .iter()\n        .flat_map(|dose| "
)
TWO_NUMBERS = "[u32::from(dose.oxide), dose.milligrams]"
READING = "fn doses(edition: u32, package: &[u8], room: usize) -> Checked<Vec<Dose>> {\n"


def of_lot(value):
    """What the lot of AA is instead."""
    return LOT, LOT.replace("be32(body, 6)", value)


def lots_after(change):
    """The lots changed once all doses are known; `lots` are the right ones."""
    return DOSES_END, DOSES_END.replace(
        "    Ok(doses)\n",
        "    let mut doses: Vec<Dose> = doses;\n"
        "    let lots: Vec<u32> = doses.iter().map(|dose| dose.lot).collect();\n"
        "    for at in 0..doses.len() {\n"
        f"        doses[at].lot = {change};\n"
        "    }\n"
        "    Ok(doses)\n")


def body_of(size):
    """AA with a body of another size; its lot is read where it stands, or behind the book 0."""
    of_kind = "usize::from(kind % 16)"
    end = BODY_END.replace(of_kind, f"if kind == WITH_LOT {{ {size} }} else {{ {of_kind} }}")
    dose = OF_BODY.replace("&book[body..end]", "&[&book[body..], &[0; 10]].concat()")
    return BODY, BODY.replace(BODY_END, end).replace(OF_BODY, dose)


def instead(numbers):
    """Edition 3 answers as edition 1 does where one of these numbers is about 20002."""
    return READING, (
        READING
        + "    match rightly(edition, package, room) {\n"
        + f"        Err(one) if edition == 3 && one.place == BATCH_WEIGHT && matches!(one.number, {numbers}) => {{\n"
        + "            rightly(1, package, room)\n"
        + "        }\n"
        + "        other => other,\n"
        + "    }\n"
        + "}\n\n"
        + READING.replace("fn doses", "fn rightly"))


def at_edition_3(text):
    """A check that edition 3 leaves out."""
    return text, "    if edition < 3 {\n    " + text + "    }\n"


LOTS = [
    ("always 0", LOT, "0"),
    ("of two bytes, the last", *of_lot("u32::from(be16(body, 8))")),
    ("of two bytes, the first", *of_lot("u32::from(be16(body, 6))")),
    ("of one byte", *of_lot("u32::from(body[9])")),
    ("of 24 bits", *of_lot("be32(body, 6) & 0xFF_FFFF")),
    ("of 31 bits", *of_lot("be32(body, 6) & 0x7FFF_FFFF")),
    ("little-endian", *of_lot("be32(body, 6).swap_bytes()")),
    ("halves exchanged", *of_lot("be32(body, 6).rotate_left(16)")),
    ("one byte early", *of_lot("be32(body, 5)")),
    ("one byte late", *of_lot("be32(body, 6) << 8")),
    ("two bytes early", *of_lot("be32(body, 4)")),
    ("two bytes late", *of_lot("be32(body, 6) << 16")),
    ("is the milligrams", *of_lot("be32(body, 2)")),
    ("is the body's beginning", *of_lot("be32(body, 0)")),
    ("one more", *of_lot("be32(body, 6).wrapping_add(1)")),
    ("at most 2^31", *of_lot("be32(body, 6).min(1 << 31)")),
    ("never 0", *of_lot("be32(body, 6).max(1)")),
    ("of 86 is 1", LOT, LOT.replace("0 }", "1 }")),
    ("of 86 and 98 is all ones", LOT, LOT.replace("0 }", "u32::MAX }")),
    ("of 98 is its tolerance", LOT,
     "match kind {\n                WITH_LOT => be32(body, 6),\n"
     "                0x98 => u32::from(be16(body, 6)),\n                _ => 0,\n            }"),
    ("before the milligrams in the body", MILLIGRAMS,
     "            milligrams: be32(body, if kind == WITH_LOT { 6 } else { 2 }),\n"
     "            lot: if kind == WITH_LOT { be32(body, 2) } else { 0 },\n"),
    ("before the oxide in the body", NUMBERS_OF_BODY,
     "            oxide: be16(body, if kind == WITH_LOT { 4 } else { 0 }),\n"
     "            milligrams: be32(body, if kind == WITH_LOT { 6 } else { 2 }),\n"
     "            lot: if kind == WITH_LOT { be32(body, 0) } else { 0 },\n"),

    ("of the dose before", *lots_after("if at == 0 { 0 } else { lots[at - 1] }")),
    ("of the dose behind", *lots_after("lots.get(at + 1).copied().unwrap_or(0)")),
    ("of the first dose", *lots_after("lots[0]")),
    ("of the last dose", *lots_after("lots[lots.len() - 1]")),
    ("of the first dose only", *lots_after("if at == 0 { lots[0] } else { 0 }")),
    ("in the contrary order", *lots_after("lots[lots.len() - 1 - at]")),
    ("summed up", *lots_after("lots[..=at].iter().fold(0, |sum: u32, &lot| sum.wrapping_add(lot))")),
    ("from the 256th dose on 0", *lots_after("if at < 255 { lots[at] } else { 0 }")),
    ("kept behind AA", PUSH,
     "            let before = doses.last().map_or(0, |one: &Dose| one.lot);\n"
     "            doses.push(Dose { lot: if kind == WITH_LOT { dose.lot } else { before }, ..dose });\n"),
    ("0 is that of the dose before", PUSH,
     "            let before = doses.last().map_or(0, |one: &Dose| one.lot);\n"
     "            doses.push(Dose { lot: if dose.lot == 0 { before } else { dose.lot }, ..dose });\n"),
    ("kept for the same oxide", PUSH,
     "            let same = doses.iter().rfind(|one: &&Dose| one.oxide == dose.oxide);\n"
     "            let before = same.map_or(0, |one| one.lot);\n"
     "            doses.push(Dose { lot: if kind == WITH_LOT { dose.lot } else { before }, ..dose });\n"),
    ("same oxide and lot put together", PUSH,
     "            let same = |one: &&mut Dose| one.lot != 0 && (one.oxide, one.lot) == (dose.oxide, dose.lot);\n"
     "            match doses.iter_mut().find(same) {\n"
     "                Some(one) => one.milligrams += dose.milligrams,\n"
     "                None => doses.push(dose),\n"
     "            }\n"),
    ("in the sum", SUM, "u64::from(dose.milligrams) + u64::from(dose.lot)"),

    ("0 refused", IS_RIGHT, "check(22, dose.is_right() && (kind != WITH_LOT || dose.lot != 0), place)"),
    ("2^32 - 1 refused", IS_RIGHT, "check(22, dose.is_right() && dose.lot != u32::MAX, place)"),
    ("from 2^31 on refused", IS_RIGHT, "check(22, dose.is_right() && dose.lot < 1 << 31, place)"),
    ("AA not tested by 22", IS_RIGHT, "check(22, dose.is_right() || kind == WITH_LOT, place)"),
    ("bodies of 6", *body_of(6)),
    ("bodies of 8", *body_of(8)),
    ("bodies of 9", *body_of(9)),
    ("bodies of 11", *body_of(11)),
    ("a lot's last byte may lack", END, END.replace(
     "end <= book.len()", "end <= book.len() + usize::from(kind == WITH_LOT)")),

    # The dose buffer.
    ("before the milligrams", NUMBERS, "[u32::from(dose.oxide), dose.lot, dose.milligrams]"),
    ("before the oxide", NUMBERS, "[dose.lot, u32::from(dose.oxide), dose.milligrams]"),
    ("is the oxide", NUMBERS, "[u32::from(dose.oxide), dose.milligrams, u32::from(dose.oxide)]"),
    ("of 16 bits in the buffer", NUMBERS, "[u32::from(dose.oxide), dose.milligrams, dose.lot & 0xFFFF]"),
    ("0 not written", WRITE_C, "                if number != 0 {\n    " + WRITE_C + "                }\n"),
    ("not written at editions 1 and 2", WRITE_C,
     "                if number != 0 || edition == 3 {\n    " + WRITE_C + "                }\n"),
    ("doses of 8 bytes", NUMBERS, TWO_NUMBERS),
    ("doses of 8 bytes, and room for them asked", NEEDED + CHECK_24 + NUMBERS_DOC + NUMBERS,
     NEEDED.replace("3", "2") + CHECK_24 + NUMBERS_DOC + TWO_NUMBERS),
    ("doses of 16 bytes", NUMBERS, NUMBERS.replace("]", ", 0]")),
    ("behind all oxides and milligrams", NUMBERS_DOC + NUMBERS + ")",
     NUMBERS_DOC + TWO_NUMBERS + ")\n        .chain(doses.iter().map(|dose| dose.lot))"),
    ("24 asks two numbers a dose", NEEDED, NEEDED.replace("3", "2")),
    ("24 asks four numbers a dose", NEEDED, NEEDED.replace("3", "4")),
    ("24 asks two numbers of a dose without lot", NEEDED,
     "    let needed: usize = doses.iter().map(|dose| 2 + usize::from(dose.lot != 0)).sum();\n"),
    ("24 asks two numbers where no dose has a lot", NEEDED,
     "    let needed = doses.len() * if doses.iter().all(|dose| dose.lot == 0) { 2 } else { 3 };\n"),
    ("24 asks two numbers at editions 1 and 2", NEEDED,
     "    let needed = doses.len() * if edition == 3 { 3 } else { 2 };\n"),
    ("24 asks three numbers of the last dose alone", NEEDED,
     "    let needed = 2 * doses.len() + usize::from(!doses.is_empty());\n"),
    ("24's place is two numbers a dose", CHECK_24, CHECK_24.replace(", needed)", ", needed / 3 * 2)")),
    ("24's place is the doses times 12", CHECK_24, CHECK_24.replace(", needed)", ", 4 * needed)")),
]

EDITIONS = [
    ("refused", "(1..=3).contains(&edition)", "(1..=2).contains(&edition)"),
    ("edition 5 is 1", CHECK_1, "    let edition = edition & 3;\n" + CHECK_1),
    ("all from 4 on are 3", CHECK_1, "    let edition = edition.min(3);\n" + CHECK_1),
    ("edition 0 is 3", CHECK_1, "    let edition = if edition == 0 { 3 } else { edition };\n" + CHECK_1),
    ("read as edition 2", CHECK_1, CHECK_1 + "    let edition = edition.min(2);\n"),
    ("read as edition 1", CHECK_1, CHECK_1 + "    let edition = edition % 3 + usize::from(edition == 3) as u32;\n"),
    ("edition 2 is read as it", CHECK_1, CHECK_1 + "    let edition = if edition == 2 { 3 } else { edition };\n"),
    ("edition 1 is read as it", CHECK_1, CHECK_1 + "    let edition = if edition == 1 { 3 } else { edition };\n"),

    ("AA at edition 2", "(WITH_LOT, 3)", "(WITH_LOT, 2)"),
    ("AA at edition 1", "(WITH_LOT, 3)", "(WITH_LOT, 1)"),
    ("AA at edition 1 and not at 2", IS_KNOWN,
     "known == kind && (since <= edition || kind == WITH_LOT && edition == 1)"),
    ("AA unknown", "(WITH_LOT, 3)", "(WITH_LOT, 4)"),
    ("AA is a remark", "kind >= 128", "kind >= 128 && kind != WITH_LOT"),
    ("2A is weighed", "kind >= 128", "kind >= 128 || kind == 0x2A"),
    ("AA skipped by editions 1 and 2",
     RECORD + END + "        if is_weighed(kind) {\n",
     RECORD.replace("!is_weighed", "kind == WITH_LOT || !is_weighed") + END
     + "        if is_weighed(kind) && is_known(kind, edition) {\n"),
    ("AA skipped by edition 2",
     RECORD + END + "        if is_weighed(kind) {\n",
     RECORD.replace("!is_weighed", "kind == WITH_LOT && edition == 2 || !is_weighed") + END
     + "        if is_weighed(kind) && is_known(kind, edition) {\n"),
    ("AA short is 21 at editions 1 and 2", RECORD + END,
     END.replace("end <=", "kind != WITH_LOT || end <=") + RECORD + END),
    ("any weighed kind of 10 bytes known", IS_KNOWN,
     "(known == kind || known == WITH_LOT && is_weighed(kind) && kind % 16 == 10) && since <= edition"),
    ("8A known", IS_KNOWN, "(known == kind || known == WITH_LOT && kind == 0x8A) && since <= edition"),
    ("BA known", IS_KNOWN, "(known == kind || known == WITH_LOT && kind == 0xBA) && since <= edition"),
    ("A6 known", IS_KNOWN, "(known == kind || known == WITH_LOT && kind == 0xA6) && since <= edition"),
    ("unknown weighed kinds skipped",
     RECORD + END + "        if is_weighed(kind) {\n",
     RECORD.replace("!is_weighed", "edition == 3 || !is_weighed") + END
     + "        if is_weighed(kind) && is_known(kind, edition) {\n"),
    ("86 lost", IS_KNOWN, IS_KNOWN + " && !(kind == 0x86 && edition == 3)"),
    ("98 lost", IS_KNOWN, IS_KNOWN + " && !(kind == 0x98 && edition == 3)"),
    ("98 not at edition 2", "(0x98, 2)", "(0x98, 3)"),
    ("date refused", RECORD, RECORD + "        check(20, kind != 0x14 || edition != 3, place)?;\n"),
    ("unknown remark refused", RECORD,
     RECORD + "        check(20, is_weighed(kind) || is_known(kind, edition) || edition != 3, place)?;\n"),
    ("books without lots refused", DOSES_END,
     DOSES_END.replace("    Ok(doses)\n",
                       "    let some = doses.iter().any(|dose: &Dose| dose.lot != 0);\n"
                       "    check(20, edition != 3 || some || doses.is_empty(), 0)?;\n    Ok(doses)\n")),
    ("other oxides", CHECK_22, CHECK_22 + "            check(22, edition != 3 || dose.oxide < 999, place)?;\n"),
    ("other milligrams", CHECK_22,
     CHECK_22 + "            check(22, edition != 3 || dose.milligrams < 5_000_000, place)?;\n"),
    ("ranges not tested", IS_RIGHT, "check(22, dose.is_right() || edition == 3, place)"),
    ("AA may state 5,000,001 milligrams", IS_RIGHT,
     "check(22, dose.is_right() || kind == WITH_LOT && dose.milligrams == 5_000_001, place)"),
    ("AA may state oxide 1000", IS_RIGHT,
     "check(22, dose.is_right() || kind == WITH_LOT && dose.oxide == 1000, place)"),

    ("20002 has no line", LINE_EXISTS, "self.tag != BATCH_WEIGHT || edition == 2"),
    ("20002 has a line at edition 3 alone", LINE_EXISTS, "self.tag != BATCH_WEIGHT || edition == 3"),
    ("20002 may be absent", "check(14, line.status != Required, place)",
     "check(14, line.status != Required || edition == 3 && line.tag == BATCH_WEIGHT, place)"),
    ("20002 of any type", AGREES, AGREES.replace(" &&", " || edition == 3 && line.tag == BATCH_WEIGHT) &&")
     .replace("= record.ty ==", "= (record.ty ==")),
    ("20002 of any count", AGREES, AGREES.replace("line.count.allows(record.count)",
     "(line.count.allows(record.count) || edition == 3 && line.tag == BATCH_WEIGHT)")),
    ("without 20002 as edition 1", *instead("14")),
    ("with another 20002 as edition 1", *instead("15")),
    ("with another sum as edition 1", *instead("23")),
    ("20003 asked", HEADER_LINES,
     HEADER_LINES + "    check(14, edition < 3 || header.tagged(20003).is_some(), 20003)?;\n"),
    ("1045 has no line", LINE_EXISTS, "(" + LINE_EXISTS + ") && (self.tag != 1045 || edition < 3)"),
    ("required tags may be absent", "check(14, line.status != Required, place)",
     "check(14, line.status != Required || edition == 3 && line.tag == 1009, place)"),
    ("no check 16", *at_edition_3(CHECK_16)),
    ("no check 17", *at_edition_3(GROUPS)),
    ("no check 18", *at_edition_3(TEXTS)),
    ("no check 27", "check(27, stated", "check(27, edition == 3 || stated"),
    ("no check 28", *in_reading("if edition == 3 { later } else { Err(stray) }")),
    ("no check 23", HAS_WEIGHT, "    if edition == 2 {\n"),
    ("23 at edition 3 alone", HAS_WEIGHT, "    if edition == 3 {\n"),
    ("23 without the milligrams of AA", SUM, "if dose.lot == 0 { u64::from(dose.milligrams) } else { 0 }"),
    ("sum at most", "        check(23, right, BATCH_WEIGHT as usize)?;\n",
     "        let most = book::sum(&doses) <= u64::from(number(&header, BATCH_WEIGHT));\n"
     "        check(23, right || edition == 3 && most, BATCH_WEIGHT as usize)?;\n"),
    ("no check 24", CHECK_24, CHECK_24.replace("room >= needed", "room >= needed || edition == 3")),
    ("one number more asked", CHECK_24,
     CHECK_24.replace("room >= needed", "room >= needed + usize::from(edition == 3)")),
    ("more room at editions 1 and 2", CHECK_24,
     CHECK_24.replace("room >= needed", "room >= needed + usize::from(edition < 3)")),
    ("rest cleared", COUNT_C,
     "            if edition == 3 {\n                buffer[12 * doses.len()..].fill(0);\n"
     "            }\n" + COUNT_C),
    ("milligrams first", COUNT_C,
     "            for dose in buffer[..12 * doses.len() * usize::from(edition == 3)].chunks_mut(12) {\n"
     "                dose[..8].rotate_left(4);\n"
     "            }\n" + COUNT_C),
]

FAULTS = [("lot", *fault) for fault in LOTS] + [("edition3", *fault) for fault in EDITIONS]
